#!/usr/bin/env bash
# What the gate leaves out for its time, for a night or a release: after a gate that has passed, in the same checkout. It proves and compiles the library for
# C over the libraries that the gate has left, tests and packs it, and tries the wrong bodies of check/wrong-bodies.
# usage: night.sh [CRATE..]     CRATE..: the wrong bodies of these crates alone; 'none' tries none
# Each part goes on if one before it failed; the last line says which failed. Status 1 if one did.
set -uo pipefail
cd "$(dirname "$0")/.." || exit 1
program=$PWD/crates/wl_sim/out/wl_sim
[ -x "$program" ] || { echo "night.sh: there is no proved program: .ci/run makes it" && exit 1; }
failed=()
part() { # part NAME COMMAND..
  local began=$SECONDS
  "${@:2}" || failed+=("$1")
  echo "$1: $((SECONDS - began)) s by the clock"
}
part 'the library for C is proved and compiled' tools/c_library.py out/c
part 'the library for C is tested' .ci/c_library.sh "$program" out/c
part 'the package with it' .ci/package.sh "$program"
[ "${1-}" = none ] || part 'wrong bodies of the night' .ci/wrong.py --night "$@"
[ ${#failed[@]} = 0 ] || printf 'failed: %s\n' "${failed[@]}"
[ ${#failed[@]} = 0 ]
