#!/usr/bin/env bash
# Has GTKWave and sigrok read the waveforms that the built program writes of every example, and of the plans that are named; installs both where
# they are lacking (Debian, as root).
# usage: check/vcd.sh [PLAN..]      status 1 where a waveform is read otherwise than records and report say
set -euo pipefail
here=$(cd "$(dirname "$0")" && pwd)
program=${WIRELINE_PROGRAM-$here/../crates/wl_sim/out/wl_sim}
[ -x "$program" ] || { echo "no program at $program: build it with ./wireline build"; exit 1; }
if ! command -v vcd2fst > /dev/null || ! command -v sigrok-cli > /dev/null; then
  { apt-get update -qq && apt-get install -y -qq --no-install-recommends gtkwave sigrok-cli; } > /dev/null
fi
exec python3 "$here/vcd.py" "$program" "$here"/../examples/*.toml "$@"
