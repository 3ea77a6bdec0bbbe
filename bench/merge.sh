#!/usr/bin/env bash
# Wall time and peak memory of `wl_sim merge` on 4 MiB and 64 MiB of shuffled, repeated records from a fixed seed.
# usage: bench/merge.sh [PROGRAM [COMMAND]]      PROGRAM is the built wl_sim, COMMAND merge or horizon
set -euo pipefail
here=$(cd "$(dirname "$0")" && pwd)
program=${1:-$here/../crates/wl_sim/out/wl_sim}
command=${2:-merge}
[ -x "$program" ] || { echo "no program at $program: build it with ./wireline build"; exit 1; }
work=$(mktemp -d)
trap 'rm -rf "$work"' EXIT
for size in 4194304 67108864; do
  python3 "$here/records.py" "$size" > "$work/in"
  python3 "$here/measure.py" "$command $((size / 1048576)) MiB" "$work/in" "$program" "$command"
done
