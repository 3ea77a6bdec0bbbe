#!/usr/bin/env bash
# Wall time and peak memory of `wl_sim run`, and of the other commands that simulate, on the busy plan of bench/plan.py; the least of five.
# usage: bench/run.sh [PROGRAM [WORD..]]      PROGRAM is the built wl_sim; WORDS follow `run`
set -euo pipefail
here=$(cd "$(dirname "$0")" && pwd)
program=${1:-$here/../crates/wl_sim/out/wl_sim}
shift $(($# > 0 ? 1 : 0))
[ -x "$program" ] || { echo "no program at $program: build it with ./wireline build"; exit 1; }
work=$(mktemp -d)
trap 'rm -rf "$work"' EXIT
python3 "$here/plan.py" > "$work/in"
export RUNS=${RUNS:-5}
python3 "$here/measure.py" "run" "$work/in" "$program" run "$@"
for command in records candump trace vcd; do
  python3 "$here/measure.py" "$command" "$work/in" "$program" "$command"
done
