#!/usr/bin/env bash
# Restarts random workers before random turns, and counts the runs that come to what one thread comes to: the first plan with such
# steps in crates/test_rows/stdin RUNS times over each kind of link, by 2 and by 3 workers.
# usage: check/restarts.sh [PROGRAM]      PROGRAM is the built test_rows; RUNS is 200 by default; status 1 where a run differs
set -euo pipefail
here=$(cd "$(dirname "$0")" && pwd)
program=${1:-$here/../crates/test_rows/out/test_rows}
runs=${RUNS:-200}
[ -x "$program" ] || { echo "no program at $program: 'rt run' in crates/test_rows builds it"; exit 1; }
differs=0
plan=$(sed -n '/, random /,/^part /p' "$here/../crates/test_rows/stdin" | sed -n '/^part /q; /^plan$/,$p')
for mail in '' 'mail '; do
  for workers in 2 3; do
    begun=$(date +%s%N)
    said=$({ echo "part workers"; echo "${mail}simulate $workers $runs, random $((workers * 1000))"; echo "$plan"; } | "$program" | sed 1d)
    echo "$said, $((($(date +%s%N) - begun) / 1000000)) ms"
    [[ $said = *": as one thread" ]] || differs=1
  done
done
sed -n 's/^model name.*: //p' /proc/cpuinfo | head -1
echo "$(nproc) processors, load $(cut -d' ' -f1 /proc/loadavg), $(date +%F)"
exit "$differs"
