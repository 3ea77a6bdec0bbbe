#!/usr/bin/env bash
# Runs plans by workers in threads, and counts the runs that come to what one thread comes to, over a hub and by letters: the first plan of
# the blocks `part workers` of crates/test_rows/stdin RUNS times by 2, by 3 and by 8 workers, and each plan of examples/ once by each of 1 to 8 workers.
# usage: check/workers.sh [PROGRAM]      PROGRAM is the built test_rows; RUNS is 1000 by default; status 1 where a run differs
set -euo pipefail
here=$(cd "$(dirname "$0")" && pwd)
program=${1:-$here/../crates/test_rows/out/test_rows}
runs=${RUNS:-1000}
[ -x "$program" ] || { echo "no program at $program: 'rt run' in crates/test_rows builds it"; exit 1; }
plan=$(sed -n '/^part workers$/,$p' "$here/../crates/test_rows/stdin" | sed -n '2,${/^part /q; /^plan$/,$p}')
since() { echo "$((($(date +%s%N) - $1) / 1000000)) ms"; }
differs=0
for mail in '' 'mail '; do
  for workers in 2 3 8; do
    begun=$(date +%s%N)
    said=$({ echo "part workers"; echo "${mail}simulate $workers $runs"; echo "$plan"; } | "$program" | sed 1d)
    echo "$said, $(since "$begun")"
    [[ $said = *": as one thread" ]] || differs=1
  done
done
for example in "$here"/../examples/*.toml; do
  begun=$(date +%s%N)
  said=$({ echo "part workers"; printf '%ssimulate %s 1\n' '' 1 '' 2 '' 3 '' 4 '' 5 '' 6 '' 7 '' 8 'mail ' 1 'mail ' 2 'mail ' 3 'mail ' 4 'mail ' 5 'mail ' 6 'mail ' 7 'mail ' 8
    echo plan; cat "$example"; } | "$program" | sed 1d)
  same=$(grep -c ': as one thread$' <<< "$said") || true
  echo "$(basename "$example" .toml): $same of 16 runs, by each of 1 to 8 workers and either link, as one thread, $(since "$begun")"
  [ "$same" = 16 ] || { differs=1; echo "$said"; }
done
sed -n 's/^model name.*: //p' /proc/cpuinfo | head -1
echo "$(nproc) processors, load $(cut -d' ' -f1 /proc/loadavg), $(date +%F)"
exit "$differs"
