#!/usr/bin/env bash
# Refuses each allocation of a run in turn that is to write to an open descriptor:
#   check/appended.sh PROGRAM PLAN
# `-o /dev/stdout` is refused where standard output is a file, since others may write there, too. So what is in the file stays, whichever
# allocation is refused.
set -euo pipefail
program=$1 plan=$2
scratch=$(mktemp -d)
trap 'rm -rf "$scratch"' EXIT
gcc -O2 -shared -fPIC -o "$scratch/refuse.so" "$(dirname "$0")/refuse.c" -ldl
wrong=0 memory=0 refused=0

attempt() { # N: runs with the Nth allocation refused
  echo kept > "$scratch/log"
  status=0
  env REFUSE="$1" LD_PRELOAD="$scratch/refuse.so" "$program" run -o /dev/stdout "$plan" >> "$scratch/log" 2> "$scratch/err" || status=$?
}

attempt 0
calls=$(sed -n 's/^calls //p' "$scratch/err")
[ "${calls:-0}" -gt 0 ] || { echo "the number of allocations did not come: $(head -c 200 "$scratch/err")"; exit 1; }
for n in $(seq 0 "$calls"); do
  attempt "$n"
  if [ "$status" != 3 ] || [ "$(cat "$scratch/log")" != kept ]; then
    wrong=$((wrong + 1))
    echo "allocation $n: status $status, $(head -c 200 "$scratch/err"), the file has $(wc -l < "$scratch/log") lines"
  elif grep -q '^fault: Memory' "$scratch/err"; then
    memory=$((memory + 1))
  else
    refused=$((refused + 1))
  fi
done
echo "run -o /dev/stdout: $calls allocations, each refused in turn: $memory ended with Memory, $refused with Write, $wrong otherwise"
[ "$wrong" = 0 ]
