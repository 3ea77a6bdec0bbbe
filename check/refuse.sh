#!/usr/bin/env bash
# Refuses each allocation of a run in turn:
#   check/refuse.sh PROGRAM TASK INPUT [OPTION..]      as refuse.sh PROGRAM run PLAN --workers 2
# Every run must end with status 3, `fault: Memory` and nothing on standard output, or with the right answer. By several workers it may
# be `fault: Worker(n)`, where the memory was that for a thread: a few times, and at most 8.
set -euo pipefail
program=$1 task=$2 input=$3
shift 3
options=("$@")
fault='fault: Memory'
case " $* " in *' --workers '*) fault='fault: (Memory|Worker\([0-7]\))' ;; esac
scratch=$(mktemp -d)
trap 'rm -rf "$scratch"' EXIT
gcc -O2 -shared -fPIC -o "$scratch/refuse.so" "$(dirname "$0")/refuse.c" -ldl

attempt() { # N: runs with the Nth allocation refused
  status=0
  timeout 300 env REFUSE="$1" LD_PRELOAD="$scratch/refuse.so" "$program" "$task" "${options[@]}" < "$input" > "$scratch/out" 2> "$scratch/err" || status=$?
}

attempt 0
[ "$status" = 0 ] || { cat "$scratch/err"; exit 1; }
cp "$scratch/out" "$scratch/right"
calls=$(sed -n 's/^calls //p' "$scratch/err")
[ "${calls:-0}" -gt 0 ] || { echo "the number of allocations did not come: $(head -c 200 "$scratch/err")"; exit 1; }
memory=0 right=0 wrong=0 threads=0
for n in $(seq 1 "$calls"); do
  attempt "$n"
  if [ "$status" = 3 ] && [ ! -s "$scratch/out" ] && [ "$(wc -l < "$scratch/err")" = 1 ] && grep -qxE "$fault" "$scratch/err"; then
    memory=$((memory + 1))
    ! grep -q Worker "$scratch/err" || threads=$((threads + 1))
  elif [ "$status" = 0 ] && cmp -s "$scratch/out" "$scratch/right"; then
    right=$((right + 1))
  else
    wrong=$((wrong + 1))
    echo "allocation $n: status $status, $(head -c 200 "$scratch/err")"
  fi
done
echo "$task: $calls allocations, each refused in turn: $memory ended with the fault, $threads of them Worker(n), $right with the right answer, $wrong otherwise"
[ "$wrong" = 0 ] && [ "$threads" -le 8 ]
