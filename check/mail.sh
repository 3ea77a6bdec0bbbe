#!/usr/bin/env bash
# Refuses each allocation of the letters of the part `workers` of test_rows in turn:
#   check/mail.sh PROGRAM      the built test_rows
# Every run must end with a fault and nothing on standard output, with the rows of crates/test_rows/stdout, or with rows of which one has one answer
# Memory. If memory was refused while a group took the letter of many records, its row has that answer first, with how many records the group kept;
# and the letter comes again.
set -euo pipefail
program=$1
rows=$(dirname "$0")/../crates/test_rows
scratch=$(mktemp -d)
trap 'rm -rf "$scratch"' EXIT
{ echo "part workers"; sed -n '/^letter$/,/^part /p' "$rows/stdin" | sed '/^part /d'; } > "$scratch/stdin"
{ echo "part workers"; sed -n '/^letter:/,/^writer-gone:/p' "$rows/stdout"; } > "$scratch/stdout"
gcc -O2 -shared -fPIC -o "$scratch/refuse.so" "$(dirname "$0")/refuse.c" -ldl

attempt() { # N: runs with the Nth allocation refused
  status=0
  REFUSE=$1 LD_PRELOAD=$scratch/refuse.so timeout 60 "$program" < "$scratch/stdin" > "$scratch/out" 2> "$scratch/err" || status=$?
}

attempt 0
cmp -s "$scratch/out" "$scratch/stdout" || { echo "the rows differ"; exit 1; }
calls=$(sed -n 's/^calls //p' "$scratch/err")
[ "${calls:-0}" -gt 0 ] || { echo "the number of allocations did not come: $(head -c 200 "$scratch/err")"; exit 1; }
fault=0 right=0 told=0 kept='' wrong=0
for n in $(seq 1 "$calls"); do
  attempt "$n"
  known=$(sed -n 's/^letter: Memory, \([0-9]*\) known: .*/\1/p' "$scratch/out")
  if [ "$status" != 0 ] && [ ! -s "$scratch/out" ]; then
    fault=$((fault + 1))
  elif [ "$status" = 0 ] && sed 's/^letter: Memory, [0-9]* known: /letter: /' "$scratch/out" | cmp -s - "$scratch/stdout"; then
    right=$((right + 1))
    kept="$kept $known"
  elif [ "$status" = 0 ] && [ "$(grep -o Memory "$scratch/out" | wc -l)" = 1 ] && [ "$(diff "$scratch/out" "$scratch/stdout" | grep -c '^<')" = 1 ]; then
    told=$((told + 1))
  else
    wrong=$((wrong + 1))
    echo "allocation $n: status $status, $(head -c 200 "$scratch/err")"
  fi
done
echo "$calls allocations, each refused in turn: $fault ended with a fault, $right with the rows, $told with Memory for an answer of another row, $wrong otherwise"
echo "records known where memory was refused amid a letter:" $kept
[ "$wrong" = 0 ] && [ -n "${kept// /}" ]
