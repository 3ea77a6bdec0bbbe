#!/usr/bin/env bash
# What the machine can do to the program: full disks, closed pipes, no input, little memory, little stack, many runs at once.
# usage: check/limits.sh [PROGRAM]      prints a line each; the status is 1 where one is not as it should be
set -uo pipefail
here=$(cd "$(dirname "$0")/.." && pwd)
program=${1:-$here/crates/wl_sim/out/wl_sim}
plan=$here/examples/sixteen_nodes.toml
[ -x "$program" ] || { echo "no program at $program: build it with ./wireline build"; exit 1; }
room=$(mktemp -d)
trap 'rm -rf "$room"' EXIT
bad=0

is() { # is WHAT STATUS FAULT: how the last run ended, as $ended and $room/err say
  if [ "$ended" = "$2" ] && [ "$(cat "$room/err")" = "$3" ]; then echo "as it should: $1 (status $2${3:+, $3})"
  else echo "NOT as it should: $1: status $ended, $(head -c 200 "$room/err")"; bad=1; fi
}

printf 'E 0 0 100\nS 0 1 300\n' > "$room/records"
for word in merge horizon check records run explain trace candump vcd page margin traffic settings sweep; do
  input=$plan
  case "$word" in merge | horizon) input=$room/records ;; settings) input=$here/examples/settings/narrow_1m.toml ;; esac
  "$program" "$word" < "$input" > /dev/full 2> "$room/err"; ended=$?
  is "$word onto a full disk" 3 'fault: Write'
  "$program" "$word" < "$input" >&- 2> "$room/err"; ended=$?
  is "$word without standard output" 3 'fault: Write'
  "$program" "$word" <&- > "$room/out" 2> "$room/err"; ended=$?
  is "$word without standard input" 3 'fault: Read'
  "$program" "$word" < / > "$room/out" 2> "$room/err"; ended=$?
  is "$word of a folder" 3 'fault: Read'
  "$program" "$word" < "$input" > "$room/out" 2> /dev/full; ended=$?
  : > "$room/err"
  is "$word with standard error on a full disk" 0 ''
done

# A reader of the output that goes away: the writer is told so, and nothing hangs.
python3 "$here/bench/plan.py" > "$room/busy"
mkfifo "$room/pipe"
head -c 100 < "$room/pipe" > "$room/head" &
timeout 60 "$program" records < "$room/busy" > "$room/pipe" 2> "$room/err"; ended=$?
wait
is "records into a pipe that is closed after 100 bytes" 3 'fault: Write'

"$program" run < "$room/busy" > "$room/one" 2> "$room/err"; ended=$?
is "run of the busy plan" 0 ''
for n in 1 2 3 4 5 6 7 8; do "$program" run < "$room/busy" > "$room/out.$n" 2> "$room/err.$n" & done
wait
for n in 1 2 3 4 5 6 7 8; do cmp -s "$room/one" "$room/out.$n" && [ ! -s "$room/err.$n" ] || { echo "NOT as it should: run $n of eight at once"; bad=1; }; done
echo "eight runs at once: the output of one"

# The least memory (address space, KiB) under which a command answers; with less it says so or can't start.
least() { # least WHAT WORD INPUT STEP: tries limits from STEP KiB on
  local limit=$4
  until { (ulimit -v "$limit" && exec "$program" "$2" < "$3" > "$room/out" 2> "$room/err"); } 2> /dev/null; do
    ended=$?
    # Below what a process takes to start, the system ends it; from there on the fault is named.
    case "$ended:$(cat "$room/err")" in '3:fault: Memory') named=$((named + 1)) ;; esac
    [ ! -s "$room/out" ] || { echo "NOT as it should: $1 with $limit KiB: output and status $ended"; bad=1; }
    limit=$((limit + $4))
    [ "$limit" -lt 4000000 ] || { echo "NOT as it should: $1 never answers"; bad=1; return; }
  done
  echo "$1: answers with $limit KiB of address space; 'fault: Memory' and nothing written at $named smaller limits"
}
python3 "$here/bench/records.py" 16777216 > "$room/sixteen"
named=0; least "merge of 16 MiB" merge "$room/sixteen" 4096
named=0; least "run of the busy plan" run "$room/busy" 256

# The least stack (KiB) for the deepest and the longest inputs.
nested() { python3 -c "import sys; n = int(sys.argv[1]); print('x = ' + '[' * n + ']' * n)" "$1"; }
nested 80 > "$room/deep"
nested 400000 > "$room/deeper"
{ cat "$plan"; python3 -c "print('.'.join('a' * 70), '= 1')"; } > "$room/dotted"
for case in "check $room/deep 1" "check $room/deeper 1" "check $room/dotted 1" "run $room/busy 0" "vcd $plan 0" "explain $plan 0" "merge $room/sixteen 0" "horizon $room/sixteen 0"; do
  read -r word input wanted <<< "$case"
  for stack in 16 24 32 48 64 96 128 192 256 384 512 1024 2048 4096 8192; do
    { (ulimit -s "$stack"; exec "$program" "$word" < "$input" > "$room/out" 2> "$room/err"); } 2> /dev/null; ended=$?
    [ "$ended" = "$wanted" ] && break
  done
  [ "$ended" = "$wanted" ] || { echo "NOT as it should: $word of $(basename "$input"): status $ended"; bad=1; }
  echo "stack for $word of $(basename "$input"): $stack KiB (status $wanted$(sed 's/^/, /' "$room/err" | cut -c1-40))"
done
exit "$bad"
