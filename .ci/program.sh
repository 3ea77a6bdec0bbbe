#!/usr/bin/env bash
# Runs a built program of Wireline as a user would, and compares status, standard output and the fault's line, byte for byte.
# usage: program.sh PROGRAM [PART..]      every part if none is named: examples rows cost shown pages workers refused sweeps formats settings threads words rest
# - each plan of examples/ with the report beside it, and each of those plans through candump, which must accept it; and by 2, 3 and 8 workers over
#   either link; a bus with long delays by 2 and 3
# - the check, the records, the explanation, the trace and the waveform of each of them as check/plain.py gives them, the traffic and the margin as
#   check/traffic.py and check/margin.py do; the same of plans as no example is; and the explanations of plans with every doubt, by the book and
#   not, and of one whose clocks change their rates
# - the log of one plan, as ticks of three lengths have it, and the waveform of one, as ticks of two have it
# - the rows of check/rows (check/rows.py): record texts, plans, margins, settings, sweeps
# - two nodes with full queues, as check/plain.py reports them, and their trace, a long one, in other formats; a bus that idles, in less than 200 ms;
#   a table of 80,000 keys, in less than 3 s; the traffic of 8,000 messages, in less than 4 s; the margins of 16 nodes, in less than 0.4 s
# - each row of .ci/refused.txt: the status, the one line on standard error, nothing on standard output but what explain says of it, and the hint
# - files for input and output: what stands at the named place on each outcome; devices, rights, full disks, closed descriptors, odd names
# - settings: lists and plans as check/settings.py has them, and what is refused (.ci/settings.sh)
# - the commands that README.md and the pages of docs/ show with a `$`, whose outputs are those below them (.ci/shown.py; .ci/test.py names the pages);
#   the faults in the examples of docs/use/plan-text.md, the tables of docs/use/from-the-book.md (check/book.py) and of
#   docs/use/settings-beside.md (check/recommended.py), and the plan of README.md
# - JSON and CSV of each command, by Python's readers (check/formats.py)
# - sweeps: known answers, what is refused, files, memory (.ci/sweeps.sh)
# - command lines that name no task, or are no text: status 2, and nothing on standard output
# - a run that doesn't end in 300 seconds, as one whose workers wait for each other for ever, has failed
# - a reader and a writer that fail, with their hints, and threads that can't be made: status 3; and runs of workers under many limits on memory
# - as many workers as were asked for, by their threads, and by the link that was asked for
# - each allocation refused in turn, of some commands and amid the events of a world; a disk that fails; worlds that restart
set -uo pipefail
cd "$(dirname "$0")/.."
program=$(realpath "$1")
if [ "$program" = "$PWD/crates/wl_sim/out/wl_sim" ]; then
  echo "the runs below are of the build that the gate proved: crates/wl_sim/out/wl_sim"
else
  echo "the runs below are of $program, of which this script knows no proof"
fi
room=$(mktemp -d)
trap 'rm -rf "$room"' EXIT
parts=" ${*:2} " passed=0 failed=0
part() { [ "$parts" = "  " ] || [[ $parts == *" $1 "* ]]; } # part NAME: it is one that was asked for
is() { # is NAME CONDITION..: counts one comparison
  local name=$1
  shift
  if "$@"; then passed=$((passed + 1)); else failed=$((failed + 1)); echo "differs: $name"; fi
}
# With BARE=yes `runs` leaves out the lines by the waits of messages, which check/plain.py hasn't: check/respond.py compares them.
waits='/^bound .*, proved$|^doubt: ([0-9a-f]+ of [^ ]+ may take|the jitter of [0-9a-f]+ of|the bus load is up to) /d'
runs() { # runs NAME INPUT STATUS STDOUT STDERR WORDS..: STDERR '-' where it is not compared
  local name=$1 input=$2 status=$3 out=$4 err=$5 ended=0
  shift 5
  timeout 300 "$program" "$@" < "$input" > "$room/out" 2> "$room/err" || ended=$?
  [ -z "${BARE-}" ] || sed -i -E "$waits" "$room/out"
  is "$name (status $ended, wanted $status)" [ "$ended" = "$status" ]
  is "$name (standard output)" cmp -s "$room/out" "$out"
  [ "$err" = - ] || is "$name (standard error: $(head -c 200 "$room/err"))" cmp -s "$room/err" "$err"
}

remedy_of() { grep -F "| \`$1\` |" docs/use/faults.md | sed 's/ |$//;s/.* | //'; }
: > "$room/none"

# Of 30 nodes for a second check/plain.py takes an hour, which goes quantum by quantum, and a waveform takes hundreds of megabytes.
whole_second=thirty_nodes_29bit

if part examples; then
for report in examples/*.report; do
  name=$(basename "$report" .report)
  [ -n "${LIGHT-}" -a "$name" = sixteen_nodes ] && is_long=yes || is_long= # what explain and margin say of it takes a build without proof minutes
  numbers=examples/$name.toml # plain.py reads no units and no noise
  [ "$name" != six_ecus ] || numbers=check/plans/six_ecus_long.toml
  [ "$name" != noisy_bus ] || numbers=check/plans/noisy_bus.toml
  runs "run of $name" "examples/$name.toml" 0 "$report" "$room/none" run
  for word in check records explain trace vcd; do
    [ -z "$is_long" -o "$word" != explain ] || continue
    [ "$name" != "$whole_second" -o "$word" = check ] || continue
    python3 -B check/plain.py "$word" < "$numbers" > "$room/wanted"
    BARE=yes runs "$word of $name" "examples/$name.toml" 0 "$room/wanted" "$room/none" "$word"
  done
  if [ "$name" != "$whole_second" ]; then
    python3 -B check/traffic.py text < "$numbers" > "$room/traffic"
    BARE=yes runs "traffic of $name" "examples/$name.toml" 0 "$room/traffic" "$room/none" traffic
  fi
  "$program" candump < "examples/$name.toml" > "$room/out" 2> "$room/err"
  is "candump of $name" [ $? = 0 -a ! -s "$room/err" ]
  is "lines of candump of $name" [ "$(grep -c '^frame [0-9]* sent ' "$report")" = "$(wc -l < "$room/out")" ]
  [ -z "$is_long" -a "$name" != "$whole_second" ] || continue
  python3 -B check/margin.py < "$numbers" > "$room/beyond"
  runs "margin of $name" "examples/$name.toml" 0 "$room/beyond" "$room/none" margin
done

# Plans as no example is: outside of the condition for margins, a node that misses a frame, remote frames, codes above 8, a CRC error, long queues,
# and the latest end: a view that went tick by tick would take years.
while IFS='|' read -r name edit; do
  sed -E "$edit" examples/clean_500k.toml > "$room/odd.toml"
  for word in run explain trace vcd; do
    python3 check/plain.py "$word" < "$room/odd.toml" > "$room/wanted"
    BARE=yes runs "$word of $name" "$room/odd.toml" 0 "$room/wanted" "$room/none" "$word"
  done
  python3 -B check/traffic.py text < "$room/odd.toml" > "$room/wanted"
  BARE=yes runs "traffic of $name" "$room/odd.toml" 0 "$room/wanted" "$room/none" traffic
  python3 -B check/margin.py < "$room/odd.toml" > "$room/wanted"
  runs "margin of $name" "$room/odd.toml" 0 "$room/wanted" "$room/none" margin
  case "$name" in
    'remote frames') [ "$("$program" candump "$room/odd.toml" | cut -d ' ' -f 3 | tr '\n' ' ')" = '0C4#R3 1ABCDEF0#R8_F ' ] ;;
    'codes above 8') [ "$("$program" candump "$room/odd.toml" | cut -d ' ' -f 3 | tr '\n' ' ')" = '0C4#1A0B00007DFF203C_F 3E8#R ' ] ;;
    'a CRC error') grep -q ' error crc ' <("$program" trace "$room/odd.toml") ;;
    *) true ;;
  esac
  is "what is odd of $name" [ $? = 0 ]
done << 'PLANS'
no frames|/^frame/d
one node|0,/^frame/!d
a listener with frames|s/^version = 1/version = 3/;0,/^sjw = 3/s//&\nlisten = true/
one identifier|s/0x3E8/0x0C4/
a frame before any other node is idle|s/ready = 480/ready = 0/
clocks that are none without ppm|s/^quantum = 125/quantum = 1_048_577/;s/^ppm = .*/ppm = -5000\ntolerance = 5000/
a node that begins after a frame|s/^offset = 777/offset = 500_000/;/0x3E8/d
an end that comes too early|s/^end = .*/end = 300_000/
remote frames|s/dlc = 8, bytes = \[[^]]*\]/dlc = 3, remote = true/;s/id = 0x3E8, dlc = 2, bytes = \[[^]]*\]/id = 0x1ABCDEF0, extended = true, dlc = 15, remote = true/
codes above 8|s/dlc = 8/dlc = 15/;s/dlc = 2, bytes = \[[^]]*\]/dlc = 0, remote = true/
the latest end that a plan may have|s/^end = .*/end = 68_719_476_736/;s/^quantum = 125/quantum = 1_048_576/;s/^ppm = .*/ppm = 0/
queues of 270 frames|s/^version = 1/version = 3/;s/ready = 480/ready = 480, every = 16/
a CRC error|s/^version = 1/version = 3/;$a \\n[[disturbance]]\nnode = "gateway"\nfrom = 206_000\nto = 208_000
PLANS

# The status says whether a run works only if that is asked for.
runs "traffic of a plan that works" examples/cyclic_500k.toml 0 examples/cyclic_500k.traffic "$room/none" traffic --strict
python3 -B check/traffic.py text 100ps < examples/burst.toml > "$room/traffic"
runs "traffic of a plan with errors" examples/burst.toml 1 "$room/traffic" "$room/none" traffic --strict --tick 100ps
runs "traffic of that plan, not strict" examples/burst.toml 0 "$room/traffic" "$room/none" traffic --tick 100ps

# A plan beyond each inequality of the condition for margins, and beyond nothing else, has errors.
for plan in check/margins/*.toml; do
  python3 -B check/margin.py < "$plan" > "$room/beyond"
  runs "margin of $plan" "$plan" 0 "$room/beyond" "$room/none" margin
  is "it is beyond the condition: $plan" [ -z "$(grep '^holds for any' "$room/beyond")" ]
  is "it has errors: $plan" [ "$("$program" run < "$plan" | tail -n 1 | cut -d ' ' -f 1-2)" = "verdict faulty" ]
done

# What searches found and no law covers, and one sender of three: the nodes together don't hold.
for plan in check/margins/searched/*.toml; do
  for option in "" --all-send; do
    python3 -B check/margin.py $option < "$plan" > "$room/beyond"
    runs "margin $option of $plan" "$plan" 0 "$room/beyond" "$room/none" margin $option
  done
done
is "joining nodes are not proved" [ -z "$(for plan in check/margins/searched/joins_*.toml; do "$program" margin "$plan" | head -n 1 | grep ', proved'; done)" ]
is "one sender of three is proved" grep -q '^holds for any senders of n0, proved' <("$program" margin check/margins/searched/one_of_three_sends.toml)
is "all three are not" grep -q '^holds for one sender at a time of n0 and n1 and n2,' <("$program" margin --all-send check/margins/searched/one_of_three_sends.toml)
is "nor is a clock beyond its tolerance" grep -q '^does not hold: the clock of panel is outside of its tolerance' <("$program" margin check/margins/clock_beyond_tolerance.toml)
fi

if part rows; then
# Rows of check/rows, by the program as each compiler built it.
for build in "$program" "$program.by-rattle"; do
  [ "$build" = "$program" ] || [ -x "$build" -a ! "$build" -ot "$program" ] || continue
  is "the rows of check/rows by $(basename "$build")" python3 -B check/rows.py "$build"
done
fi

if part cost; then
# Full queues: each of two nodes sends 64 frames and receives the other's 64, more than in any example.
python3 -Bc 'import sys; sys.path.insert(0, "bench"); import worst; print(worst.plan(nodes=2, quanta=200_000))' > "$room/full.toml"
python3 check/plain.py run < "$room/full.toml" > "$room/full"
is "frames of full queues" [ "$(grep -c '^frame 0' "$room/full")" = 128 ]
runs "run of full queues" "$room/full.toml" 0 "$room/full" "$room/none" run
for word in candump vcd page margin respond traffic; do
  "$program" "$word" < "$room/full.toml" > "$room/$word" 2> "$room/err"
  is "$word of full queues" [ $? = 0 -a -s "$room/$word" -a ! -s "$room/err" ]
done
is "lines of candump of full queues" [ "$(wc -l < "$room/candump")" = 128 ]
# The records of a run are canonical: merged they are the same text.
"$program" records < "$room/full.toml" > "$room/recorded"
runs "merge of the records of full queues" "$room/recorded" 0 "$room/recorded" "$room/none" merge
# By two workers that is a run of some thousands of turns.
for link in hub mail; do
  runs "run of full queues by two workers, $link" "$room/full.toml" 0 "$room/full" "$room/none" run --workers 2 --link "$link"
done
# Other formats of a text of more than 64 KiB have a record for each line.
"$program" trace < "$room/full.toml" > "$room/traced"
is "the trace of full queues is long" [ "$(wc -c < "$room/traced")" -gt 100000 ]
is "its CSV" [ "$("$program" trace --format csv < "$room/full.toml" | wc -l)" = $(($(wc -l < "$room/traced") + 1)) ]
is "its JSON" [ "$("$program" trace --format json < "$room/full.toml" | python3 -c 'import json, sys; print(len(json.load(sys.stdin)["records"]))')" = "$(wc -l < "$room/traced")" ]

# A bus that idles costs next to nothing: 800,000 quanta of each of three nodes.
sed 's/^end = .*/end = 100_000_000/' examples/clean_500k.toml > "$room/idle.toml"
used=$( (TIMEFORMAT='%U %S'; time "$program" run < "$room/idle.toml" > "$room/out" 2> "$room/err") 2>&1 | awk '{ print int(1000 * ($1 + $2)) }')
is "an idle bus of 100,000,000 ticks takes $used ms" [ "$used" -lt 200 -a ! -s "$room/err" -a "$(tail -1 "$room/out")" = 'verdict clean' ]
# The time to read a table doesn't grow with the square of its keys: that took minutes for 80,000.
{ echo 'version = 1'; seq -f 'a%.0f = 1' 80000; } > "$room/keys.toml"
used=$( (TIMEFORMAT='%U %S'; time timeout 300 "$program" check < "$room/keys.toml" > "$room/out" 2> "$room/err") 2>&1 | awk '{ print int(1000 * ($1 + $2)) }')
is "a table of 80,000 keys takes $used ms" [ "$used" -lt 3000 -a "$(cat "$room/err")" = 'fault: Missing(end)' ]
# The time of messages doesn't grow with the length of the run for each of them: these 8,000 took more than 7 s.
python3 - > "$room/messages.toml" << 'END'
print('version = 3\nend = 100_000_000\nper = 5\nsync = "book"')
for node in range(16):
    frames = ', '.join(f'{{id = {16 * n + node}, extended = true, dlc = 0, ready = 0}}' for n in range(500))
    print(f'[[node]]\nname = "n{node}"\noffset = 0\nquantum = 100\nppm = 0\nprop = 4\nps1 = 3\nps2 = 2\nsjw = 2\nx = 0\nout = 40\nin = 50\nframe = [{frames}]')
END
used=$( (TIMEFORMAT='%U %S'; time timeout 300 "$program" traffic < "$room/messages.toml" > "$room/out" 2> "$room/err") 2>&1 | awk '{ print int(1000 * ($1 + $2)) }')
is "the traffic of 8,000 messages takes $used ms" [ "$used" -lt 4000 -a ! -s "$room/err" -a "$(grep -c '^message ' "$room/out")" = 8000 ]

# The terms that each pair of nodes asks for are worked out once for a bus: this plan took more than 600 ms.
used=$( (TIMEFORMAT='%U %S'; time timeout 300 "$program" margin < examples/sixteen_nodes.toml > "$room/out" 2> "$room/err") 2>&1 | awk '{ print int(1000 * ($1 + $2)) }')
is "the margins of 16 nodes take $used ms" [ "$used" -lt 400 -a ! -s "$room/err" -a "$(grep -c '^pair ' "$room/out")" = 240 ]
fi

if part shown; then
for page in $(python3 -B .ci/test.py pages); do is "what the page $page shows" python3 -B .ci/shown.py "$page" "$program"; done
fi

if part pages; then
# A page has what the other commands write, each text once, also of a plan whose remarks look like a page's own words.
printf '# </pre><script>alert(1)</script> &amp; \r\n' | cat - examples/burst.toml > "$room/marked.toml"
for page in examples/*.toml "$room/marked.toml"; do
  [ "$page" != "examples/$whole_second.toml" ] || continue
  is "page of $page" python3 -B .ci/page.py "$program" "$page"
done
if command -v chromium > /dev/null; then
  is "a page in a browser" python3 -B check/page.py "$program" examples/burst.toml
  is "the figures of pages in a browser" python3 -B check/figures.py "$program" examples/burst.toml examples/six_ecus.toml examples/cyclic_500k.toml
  is "maps of sweeps in a browser" python3 -B check/page.py "$program" --sweeps
fi

use=docs/use
# The plan of plan-text.md, edited as each row of its table of examples says, has the fault that the row answers.
sed -n '/^# pair.toml/,/^```$/{/^```$/d;p}' $use/plan-text.md > "$room/pair.toml"
sed -n '/^| Text | Answer |$/,/^$/s/.*| `\([^`]*\)`[^|]*|$/fault: \1/p' $use/plan-text.md > "$room/answers"
while IFS= read -r edit; do
  sed "$edit" "$room/pair.toml" | "$program" check > "$room/out"
done 2> "$room/found" << 'EDITS'
/^end/d
0,/^sjw = 2/s//sjw = 4/
s/^dlc = 2/&\nevery = 250/
s/^dlc = 2/&\ncount = 2/; s/^version = 1/version = 3/
s/^x = 25/node = "b"/
0,/^prop = 3/s//tseg1 = 6/; 0,/^ps1 = 3/s//tseg2 = 3/; 0,/^ps2 = 3/s//# &/
0,/^sjw = 2/s//tseg2 = 3\n&/; s/^version = 1/version = 4/
s/^quantum = 100/&\nnum = 100/
s/^per = 1/&\nzb = 1\nza = 1/
s/^end = 70000/end = 281474976710656/
s/^id = 0x123/id = 2048/
s/^id = 0x123/id = 2048/; s/^quantum = 100/num = 1\nden = 2/; /^ppm/d
s/^end = 70000/end = 68719476737/
EDITS
is "the faults that $use/plan-text.md answers: $(diff "$room/answers" "$room/found" | tr '\n' ' ')" cmp -s "$room/answers" "$room/found"
python3 -B check/book.py "$program" | grep '^|' > "$room/tables"
missed=$(grep -vxFf $use/from-the-book.md "$room/tables")
is "the tables of $use/from-the-book.md: $missed" [ -s "$room/tables" -a -z "$missed" ]
python3 -B check/recommended.py "$program" | grep '^|' > "$room/tables"
missed=$(grep -vxFf $use/settings-beside.md "$room/tables")
is "the table of $use/settings-beside.md: $missed" [ -s "$room/tables" -a -z "$missed" ]
# README's plan is the head of an example, but for its remarks.
bare() { sed -E 's/ *#.*//; /^$/d' "$@"; }
sed -n '/^```toml$/,/^```$/{/^```/d;p}' README.md | bare > "$room/head"
is "the plan of README.md" [ -s "$room/head" -a "$(cat "$room/head")" = "$(bare examples/six_ecus.toml | head -n "$(wc -l < "$room/head")")" ]

for name in bounds doubts rates; do
  runs "explain of $name" ".ci/$name.toml" 0 ".ci/$name.explained" "$room/none" explain
done
fi

if part workers; then
for report in examples/*.report; do
  name=$(basename "$report" .report)
  [ "$name" != "$whole_second" ] || continue
  for workers in 2 3 8; do
    for link in hub mail; do
      runs "run of $name by $workers workers, $link" "examples/$name.toml" 0 "$report" "$room/none" run --workers "$workers" --link "$link"
    done
  done
done
# With delays of 160 quanta workers run beside one another.
sed 's/^out = .*/out = 20_000/' examples/clean_500k.toml > "$room/far.toml"
"$program" run < "$room/far.toml" > "$room/far.report" 2> "$room/err"
is "a bus with long delays" [ "$(tail -1 "$room/far.report")" = 'verdict faulty errors 39 unsent 2' ]
for workers in 2 3; do
  for link in hub mail; do
    runs "run of a bus with long delays by $workers workers, $link" "$room/far.toml" 0 "$room/far.report" "$room/none" run --workers "$workers" --link "$link"
  done
done
# Letters are kept up to the end of a run, but share its plan and its records.
peak() { python3 -c 'import resource, subprocess, sys; subprocess.run(sys.argv[1:], stdout=subprocess.DEVNULL); print(resource.getrusage(resource.RUSAGE_CHILDREN).ru_maxrss)' "$@"; }
by_mail=$(peak "$program" run --workers 8 --link mail examples/sixteen_nodes.toml)
is "memory of eight workers by letters, $by_mail KiB" [ "$by_mail" -lt 300000 ]
# No clause says that equal samples are kept as one: 16 nodes find 131,000 dominant ones each here. (Python's own memory, some 14,000 KiB, is the least.)
python3 - > "$room/stuck.toml" << 'END'
print('version = 1\nend = 104_800_000\nper = 5')
for node in range(16):
    print(f'[[node]]\nname = "n{node}"\noffset = 0\nquantum = 100\nppm = 0\nprop = 1\nps1 = 3\nps2 = 3\nsjw = 2\nx = 0\nout = 40\nin = 50')
print('[[disturbance]]\nx = 0\nfrom = 0\nto = 104_800_000')
END
"$program" run "$room/stuck.toml" > "$room/out"
stuck=$(peak "$program" run "$room/stuck.toml")
is "memory of a line that stays dominant, $stuck KiB" [ "$stuck" -lt 17500 -a "$(grep -c ' samples 131000 ' "$room/out")" = 16 ]
name=clean_500k
for words in '--workers 1' '--workers 2' '--workers +2' '--workers 02' '--workers 1 --link mail' '--link mail' '--link=hub'; do
  # shellcheck disable=SC2086
  runs "run $words of $name" "examples/$name.toml" 0 "examples/$name.report" "$room/none" run $words
done

# By hand, from the report and the clocks: the engine's quantum 2384 begins at tick 2384 * 125.625 = 299,490, and the dashboard's quantum 3474 at
# tick 777 + 3474 * 124.375, rounded down, so 432,855.
second=0000000000
logged() { # logged US US WORDS..: runs candump, whose two lines have these times in the second
  printf '(%s.%06d) can0 0C4#1A0B00007DFF203C\n(%s.%06d) can0 3E8#0155\n' "$second" "$1" "$second" "$2" > "$room/log"
  shift 2
  runs "candump $*" examples/clean_500k.toml 0 "$room/log" "$room/none" candump "$@"
}
logged 299 432
logged 299 432 --tick 1ns
logged 37 54 --tick 125ps
logged 299490 432855 --tick=1us
logged 299 432 --from 0
second=0000000001 logged 299 432 --from 1
second=4294967295 logged 37 54 --from=4294967295 --tick 125ps
runs "vcd" examples/one_megabit_25m.toml 0 examples/one_megabit_25m.vcd "$room/none" vcd
sed -E 's/^(\$timescale 1 )ns/\1us/; s/^#([0-9]+)$/#\10/; s/^#00$/#0/' examples/one_megabit_25m.vcd > "$room/wave"
runs "vcd --tick 10us" examples/one_megabit_25m.toml 0 "$room/wave" "$room/none" vcd --tick 10us
for word in vcd page; do
  timeout 300 "$program" "$word" --from 100000 --to 110000 examples/burst.toml > "$room/wave"
  is "a window of $word" [ -s "$room/wave" ]
  runs "the same window of $word by times" examples/burst.toml 0 "$room/wave" "$room/none" "$word" --from 100us --to 0.11ms
done
fi

if part refused; then
# a row: the command, the status, how the input is made, the fault's line, the input. 'text': with printf's escapes; 'sed': of examples/clean_500k.toml;
# 'bash': of a command
# Below it a line 'wrong: ..' and one 'change: ..': what explain says of that input; and 'hint: ..', what `--hint` adds ('line #' for any line)
wrong='' change=''
while IFS= read -r line; do
  case "$line" in
    '' | '#'*) continue ;;
    'wrong: '*) wrong=$line && continue ;;
    'change: '*)
      change=$line
      [ -n "$wrong" ] || continue
      printf '%s\n%s\n' "$wrong" "$change" > "$room/explained"
      runs "explain, $fault" "$room/input" "$status" "$room/explained" "$room/fault" explain
      continue
      ;;
    'hint: '*)
      timeout 300 "$program" "$word" --hint "$room/input" > "$room/out" 2> "$room/err" < /dev/null
      [[ $line != *'line #'* ]] || sed -i -E '2s/\bline [0-9]+/line #/g' "$room/err"
      is "hint, $fault: $(tail -1 "$room/err")" cmp -s "$room/err" <(printf '%s\n%s\n' "$fault" "$line")
      continue
      ;;
  esac
  wrong='' change=''
  IFS='|' read -r word status how fault input <<< "$line"
  case "$how" in
    text) printf '%b' "$input" > "$room/input" ;;
    sed) sed -E "$input" examples/clean_500k.toml > "$room/input" ;;
    bash) bash -c "$input" > "$room/input" ;;
  esac
  printf '%s\n' "$fault" > "$room/fault"
  runs "$word, $fault" "$room/input" "$status" "$room/none" "$room/fault" "$word"
  [ "$word" = run ] || continue
  for link in hub mail; do
    runs "run --workers 2 --link $link, $fault" "$room/input" "$status" "$room/none" "$room/fault" run --workers 2 --link "$link"
  done
done < .ci/refused.txt
.ci/faults.py > "$room/out"
is "faults without a row: $(tr '\n' ' ' < "$room/out")" [ ! -s "$room/out" ]
fi
if part rest; then . .ci/files.sh; fi
if part sweeps; then . .ci/sweeps.sh; fi

if part formats; then
ended=0
python3 -B check/formats.py "$program" examples/clean_500k.toml examples/burst.toml examples/bus_off.toml .ci/bounds.toml .ci/doubts.toml > "$room/out" || ended=$?
is "JSON and CSV: $(tail -3 "$room/out" | tr '\n' '/')" [ "$ended" = 0 ]
# Lines that no example has: what fails if several nodes send, and doesn't for one, or where nobody sends
for records in check/formats/*.json; do
  by_hand=${records%.json}
  runs "JSON of $(basename "$records")" "${by_hand%.*}.toml" 0 "$records" "$room/none" "${by_hand##*.}" --format json
done
fi
if part settings; then . .ci/settings.sh; fi

if part threads; then
# There is a thread for each worker, and the program's own, which waits for them. One worker is the one-thread engine.
python3 -Bc 'import sys; sys.path.insert(0, "bench"); import worst; print(worst.plan(nodes=16, quanta=200_000))' > "$room/busy.toml"
for workers in 1 2 3 8; do
  for link in hub mail; do
    found=$(threads "$program" run --workers "$workers" --link "$link" "$room/busy.toml")
    is "threads of a run by $workers workers, $link: $found" [ "$found" = "$((workers > 1 ? workers + 1 : 1))" ]
  done
done
fi

if part words; then
while IFS= read -r words; do
  # shellcheck disable=SC2086
  runs "the words '$words'" examples/clean_500k.toml 2 "$room/none" - $words
  is "the words '$words' (something is said)" [ -s "$room/err" ]
done << 'WORDS'

frobnicate
--help
help
Merge
runs
--version
run one two
run -o
run -o one -o two
run --hint --hint
run --progress --progress
run --workers
run --workers 0
run --workers 9
run --workers 1.5
run --workers 2.
run --workers 0x2
run --workers 256
run --workers ++2
run --workers=-2
run --workers=
run --workers two
run --workers 2 --workers 2
check --workers 2
run --link
run --link Mail
run --link post
run --workers 2 --link hub,mail
run --link hub --link mail
check --link hub
run --format
run --format xml
run --format JSON
run --format json,csv
run --format json --format csv
check --format=
explain --format yaml
margin --format text/csv
trace --format jsonl
judge --format 2
respond --format 2
traffic --format 1
sweep --format plan
candump --format json
vcd --format csv
page --format json
records --format text
merge --format text
horizon --format csv
settings --format jsonl
candump --from
candump --from -1
candump --from 1.5
candump --from 4294967296
run --from 1
vcd --from
vcd --from -1
page --to 1 --to 2
settings --to 1
run --tick 1ns
explain --tick 1ns
trace --tick 1ns
settings --best
settings --best 0
settings --best many
settings --best 1 --best 2
settings --plan --plan
settings --tick 1
run --best 1
run --plan
candump --tick
candump --tick 1
candump --tick 0ns
candump --tick 1000ns
candump --tick 1ns --tick 1ns
vcd --tick
vcd --tick 1ms
WORDS

# What an option wants, where clap lets in a value that names nothing.
printf 'error: --link wants hub or mail, and --format text, json, csv, table or coloured\n' > "$room/fault"
runs "a link that is none" examples/clean_500k.toml 2 "$room/none" "$room/fault" run --link post
runs "a format that is none, run" examples/clean_500k.toml 2 "$room/none" "$room/fault" run --format xml
printf 'error: --format wants text, json, csv, table or coloured\n' > "$room/fault"
for word in check explain; do
  runs "a format that is none, $word" examples/clean_500k.toml 2 "$room/none" "$room/fault" "$word" --format xml
done
printf 'error: --format wants text, json, csv, table or coloured, and --spike wants --length, and no --vary, --page, --part and --join\n' > "$room/fault"
runs "a format that is none, sweep" examples/clean_500k.toml 2 "$room/none" "$room/fault" sweep --format xml
runs "a spike without its length" examples/clean_500k.toml 2 "$room/none" "$room/fault" sweep --spike sensor
printf 'error: --only wants lost, error, flag, frame, mode or sync, and --format text, json, csv, table or coloured\n' > "$room/fault"
runs "a format that is none, trace" examples/clean_500k.toml 2 "$room/none" "$room/fault" trace --format xml
runs "events that are none, trace" examples/clean_500k.toml 2 "$room/none" "$room/fault" trace --only spikes
tick='error: --tick wants 1 to 999 and ps, ns or us, as 125ps'
printf '%s, and --from and --to ticks, as 4000, or a time of whole ticks, as 3ms\n' "$tick" > "$room/fault"
for word in vcd page; do
  runs "a tick that is none, $word" examples/clean_500k.toml 2 "$room/none" "$room/fault" "$word" --tick 1ms
  runs "a time that is none, $word" examples/clean_500k.toml 2 "$room/none" "$room/fault" "$word" --from 3m
  runs "a time that isn't whole in ticks, $word" examples/clean_500k.toml 2 "$room/none" "$room/fault" "$word" --to 0.5ns
done
printf '%s\n' "$tick" > "$room/fault"
runs "a tick that is none, candump" examples/clean_500k.toml 2 "$room/none" "$room/fault" candump --tick 1ms
printf '%s, --format text, json, csv, table or coloured, and what is asked for comes from a FILE or from options\n' "$tick" > "$room/fault"
runs "a tick that is none, settings" examples/clean_500k.toml 2 "$room/none" "$room/fault" settings --tick 1ms
runs "a format that is none, settings" examples/clean_500k.toml 2 "$room/none" "$room/fault" settings --format xml
for word in judge margin respond traffic; do
  printf '%s, and --format text, json, csv, table or coloured\n' "$tick" > "$room/fault"
  runs "a tick that is none, $word" examples/clean_500k.toml 2 "$room/none" "$room/fault" "$word" --tick 1ms
  runs "a format that is none, $word" examples/clean_500k.toml 2 "$room/none" "$room/fault" "$word" --format xml
done

printf 'wl_sim 0.1.0\n' > "$room/fault"
runs "the version" "$room/none" 2 "$room/none" "$room/fault" --version

printf "error: the arguments can't be read\n" > "$room/fault"
runs "words that are no text" examples/clean_500k.toml 2 "$room/none" "$room/fault" run $'\xff'

for word in merge horizon check records run explain trace candump vcd page judge margin respond traffic settings sweep; do
  printf 'fault: Read\n' > "$room/fault"
  runs "$word of a reader that fails" / 3 "$room/none" "$room/fault" "$word"
done
for word in merge horizon check records run explain trace candump vcd page judge margin respond traffic settings sweep; do
  input=examples/clean_500k.toml
  case "$word" in merge | horizon) input=examples/records.txt ;; settings) input=examples/settings/mcp2515_500k.toml ;; esac
  printf 'fault: Write\n' > "$room/fault"
  ended=0
  "$program" "$word" < "$input" > /dev/full 2> "$room/err" || ended=$?
  is "$word to a writer that fails" [ "$ended" = 3 ]
  is "$word to a writer that fails (standard error)" cmp -s "$room/err" "$room/fault"
done

# The hints on standard input and output, and on memory, are those of docs/use/faults.md.
for word in merge check sweep; do
  printf 'fault: Read\nhint: %s\n' "$(remedy_of Read)" > "$room/fault"
  runs "the hint on a reader that fails, $word" / 3 "$room/none" "$room/fault" "$word" --hint
  input=examples/clean_500k.toml
  [ "$word" != merge ] || input=examples/records.txt
  "$program" "$word" --hint < "$input" > /dev/full 2> "$room/err"
  is "the hint on a writer that fails, $word" cmp -s "$room/err" <(printf 'fault: Write\nhint: %s\n' "$(remedy_of Write)")
done
fi

if part rest; then
# The least limit on memory under which the program runs by one thread leaves no room for the stacks of eight more.
limited() { (ulimit -v "$1" && shift && timeout 300 "$program" run "$@" < examples/clean_500k.toml > "$room/out" 2> "$room/err"); }
limit=2000
until limited "$limit" || [ "$limit" -gt 200000 ]; do limit=$((limit + 1000)); done
ended=0
limited "$((limit + 8000))" --hint --workers 8 || ended=$?
is "threads that can't be made (status $ended: $(head -c 200 "$room/err"))" grep -qxE 'fault: (Worker\([0-7]\)|Memory)' "$room/err"
fault=$(sed -n 's/^fault: //p' "$room/err")
remedy=$(remedy_of "${fault/[0-7]/n}")
is "the hint on them: $(tail -1 "$room/err")" [ -n "$remedy" -a "$(sed -n 's/^hint: //p' "$room/err")" = "$remedy" ]
is "threads that can't be made (status)" [ "$ended" = 3 -a ! -s "$room/out" ]
# No clause says how many threads there are: eight workers don't fit into what is just enough for two.
until limited "$limit" --workers 2 || [ "$limit" -gt 400000 ]; do limit=$((limit + 1000)); done
ended=0
limited "$limit" --workers 8 || ended=$?
is "eight workers where there is room for two (status $ended)" [ "$ended" = 3 -a ! -s "$room/out" ]
# A worker that can't be made stops before the others have waited once: they have to hear of it. Under each of these limits a run ends.
python3 bench/plan.py | sed -E 's/^out = .*/out = 40000/' > "$room/delayed.toml"
for kind in '2 mail' '4 mail' '2 hub' '4 hub'; do
  others=
  for most in $(seq 10000 1500 60000); do
    ended=0
    (ulimit -v "$most" && timeout 20 "$program" run --workers "${kind% *}" --link "${kind#* }" "$room/delayed.toml" > "$room/out" 2> "$room/err") || ended=$?
    [ "$ended" = 0 ] || [ "$ended" = 3 -a ! -s "$room/out" ] || others+=" $most KiB: $ended"
  done
  is "workers that can't be made, $kind: $others" [ -z "$others" ]
done

rows=crates/test_rows/out/test_rows
if [ -x "$rows" ]; then
  for wanted in check/world/*.stdout; do
    [ -e "$wanted" ] || continue
    name=$(basename "$wanted" .stdout)
    "$rows" < "check/world/$name" > "$room/out" 2> "$room/err"
    is "the world $name" cmp -s "$room/out" "$wanted"
  done
  is "worlds that restart" python3 check/worlds.py "$rows" restarts
fi

# Each allocation refused in turn, where there is a C compiler to make the library that does it.
if command -v gcc > /dev/null; then
  # No clause says by which link workers hand records over: each letter takes memory, and a record in a hub takes none.
  gcc -O2 -shared -fPIC -o "$room/refuse.so" check/refuse.c -ldl
  calls() { REFUSE=0 LD_PRELOAD="$room/refuse.so" timeout 300 "$program" run --workers 4 --link "$1" < examples/cyclic_500k.toml 2>&1 > /dev/null | sed -n 's/^calls //p'; }
  by_hub=$(calls hub) by_mail=$(calls mail)
  is "the links (allocations by hub: $by_hub, by mail: $by_mail)" [ "${by_mail:-0}" -gt $((${by_hub:-999999} * 5 / 4)) ]
  is "merge, each allocation refused" check/refuse.sh "$program" merge examples/records.txt
  is "horizon, each allocation refused" check/refuse.sh "$program" horizon examples/records.txt
  is "run FILE -o FILE, each allocation refused" refused_files
  is "run FILE -o FILE to a disk that fails: $(head -c 200 "$room/err")" unsynchronised
  is "run, each allocation refused" check/refuse.sh "$program" run examples/clean_500k.toml
  is "run --workers 2, each allocation refused" check/refuse.sh "$program" run examples/clean_500k.toml --workers 2
  is "traffic --format json, each allocation refused" check/refuse.sh "$program" traffic examples/clean_500k.toml --format json
  is "settings, each allocation refused" check/refuse.sh "$program" settings examples/settings/narrow_1m.toml
  is "sweep, each allocation refused" check/refuse.sh "$program" sweep examples/clean_500k.toml --runs 3 --workers 2
  is "sweep --spike, each allocation refused" check/refuse.sh "$program" sweep examples/clean_500k.toml --spike x=5 --length 100 --runs 3 --workers 2
  [ ! -x "$rows" ] || is "worlds, each allocation refused" python3 check/worlds.py "$rows" refused
fi
fi

echo "$passed passed, $failed failed"
[ "$failed" = 0 ]
