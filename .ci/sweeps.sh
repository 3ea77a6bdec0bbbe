# Sweeps, of .ci/program.sh: known answers, what is refused, and what stands at the named place.
swept() { # swept NAME INPUT STATUS LINES STDERR WORDS..: the first lines of standard output; '-' where standard error is not compared
  local name=$1 input=$2 status=$3 lines=$4 err=$5 ended=0
  shift 5
  timeout 300 "$program" sweep "$@" < "$input" > "$room/out" 2> "$room/err" || ended=$?
  is "sweep $name (status $ended, wanted $status)" [ "$ended" = "$status" ]
  is "sweep $name: $(head -2 "$room/out" | tr '\n' '/')" cmp -s <(head -n "$(printf '%b' "$lines" | wc -l)" "$room/out") <(printf '%b' "$lines")
  [ "$err" = - ] || is "sweep $name (standard error: $(head -c 200 "$room/err"))" cmp -s "$room/err" <(printf '%b' "$err")
}
refused() { # refused NAME INPUT STATUS STDERR WORDS..: nothing on standard output
  local name=$1 input=$2 status=$3 err=$4
  shift 4
  swept "$name" "$input" "$status" '' "$err" "$@"
  is "sweep $name writes nothing" [ ! -s "$room/out" ]
}
long=examples/cable_too_long.toml

# Each example that is called clean, at some of its phases; by each number of threads the same text
for name in clean_500k canopen_125k drifting_listener j1939_250k one_megabit_25m priorities sampled_late_500k sixteen_nodes; do
  swept "$name" "examples/$name.toml" 0 'clean in 40 of 40\n' '' --runs 40
done
"$program" sweep --runs 700 --step 1 < "$long" > "$room/wanted" 2> /dev/null
for workers in 1 2 3 8; do
  "$program" sweep --runs 700 --step 1 --workers "$workers" < "$long" > "$room/out" 2> "$room/err"
  is "a sweep by $workers threads" [ $? = 1 -a ! -s "$room/err" ] && is "its text by $workers threads" cmp -s "$room/out" "$room/wanted"
done
"$program" sweep --spike x=5 --length 2us < examples/clean_500k.toml > "$room/wanted" 2> /dev/null
for workers in 1 2 3 8; do
  "$program" sweep --spike x=5 --length 2us --workers "$workers" < examples/clean_500k.toml > "$room/out" 2> "$room/err"
  is "spikes by $workers threads" [ $? = 1 -a ! -s "$room/err" ] && is "their text by $workers threads" cmp -s "$room/out" "$room/wanted"
done
# By hand: perfect clocks, a bit of 16 quanta, five offsets a quantum; the start of frame comes in the quantum of the listener's sample at one
# quantum's offsets, five of 80.
node='quantum = 125\nppm = 0\nprop = 6\nps1 = 7\nps2 = 2\nsjw = 1\nout = 40\nin = 40\noffset = 0\n'
printf '%b' "version = 1\nend = 400_000\nper = 5\n[[node]]\nname = 'a'\nx = 0\n${node}frame = [{ id = 0x0F1, dlc = 0, ready = 480 }]\n" \
  "[[node]]\nname = 'b'\nx = 5\n$node" > "$room/pair"
swept 'a pair' "$room/pair" 1 'clean in 75 of 80\nall 80 members were run\n' ''
first=$(sed -n "s/^first that isn't: member \([0-9]*\),.*/\1/p" "$room/out")
"$program" sweep --print "${first:-none}" "$room/pair" > "$room/first" 2> "$room/err"
is "the first member that isn't clean is a plan (member $first: $(head -1 "$room/err"))" [ "$("$program" run "$room/first" 2>&1 | tail -1 | cut -d' ' -f1,2)" = 'verdict faulty' ]
"$program" sweep --print 0 "$room/pair" | "$program" run > "$room/out" 2>&1
is 'member 0 is the plan' cmp -s "$room/out" <("$program" run "$room/pair")
swept 'a step' "$room/pair" 1 'clean in 15 of 16\n' '' --step 125
swept 'a random part' "$room/pair" 1 '' '' --runs 20 --seed 7 && is 'how much of it' grep -qx '20 of 80 members were run, drawn by seed 7' "$room/out"
# Version 2. By hand: clocks that deviate alike stay in step, whichever sign they have; of two that are 10 % apart the listener is 8 of 16 quanta
# off after five bits without an edge, and jumps by 1. So two of four choices of signs are clean, and one of one without a tolerance.
rates='rates = [{ from = 0, quantum = 125, ppm = 0 }, { from = 320, quantum = 125, ppm = 50_000 }]'
sed "s/^version = 1/version = 2/;/^ppm/d;s/^quantum = .*/$rates/" "$room/pair" > "$room/rates"
swept 'rates without a tolerance' "$room/rates" 0 'clean in 1 of 1\nall 1 members were run\n' '' --keep-offsets
swept 'rates within a tolerance' "$room/rates" 1 'tolerance 0 clean in 1 of 1\ntolerance 50000 clean in 2 of 4\nclean in 3 of 5\n' '' \
  --vary tolerance=0..50000:50000 --keep-offsets
sed 's/^sjw = 1/&\ntolerance = 50_000/' "$room/rates" > "$room/wide_rates"
swept 'signs of rates' "$room/wide_rates" 1 'clean in 2 of 4\n' '' --keep-offsets && \
  is 'the first of them' grep -qx "first that isn't: member 1, a.ppm = -50000, b.ppm = 50000: verdict faulty.*" "$room/out"
swept 'rates that are kept' "$room/wide_rates" 0 'clean in 1 of 1\n' '' --keep-offsets --keep-ppm
"$program" sweep --print 1 --keep-offsets "$room/wide_rates" > "$room/member"
is 'a member has the rates and no tolerance' [ "$(grep -c '^ppm = -50000' "$room/member")" = 2 -a "$(grep -c '^tolerance' "$room/member")" = 0 ]
# A plan that is refused has one member, itself, whatever its tolerances would make of it
sed 's/^sjw = 1/&\ntolerance = 100/' "$room/pair" > "$room/crystals"
swept 'refused with a tolerance' "$room/crystals" 1 'ppm 0 clean in 4 of 4\nppm 200000 clean in 0 of 1, refused in 1\n' '' --vary ppm=0..200000:200000 --keep-offsets
swept 'a key of rates' "$room/rates" 1 'b.ppm -50000 clean in 0 of 1\nb.ppm 50000 clean in 1 of 1\n' '' --vary b.ppm=-50000..50000:100000 --keep-offsets --keep-ppm
swept 'a table' "$long" 1 'sensor.x 20 clean in 1 of 1\nsensor.x 30 clean in 0 of 1\nsensor.x 40 clean in 0 of 1\nclean in 1 of 3\n' '' \
  --vary sensor.x=20..40:10 --keep-offsets --keep-ppm
is 'the first of a table' grep -q "^first that isn't: member 1, sensor.x = 30: verdict faulty" "$room/out"
# A value that the plan refuses is no failing bus
swept 'refused members' "$room/pair" 1 'sjw 3 clean in 1 of 1\nsjw 4 clean in 1 of 1\nsjw 5 clean in 0 of 1, refused in 1\n' '' \
  --vary sjw=3..5:1 --keep-offsets --keep-ppm
is 'the first that is refused' grep -q '^first refused: member 2, sjw = 5: refused' "$room/out"
# A listener that begins after the frame finds no error and misses it
cp "$room/pair" "$room/three" && sed -n "/'b'/,\$p" "$room/pair" | sed "1s/.*/[[node]]\nname = 'c'/;s/^offset = 0/offset = 350_000/" >> "$room/three"
swept 'a node that begins late' "$room/three" 1 'clean in 0 of 1\nall 1 members were run\n' '' --keep-offsets && \
  is 'and misses a frame' grep -qx "first that isn't: member 0: a node has not received every frame" "$room/out"
# As many rows as there may be, and more members than are counted: 2^128 - 1 is the most
swept 'ten thousand rows' "$room/pair" 0 'end 400000 clean in 1 of 1\n' '' --vary end=400000..409999:1 --keep-offsets --keep-ppm && \
  is 'all of them' [ "$(sed -n 10001p "$room/out")" = 'clean in 10000 of 10000' ]
most=340282366920938463463374607431768211455
swept 'too many members to count' examples/sixteen_nodes.toml 0 "clean in 1 of 1\n1 of at least $most members were run, drawn by seed 1\n" '' --runs 1 --step 1
# What tests the clocks
swept 'a payload without edges' "$room/pair" 0 'clean in 1 of 1\n' '' --keep-offsets
swept 'the worst payload' "$room/pair" 0 'clean in 1 of 1\n' '' --keep-offsets --worst

# Refused plans: as run has them, nothing is run
sed 's/^sjw = 3/sjw = 9/' examples/clean_500k.toml > "$room/bad"
refused 'a refused plan' "$room/bad" 1 'fault: NodeSegments(0, Jump)\n'
sed 's/^version = 1/version = 1\n"#note" = 1/' examples/clean_500k.toml > "$room/strange"
refused 'a strange key' "$room/strange" 1 'fault: Unknown(#note)\n'
sed 's/^per = 5.*/"per = 0 #" = 9/' examples/clean_500k.toml > "$room/strange"
refused 'a key that is a text' "$room/strange" 1 'fault: Missing(per)\n'
for text in 'node = []' 'node = 5' 'version = 1' 'x = ['; do
  printf '%s\n' "$text" > "$room/strange"
  refused "the plan '$text'" "$room/strange" 1 -
done
sed 's/^quantum = 125/quantum = 62.5/;s/^prop = 8/prop = 8.5/' examples/clean_500k.toml > "$room/strange"
refused 'a plan with fractions' "$room/strange" 1 'fault: Kind(quantum)\n'
# Words that no plan takes, and words that this one doesn't take; the hint on these is what the page says, of the word that is meant
hinted() { # hinted FAULT WORDS..
  local fault=$1 remedy number word=''
  shift
  remedy=$(grep -hF "| \`${fault/[0-9],/n,}\` |" docs/use/sweeps.md docs/use/spikes.md | head -1 | sed 's/ |$//;s/.* | //')
  if [[ $fault = Range* ]]; then
    number=${fault#Range(} number=${number%%,*}
    word="--vary $(grep -oP -- '(?<=--vary )\S+' <<< "$*" | sed -n "$((number + 1))p"): "
  fi
  "$program" sweep --hint "$@" < examples/clean_500k.toml > /dev/null 2> "$room/err"
  is "the hint on $*: $(tail -1 "$room/err")" [ -n "$remedy" -a "$(cat "$room/err")" = "fault: $fault
hint: $word$remedy" ]
}
while IFS='|' read -r words said; do
  # shellcheck disable=SC2086
  refused "$words" examples/clean_500k.toml 2 "$said" $words
  fault=${said#fault: }
  # shellcheck disable=SC2086
  [ "$said" = - ] || hinted "${fault%\\n}" $words
done << 'WORDS'
--spike nobody --length 9|fault: Spike(Node)\n
--spike 0 --length 9|fault: Spike(Version)\n
--spike x=2147483648 --length 9|fault: Spike(Place)\n
--spike x=5 --length 1fs|fault: Spike(Length)\n
--spike x=5|-
--spike x=5 --length 9 --page|-
--length 9|-
--vary x=5..1|fault: Range(0, Order)\n
--vary sjw=1..4 --vary x=5..1|fault: Range(1, Order)\n
--vary x=1.5..3|fault: Range(0, Form)\n
--vary x=5|fault: Range(0, Form)\n
--vary x|fault: Range(0, Form)\n
--vary end=_.._|fault: Range(0, Form)\n
--vary x=0..9:0|fault: Range(0, Step)\n
--vary nothing=1..2|fault: Range(0, Key)\n
--vary name=1..2|fault: Range(0, Key)\n
--vary ready=320..640:160|fault: Range(0, Key)\n
--vary nobody.x=1..2|fault: Range(0, Node)\n
--vary num=1..2|fault: Range(0, Absent)\n
--vary every=1000..2000|fault: Range(0, Absent)\n
--vary tolerance=0..100001|fault: Range(0, Bounds)\n
--vary x=-3..-1|fault: Range(0, Bounds)\n
--vary end=0..999999999999:1|fault: Range(0, Rows)\n
--vary x=1..200:1 --vary end=1..200:1|fault: Rows\n
--print 1000000|fault: Member\n
--part 0/4|fault: Part\n
--part 5/4|fault: Part\n
--part 1|fault: Part\n
--part 1/2/3|fault: Part\n
--part 1/4294967296|fault: Part\n
--runs 0|-
--runs -1|-
--runs 1.5|-
--runs 4294967296|-
--step 0|-
--step -5|-
--workers 0|-
--workers 9|-
--seed x|-
--print -1|-
--vary|-
--jobs 2|-
--first f|-
WORDS
refused 'a hint on a plan' "$room/bad" 1 - --hint && is 'a hint on a plan has its place' grep -q '^hint: line [0-9]*, column 1, `sjw = 9`: node 0 engine' "$room/err"

# Files and devices: the output changes only when it is whole, with status 0 or 1
echo old > "$room/old"
(cd "$room" && "$program" sweep pair -o table) > "$room/out" 2> "$room/err"
is 'a file for the table' [ $? = 1 -a ! -s "$room/out" -a ! -s "$room/err" -a "$(head -1 "$room/table")" = 'clean in 75 of 80' ]
for words in 'bad' 'pair --vary x=5..1' 'absent'; do
  # shellcheck disable=SC2086
  (cd "$room" && "$program" sweep $words -o old > /dev/null 2>&1)
  is "old output, sweep $words" cmp -s "$room/old" <(echo old)
done
for words in "$room/pair -o /dev/full" "$room/pair -o $room/none/x" "$room/absent" .; do
  ended=0
  # shellcheck disable=SC2086
  timeout 60 "$program" sweep $words > "$room/out" 2> "$room/err" || ended=$?
  is "sweep $words (status $ended)" [ "$ended" = 3 -a ! -s "$room/out" ]
done
ended=0
timeout 60 "$program" sweep "$room/pair" > /dev/full 2> "$room/err" || ended=$?
is "a sweep to a full device (status $ended)" [ "$ended" = 3 ] && is 'it is told' grep -qx 'fault: Write' "$room/err"
# A family of a million members is not made before the first is run; a million runs take no more memory than a thousand
python3 - > "$room/wide" << 'PYTHON'
node = "[[node]]\nname = '{}'\noffset = 0\nquantum = {}\nppm = 0\nprop = 6\nps1 = 7\nps2 = 2\nsjw = 1\nx = 0\nout = 1\nin = 1\n"
print("version = 1\nend = 1000\nper = 0\n" + node.format("a", 1) + node.format("b", 65_536))
PYTHON
swept 'a wide family' "$room/wide" 0 'clean in 2 of 2\n' '' --runs 2
resident() { # resident WORDS..: the most KiB of memory that a program had, as /proc has it while it runs
  local most=0 now
  "$@" > /dev/null &
  while now=$(sed -n 's/^VmHWM:[^0-9]*\([0-9]*\) kB/\1/p' "/proc/$!/status" 2> /dev/null) && [ -n "$now" ]; do most=$now && sleep 0.02; done
  echo "$most"
}
few=$(resident "$program" sweep "$room/wide" --runs 20000)
begun=${EPOCHREALTIME/./}
many=$(resident "$program" sweep "$room/wide" --runs 300000 --progress 2> "$room/err")
took=$(((${EPOCHREALTIME/./} - begun) / 1000000))
is "memory of 20,000 runs $few KiB, of 300,000 $many KiB" [ "$few" -gt 0 -a "$many" -lt $((few + few / 4)) ]
# A line of progress comes each 200 ms at most, whatever a run takes
is "$(wc -l < "$room/err") lines of progress in $took s" [ "$(wc -l < "$room/err")" -le $((5 * took + 1)) ]
# Parts: of a sweep with ranges, with members that aren't clean and refused ones, each number of parts says in any order what one run says
joins() { # joins NAME STATUS FAULT FILE..: the output is $room/wanted if there is no fault
  local name=$1 status=$2 fault=$3 ended=0
  shift 3
  cat -- "$@" | timeout 300 "$program" sweep --join --hint > "$room/out" 2> "$room/err" || ended=$?
  is "$name (status $ended, wanted $status)" [ "$ended" = "$status" ]
  if [ -z "$fault" ]; then is "$name, its text" cmp -s "$room/out" "$room/wanted" && is "$name is quiet" [ ! -s "$room/err" ]
  else
    is "$name writes nothing" [ ! -s "$room/out" ]
    is "$name: $(head -1 "$room/err")" [ "$(cat "$room/err")" = "fault: $fault
hint: $(grep -hF "| \`${fault/[0-9]*,/n,}\` |" docs/use/sweeps.md | sed 's/ |$//;s/.* | //')" ]
  fi
}
parts_of() { # parts_of N WORDS..: writes $room/part.1 to $room/part.N
  local n=$1 k
  shift
  rm -f "$room"/part.*
  for k in $(seq "$n"); do "$program" sweep --workers "$((k % 3 + 1))" --part "$k/$n" "$@" > "$room/part.$k" 2> "$room/err" || echo broken > "$room/part.$k"; done
}
for words in '--runs 90' '--runs 40 --seed 7 --worst --vary sjw=3..5:1' '--keep-offsets --keep-ppm --vary sjw=3..5:1 --vary x=0..40:20 --vary per=4..5:1'; do
  # shellcheck disable=SC2086
  "$program" sweep $words "$room/pair" > "$room/wanted" 2> /dev/null
  wanted=$?
  for n in 1 2 3 7 40; do
    # shellcheck disable=SC2086
    parts_of "$n" $words "$room/pair"
    joins "parts of $words: $n" "$wanted" '' "$room"/part.*
    joins "parts of $words: $n, from the last" "$wanted" '' $(printf '%s\n' "$room"/part.* | sort -r)
  done
done
is 'a part is a line of JSON' python3 -B - "$room/part.1" "$room/part.40" << 'PYTHON'
import json, sys
one, last = (json.load(open(name)) for name in sys.argv[1:])
assert (one["part"], last["part"], one["of"], one["sweep"], one["words"]) == (1, 40, 40, last["sweep"], last["words"])
assert one["words"][0] == len(one["words"]) - 2 == one["rows"][0] and one["words"][-1] is None and set(one["rows"][1]) == {"runs", "clean", "early", "refused"}
PYTHON
joins 'a lone part of 40' 1 'Part(2, Missing)' "$room/part.1"
parts_of 3 --runs 90 "$room/pair" && "$program" sweep --runs 90 "$room/pair" > "$room/wanted"
"$program" sweep --runs 90 --part 2/3 -o "$room/again" "$room/pair" && joins 'a part that is run again' 1 '' "$room/part.1" "$room/again" "$room/part.3"
joins 'a part that is missing' 1 'Part(2, Missing)' "$room/part.3" "$room/part.1"
joins 'a part that is there twice' 1 'Part(3, Doubled)' "$room"/part.? "$room/part.3"
joins 'no part' 1 'Part(1, Missing)' /dev/null
head -c 300 "$room/part.2" > "$room/cut" && joins 'a part that is cut off' 1 'Part(3, Form)' "$room/part.1" "$room/part.3" "$room/cut"
joins 'what is no part' 1 'Part(2, Form)' "$room/part.1" "$room/pair"
for words in '--runs 91' '--runs 90 --seed 2' '--runs 90 --worst' '--runs 90 --keep-ppm' '--runs 90 --step 7' '--runs 90 --vary sjw=1..1'; do
  # shellcheck disable=SC2086
  "$program" sweep $words --part 2/3 -o "$room/other" "$room/pair" 2> /dev/null
  joins "a part with $words" 1 'Part(2, Other)' "$room/part.1" "$room/other" "$room/part.3"
done
sed 's/^x = 5/x = 6/' "$room/pair" > "$room/moved" && "$program" sweep --runs 90 --part 2/3 -o "$room/other" "$room/moved"
joins 'a part of another plan' 1 'Part(2, Other)' "$room/part.1" "$room/other" "$room/part.3"
"$program" sweep --runs 90 --part 2/4 -o "$room/other" "$room/pair"
joins 'a part of another number of parts' 1 'Part(2, Other)' "$room/part.1" "$room/other" "$room/part.3"

# A map has a cell for each row of its two axes, and a cell says what a sweep of its row alone says
"$program" sweep --runs 20 --vary ps1=2..4:1 --vary tolerance=0..3000:1500 --vary sjw=1..2:1 --page examples/drifting_listener.toml > "$room/map" 2> "$room/err"
is 'cells of a map' [ "$(grep -c '^cell \|"cells" hidden>cell ' "$room/map")" = 9 -a ! -s "$room/err" ]
"$program" sweep --runs 20 --vary ps1=3..3 --vary tolerance=3000..3000 --vary sjw=1..1 examples/drifting_listener.toml > "$room/out"
is 'a cell of a map' cmp -s <(awk '/^cell / { n++; next } n == 5' "$room/map" | grep -v '^first error: ') <(grep -v '^no frame has edges' "$room/out")
# The word of a node whose name begins with a dash comes after `=`, and so does each word of a map (check/page.py --commands runs them)
sed "s/'a'/'-a'/" "$room/pair" > "$room/dash"
swept 'a name that begins with a dash' "$room/dash" 0 '-a.x 0 clean in 1 of 1\n-a.x 5 clean in 1 of 1\nclean in 2 of 2\n' - --vary=-a.x=0..5:5 --keep-offsets
is 'the words of a map' grep -qF '"--vary=" + quoted(`${name}=${value}..${value}`)' "$room/map"
# A greater one, some of whose values are below 0
"$program" sweep --keep-offsets --keep-ppm --vary b.ppm=-50..50:1 --vary x=0..1:1 --page "$room/pair" > "$room/map" 2> "$room/err"
is 'cells of a greater map' [ "$(grep -c '^cell \|"cells" hidden>cell ' "$room/map")" = 202 -a ! -s "$room/err" ]
is 'its first axis' grep -q '^axis b.ppm -50 -49 -48 ' "$room/map"
# Progress goes to standard error from the first second on, and changes no output. (1,500 runs took a second on a fast machine.)
"$program" sweep --workers 1 --runs 6000 examples/sixteen_nodes.toml > "$room/without"
begun=${EPOCHREALTIME/./}
"$program" sweep --workers 1 --runs 6000 --progress examples/sixteen_nodes.toml > "$room/out" 2> "$room/err"
took=$(((${EPOCHREALTIME/./} - begun) / 1000000))
is "progress of a sweep: $(head -1 "$room/err")" [ -s "$room/err" -a -z "$(grep -vE '^progress: row 1 of 1, [0-9]+ of 6000 runs, [0-9]+ clean, [1-9][0-9]* s$' "$room/err")" ]
is "its seconds, of $took" [ "$(tail -1 "$room/err" | sed 's/.* \([0-9]*\) s$/\1/')" -le "$took" ]
is 'and its output' cmp -s "$room/out" "$room/without"
# Of a bus that always fails, two rows of it: no run is clean, each row is named, and lines go on
{ cat examples/sixteen_nodes.toml; printf '\n[[disturbance]]\nx = 0\nfrom = 200_000\nto = 220_000\n'; } > "$room/disturbed"
"$program" sweep --workers 1 --runs 4000 --vary sjw=1..2:1 --progress "$room/disturbed" > "$room/out" 2> "$room/err"
is "progress of a bus that fails: $(tail -1 "$room/err")" [ "$(grep -cE '^progress: row [12] of 2, [1-9][0-9]* of 4000 runs, 0 clean, [1-9][0-9]* s$' "$room/err")" = "$(wc -l < "$room/err")" ]
is 'it goes on to the second row' [ "$(wc -l < "$room/err")" -gt 1 -a "$(tail -1 "$room/err" | cut -c1-19)" = 'progress: row 2 of ' ]
"$program" sweep --workers 1 --runs 1500 --page examples/sixteen_nodes.toml > /dev/null 2> "$room/err"
is "a map says nothing of its progress: $(head -1 "$room/err")" [ ! -s "$room/err" ]
# As many threads as are asked for, and without the word several where there are processors
threads() { # threads WORDS..: the most threads that a program had
  local most=0 now
  "$@" > /dev/null 2>&1 &
  while now=$(sed -n 's/^Threads:[^0-9]*//p' "/proc/$!/status" 2> /dev/null) && [ -n "$now" ]; do [ "$now" -le "$most" ] || most=$now; sleep 0.01; done
  echo "$most"
}
for words in '' --page; do
  # shellcheck disable=SC2086
  one=$(threads "$program" sweep --workers 1 --runs 2500 $words examples/sixteen_nodes.toml) four=$(threads "$program" sweep --workers 4 --runs 2500 $words examples/sixteen_nodes.toml)
  # shellcheck disable=SC2086
  all=$(threads "$program" sweep --runs 2500 $words examples/sixteen_nodes.toml)
  is "threads of a sweep $words: $one by one, $four by four, $all without the word" [ "$one" = 1 -a "$four" -ge 4 -a "$all" -ge "$(($(nproc) > 1 ? 2 : 1))" ]
done
"$program" sweep --progress < "$room/pair" > "$room/out" 2> "$room/err"
is 'no progress of a short sweep' [ ! -s "$room/err" ] && is 'and its output' grep -qx 'clean in 75 of 80' "$room/out"
