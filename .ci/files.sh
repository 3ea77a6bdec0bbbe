# Files for input and output, of .ci/program.sh: what stands at the named place on each outcome.
plan=$PWD/examples/clean_500k.toml report=$PWD/examples/clean_500k.report
files=$room/files
mkdir "$files"
said() { # said NAME STATUS STDERR WORDS..: runs the program in the folder of the files, on no standard input
  local name=$1 status=$2 err=$3 ended=0
  shift 3
  (cd "$files" && timeout 60 "$program" "$@") > "$room/out" 2> "$room/err" < /dev/null || ended=$?
  is "$name (status $ended, wanted $status)" [ "$ended" = "$status" ]
  [ "$err" = - ] || is "$name (standard error: $(head -c 200 "$room/err"))" cmp -s "$room/err" <(printf '%b' "$err")
}
holds() { is "$1: $2" cmp -s "$files/$2" "$3"; }                                     # holds NAME FILE WANTED
clean() { is "$1: nothing new is left" [ -z "$(find "$files" -name '.wireline-*')" ]; } # clean NAME

said 'a file for input' 0 '' run "$plan"
is 'a file for input (standard output)' cmp -s "$room/out" "$report"
said 'a file for output' 0 '' run "$plan" -o out
holds 'a file for output' out "$report"
is 'a file for output (standard output)' [ ! -s "$room/out" ]
(cd "$files" && "$program" run -o dash - < "$plan") && holds 'standard input by a dash' dash "$report"
echo old > "$files/old"
for words in 'run none' 'run .' "vcd $plan --tick 5parsecs" "run --workers 9 $plan" "run $plan more" 'run /dev/null'; do
  # shellcheck disable=SC2086
  said "old output, $words" $(case $words in *none | *.) echo 3 ;; *null) echo 1 ;; *) echo 2 ;; esac) - $words -o old
  holds "old output, $words" old <(echo old)
done
said 'a file that is not there' 3 'fault: Read\nfile: none\n' run none
said 'with a hint' 3 'fault: Read\nfile: none\nhint: There is no such file. Check its name and its folder.\n' run --hint none
said 'a hint on a folder' 3 'fault: Read\nfile: .\nhint: This is a folder. Name a file in it.\n' run --hint .
said 'a folder to read' 3 'fault: Read\nfile: .\n' check .
said 'a folder to read, records' 3 'fault: Read\nfile: .\n' merge .
said 'a folder to write' 3 'fault: Write\nfile: .\n' check "$plan" -o .
said 'a folder that is not there' 3 'fault: Write\nfile: none/out\n' check "$plan" -o none/out
said 'the hint on it' 3 'fault: Write\nfile: none/out\nhint: Check that the file and its folder can be written and their disk has room.\n' check --hint "$plan" -o none/out
said 'a full device' 3 'fault: Write\nfile: /dev/full\n' run "$plan" -o /dev/full
said 'a device' 0 '' run "$plan" -o /dev/null
is 'a device stays' [ -c /dev/null ]
ln -s nowhere "$files/dangling" && said 'a link that leads nowhere' 3 'fault: Write\nfile: dangling\n' run "$plan" -o dangling
is 'a link that leads nowhere stays' [ -L "$files/dangling" ]
is 'a link that leads nowhere leads nowhere' [ ! -e "$files/nowhere" ]
# The input as output: by its name, by links, by a descriptor
cp "$plan" "$files/in" && said 'input as output' 0 '' run in -o in && holds 'input as output' in "$report"
cp "$plan" "$files/in" && ln -sf in "$files/link" && said 'a link as output' 0 '' run in -o link && holds 'a link as output' in "$report"
is 'a link stays' [ -L "$files/link" ]
cp "$plan" "$files/in" && (cd "$files" && "$program" run -o in < in) && holds 'standard input as output' in "$report"
# A file that a descriptor has open is written on by others, too: it isn't replaced. A pipe there is written as it is
ln -s /dev/stdout "$files/stdout"
for name in /dev/stdout /dev/fd/1 /proc/self/fd/1 stdout; do
  ended=0
  (cd "$files" && { echo before; "$program" run "$plan" -o "$name"; } > kept 2> "$room/err") || ended=$?
  is "the descriptor $name as output (status $ended)" [ "$ended" = 3 ] && holds "the descriptor $name stays" kept <(echo before)
  is "that is told of $name" [ "$(cat "$room/err")" = "fault: Write
file: $name" ]
  is "the descriptor $name of a pipe" [ "$( (cd "$files" && "$program" run "$plan" -o "$name") | cmp - "$report" 2>&1)" = '' ]
done
cp "$plan" "$files/in" && ended=0 && (cd "$files" && "$program" run in -o /proc/self/fd/0 < in 2> "$room/err") || ended=$?
is "the input's descriptor as output (status $ended)" [ "$ended" = 3 ] && holds "the input's descriptor stays" in "$plan"
chmod 640 "$files/in" && cp "$plan" "$files/plan" && said 'rights' 0 '' run plan -o in && is 'the rights stay' [ "$(stat -c %a "$files/in")" = 640 ]
mkfifo "$files/pipe" && (cat "$files/pipe" > "$files/through" & "$program" run "$plan" -o "$files/pipe"; wait) && holds 'a pipe' through "$report"
(cat "$plan" > "$files/pipe" & "$program" run "$files/pipe" > "$files/through"; wait) && holds 'a pipe to read' through "$report"
# A new file gets a name that is free: what a run that was killed has left stays
echo left > "$files/.wireline-0.new" && said 'a new file beside one that was left' 0 '' run "$plan" -o out && holds 'a new file beside one that was left' out "$report"
holds 'one that was left' .wireline-0.new <(echo left)
for ((n = 0; n < 999; n++)); do echo left > "$files/.wireline-$n.new"; done
said 'a new file beside 999 that were left' 0 '' run "$plan" -o out && holds 'a new file beside 999 that were left' out "$report"
is 'they stay' [ "$(cat "$files"/.wireline-*.new | sort -u)" = left -a "$(find "$files" -name '.wireline-*' | wc -l)" = 999 ]
echo left > "$files/.wireline-999.new" && said 'no name is free' 3 'fault: Write\nfile: new\n' run "$plan" -o new && is 'no file came' [ ! -e "$files/new" ]
find "$files" -name '.wireline-*' -delete
# A pipe can't be read once more for a hint: it isn't waited for
sed 's/^sjw = 3/sjw = 9/' "$plan" > "$files/bad" && (cat "$files/bad" > "$files/pipe" &)
said 'a pipe with a hint' 1 'fault: NodeSegments(0, Jump)\nhint: sjw is out of its bounds or above ps1. Set `sjw` from 1 to 4 and at most `ps1`.\n' check --hint pipe
# Names: a newline, an escape, a leading dash, 255 bytes, no UTF-8
long=$(printf 'x%.0s' {1..255})
for name in $'a\nb' $'\e[31mred' ./-x "$long" 'a b'; do
  said "the name $(printf %q "$name")" 0 '' run "$plan" -o "$name" && holds "the name $(printf %q "$name")" "$name" "$report"
done
cp "$plan" "$files/-x" && said 'a name with a dash' 0 '' run -o again -- -x && holds 'a name with a dash' again "$report"
said 'a name that is shown' 3 'fault: Read\nfile: a\\n\\u001B[31m\n' run $'a\n\e[31m'
said 'a name that could steer a terminal' 3 'fault: Read\nfile: \\u009B31m\\u202Ex\\u2028\\u2066\n' run $'\u009b31m\u202ex\u2028\u2066'
said 'a word that could steer a terminal' 2 - run "$plan" $'\e]0;x\a\u009b' && is 'a word that could steer a terminal is shown' grep -qF '\u001B]0;x\u0007\u009B' "$room/err"
is 'a word that could steer a terminal stays off it' [ -z "$(tr -d '[:print:]\n' < "$room/err")" ]
said 'a name without a letter' 3 'fault: Read\nfile: \n' run ''
said 'a name that is no text' 2 - run $'\xff' && is 'a name that is no text is told' grep -q "can't be read" "$room/err"
said 'a name for output that is no text' 2 - run "$plan" -o $'\xff' && is 'no file of it' [ ! -e "$files/"$'\xff' ]
said 'an option that is misspelt' 2 - run "$plan" --workres 2 && is 'it is the one that is named' grep -q "unexpected argument '--workres'" "$room/err"
# What counts as a line: a newline, and no other separator
{ printf '# a\u2028b\u0085c\n' && sed 's/^sjw = 3/sjw = 5/' "$plan"; } > "$files/lines"
said 'a line of a hint' 1 - check --hint lines && is 'a line of a hint' grep -q "^hint: line $(($(grep -n -m1 '^sjw' "$plan" | cut -d: -f1) + 1)), column 1, " "$room/err"
# Record texts longer than what a hint reads: no place that isn't one, and no line that is cut off
{ yes 'E 0 0 12345' | head -n 104857; printf 'E 0 1 12345x\n'; } > "$files/cut"
said 'a line at the cut of a hint' 1 - merge --hint cut && is "a line at the cut of a hint: $(tail -1 "$room/err")" grep -q '^hint: line 104858\. Write it as' "$room/err"
{ yes 'E 0 0 12345' | head -n 170000; printf 'E 0 1 1'; } > "$files/long"
said 'a long text that is cut off' 1 'fault: Truncated\nhint: End the last line with a newline.\n' merge --hint long
# A hint on a plan near the limit is made in less than the time of ten refusals, or in half a second of processor time
python3 -c 'print("version = 1\nend = 1\nper = 0\n" + "[[node]]\n" * 100_000)' > "$files/tables"
python3 -c 'print("version = 1\nend = 1\nper = 0\n" + "".join(f"a.b{i} = 1\n" for i in range(60_000)))' > "$files/dotted"
for name in tables dotted; do
  used=$( (TIMEFORMAT='%U %S'; time "$program" check --hint "$files/$name" > /dev/null 2> "$room/err") 2>&1 | awk '{ print int(1000 * ($1 + $2)) }')
  is "the hint on $name takes $used ms: $(tail -1 "$room/err" | head -c 80)" [ "$used" -lt 1500 ]
done
# Progress: a line a second from the first second on, and none of a run that takes less
said 'progress of a short run' 0 '' run --progress "$plan"
least=$(for _ in 1 2 3; do begun=${EPOCHREALTIME/./} && "$program" run --progress "$plan" > /dev/null && echo $((${EPOCHREALTIME/./} - begun)); done | sort -n | head -1)
is "a short run doesn't wait for a line of progress: $least us" [ "$least" -lt 900000 ]
(sleep 2.5 && cat "$plan") | "$program" run --progress > "$room/out" 2> "$room/err"
is 'progress' cmp -s "$room/err" <(printf 'progress: %s s\n' 1 2)
is 'progress (standard output)' cmp -s "$room/out" "$report"
(sleep 1.5 && cat "$plan") | "$program" run > "$room/out" 2> "$room/err"
is 'no progress unless it is asked for' [ ! -s "$room/err" ]
# Closed descriptors, each combination: the output is whole and has nothing else in it
sed 's/^sjw = 3/sjw = 9/' "$plan" > "$files/bad"
for closed in '<&-' '>&-' '2>&-' '<&- >&-' '<&- 2>&-' '>&- 2>&-' '<&- >&- 2>&-'; do
  rm -f "$files/out"
  ended=0
  eval "timeout 20 '$program' run '$plan' -o '$files/out' $closed" 2> /dev/null || ended=$?
  is "closed: $closed (status $ended)" [ "$ended" = 0 ]
  holds "closed: $closed" out "$report"
  ended=0
  eval "timeout 20 '$program' run --hint '$files/bad' -o '$files/out' $closed" 2> /dev/null || ended=$?
  is "closed, refused: $closed (status $ended)" [ "$ended" = 1 ]
  holds "closed, refused: $closed" out "$report"
done
# Without -o: no input, or no output, is a fault whatever else is closed
for closed in '<&-' '>&-' '2>&-' '<&- >&-' '<&- 2>&-' '>&- 2>&-' '<&- >&- 2>&-'; do
  case $closed in *'>&-'*' 2>&-' | '>&-' | '<&- >&-') wanted=3 ;; *) wanted=0 ;; esac
  ended=0
  eval "timeout 20 '$program' run '$plan' > '$room/out' $closed" 2> "$room/err" || ended=$?
  is "closed, standard output: $closed (status $ended)" [ "$ended" = "$wanted" ]
  [ "$wanted" = 3 ] || is "closed, the report: $closed" cmp -s "$room/out" "$report"
  case $closed in *'<&-'*) ;; *) continue ;; esac
  ended=0
  eval "timeout 20 '$program' run > '$room/out' $closed" 2> /dev/null || ended=$?
  is "no input: $closed (status $ended)" [ "$ended" = 3 ]
done
ended=0
timeout 20 "$program" run "$plan" >&- 2> "$room/err" || ended=$?
is "no output (status $ended)" [ "$ended" = 3 ] && is 'no output is told' grep -qx 'fault: Write' "$room/err"
# A descriptor that is there and is for the other way
ended=0
timeout 20 "$program" run 0> "$files/other" > "$room/out" 2> "$room/err" || ended=$?
is "a descriptor for writing as input (status $ended)" [ "$ended" = 3 ] && is 'it is told' grep -qx 'fault: Read' "$room/err"
ended=0
timeout 20 "$program" run "$plan" 1< "$plan" 2> "$room/err" || ended=$?
is "a descriptor for reading as output (status $ended)" [ "$ended" = 3 ] && is 'that is told' grep -qx 'fault: Write' "$room/err"
# A disk that fills in the middle, where this user may mount one; and rights, where this user hasn't all
if mkdir "$files/small" && mount -t tmpfs -o size=64k none "$files/small" 2> /dev/null; then
  head -c 60000 /dev/zero > "$files/small/out" && cp "$files/small/out" "$room/kept"
  said 'a disk that fills' 3 'fault: Write\nfile: small/out\n' vcd "$PWD/examples/burst.toml" -o small/out
  holds 'a disk that fills' small/out "$room/kept"
  clean 'a disk that fills'
  umount "$files/small"
fi
# A file without rights, as a user who hasn't all: this one, or the user of no files
as_user=()
[ "$(id -u)" != 0 ] || as_user=(setpriv --reuid=65534 --regid=65534 --clear-groups)
if [ "$(id -u)" != 0 ] || command -v setpriv > /dev/null; then
  mkdir -p "$files/rights/a/b" && cp "$plan" "$files/rights/plan" && cp "$files/old" "$files/rights/old" && cp "$program" "$files/rights/program"
  chmod 755 "$room" "$files" "$files/rights/program" && chmod 000 "$files/rights/plan" && chmod 444 "$files/rights/old"
  [ "$(id -u)" != 0 ] || chown -R 65534 "$files/rights"
  as_other() { # as_other NAME STDERR WORDS..: status 3
    local name=$1 err=$2 ended=0
    shift 2
    (cd "$files/rights" && "${as_user[@]}" ./program "$@" > /dev/null 2> "$room/err" < /dev/null) || ended=$?
    is "$name (status $ended)" [ "$ended" = 3 ] && is "$name (standard error: $(head -c 200 "$room/err"))" cmp -s "$room/err" <(printf '%b' "$err")
  }
  as_other 'a file without rights' 'fault: Read\nfile: plan\n' run plan
  chmod 644 "$files/rights/plan"
  as_other 'a file that may not be written' 'fault: Write\nfile: old\n' run plan -o old && holds 'no rights' rights/old <(echo old)
  chmod 555 "$files/rights"
  as_other 'a folder that may not be written' 'fault: Write\nfile: new\n' run plan -o new && is 'no file came' [ ! -e "$files/rights/new" ]
  # The new file is made in the folder of the named one: no other need be writable
  chmod 555 "$files/rights/a"
  (cd "$files/rights" && "${as_user[@]}" ./program run plan -o a/b/new > /dev/null 2> "$room/err" < /dev/null)
  is "a folder that may be written, in those that may not: $(head -c 200 "$room/err")" cmp -s "$files/rights/a/b/new" "$report"
  chmod 755 "$files/rights" "$files/rights/a"
fi
clean 'at the end'

# A disk that fails as the new file is synchronised: the old file stays, and nothing else is left.
unsynchronised() {
  local ended=0
  echo old > "$files/old"
  (cd "$files" && REFUSE=999999999 REFUSE_SYNC=1 LD_PRELOAD="$room/refuse.so" timeout 60 "$program" run "$plan" -o old > /dev/null 2> "$room/err") || ended=$?
  [ "$ended" = 3 ] && cmp -s "$room/err" <(printf 'fault: Write\nfile: old\n') && cmp -s "$files/old" <(echo old) && [ -z "$(find "$files" -name '.wireline-*')" ]
}

# Each allocation refused in turn: the old file or the whole new one, and never another.
refused_files() {
  local calls n
  echo old > "$files/old"
  calls=$(cd "$files" && REFUSE=0 LD_PRELOAD="$room/refuse.so" "$program" run "$plan" -o old 2>&1 > /dev/null | sed -n 's/^calls //p')
  [ "${calls:-0}" -gt 10 ] || { echo "the number of allocations did not come: $calls"; return 1; }
  for ((n = 1; n <= calls; n++)); do
    echo old > "$files/old"
    (cd "$files" && REFUSE=$n LD_PRELOAD="$room/refuse.so" "$program" run --hint "$plan" -o old > /dev/null 2>&1)
    case $? in
      0) cmp -s "$files/old" "$report" || return 1 ;;
      *) cmp -s "$files/old" <(echo old) || return 1 ;;
    esac
    [ -z "$(find "$files" -name '.wireline-*')" ] || return 1
  done
}
