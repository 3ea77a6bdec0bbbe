#!/usr/bin/env bash
# Runs the script ./wireline as a user would, over a built program.
# usage: wireline.sh PROGRAM
# - that it hands its words on, with --hint; help, a terminal, links to it, no build and no toolchain; that a build is kept, also by calls that meet
# - that ranges of a sweep may stand alone
set -uo pipefail
cd "$(dirname "$0")/.." || exit 1
program=$(realpath "$1")
export WIRELINE_PROGRAM=$program
room=$(mktemp -d)
trap 'rm -rf "$room"' EXIT
passed=0 failed=0
is() { # is NAME CONDITION..: counts one comparison
  local name=$1
  shift
  if "$@"; then passed=$((passed + 1)); else failed=$((failed + 1)); echo "differs: $name"; fi
}
ends() { # ends STATUS WORDS..: runs the script, its output in $room/out and $room/err
  local wanted=$1 ended=0
  shift
  "${script[@]}" "$@" > "$room/out" 2> "$room/err" || ended=$?
  is "$* (status $ended, wanted $wanted: $(head -c 200 "$room/err"))" [ "$ended" = "$wanted" ]
}
says() { is "$1" grep -qF -- "$2" "$room/err"; } # says NAME TEXT
script=(./wireline)
plan=examples/clean_500k.toml report=examples/clean_500k.report

# ---- Words
ends 0 run "$plan"
is "a file for input" cmp -s "$room/out" "$report"
is "nothing is said beside a report" [ ! -s "$room/err" ]
ends 0 run -o "$room/report" "$plan"
is "a file for output" cmp -s "$room/report" "$report"
is "nothing on standard output then" [ ! -s "$room/out" ]
ends 0 run - < "$plan"
is "standard input" cmp -s "$room/out" "$report"
(cd "$room" && "$OLDPWD/wireline" run "$OLDPWD/$plan" > out)
is "from another folder" cmp -s "$room/out" "$report"
ln -s "$PWD/wireline" "$room/link" && ln -s link "$room/links"
(cd "$room" && ./links run "$OLDPWD/$plan" > out)
is "by a link" cmp -s "$room/out" "$report"
ended=0
timeout 20 ./wireline run <&- > "$room/out" 2> "$room/err" || ended=$?
is "no standard input (status $ended)" [ "$ended" = 3 ]
ended=0
timeout 20 ./wireline run "$plan" >&- 2> "$room/err" || ended=$?
is "no standard output (status $ended)" [ "$ended" = 3 ]
ended=0
timeout 20 ./wireline run nofile 2> /dev/full || ended=$?
is "no standard error (status $ended)" [ "$ended" = 3 ]
ends 3 run nofile && says "a file that isn't there" "file: nofile"
sed 's/^sjw = 3/sjw = 5/' "$plan" > "$room/input"
for words in "$room/input" "-- $room/input"; do
  # shellcheck disable=SC2086
  ends 1 check $words
  says "a hint" "hint: line $(grep -n -m1 '^sjw' "$plan" | cut -d: -f1), column 1, \`sjw = 5\`: node 0 engine"
done
ends 1 check < "$room/input" && says "a hint for standard input" "\`sjw = 5\`: node 0 engine"
ended=0
./wireline check < <(cat "$room/input") 2> "$room/err" || ended=$?
is "a hint for a pipe (status $ended)" [ "$ended" = 1 ] && says "a hint for a pipe" "Set \`sjw\` from 1 to 4"
for shell in bash zsh fish; do
  ends 0 completions "$shell"
  is "completions for $shell have each command" [ -z "$(sed -n 's/^  \([a-z]*\)  .*/\1/p' tools/help.txt | while read -r word; do grep -qw "$word" "$room/out" || echo "$word"; done)" ]
done
ends 2 completions && says "completions of no shell" "bash, zsh or fish"
ends 2 test more && says "a test of more than the program" "usage: test.py PROGRAM"
# What a command's help names is offered after that command: by bash as it completes, by the others anywhere
sed -n 's/^  \([a-z]*\)  .*/\1/p' tools/help.txt | grep -vx help > "$room/commands"
while read -r command; do
  "$program" "$command" --help < /dev/null 2>&1 | grep -oE -- '--[a-z-]+' | sort -u > "$room/options"
  bash -c 'source tools/completions.bash; COMP_WORDS=(wireline "$1" --) COMP_CWORD=2; _wireline; printf "%s\n" "${COMPREPLY[@]}"' - "$command" | sort -u > "$room/out"
  is "bash offers each option of $command, and no other" cmp -s "$room/options" "$room/out"
  for shell in zsh fish; do
    is "$shell offers each option of $command" [ -z "$(sed 's/^--//' "$room/options" | while read -r word; do grep -qw -- "$word" tools/completions.$shell || [ "$word" = help ] || echo "$word"; done)" ]
  done
done < "$room/commands"
# The script's own words may be given, too
ends 0 check --hint "$plan"
ends 0 check --progress "$plan"
ends 1 check --hint "$room/input" && says "one hint" "hint: line"
is "a hint is said once" [ "$(grep -c '^hint' "$room/err")" = 1 ]
ends 3 check -- --hint && says "a file of that name" "file: --hint"
bash -c 'source <(./wireline completions bash) && COMP_WORDS=(wireline v) COMP_CWORD=1 && _wireline && echo "${COMPREPLY[@]}"' > "$room/out"
is "a command is completed" [ "$(cat "$room/out")" = vcd ]
ln -s "$program" "$room/wl_sim"
"$room/wl_sim" --help 2> "$room/help" > /dev/null < /dev/null
is "tools/help.txt is the program's help" cmp -s "$room/help" tools/help.txt
for word in frobnicate Run 'candump --tick' 'run --workers 9' 'help frobnicate' 'run --frobnicate --help' ''; do
  # shellcheck disable=SC2086
  "$program" $word 2> "$room/wanted" < /dev/null
  # shellcheck disable=SC2086
  ends 2 $word
  is "the words '$word' are answered by the program" cmp -s "$room/err" "$room/wanted"
done
# Help that is asked for is an answer
for word in --help -h help 'help run' 'run --help' 'sweep -h' --version -V; do
  # shellcheck disable=SC2086
  "$program" $word 2> "$room/wanted" < /dev/null
  # shellcheck disable=SC2086
  ends 0 $word
  is "the words '$word' are answered on standard output" cmp -s "$room/out" "$room/wanted"
  is "and by nothing else" [ ! -s "$room/err" ]
done
ends 3 check -- --help && says "a file of that name" "file: --help"
python3 - > "$room/out" << 'PYTHON'
import os, subprocess
ours, theirs = os.openpty()
ran = subprocess.Popen(["./wireline", "check"], stdin=theirs, stderr=subprocess.PIPE)
os.write(ours, b"\x04")
print(ran.communicate(timeout=20)[1].decode(), ran.returncode)
PYTHON
is "a terminal is told" grep -q "reading from the terminal" "$room/out"
printf '#!/bin/sh\necho "$@"\n' > "$room/echo" && chmod +x "$room/echo"
is "what is added to the words" [ "$(WIRELINE_PROGRAM=$room/echo ./wireline run 'a b' -o c)" = "run --hint a b -o c" ]
WIRELINE_PROGRAM=$room/echo python3 - > "$room/out" << 'PYTHON'
import os, subprocess
ours, theirs = os.openpty()
print(subprocess.run(["./wireline", "vcd", "a b"], stdin=subprocess.DEVNULL, stdout=subprocess.PIPE, stderr=theirs).stdout.decode().strip())
PYTHON
is "what is added for a terminal" [ "$(cat "$room/out")" = "vcd --hint --progress a b" ]
WIRELINE_PROGRAM=$room/none ends 2 run "$plan" && says "a program that isn't there" "is no program"

# A signal to the script is one to the program, since it is that one: nothing runs on
mkfifo "$room/never" && exec 8<> "$room/never"
./wireline run "$room/never" > /dev/null 2>&1 &
for ((tries = 0; tries < 100; tries++)); do [ "$(readlink "/proc/$!/exe")" != "$program" ] || break; sleep 0.1; done
is "the script becomes the program" [ "$(readlink "/proc/$!/exe")" = "$program" ]
kill -TERM $!
ended=0
wait $! || ended=$?
exec 8>&-
is "a signal ends it (status $ended)" [ "$ended" = 143 ]

# ---- Builds: a tree with a stub in the place of `rt`, which counts its calls
unset WIRELINE_PROGRAM
tree=$room/tree stub=$room/stub
mkdir -p "$tree/crates/wl_sim/src" "$stub"
cp -r wireline tools "$tree"
cp crates.txt "$tree"
touch "$tree/crates/wl_sim/src/main.rt" "$tree/crates/wl_sim/stdin"
script=(env "PATH=/usr/bin:/bin" "$tree/wireline")
if ! env PATH=/usr/bin:/bin bash -c 'command -v rt' > /dev/null; then
  ends 1 run "$plan" && says "no toolchain" "no command 'rt' on the PATH"
  ends 1 build && is "no toolchain, said once" [ "$(grep -c "no command 'rt'" "$room/err")" = 1 ]
fi
ends 0 help && is "help without a build" cmp -s "$room/out" tools/help.txt
ends 2 && is "no word and no build" cmp -s "$room/err" tools/help.txt
mkdir -p "$tree/crates/wl_words/src"
cp crates/wl_words/src/subcommands.rt "$tree/crates/wl_words/src"
"$program" --version 2> "$room/wanted" < /dev/null
ends 0 --version && is "the version without a build" cmp -s "$room/out" "$room/wanted"
cat > "$stub/rt" << 'STUB'
#!/bin/sh
[ -z "${FAILS-}" ] || { echo "error: $FAILS" >&2; exit 1; }
[ "$1" != version ] || { echo "${KIT-a stub}"; exit 0; }
echo "$1" >> "$CALLS"
if [ "$1" = run ]; then
  mkdir -p out
  cp "$PROGRAM" out/wl_sim
  printf 'rt: chose --jobs 1 for wl_x\ncrate wl_x: modules loaded=1 checked=1\nlogic=proved functions=1\nrt: running out/wl_sim\n'
else
  mkdir "$TMPDIR/deep"
  cp "$PROGRAM" "$TMPDIR/deep/program"
  echo "case=1" >&2
  sleep "${SLEEPS-0.3}"
  echo "case=2" >&2
  sleep "${SLEEPS-0.3}"
  rm -r "$TMPDIR/deep"
fi
STUB
cat > "$stub/ln" << 'STUB'
#!/bin/sh
[ -z "${GONE-}" ] || [ -e "$GONE" ] || { touch "$GONE"; echo "ln: gone" >&2; exit 1; }
exec /bin/ln "$@"
STUB
chmod +x "$stub/rt" "$stub/ln"
script=(env "PATH=$stub:/usr/bin:/bin" "CALLS=$room/calls" "PROGRAM=$program" "$tree/wireline")
FAILS='no such name' ends 1 run "$plan" && says "a build that fails" "error: no such name"
says "a build that fails" "no program could be made"
says "a build that fails" "by this kit: error: no such name"
FAILS='not proved' ends 1 build && says "a proof that fails" "the program was not proved"
is "after a proof that fails nothing else is built" [ "$(grep -c compiling "$room/err")" = 0 ]
ends 0 run "$plan" && says "what is built, and for how long" "compiling a build without proof, once: some three minutes of processor time"
is "the first report" cmp -s "$room/out" "$report"
ends 0 run "$plan"
is "the second report" cmp -s "$room/out" "$report"
is "the unproved build is kept" [ "$(cat "$room/calls")" = try ]
ends 0 build && says "how far it is" "wl_x is proved"
ends 0 build && says "a second build" "up to date"
is "the proved build is kept" [ "$(tr '\n' ' ' < "$room/calls")" = "try run " ]
touch "$tree/crates/wl_sim/src/main.rt"
ends 0 run "$plan"
is "the time of a source doesn't count" [ "$(tr '\n' ' ' < "$room/calls")" = "try run " ]
printf '// more\n' >> "$tree/crates/wl_sim/src/main.rt" && touch -d '2001-01-01' "$tree/crates/wl_sim/src/main.rt"
ends 0 run "$plan"
is "a source that changed is built" [ "$(tr '\n' ' ' < "$room/calls")" = "try run try " ]
# A program that is gone before a link to it is made: that of the next case is taken
rm -rf "$tree/out" "$tree/crates/wl_sim/out" "$room/calls"
GONE=$room/gone ends 0 run "$plan" && is "a program was gone" [ -e "$room/gone" ]
is "the report of the next case's program" cmp -s "$room/out" "$report"
is "nothing is said of the one that was gone" [ "$(grep -vc '^wireline: compiling' "$room/err")" = 0 ]
# A kit that is known, but no optimised program by it: another build is made
rm -rf "$tree/out" "$tree/crates/wl_sim/out" "$room/calls"
KIT=$(sed -n 's/^KITS = {"\(.*\)"}$/\1/p' tools/quick_build.py) ends 0 run "$plan" && says "an optimised build" "compiling an optimised program without a proof"
says "another build" "can't be had, or differs"
is "the report of another build" cmp -s "$room/out" "$report"
# First calls that meet: one builds, the others wait for it
rm -rf "$tree/out" "$tree/crates/wl_sim/out" "$room/calls"
for n in 1 2 3 4 5; do "${script[@]}" run "$plan" > "$room/out$n" 2> "$room/err$n" & done
wait
for n in 1 2 3 4 5; do is "call $n of five at once: $(tail -1 "$room/err$n")" cmp -s "$room/out$n" "$report"; done
is "one build for five calls" [ "$(tr '\n' ' ' < "$room/calls")" = "try " ]
# A kill amid a build: nothing of it stays outside the tree, and the next call builds
rm -rf "$tree/out" "$room/calls"
mkdir "$room/temporary"
export TMPDIR=$room/temporary
SLEEPS=20 setsid "${script[@]}" run "$plan" > /dev/null 2>&1 &
killed=$!
for ((tries = 0; tries < 100; tries++)); do [ ! -e "$room/calls" ] || break; sleep 0.1; done
kill -KILL -- "-$killed"
wait "$killed" 2> /dev/null
is "a call was killed" [ ! -x "$tree/out/wireline/wl_sim" ]
is "nothing of a killed build is in TMPDIR" [ -z "$(ls -A "$room/temporary")" ]
ends 0 run "$plan"
is "the report after a kill" cmp -s "$room/out" "$report"
is "a build after a kill" [ "$(tr '\n' ' ' < "$room/calls")" = "try try " ]
is "nothing else is left of a kill" [ "$(ls -A "$tree/out/wireline" | sort | tr '\n' ' ')" = "lock quick.sum wl_sim " ]
# A TMPDIR that isn't there
rm -rf "$tree/out" "$room/calls"
TMPDIR=$room/none ends 0 run "$plan"
is "the report without a TMPDIR" cmp -s "$room/out" "$report"
is "nothing is said of a TMPDIR" [ "$(grep -c . "$room/err")" = "$(grep -c '^wireline: compiling' "$room/err")" ]
TMPDIR=$room/none ends 0 run "$plan" && is "nothing at all the next time" [ ! -s "$room/err" ]
unset TMPDIR
# By a link the build is the tree's
rm -rf "$tree/out" && mkdir "$room/elsewhere" && ln -s "$tree/wireline" "$room/elsewhere/w"
(cd "$room/elsewhere" && "${script[@]:0:4}" ./w run "$OLDPWD/$plan" > "$room/out" 2> "$room/err")
is "a build by a link" cmp -s "$room/out" "$report"
is "the build is in the tree" [ -x "$tree/out/wireline/wl_sim" ]
is "and nothing beside the link" [ "$(ls -A "$room/elsewhere")" = w ]
export WIRELINE_PROGRAM=$program
script=(./wireline)

# ---- A sweep: its ranges may stand alone
ends 1 sweep examples/cable_too_long.toml sensor.x=20..40:10 --keep-offsets --keep-ppm
cat > "$room/wanted" << 'TABLE'
sensor.x 20 clean in 1 of 1
sensor.x 30 clean in 0 of 1
sensor.x 40 clean in 0 of 1
clean in 1 of 3
TABLE
is "the table of a sweep" cmp -s <(head -4 "$room/out") "$room/wanted"
is "nothing is said beside it" [ ! -s "$room/err" ]
ends 2 sweep "$plan" x=5..1 && says "a range that is refused" "hint: --vary x=5..1"
is "the words of a sweep" [ "$(WIRELINE_PROGRAM=$room/echo ./wireline sweep "$plan" x=1..2 --vary y=1..2 -o a=b --runs 3 end=5)" = \
  "sweep --hint $plan --vary x=1..2 --vary y=1..2 -o a=b --runs 3 --vary end=5" ]
# Its parts may be several files
for k in 1 2 3; do ends 0 sweep "$plan" --runs 20 --part "$k/3" -o "$room/part $k"; done
ends 0 sweep --join "$room/part 3" "$room/part 1" -o "$room/joined" "$room/part 2" && ends 0 sweep "$plan" --runs 20 && is "three files are joined" cmp -s "$room/joined" "$room/out"
ends 1 sweep "$room/part 3" --join && says "a lone part" "fault: Part(1, Missing)"
ends 3 sweep --join "$room/part 1" "$room/part 4" && says "a part that isn't there" "can't read '$room/part 4'"
ln -s "$PWD/$plan" "$room/a=b" && ends 0 sweep "$room/a=b" --runs 2 && is "a file with an equals sign" grep -qx "clean in 2 of 2" "$room/out"

times=$(for _ in 1 2 3 4 5 6 7 8 9 10 11; do
  begun=${EPOCHREALTIME/./}
  ./wireline run "$plan" > "$room/out"
  echo $((${EPOCHREALTIME/./} - begun))
done | sort -n | sed -n 6p)
echo "a report through the script takes $times us (median of 11)"
echo "$passed passed, $failed failed"
[ "$failed" = 0 ]
