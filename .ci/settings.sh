# The part of .ci/program.sh on settings: it takes that script's $program, $room, is and runs.
# - the lists of examples/settings and the plans of their first settings, as check/settings.py has them, with ticks of two lengths; of a list that
#   takes it minutes the first rows alone, which it wrote into NAME.list: check/settings.py --best 3 < NAME.toml > NAME.list
# - each plan runs clean, holds by margin, and is the file that -o names
# - three lists of other texts, as check/settings.py has them
# - what is refused: the fault's line, the hint, the status, and nothing on standard output

for given in examples/settings/*.toml; do
  name=$(basename "$given" .toml)
  if [ -f "${given%.toml}.list" ]; then
    runs "settings --best 3 of $name" "$given" 0 "${given%.toml}.list" "$room/none" settings --best 3
    runs "settings --plan -o of $name" "$given" 0 "$room/none" "$room/none" settings --plan -o "$room/written.toml"
    is "the plan of $name runs clean" [ "$("$program" run "$room/written.toml" | tail -1)" = "verdict clean" ]
    is "the plan of $name holds" grep -q '^holds for ' <("$program" margin "$room/written.toml")
    continue
  fi
  python3 check/settings.py < "$given" > "$room/listed"
  runs "settings of $name" "$given" 0 "$room/listed" "$room/none" settings
  sed '/^setting [3-9] /d; /^setting [0-9][0-9]/d' "$room/listed" > "$room/two"
  runs "settings --best 2 of $name" "$given" 0 "$room/two" "$room/none" settings --best 2
  python3 check/settings.py --plan < "$given" > "$room/planned"
  runs "settings --plan of $name" "$given" 0 "$room/planned" "$room/none" settings --plan
  runs "settings --plan -o of $name" "$given" 0 "$room/none" "$room/none" settings --plan -o "$room/written.toml"
  is "the plan of $name in a file" cmp -s "$room/written.toml" "$room/planned"
  is "the plan of $name runs clean" [ "$("$program" run "$room/written.toml" | tail -1)" = "verdict clean" ]
  is "the plan of $name holds" grep -q '^holds for ' <("$program" margin "$room/written.toml")
  python3 check/settings.py --tick 10ns < "$given" > "$room/listed"
  runs "settings --tick 10ns of $name" "$given" 0 "$room/listed" "$room/none" settings --tick 10ns
done

# No setting has a slow rate; the clocks refuse the nearest one; a bus on which a rate may be off
while IFS= read -r edit; do
  sed -E "$edit" examples/settings/narrow_1m.toml > "$room/input"
  python3 check/settings.py < "$room/input" > "$room/listed"
  runs "settings, $edit" "$room/input" 0 "$room/listed" "$room/none" settings
done << 'EDITS'
s/^bitrate = .*/bitrate = 9_999/
s/^tolerance = .*/tolerance = 50_000/
/^(prescaler|prop|ps1|ps2|sjw) /d;s/^bitrate = .*/bitrate = 125_000\nrate_error = 10_000/
EDITS

refuses() { # refuses FAULT HINT EXPRESSION WORDS..: of an example that sed changed
  local fault=$1 hint=$2 expression=$3
  shift 3
  sed -E "$expression" examples/settings/narrow_1m.toml > "$room/input"
  printf 'fault: %s\n' "$fault" > "$room/fault"
  runs "settings, $fault" "$room/input" 1 "$room/none" "$room/fault" settings "$@"
  printf 'hint: %s\n' "$hint" >> "$room/fault"
  runs "settings --hint, $fault" "$room/input" 1 "$room/none" "$room/fault" settings --hint "$@"
}
refuses Toml "Correct the TOML." 's/^per = 5/per = = 5/'
refuses 'Missing(cable)' "Add the key: docs/use/settings.md has all of them." /^cable/d
refuses 'Kind(senders)' "Give it a value as docs/use/settings.md says." 's/"one"/"some"/'
refuses 'Unknown(speed)' "Remove or rename the key; TOML puts a key into the table last begun." 's/^sjw/speed/'
refuses NoController 'Add a `[[controller]]`.' '/^.*controller]]/,$d; s/^per/controller = []\nper/'
refuses NoSetting "Leave out --plan or --apply: the list says why no setting works." 's/^cable = 10/cable = 100/' --plan
{ cat examples/settings/narrow_1m.toml; yes '# a comment' | head -c 1048576; } > "$room/input"
printf 'fault: Size\nhint: Pass a text of at most 1,048,576 bytes.\n' > "$room/fault"
runs "settings --hint, Size" "$room/input" 1 "$room/none" "$room/fault" settings --hint
