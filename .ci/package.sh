#!/usr/bin/env bash
# Packs a built program, installs both packages below a folder, and runs them as a user would.
# usage: package.sh PROGRAM     the proved program of this tree is packed as that, and another one as built elsewhere, with the library for C of the folder
#                               that WIRELINE_LIBRARY names
set -uo pipefail
cd "$(dirname "$0")/.." || exit 1
program=$(realpath "$1")
room=$(mktemp -d)
trap 'rm -rf "$room"' EXIT
passed=0 failed=0
is() { # is NAME CONDITION..: counts one comparison
  local name=$1
  shift
  if "$@"; then passed=$((passed + 1)); else failed=$((failed + 1)) && echo "differs: $name"; fi
}
said='nothing is said of a proof'
if [ "$program" = "$PWD/crates/wl_sim/out/wl_sim" ]; then said='Each function of the program is proved'; else export WIRELINE_PROGRAM=$program; fi
command -v cmark-gfm > /dev/null || (apt-get update && apt-get install -y cmark-gfm) > "$room/apt" 2>&1 || {
  tail -3 "$room/apt"
  echo "left out: cmark-gfm, which makes the pages of a package, could not be installed"
  exit 0
}
for to in first second; do ./wireline package "$room/$to" > "$room/said" 2>&1 || { cat "$room/said" && echo "0 passed, 1 failed" && exit 1; }; done
for file in "$room"/first/*; do is "the same bytes twice: ${file##*/}" cmp -s "$file" "$room/second/${file##*/}"; done
is "four files" [ "$(find "$room/first" -type f | wc -l)" = 4 ]
(cd "$room/first" && sha256sum --quiet -c ./*.sha256) > "$room/sums" 2>&1
is "the sums beside them" [ ! -s "$room/sums" ]
mkdir "$room/tar" "$room/deb"
tar -xzf "$room"/first/*.tar.gz -C "$room/tar"
dpkg-deb -x "$room"/first/*.deb "$room/deb"
is "both have the same files" diff -r "$room"/tar/wireline-* "$room/deb/usr"
is "the tarball's owner is root" [ "$(tar -tvzf "$room"/first/*.tar.gz | awk '{print $2}' | sort -u)" = root/root ]
is "the package's owner is root" [ "$(dpkg-deb -c "$room"/first/*.deb | awk '{print $2}' | sort -u)" = root/root ]
unset WIRELINE_PROGRAM
for root in "$room"/tar/wireline-* "$room/deb/usr"; do
  wireline=(env -i PATH=/usr/bin:/bin "$root/bin/wireline")
  is "the program is the one that was packed" cmp -s "$root/lib/wireline/wl_sim" "$program"
  "${wireline[@]}" test-install > "$room/said" 2>&1
  is "wireline test-install: $(tail -1 "$room/said")" grep -qE '^[0-9]{2,} passed, 0 failed$' "$room/said"
  (cd / && "${wireline[@]}" run "$root/share/wireline/examples/clean_500k.toml") > "$room/out"
  is "a report" cmp -s "$room/out" examples/clean_500k.report
  "${wireline[@]}" --help > "$room/out" 2> "$room/err"
  is "help on standard output" grep -q '^Commands:' "$room/out"
  sed 's/^sjw = 3/sjw = 5/' examples/clean_500k.toml > "$room/input"
  "${wireline[@]}" check "$room/input" > "$room/out" 2> "$room/err"
  is "a refused plan has its hint" grep -q '^hint: line' "$room/err"
  for shell in bash zsh fish; do is "completions for $shell" [ "$("${wireline[@]}" completions $shell | wc -l)" -gt 5 ]; done
  ln -s "$root/bin/wireline" "$room/link" && "$room/link" run examples/clean_500k.toml > "$room/out"
  is "by a link" cmp -s "$room/out" examples/clean_500k.report
  rm "$room/link"
done
# The library for C as a package has it: its callers in C and in Python write what the installed program writes
if [ -f "$root/lib/libwireline.a" ]; then
  is "the caller in C compiles" cc -std=c99 -Wall -Wextra -Werror -I "$root/include" -o "$room/margin" "$root/share/wireline/examples/c/margin.c" "$root/lib/libwireline.a"
  for plan in clean_500k bus_off; do
    "${wireline[@]}" margin "examples/$plan.toml" > "$room/wanted" 2> /dev/null
    "$room/margin" "examples/$plan.toml" > "$room/out" 2> "$room/err"
    is "margin of $plan by C" cmp -s "$room/out" "$room/wanted"
    python3 -B "$root/share/wireline/examples/c/report.py" "examples/$plan.toml" "$root/lib/libwireline.so" > "$room/out" 2> "$room/err"
    is "the verdict of $plan by Python" [ "$(sed -n 's/^verdict: \([a-z_]*\),.*/\1/p' "$room/out")" = "$("${wireline[@]}" run "examples/$plan.toml" | sed -n 's/^verdict \([a-z_]*\).*/\1/p')" ]
  done
  is "PROOF has the library's sum" grep -q "^library   sha256 $(sha256sum < "$root/lib/libwireline.a" | cut -d' ' -f1) libwireline.a$" "$root/share/doc/wireline/PROOF"
else
  echo 'left out: the library for C, which this package does not have'
fi
# A program that is not the one of PROOF, and an example that differs, are seen
root=$(echo "$room"/tar/wireline-*)
printf x >> "$root/lib/wireline/wl_sim"
is "another program is seen" [ "$("$root/bin/wireline" test-install | grep -c 'not the one of PROOF')" = 1 ]
printf x >> "$root/share/wireline/examples/burst.report"
is "another report is seen" [ "$("$root/bin/wireline" test-install | grep -c 'burst.report')" = 1 ]
# The man page has each command and each option of the program
gzip -dc "$root/share/man/man1/wireline.1.gz" > "$room/man"
"$program" --help 2>&1 < /dev/null | sed -n 's/^  \([a-z]*\)  .*/\1/p' | grep -vx help > "$room/commands"
while read -r command; do
  is "the man page has $command" grep -qx "\.SS $command" "$room/man"
  "$program" "$command" --help 2>&1 < /dev/null | grep -oE '^ +(-o, )?--[a-z-]+|^  -[a-z]' | grep -oE -- '--[a-z-]+' | sort -u | while read -r option; do
    sed 's/\\-/-/g' "$room/man" | awk -v c="$command" '/^\.SS /{on = $2 == c} on' | grep -q -- "$option" || echo "the man page of $command lacks $option"
  done > "$room/lacks"
  is "its options: $(head -1 "$room/lacks")" [ ! -s "$room/lacks" ]
done < "$room/commands"
! command -v man > /dev/null || {
  man --warnings -E UTF-8 -l -Tutf8 "$room/man" > /dev/null 2> "$room/err"
  is "the man page reads: $(head -1 "$room/err")" [ ! -s "$room/err" ]
}
# Each link within the pages leads somewhere
python3 - "$root/share/doc/wireline/use.html" > "$room/links" << 'PYTHON'
import re, sys
text = open(sys.argv[1], encoding="utf-8").read()
known = set(re.findall(r'id="([^"]+)"', text))
print(*sorted({it for it in re.findall(r'href="#([^"]+)"', text) if it not in known}), sep="\n", end="")
PYTHON
is "links of the pages: $(head -1 "$room/links")" [ ! -s "$room/links" ]
is "PROOF says where the program is from" grep -q "$said" "$root/share/doc/wireline/PROOF"
is "PROOF has the commit" grep -q "^commit    $(git rev-parse HEAD)$" "$root/share/doc/wireline/PROOF"
echo "$passed passed, $failed failed"
[ "$failed" = 0 ]
