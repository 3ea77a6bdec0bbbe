#!/usr/bin/env bash
# Installs the Debian package in a fresh Debian without the kit, as a colleague would, and runs what the first hour runs. It takes root, debootstrap and
# Debian's mirror, so that the gate leaves it out.
# usage: chroot.sh PACKAGE.deb [FOLDER]     FOLDER is a Debian that debootstrap has made; without it a fresh bookworm is made and removed
# The last line is 'N passed, M failed'.
set -uo pipefail
package=$(realpath "$1")
root=${2-}
if [ -z "$root" ]; then
  root=$(mktemp -d)
  trap 'rm -rf "$root"' EXIT
  debootstrap --variant=minbase bookworm "$root" http://deb.debian.org/debian > "$root.log" 2>&1 || { tail -3 "$root.log" && echo "0 passed, 1 failed" && exit 1; }
fi
passed=0 failed=0
is() { # is NAME CONDITION..: counts one comparison
  local name=$1
  shift
  if "$@"; then passed=$((passed + 1)) && echo "right: $name"; else failed=$((failed + 1)) && echo "differs: $name"; fi
}
inside() { env -i PATH=/usr/sbin:/usr/bin:/sbin:/bin HOME=/root chroot "$root" "$@"; }
cp "$package" "$root/root/wireline.deb"
is "there is no kit" [ -z "$(inside sh -c 'command -v rt')" ]
inside dpkg -i /root/wireline.deb > "$root/root/dpkg" 2>&1
is "dpkg -i: $(grep -m1 ^Setting "$root/root/dpkg")" [ -n "$(inside dpkg -s wireline)" ]
is "nothing is missing: $(inside ldd /usr/lib/wireline/wl_sim | wc -l) libraries" [ -z "$(inside ldd /usr/lib/wireline/wl_sim | grep 'not found')" ]
said=$(inside wireline test-install | tail -1)
is "wireline test-install: $said" grep -qE '^[0-9]{2,} passed, 0 failed$' <<< "$said"
is "wireline --version" grep -q '^wl_sim [0-9]' <(inside wireline --version 2>&1)
is "help on standard output" [ "$(inside wireline --help 2> /dev/null | grep -c '^Commands:')" = 1 ]
inside sh -c 'cd /root && wireline init --nodes 6 --bitrate 250k --cable 60m -o my-plan.toml && wireline judge my-plan.toml > judged'
is "the first commands of README: $(head -c 60 "$root/root/judged" | head -1)" grep -q '^works, proved: any_senders_are_clean$' "$root/root/judged"
inside cp /usr/share/wireline/examples/clean_500k.toml /root/mine.toml
for command in check run margin explain traffic page; do
  inside sh -c "cd /root && wireline $command mine.toml > $command.out 2> $command.err"
  is "wireline $command of a plan: $(head -c 60 "$root/root/$command.out" | head -1)" [ $? = 0 ]
done
inside sh -c 'cd /root && sed -i "s/^sjw = .*/sjw = 9/" mine.toml && wireline check mine.toml > out 2> err'
is "a refused plan: $(grep -m1 ^hint "$root/root/err")" grep -q '^hint: ' "$root/root/err"
is "PROOF says what is proved" grep -q . "$root/usr/share/doc/wireline/PROOF"
inside dpkg -r wireline > /dev/null 2>&1
is "dpkg -r leaves nothing" [ -z "$(find "$root/usr" -path '*wireline*' ! -name 'wireline.*' -type f)" ]
echo "$passed passed, $failed failed"
[ "$failed" = 0 ]
