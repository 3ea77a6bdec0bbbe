#!/usr/bin/env bash
# Tests the library for C beside a built program: the callers of examples/c, check/c_library.py, and check/c/calls.c under AddressSanitizer and valgrind.
# usage: c_library.sh PROGRAM [FOLDER]     FOLDER has libwireline.a, libwireline.so and wireline.h, which are built if none is named: wl_c is proved then,
#                                          over the libraries that `rt ci` has left
#        c_library.sh header               tests in a second what needs no library: the functions' names, the header, and that its callers compile
# RANDOM_PLANS is how many random plans are compared, 100 if it isn't set. The last line is 'N passed, M failed'.
set -uo pipefail
cd "$(dirname "$0")/.." || exit 1
room=$(mktemp -d)
trap 'rm -rf "$room"' EXIT
passed=0 failed=0
is() { # is NAME CONDITION..: counts one comparison
  local name=$1
  shift
  if "$@"; then passed=$((passed + 1)); else failed=$((failed + 1)) && echo "differs: $name"; fi
}

for tool in cc c++; do command -v $tool > /dev/null || { echo "left out: the library for C, since there is no $tool on the path" && exit 0; }; done
# The functions of the header are those that are called in C, and those of the crate
sed -n 's/^uint32_t wireline_\([a-z]*\)(.*/\1/p' tools/c/wireline.h | sort > "$room/named"
sed -n 's/^COMMAND(\(.*\))$/\1/p' tools/c/wireline.c | sort > "$room/calls"
sed -n 's/^pub extern "C" fn wl_c_\([a-z]*\)(.*/\1/p' crates/wl_c/src/lib.rt | sort > "$room/crate"
is "the functions of wireline.c" [ -s "$room/named" -a "$(cat "$room/calls")" = "$(cat "$room/named")" ]
is "the functions of wl_c" [ "$(cat "$room/crate")" = "$(cat "$room/named")" ]

# The header alone, in C and in C++, and what calls it
echo '#include <wireline.h>' > "$room/alone.c"
cp "$room/alone.c" "$room/alone.cc"
strict=(-Wall -Wextra -Wpedantic -Werror -I tools/c -fsyntax-only)
is "the header in C++" c++ "${strict[@]}" "$room/alone.cc"
for file in "$room/alone.c" tools/c/wireline.c examples/c/margin.c check/c/calls.c; do is "${file##*/} in C" cc -std=c99 "${strict[@]}" "$file"; done
if [ "$1" = header ]; then
  echo "$passed passed, $failed failed"
  [ "$failed" = 0 ]
  exit
fi

program=$(realpath "$1")
library=${2:-out/c}
[ -n "${2-}" ] || tools/c_library.py "$library" > "$room/built" 2>&1 || { cat "$room/built" && echo "0 passed, 1 failed" && exit 1; }
library=$(realpath "$library")

# No function but those of the header is seen from outside, and nothing is needed but the C library
sed -i 's/^/wireline_/' "$room/named"
is "the header" cmp -s tools/c/wireline.h "$library/wireline.h"
nm -g --defined-only "$library/libwireline.a" | awk 'NF == 3 {print $3}' | sort > "$room/static"
nm -D --defined-only "$library/libwireline.so" | awk '{print $3}' | sort > "$room/shared"
is "the functions of libwireline.a" cmp -s "$room/named" "$room/static"
is "the functions of libwireline.so" cmp -s "$room/named" "$room/shared"
is "nothing of threads, files or the network" [ -z "$(nm -D --undefined-only "$library/libwireline.so" | grep -vE ' (malloc|realloc|free|mem(cpy|move|set))(@|$)| _ITM_| __gmon| __cxa_finalize')" ]

# The callers in C and in Python write what the program writes, and end with its status
is "the caller in C compiles" cc -std=c99 -Wall -Wextra -Wpedantic -Werror -I "$library" -o "$room/margin" examples/c/margin.c "$library/libwireline.a"
sed 's/^sjw = 3/sjw = 5/' examples/clean_500k.toml > "$room/refused.toml"
for plan in examples/clean_500k.toml examples/cable_too_long.toml examples/bus_off.toml "$room/refused.toml"; do
  "$program" margin "$plan" > "$room/wanted" 2> /dev/null
  status=$?
  "$room/margin" "$plan" > "$room/out" 2> "$room/err"
  is "the status of margin.c on ${plan##*/}" [ $? = "$status" ]
  is "the margin of ${plan##*/}" cmp -s "$room/out" "$room/wanted"
  if [ "$status" = 1 ]; then "$program" explain "$plan" > "$room/wanted" 2> /dev/null; else : > "$room/wanted"; fi
  is "what is wrong with ${plan##*/}" cmp -s "$room/err" "$room/wanted"
  verdict=$("$program" run "$plan" 2> /dev/null | sed -n 's/^verdict \([a-z_]*\).*/\1/p')
  python3 -B examples/c/report.py "$plan" "$library/libwireline.so" > "$room/out" 2> "$room/said"
  is "the status of report.py on ${plan##*/}" [ $? = "$status" ]
  is "the verdict of ${plan##*/}" [ "$(sed -n 's/^verdict: \([a-z_]*\),.*/\1/p' "$room/out")" = "$verdict" ]
  is "report.py says what is wrong with ${plan##*/}" cmp -s "$room/said" "$room/wanted"
done

# Memory: nothing is read or written beyond what the caller gave, and all is given back
plans=(examples/clean_500k.toml examples/bus_off.toml examples/cyclic_500k.toml "$room/refused.toml")
is "calls.c compiles for AddressSanitizer" cc -std=c99 -g -Wall -Wextra -Werror -fsanitize=address,undefined -I "$library" -o "$room/asan" check/c/calls.c "$library/libwireline.a"
"$room/asan" "${plans[@]}" > "$room/out" 2>&1
is "under AddressSanitizer: $(tail -3 "$room/out")" [ "$(tail -1 "$room/out")" = "${#plans[@]} plans, 0 failed" ]
if command -v valgrind > /dev/null; then
  cc -std=c99 -g -I "$library" -o "$room/calls" check/c/calls.c "$library/libwireline.a"
  valgrind -q --leak-check=full --error-exitcode=9 "$room/calls" examples/clean_500k.toml "$room/refused.toml" > "$room/out" 2>&1
  is "under valgrind: $(tail -3 "$room/out")" [ "$(tail -1 "$room/out")" = "2 plans, 0 failed" ]
else
  echo "left out: valgrind, which is not on the path"
fi

# The same bytes and statuses as the program's
python3 -B check/c_library.py "$program" "$library/libwireline.so" "${RANDOM_PLANS-100}" > "$room/out" 2>&1
grep -v ' passed, ' "$room/out" | head -60
read -r more _ less _ < <(tail -1 "$room/out")
if [[ $more$less =~ ^[0-9]+$ ]]; then passed=$((passed + more)) failed=$((failed + less)); else failed=$((failed + 1)) && tail -3 "$room/out"; fi
echo "$passed passed, $failed failed"
[ "$failed" = 0 ]
