#!/usr/bin/env bash
# Words per second that threads give to a hub and look at, by one thread and by two over the same words, beside plain Rust over a list of
# AtomicU64. Both programs run by turns; the greatest figure of each counts. Proves and builds bench/hub in a copy, over what earlier checks kept.
# usage: bench/hub.sh [FOLDER]      RUNS (default 9) is the number of runs; a FOLDER that is named is kept, so that a second run builds quickly;
#                                   the last lines are the machine and the day; KEEP=1 keeps the figures as rows of results.tsv
set -euo pipefail
here=$(cd "$(dirname "$0")" && pwd)
runs=${RUNS:-9}
if [ $# -gt 0 ]; then
  mkdir -p "$1"
  copy=$(cd "$1" && pwd)
else
  copy=$(mktemp -d)
  trap 'rm -rf "$copy"' EXIT
fi
mkdir -p "$copy/crates/hub_bench"
cp "$here/../HANDLES" "$copy"
for crate in wl_lattice wl_record_core wl_hub; do
  [ -e "$copy/crates/$crate" ] || cp -a "$here/../crates/$crate" "$copy/crates"
  grep "^$crate:" "$here/../crates.txt"
done > "$copy/crates.txt"
# Its sources end in .in, since the gate refuses a .rt or .antt file of no crate.
cp -r "$here/hub/src" "$here/hub/proofs" "$copy/crates/hub_bench"
find "$copy/crates/hub_bench" -name '*.in' | while read -r file; do mv "$file" "${file%.in}"; done
echo "hub_bench: wl_hub wl_record_core anyhow" >> "$copy/crates.txt"
rustc -O --edition 2021 -o "$copy/plain" "$here/hub/plain.rs"
(cd "$copy/crates/hub_bench" && rt run > "$copy/said" 2>&1) || { cat "$copy/said"; exit 1; }
: > "$copy/times"
for _ in $(seq "$runs"); do
  "$copy/crates/hub_bench/out/hub_bench" | sed 's/^/hub /' >> "$copy/times"
  "$copy/plain" | sed 's/^/plain /' >> "$copy/times"
done
PYTHONPATH=$here python3 -B - "$copy/times" "$runs" << 'PYTHON'
import sys
import results
best = {}
for line in open(sys.argv[1]):
    program, kind, threads, steps, time, _ = line.split()
    rate = int(steps) / int(time) * 1000
    rates = best.setdefault((kind, threads), {})
    rates[program] = max(rates.get(program, 0), rate)
print(f"million words a second, the greatest of {sys.argv[2]} runs")
print("kind      threads    hub  plain")
for (kind, threads), rates in best.items():
    print(f"{kind:9} {threads:>7} {rates['hub']:6.0f} {rates['plain']:6.0f}")
    many = "one thread" if threads == "1" else "two threads"
    what = {"silences": "a silence is given (`fetch_max`)", "edges": "an edge is given (`compare_exchange`)", "looks": "a word is looked at (load)"}.get(kind, kind)
    results.keep_if_asked([(f"hub / {what} / {name}, {many}", rate, "million a second") for name, rate in (("hub", rates["hub"]), ("plain Rust", rates["plain"]))])
PYTHON
sed -n 's/^model name.*: //p' /proc/cpuinfo | head -1
echo "$(nproc) processors, load $(cut -d' ' -f1 /proc/loadavg), $(date +%F)"
