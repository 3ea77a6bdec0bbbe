#!/usr/bin/env bash
# Draws the pictures of docs/ again, from what the built program writes of some examples; those of pages by a browser (chromium), and that of tables by
# a terminal (xterm, on an X server in memory).
set -euo pipefail
here=$(cd "$(dirname "$0")" && pwd)
program=${WIRELINE_PROGRAM-$here/../crates/wl_sim/out/wl_sim}
[ -x "$program" ] || { echo "no program at $program: build it with ./wireline build"; exit 1; }
cd "$here/.."
python3 check/picture.py "$program" examples/clean_500k.toml 60000 84000 "The dashboard loses the arbitration" > docs/use/arbitration.svg
python3 check/picture.py "$program" examples/burst.toml 140000 180000 "A spike in a frame" > docs/use/error.svg
python3 -B check/page.py "$program" --picture examples/burst.toml 140000-190000 docs/use/page.png e m e
python3 -B check/page.py "$program" --picture examples/cable_too_long.toml 95000-115000 docs/use/page-cable.png
python3 -B check/page.py "$program" --picture examples/priorities.toml 60000-90000 docs/use/page-priorities.png
python3 -B check/terminal.py "$program" docs/use/tables.png
