#!/usr/bin/env bash
# Has sigrok's decoder `can` read back what the built program's nodes send; installs sigrok-cli where it is lacking (Debian, as root).
# usage: check/sigrok.sh [--count N] [--seed S]      status 1 where a frame is read otherwise than the report says
set -euo pipefail
here=$(cd "$(dirname "$0")" && pwd)
program=${WIRELINE_PROGRAM-$here/../crates/wl_sim/out/wl_sim}
[ -x "$program" ] || { echo "no program at $program: build it with ./wireline build"; exit 1; }
command -v sigrok-cli > /dev/null || { apt-get update -qq && apt-get install -y -qq --no-install-recommends sigrok-cli; } > /dev/null
exec python3 "$here/sigrok.py" "$program" "$@"
