#!/usr/bin/env bash
# Has can-utils read the logs that the built program writes of every example, and of the plans that are named; installs can-utils where it is lacking (Debian, as root).
# usage: check/candump.sh [PLAN..]      status 1 where a frame is read otherwise than the report says
set -euo pipefail
here=$(cd "$(dirname "$0")" && pwd)
program=${WIRELINE_PROGRAM-$here/../crates/wl_sim/out/wl_sim}
[ -x "$program" ] || { echo "no program at $program: build it with ./wireline build"; exit 1; }
command -v log2long > /dev/null || { apt-get update -qq && apt-get install -y -qq --no-install-recommends can-utils; } > /dev/null
exec python3 "$here/candump.py" "$program" "$here"/../examples/*.toml "$@"
