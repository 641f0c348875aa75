#!/bin/sh
# Times `bench catalogue` beside Python's json. It says so and passes where there is no python3.
set -eu
top=$(cd "$(dirname "$0")/.." && pwd)
command -v python3 >/dev/null || { echo "no python3: catalogue_speed is skipped"; exit 0; }
(cd "$top/crates/bench" && rt run >/dev/null)
exec python3 "$top/checks/catalogue_speed.py"
