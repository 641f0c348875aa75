#!/bin/bash
# The example vehicle: what `check`, `image` and `run` print of it is compared with texts whose digests a Python script makes of
# the plan's bytes, spelled one by one. Skipped where the program or python3 is missing.
#
# Usage: checks/examples.sh [PATH_OF_flash_top]
set -u
here=$(cd "$(dirname "$0")/.." && pwd)
program=${1:-$here/crates/flash_top/out/flash_top}
[ -x "$program" ] || { echo "skipped: no $program"; exit 0; }
command -v python3 > /dev/null || { echo "skipped: no python3"; exit 0; }
exec python3 "$here/checks/examples.py" "$(cd "$(dirname "$program")" && pwd)/$(basename "$program")" "$here/examples"
