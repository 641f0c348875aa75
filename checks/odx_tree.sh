#!/bin/bash
# tools/odx_tree.py over ODX-F documents and PDX packages written by hand (checks/odx_tree/): what it prints and writes, and
# what `check` and `image` then print, is compared with lines typed by hand; then hostile ones, each with its line and status.
# Skipped where python3 or the program is missing.
#
# Usage: checks/odx_tree.sh [PATH_OF_flash_top]; PYTHON names another Python, from 3.8 on.
set -u
here=$(cd "$(dirname "$0")/.." && pwd)
program=${1:-$here/crates/flash_top/out/flash_top}
python=${PYTHON:-python3}
[ -x "$program" ] || { echo "skipped: no $program"; exit 0; }
command -v "$python" > /dev/null || { echo "skipped: no $python"; exit 0; }
wrong=0
"$python" "$here/checks/odx_tree.py" "$(cd "$(dirname "$program")" && pwd)/$(basename "$program")" || wrong=1
"$python" "$here/checks/odx_hostile.py" || wrong=1
exit "$wrong"
