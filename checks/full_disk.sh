#!/bin/sh
# Runs on full disks, and two runs at a time: checks/full_disk.py says what is looked at.
#
#   checks/full_disk.sh [PROGRAM]     PROGRAM: the proved one of crates/flash_top/out where it is not given
set -eu
top=$(cd "$(dirname "$0")/.." && pwd)
program=${1:-$top/crates/flash_top/out/flash_top}
[ -x "$program" ] || { echo "full_disk.sh: $program is not built: ./run.sh --proved builds it" >&2; exit 127; }
exec python3 "$top/checks/full_disk.py" "$program"
