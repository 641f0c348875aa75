#!/bin/bash
# The walk of examples/walk.txt, as a new user takes it: check, image, status, a run with 4 workers that is killed, status, the run
# again, and a run after a data file was changed. It is taken in a copy of examples/, several times, and the run is killed later each
# time. What is printed and each exit status are compared with the walk, the digests with those of a Python script, and the
# memories in bench.json at the end with the data. Skipped where the program or python3 is missing, and where the program
# keeps no journal in the folder.
#
# Usage: checks/walk.sh [PATH_OF_flash_top]
set -u
here=$(cd "$(dirname "$0")/.." && pwd)
program=${1:-$here/crates/flash_top/out/flash_top}
[ -x "$program" ] || { echo "skipped: no $program"; exit 0; }
command -v python3 > /dev/null || { echo "skipped: no python3"; exit 0; }
exec python3 "$here/checks/walk.py" "$(cd "$(dirname "$program")" && pwd)/$(basename "$program")" "$here/examples"
