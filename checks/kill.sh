#!/bin/sh
# Kills runs of the program at random instants and at system calls, and runs it again: checks/kill.py says what is looked at.
#
#   checks/kill.sh [PROGRAM [FLAGS ..]]     PROGRAM: the proved one of crates/flash_top/out where it is not given
set -eu
top=$(cd "$(dirname "$0")/.." && pwd)
program=${1:-$top/crates/flash_top/out/flash_top}
[ $# -eq 0 ] || shift
[ -x "$program" ] || { echo "kill.sh: $program is not built: ./run.sh --proved builds it" >&2; exit 127; }
exec python3 "$top/checks/kill.py" "$program" "$@"
