#!/bin/bash
# Plans of whole files beside other programs, in one run: one unit of 16 MiB as Intel HEX (46 MB of text) and as
# S-records, four units of 16 MiB, and 64 of 1 MiB, each from a file of its own. They are planned by `check`, and the
# images of several units are made side by side.
#
# - Each segment's digest that `image` prints is that of the bytes that objcopy and srec_cat make of the same file.
# - The time of `check` is set beside that of objcopy on the same files, one after another; where there is one file,
#   beside that and sha256sum over its bytes. By the clock, the median of five rounds: the machine has to be quiet.
# - The most memory of `check` is set beside the texts of a batch (16 files at most), 1.3 times the plan and 16 MiB.
#
# A peer that is missing is skipped.
#
# Usage: checks/plan_peers.sh [PATH_OF_flash_top [FOLDER]]
#
# The texts (460 MB) are written into FOLDER and kept there, so that a second run only measures (about 40 s).
set -u
here=$(cd "$(dirname "$0")/.." && pwd)
. "$here/checks/cost.sh"
program=${1:-$here/crates/flash_top/out/flash_top}
[ -x "$program" ] || { echo "skipped: no $program"; exit 0; }
program=$(cd "$(dirname "$program")" && pwd)/$(basename "$program")
work=$(mktemp -d)
trap 'rm -rf "$work"' EXIT
texts=${2:-$work}
mkdir -p "$texts" && texts=$(cd "$texts" && pwd) || exit 1
wrong=0

# has PROGRAM: whether it is installed
has() {
    command -v "$1" > /dev/null
}

# same FILE PEER: the one segment of unit A0 is the bytes of a peer's file
same() {
    [ -e "$2" ] || return 0
    local digest
    digest=$(sha256sum "$2" | cut -d' ' -f1)
    if "$program" image order.json A0 | grep -q "^segment 0 .* $(stat -c %s "$2") $digest\$"; then
        echo "  $1: the segment is the bytes of $2"
    else
        echo "  $1: DIFFERS from $2"
        "$program" image order.json A0 | head -3
        wrong=1
    fi
}

# copies COUNT ENDING FORMAT: objcopy on all the files, one after another
copies() {
    for n in $(seq 0 $(($1 - 1))); do objcopy -I "$3" -O binary "u$n.$2" objcopy.bin; done
}

# memory COUNT BYTES ENDING: the most memory of `check`, and its limit
memory() {
    python3 - "$program" "$@" <<'P'
import os, resource, subprocess, sys
program, count, size, ending = sys.argv[1], int(sys.argv[2]), int(sys.argv[3]), sys.argv[4]
subprocess.run([program, "check", "order.json"], check=True, stdout=subprocess.DEVNULL)
most = resource.getrusage(resource.RUSAGE_CHILDREN).ru_maxrss
texts = sum(os.path.getsize(f"u{n}.{ending}") for n in range(min(count, 16)))
limit = (texts + 1.3 * count * size) / 1024 + 16384
print("  most memory: %d KiB; a batch's texts, 1.3 times the plan and 16 MiB: %d KiB" % (most, limit))
P
}

# plan COUNT BYTES ENDING FORMAT SRECORD_FORMAT: so many units, each with an image of so many bytes
plan() {
    local folder="$texts/$1_$2_$3"
    mkdir -p "$folder" && cd "$folder" || exit 1
    [ -e order.json ] || python3 "$here/checks/plan_texts.py" "$1" "$2" "$3"
    echo "$1 units of $2 bytes as $4 ($(cat u*."$3" | wc -c) bytes of text)"
    "$program" check order.json > /dev/null || { echo "  check failed"; wrong=1; }
    has objcopy && objcopy -I "$4" -O binary "u0.$3" objcopy.bin
    has srec_cat && srec_cat "u0.$3" "-$5" -o srec_cat.bin -binary
    same "u0.$3" objcopy.bin
    same "u0.$3" srec_cat.bin
    local ours=() copy=() sum=(0)
    for _ in 1 2 3 4 5; do
        ours+=("$(clock "$program" check order.json)")
        has objcopy && copy+=("$(clock copies "$1" "$3" "$4")")
        [ "$1" = 1 ] && [ -e objcopy.bin ] && sum+=("$(clock sha256sum objcopy.bin)")
    done
    [ "${#sum[@]}" = 6 ] && sum=("${sum[@]:1}")
    echo "  check: ${ours[*]} ms; objcopy: ${copy[*]-} ms; sha256sum: ${sum[*]} ms"
    [ "${#copy[@]}" = 0 ] || awk -v o="$(median "${ours[@]}")" -v c="$(median "${copy[@]}")" -v s="$(median "${sum[@]}")" \
        'BEGIN { printf "  medians: check %d ms, the others %d ms: %.2f\n", o, c + s, o / (c + s) }'
    memory "$1" "$2" "$3"
    rm -f objcopy.bin srec_cat.bin
    [ "$texts" != "$work" ] || rm -f u*."$3"
}

echo "load: $(cut -d' ' -f1-3 /proc/loadavg)"
plan 1 16777216 hex ihex intel
plan 1 16777216 srec srec motorola
plan 4 16777216 hex ihex intel
plan 64 1048576 hex ihex intel
exit "$wrong"
