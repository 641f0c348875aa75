#!/bin/bash
# The time that a text of a 16 MiB image takes to be read and its bytes to be written to a file: `bench records`,
# objcopy (binutils) and srec_cat (package srecord) one after another on the same file, five rounds, the best of
# each. Processor time (user and system), so that other work on the machine counts less. A peer that is missing is
# skipped. Then the most memory that reading takes.
#
# Usage: checks/records_times.sh [PATH_OF_bench]
set -u
here=$(cd "$(dirname "$0")/.." && pwd)
. "$here/checks/cost.sh"
bench=${1:-$here/crates/bench/out/bench}
[ -x "$bench" ] || { echo "skipped: no $bench"; exit 0; }
bench=$(cd "$(dirname "$bench")" && pwd)/$(basename "$bench")
work=$(mktemp -d)
trap 'rm -rf "$work"' EXIT
cd "$work" || exit 1
"$bench" records make

compare() {
    local ours=0 copy=0 cat=0
    for _ in 1 2 3 4 5; do
        ours=$(least "$ours" "$(cost "$bench" records binary "$1")")
        command -v objcopy > /dev/null && copy=$(least "$copy" "$(cost objcopy -I "$2" -O binary "$1" copy.bin)")
        command -v srec_cat > /dev/null && cat=$(least "$cat" "$(cost srec_cat "$1" "-$3" -o cat.bin -binary)")
    done
    echo "$1 ($(stat -c %s "$1") bytes of text): ours $ours ms, objcopy $copy ms, srec_cat $cat ms"
    awk -v o="$ours" -v c="$copy" -v s="$cat" 'BEGIN { printf "  objcopy/ours %.2f, srec_cat/ours %.2f\n", c / o, s / o }'
    for other in copy.bin cat.bin; do
        [ ! -e "$other" ] || cmp -s out.bin "$other" || echo "  DIFFERS from $other"
    done
}

compare image.hex ihex intel
compare image.srec srec motorola
"$bench" records time
if [ -x /usr/bin/time ]; then
    /usr/bin/time -f "most memory: %M KiB" "$bench" records binary image.hex
else
    python3 - "$bench" <<'P'
import resource, subprocess, sys
subprocess.run([sys.argv[1], "records", "binary", "image.hex"], check=True)
print("most memory:", resource.getrusage(resource.RUSAGE_CHILDREN).ru_maxrss, "KiB")
P
fi
