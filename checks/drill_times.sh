#!/bin/bash
# The drill beside other programs, in one run: `drill 2815` makes and programs 12 units of 1 MiB with 4 workers.
#
# - Its time is set beside the sum of sha256sum over 24 MiB (each byte is digested twice: for the plan and for the check
#   of its segment), objcopy of the 12 MiB from Intel HEX to binary, and a copy of 12 MiB: at most 2 times that.
# - The largest drills are linear in bytes: 12 units (2815) take no more time a byte than 1.5 times 2 units (2805), and
#   12 units of 1 MiB no more than 1.5 times 12 units of 512 KiB (1407).
# - The most memory of each is said.
#
# By the clock, the median of five rounds: the machine has to be quiet. A peer that is missing is skipped.
#
# Usage: checks/drill_times.sh [PATH_OF_flash_top]
set -u
here=$(cd "$(dirname "$0")/.." && pwd)
. "$here/checks/cost.sh"
program=${1:-$here/crates/flash_top/out/flash_top}
[ -x "$program" ] || { echo "skipped: no $program"; exit 0; }
program=$(cd "$(dirname "$program")" && pwd)/$(basename "$program")
for peer in objcopy python3; do
    command -v "$peer" > /dev/null || { echo "skipped: no $peer"; exit 0; }
done
work=$(mktemp -d)
trap 'rm -rf "$work"' EXIT
cd "$work" || exit 1
wrong=0

# drilled N UNITS BYTES BLOCKS: the drill is done, and its first and last line are so
drilled() {
    local printed
    printed=$("$program" drill "$1") || { echo "drill $1 failed: $printed"; exit 1; }
    [ "$(head -1 <<< "$printed")" = "drill $1 units $2 bytes $3 blocks $4" ] \
        && [ "$(tail -1 <<< "$printed")" = "complete $2 of $2" ] || { echo "drill $1 printed $printed"; exit 1; }
}

# memory N: the most memory of a drill, in KiB
memory() {
    python3 - "$program" "$1" <<'P'
import resource, subprocess, sys
subprocess.run([sys.argv[1], "drill", sys.argv[2]], check=True, stdout=subprocess.DEVNULL)
print(resource.getrusage(resource.RUSAGE_CHILDREN).ru_maxrss)
P
}

# within WORDS OURS LIMIT: whether a time is within its limit
within() {
    awk -v o="$2" -v l="$3" -v w="$1" 'BEGIN { printf "%s: %.1f ms, limit %.1f ms\n", w, o, l; exit o > l }' || wrong=1
}

drilled 2815 12 12582912 3084
drilled 1407 12 6291456 1548
drilled 2805 2 2097152 514

# the peers' files: 24 MiB, and the 12 MiB of the drill as one Intel HEX file
python3 - <<'P'
def image(k, n=2815, size=1048576):
    return bytes((i + i // 256 + 31 * k + n) % 256 for i in range(size))
whole = b"".join(image(k) for k in range(12))
open("whole.bin", "wb").write(whole)
open("twice.bin", "wb").write(whole * 2)
P
objcopy -I binary -O ihex whole.bin whole.hex

echo "load: $(cut -d' ' -f1-3 /proc/loadavg)"
largest=() half=() two=() digest=() copy=() copied=()
for _ in 1 2 3 4 5; do
    largest+=("$(clock "$program" drill 2815)")
    half+=("$(clock "$program" drill 1407)")
    two+=("$(clock "$program" drill 2805)")
    digest+=("$(clock sha256sum twice.bin)")
    copy+=("$(clock objcopy -I ihex -O binary whole.hex objcopy.bin)")
    copied+=("$(clock cp whole.bin copy.bin)")
done
echo "drill 2815: ${largest[*]} ms; 1407: ${half[*]} ms; 2805: ${two[*]} ms"
echo "sha256sum: ${digest[*]} ms; objcopy: ${copy[*]} ms; cp: ${copied[*]} ms"
peers=$(($(median "${digest[@]}") + $(median "${copy[@]}") + $(median "${copied[@]}")))
within "drill 2815 beside 2 times the peers" "$(median "${largest[@]}")" $((2 * peers))
within "12 units beside 6 times 2 units, by half as much again" "$(median "${largest[@]}")" \
    "$(awk -v t="$(median "${two[@]}")" 'BEGIN { print 9 * t }')"
within "1 MiB a unit beside twice 512 KiB, by half as much again" "$(median "${largest[@]}")" \
    "$(awk -v t="$(median "${half[@]}")" 'BEGIN { print 3 * t }')"
for n in 2815 1407 2805; do echo "most memory of drill $n: $(memory "$n") KiB"; done
exit "$wrong"
