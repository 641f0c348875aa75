#!/bin/bash
# Record texts beside other programs: srec_cat and srec_cmp (package srecord) and objcopy (binutils).
# - Random images that they write in many record lengths and orders are read to the same bytes.
# - What we write is read by them to the same bytes.
# - A text with one flipped digit is refused by us wherever srec_cat refuses it.
# What wants a program that is missing is skipped.
#
# Usage: checks/records_peers.sh [PATH_OF_bench [FLIPS]]
# The program lies at crates/bench/out/bench after `rt run` in that folder.
set -u
here=$(cd "$(dirname "$0")/.." && pwd)
bench=${1:-$here/crates/bench/out/bench}
flips=${2:-200}
[ -x "$bench" ] || { echo "skipped: no $bench"; exit 0; }
bench=$(cd "$(dirname "$bench")" && pwd)/$(basename "$bench")
work=$(mktemp -d)
trap 'rm -rf "$work"' EXIT
cd "$work" || exit 1
checked=0
failed=0
has_objcopy=$(command -v objcopy || true)
has_srec=$(command -v srec_cat || true)
[ -n "$has_objcopy" ] || echo "skipped: no objcopy"
[ -n "$has_srec" ] || echo "skipped: no srec_cat"

fail() {
    echo "DIFFERS: $1"
    failed=$((failed + 1))
}

# read_back IMAGE NAME: objcopy reads both texts that we wrote to the bytes of the image
read_back() {
    [ -n "$has_objcopy" ] || return 0
    objcopy -I ihex -O binary out.hex back.bin && cmp -s "$1" back.bin || fail "$2, our Intel HEX read by objcopy"
    objcopy -I srec -O binary out.srec back.bin && cmp -s "$1" back.bin || fail "$2, our S-records read by objcopy"
}

# same_map TEXT FORMAT NAME: srec_cmp finds the bytes and addresses of the text in both that we wrote
same_map() {
    [ -n "$has_srec" ] || return 0
    srec_cmp "$1" "-$2" out.hex -intel 2> told || fail "$3, our Intel HEX read by srec_cmp"
    srec_cmp "$1" "-$2" out.srec -motorola 2> told || fail "$3, our S-records read by srec_cmp"
}

# one IMAGE TEXT FORMAT NAME: an image without gaps
one() {
    checked=$((checked + 1))
    rm -f out.bin out.hex out.srec
    "$bench" records binary "$2" > said || fail "$4, status"
    cmp -s "$1" out.bin || fail "$4, read ($(cat said))"
    "$bench" records texts "$2" > said
    read_back "$1" "$4"
    same_map "$2" "$3" "$4"
}

# gaps TEXT FORMAT NAME: a text whose image has gaps
gaps() {
    checked=$((checked + 1))
    rm -f out.hex out.srec
    "$bench" records texts "$1" > said
    same_map "$1" "$2" "$3"
}

# shuffled TEXT: the same S-records with the data in any order
shuffled() {
    grep '^S0' "$1"
    grep '^S[123]' "$1" | shuf
    grep '^S[56789]' "$1"
}

# backwards TEXT: the same Intel HEX of less than 64 KiB with the data in descending order
backwards() {
    grep '^:......0[24]' "$1"
    grep '^:......00' "$1" | tac
    grep '^:......01' "$1"
}

by_objcopy() {
    [ -n "$has_objcopy" ] || return 0
    objcopy -I binary -O ihex --change-section-address .data=0x10000 image.bin peer.hex
    one image.bin peer.hex intel "Intel HEX of objcopy, $1 bytes"
    tr -d '\r' < peer.hex > feeds.hex
    one image.bin feeds.hex intel "Intel HEX of objcopy without CR, $1 bytes"
    tr A-F a-f < peer.hex > lower.hex
    one image.bin lower.hex intel "Intel HEX of objcopy in lower case, $1 bytes"
    for length in 8 16 33 255; do
        objcopy -I binary -O srec --srec-forceS3 --srec-len="$length" image.bin peer.srec
        one image.bin peer.srec motorola "S-records of objcopy, $1 bytes, length $length"
    done
}

by_srec_cat() {
    [ -n "$has_srec" ] || return 0
    for length in 1 7 16 32 250; do
        [ "$1" -gt 20000 ] && [ "$length" -lt 7 ] && continue
        for width in 2 3 4; do
            [ "$1" -gt 65536 ] && [ "$width" = 2 ] && continue
            srec_cat image.bin -binary -o peer.hex -intel -obs="$length" -address-length="$width" -execution-start-address=0
            one image.bin peer.hex intel "Intel HEX of srec_cat, $1 bytes, length $length, width $width"
            srec_cat image.bin -binary -o peer.srec -motorola -obs="$length" -address-length="$width" -execution-start-address=0
            one image.bin peer.srec motorola "S-records of srec_cat, $1 bytes, length $length, width $width"
            shuffled peer.srec > order.srec
            one image.bin order.srec motorola "S-records in any order, $1 bytes, length $length, width $width"
        done
        [ "$1" -le 65536 ] || continue
        srec_cat image.bin -binary -o peer.hex -intel -obs="$length" -address-length=4
        backwards peer.hex > order.hex
        one image.bin order.hex intel "Intel HEX backwards, $1 bytes, length $length"
    done
}

with_gaps() {
    [ -n "$has_srec" ] || return 0
    for round in 1 2 3 4; do
        from=$((RANDOM % 60000))
        for format in intel motorola; do
            rm -f gaps.txt
            srec_cat image.bin -binary -offset 0x7FFE0000 -exclude $((0x7FFE0000 + from)) $((0x7FFE0000 + from + 1 + RANDOM)) \
                -exclude 0x7FFEFFF0 0x7FFF0008 -o gaps.txt -$format -obs=$((1 + RANDOM % 60)) -execution-start-address=0
            gaps gaps.txt $format "$format with gaps, round $round"
        done
    done
}

# flip TEXT: changes one digit of a random line
flip() {
    awk -v seed="$RANDOM$RANDOM" '
        { line[NR] = $0 }
        END {
            srand(seed)
            digits = "0123456789ABCDEF"
            n = 1 + int(rand() * NR)
            k = 2 + int(rand() * (length(line[n]) - 1))
            old = substr(line[n], k, 1)
            do { new = substr(digits, 1 + int(rand() * 16), 1) } while (new == old)
            line[n] = substr(line[n], 1, k - 1) new substr(line[n], k + 1)
            for (i = 1; i <= NR; i++) print line[i]
        }' "$1"
}

flipped() {
    [ -n "$has_srec" ] || return 0
    head -c 700 /dev/urandom > image.bin
    refused=0
    by_us=0
    for i in $(seq "$flips"); do
        for format in intel motorola; do
            srec_cat image.bin -binary -offset 0x1FF00 -o peer.txt -$format -obs=$((1 + i % 40)) -execution-start-address=0
            flip peer.txt > flipped.txt
            "$bench" records binary flipped.txt > said
            checked=$((checked + 1))
            ours=no
            grep -q '^refused' said && ours=yes && by_us=$((by_us + 1))
            srec_cat flipped.txt -$format -o back.txt -motorola > told 2>&1 && continue
            refused=$((refused + 1))
            [ "$ours" = yes ] || fail "a flipped digit in $format that srec_cat refuses: $(tail -n 1 told)"
        done
    done
    echo "flipped digits: $((2 * flips)) texts, srec_cat refused $refused, we refused $by_us"
}

for size in 1 15 16 17 4096 65535 65536 65537 300000; do
    head -c "$size" /dev/urandom > image.bin
    by_objcopy "$size"
    by_srec_cat "$size"
done
head -c 131072 /dev/urandom > image.bin
with_gaps
flipped
echo "texts checked: $checked, differences: $failed"
[ "$failed" = 0 ]
