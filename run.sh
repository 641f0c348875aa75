#!/bin/sh
# Builds the program and runs one command of it.
#
#   ./run.sh [COMMAND ORDER ..]            in a minute or two, by the toolchain's build without proofs
#   ./run.sh --proved [COMMAND ORDER ..]   by the build that proves every crate first, which takes most of an hour
#                                          from nothing and seconds after that
#
# ORDER may be a path: the command runs in that file's folder, or, in the build without proofs, on a copy of the files
# there. Without a command it is `run one.json 1` on a scratch copy of the data of crates/flash_top. The status is the
# program's own.
set -eu
top=$(cd "$(dirname "$0")" && pwd)
crate=$top/crates/flash_top
command -v rt >/dev/null || { echo "run.sh: the Rattle toolchain's rt is not on the path" >&2; exit 127; }

proved=no
if [ "${1:-}" = --proved ]; then proved=yes; shift; fi

# The folder of the order file; the words then name the file alone.
if [ $# -eq 0 ]; then
    set -- run one.json 1
    folder=$crate/data
    scratch=yes
else
    scratch=no
    folder=$PWD
    if [ $# -ge 2 ] && [ -f "$2" ]; then
        folder=$(cd "$(dirname "$2")" && pwd)
        verb=$1 order=$(basename "$2")
        shift 2
        set -- "$verb" "$order" "$@"
    fi
fi

# The crates of the repository that the program stands on, each after those that it stands on itself.
crates_below() {
    awk -F: -v top=flash_top '
        /^[a-z]/ { below[$1] = $2 }
        function visit(name, parts, n, i) {
            if (!(name in below) || (name in seen)) return
            seen[name] = 1
            n = split(below[name], parts, " ")
            for (i = 1; i <= n; i++) visit(parts[i])
            print name
        }
        END { visit(top) }' "$top/crates.txt"
}

prove() {
    log=$(mktemp)
    trap 'rm -f "$log"' EXIT
    names=$(crates_below)
    count=$(echo "$names" | wc -l)
    number=0
    for name in $names; do
        number=$((number + 1))
        began=$(date +%s)
        what=lib
        [ "$name" = flash_top ] && what=run
        # `rt run` ends with the status of the program, which gets no words here: that it was built is what counts.
        (cd "$top/crates/$name" && rt "$what" --jobs "$(nproc)") >"$log" 2>&1 || [ "$what" = run ] || {
            cat "$log" >&2
            exit 1
        }
        echo "$number of $count: $name proved, $(($(date +%s) - began)) s" >&2
    done
    [ -x "$crate/out/flash_top" ] || { cat "$log" >&2; exit 1; }
    rm -f "$log"
    trap - EXIT
}

if [ $proved = yes ]; then
    prove
    if [ $scratch = yes ]; then
        copy=$(mktemp -d)
        trap 'rm -rf "$copy"' EXIT
        cp "$folder"/* "$copy"
        folder=$copy
    fi
    status=0
    (cd "$folder" && "$crate/out/flash_top" "$@") || status=$?
    exit $status
fi

echo "run.sh: without proofs (a minute or two); ./run.sh --proved builds the proved program" >&2
words=$#
for file in "$folder"/*; do
    [ -f "$file" ] && set -- "$@" --data "$(basename "$file")=$file"
done
# The flags of `rt try` come first, then the program's words: the words are turned to the end.
while [ "$words" -gt 0 ]; do
    word=$1
    shift
    if [ "${separated:-no}" = no ]; then
        set -- "$@" --
        separated=yes
    fi
    set -- "$@" "$word"
    words=$((words - 1))
done
cd "$crate"
status=0
rt try --seconds 600 "$@" 2>"${log:=$(mktemp)}" || status=$?
# Of the lines that the build writes about itself only an error is of use here.
grep -v '^checked: \|^run=\|^interpreted: ' "$log" >&2 || true
rm -f "$log"
exit $status
