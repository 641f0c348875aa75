# For the scripts beside it that measure: sourced, not run.

# cost COMMAND..: thousandths of a second of processor time (user and system)
cost() {
    local TIMEFORMAT='%U %S'
    { time "$@" > /dev/null 2>&1; } 2>&1 | awk '{ printf "%d\n", ($1 + $2) * 1000 }'
}

# least SO_FAR NEW: the smaller of two times, where 0 is none yet
least() {
    [ "$1" = 0 ] || [ "$2" -lt "$1" ] && echo "$2" || echo "$1"
}

# clock COMMAND..: thousandths of a second by the clock
clock() {
    local TIMEFORMAT='%R'
    { time "$@" > /dev/null 2>&1; } 2>&1 | awk '{ printf "%d\n", $1 * 1000 }'
}

# median NUMBER..: the middle one of an odd number of them
median() {
    printf '%s\n' "$@" | sort -n | sed -n "$((($# + 1) / 2))p"
}
