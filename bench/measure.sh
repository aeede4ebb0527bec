# Counting and printing for bench/run, which sources this; `$work` is its folder for notes.

fail() { echo "bench/run: $*" >&2; exit 1; }

# instructions INPUT PROGRAM [CASE]
instructions() {
    input=$1
    shift
    said=$(valgrind --tool=callgrind --callgrind-out-file=/dev/null "$@" 2>&1 >/dev/null <"$input") || fail "valgrind $*: $said"
    count=$(printf '%s\n' "$said" | sed -n 's/.*Collected : *//p')
    case $count in '' | *[!0-9]*) fail "valgrind $*: no count" ;; esac
    echo "$count"
}

# counted PROGRAM CASE: the same without input, and noted, as programs and cases come again
counted() {
    note=$work/$(basename "$1").$2
    [ -f "$note" ] || instructions /dev/null "$1" "$2" >"$note"
    cat "$note"
}

# steps_counted PROGRAM CASE: of all 2,000 steps, less what the program costs without a step
steps_counted() {
    with=$(counted "$1" "$2")
    without=$(counted "$1" 0)
    echo $((with - without))
}

# for the programs of awk below and in bench/results.sh: 1234567 as 1,234,567
grouped='
    function grouped(n,   sign, tail) {
        if (n < 0) { sign = "-"; n = -n }
        for (n = sprintf("%d", n); length(n) > 3; n = substr(n, 1, length(n) - 3)) tail = "," substr(n, length(n) - 2) tail
        return sign n tail
    }'

heading() {
    printf '%-49s %25s %7s %23s\n' '' 'instructions per call' '' 'nanoseconds per call'
    printf '%-49s %12s %12s %7s %11s %11s\n' 'what is proved; what stands beside it' proved beside ratio proved beside
}

# row PART CASE LABEL CALLS COUNT COUNT_BESIDE TIME TIME_BESIDE: the counts are of CALLS calls, the times of one; noted for the goals and for
# bench/RESULTS.md
row() {
    printf '%s\t%s\t%s\t%s\t%s\t%s\n' "$1" "$2" "$5" "$6" "$4" "$3" >>"$work/rows"
    awk -v label="$3" -v calls="$4" -v ours="$5" -v beside="$6" -v time="$7" -v time_beside="$8" "$grouped"'
        BEGIN {
            printf "  %-47s %12s %12s %7.2f %11s %11s\n", label, grouped(ours / calls), grouped(beside / calls), ours / beside,
                grouped(time), grouped(time_beside)
        }'
}
