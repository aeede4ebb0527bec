# The four recordings on which bench/run measures `replay` and `spans`, the programs and the calls; all but the last have the former shape. Sourced
# by it.
recordings='tries sales withdrawals own_limits'

# the shortest steps there are, 8,187 of them: a try that is accepted, and tries that are out of place
tries() {
    awk 'BEGIN { printf "windows,a,b,c\n96,5,8,12\ntime,window,act\n"; for (i = 0; i < 8187; i++) print "0,1,try" }'
}

# sales_after: on standard input is a head of 96 windows with b = 8; it comes out with steps behind it, in which one window after the other enters
# and leaves, and every step is accepted
sales_after() {
    awk '{ print; size += length($0) + 1 } END {
        split("try test set check crit exit reset rem", act, " ")
        for (t = 0; ; t += 8) {
            text = ""
            for (k = 1; k <= 8; k++) text = text (k < 4 ? t : t + 8) "," t / 8 % 96 + 1 "," act[k] "\n"
            size += length(text)
            if (size > 65536) exit
            printf "%s", text
        }
    }'
}

sales() { printf 'windows,a,b,c\n96,5,8,12\ntime,window,act\n' | sales_after; }

# the same with an a for each window, 5 and 7 in turn, and so with a line for each in the head
own_limits() {
    awk 'BEGIN {
        printf "windows,b,c\n96,8,12\nwindow,a\n"
        for (w = 1; w <= 96; w++) print w "," (w % 2 ? 5 : 7)
        print "time,window,act"
    }' | sales_after
}

# one window tries and withdraws again and again: every step is accepted, and `withdraw` is the longest word and the last
withdrawals() {
    awk 'BEGIN {
        printf "windows,a,b,c\n96,5,8,12\ntime,window,act\n"
        for (size = 40 + 21; size <= 65536; size += 21) printf "0,1,try\n0,1,withdraw\n"
    }'
}

# label_of_recording NAME: with its bytes, and its steps, which are the lines after the head
label_of_recording() {
    awk -v name="$1" "$grouped"'
        { bytes += length($0) + 1; steps += is_step }
        $0 == "time,window,act" { is_step = 1 }
        END { printf "%s: %s bytes, %s steps\n", name, grouped(bytes), grouped(steps) }' "target/bench/$1"
}

# program_rows PROGRAM: the whole program beside the reference's, on each recording
program_rows() {
    ours=target/bin/$1 beside=reference/target/release/$1
    echo "$1, the whole program; the reference"
    for name in $recordings; do
        text=target/bench/$name
        $name >"$text"
        "$ours" <"$text" >"$text.proved"
        "$beside" <"$text" >"$text.beside"
        cmp "$text.proved" "$text.beside" || fail "the recording $text: $ours and $beside differ"
        count=$(instructions "$text" "$ours")
        count_beside=$(instructions "$text" "$beside")
        times=$(target/bench/timer "${RUNS:-100}" "$text" "$ours" -- "$beside")
        row "$1" $name "$(label_of_recording $name)" 1 "$count" "$count_beside" $times
    done
}

# spans_beside_replay: the same steps are run, and fewer lines are put; the counts are those of the rows above
spans_beside_replay() {
    echo 'spans, the whole program; replay, on the same recording'
    for name in $recordings; do
        count=$(awk -v name=$name '$1 == "spans" && $2 == name { print $3 }' "$work/rows")
        count_beside=$(awk -v name=$name '$1 == "replay" && $2 == name { print $3 }' "$work/rows")
        text=target/bench/$name
        times=$(target/bench/timer "${RUNS:-100}" "$text" target/bin/spans -- target/bin/replay)
        row spans_beside_replay $name "$(label_of_recording $name)" 1 "$count" "$count_beside" $times
    done
}

# call_counted CALL: its instructions on the recording `$text`, less what the program costs without a call
call_counted() {
    with=$(instructions "$text" target/bench/recording_library "$1")
    without=$(instructions "$text" target/bench/recording_library none)
    echo $((with - without))
}

# expected_of CALL: how much it puts, of the recording `$text`: the bytes of the program `spans`, or the acts of window 1 that `replay` accepts
expected_of() {
    case $1 in
    spans) target/bin/spans <"$text" | wc -c ;;
    accepted_acts)
        target/bin/replay <"$text" | awk -F, '
            NR == FNR { is_accepted[$1] = $2 == "0"; next }
            is_accepted[FNR] && $2 == "1" { acts++ }
            END { print acts + 0 }' - "$text"
        ;;
    esac
}

# calls_beside_replay CALL TITLE: the steps are run once, as those of a report are; so it is with spans if the output is as long as the recording
calls_beside_replay() {
    echo "$2; replay"
    library=target/bench/recording_library
    for name in tries sales; do
        text=target/bench/$name
        [ "$($library "$1" <"$text")" = "$(expected_of "$1")" ] || fail "the recording $text: $1 of the library puts something else"
        count=$(call_counted "$1")
        count_beside=$(call_counted replay)
        times=$(target/bench/timer "${RUNS:-100}" "$text" $library "$1" -- $library none -- $library replay -- $library none)
        row "${1}_call" $name "$(label_of_recording $name)" 1 "$count" "$count_beside" $(echo $times | awk '{ print $1 - $2, $3 - $4 }')
    done
}
