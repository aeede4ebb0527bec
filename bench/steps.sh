# The rows of bench/run that are made of steps, of calls on a board, or of comparisons of notebooks, by the cases of bench/cases.rs,
# bench/boards.rs and bench/notebooks.rs. Sourced by it.

# idle tables, busy ones, busy ones whose clock moves with each act, with equal values of a and at last with unequal ones, and the single cases
step_cases='11 12 13 21 22 23 31 32 33 41 42 43 51 52 53 61 62 63 73 111 112 113 131 132 133 123 153 83 93 94'
notebook_cases='301 302 303 304 305 306 307 308'

# parts DO: DO NAME PROGRAM PROGRAM_BESIDE TITLE CASE.. for each part of the table
parts() {
    "$1" inlined bin/bench bench/twin 'a step within Rattle, inlined; the twin, inlined' $step_cases
    "$1" called bin/bench_apart bench/twin_apart 'a step within Rattle, called; the twin, called' $step_cases
    "$1" library bench/library bench/twin_apart 'a step through the C library; the twin, called' $step_cases
    "$1" recorded bench/library_recorded bench/reference 'a recorded step through the C library; the reference' $step_cases
    "$1" recorded_apart bench/library_recorded bench/reference \
        'a recorded step through the C library, waits past half the clock; the reference' 141 142 143
    "$1" recorded_within bin/bench_recorded bench/reference 'a recorded step within Rattle; the reference' $step_cases
    "$1" told bench/library_told bench/reference_told 'the same, telling a board that keeps 100 entries; the reference' 101 103
    "$1" deadlines bench/library_deadlines bench/library 'a step of the second engine through the C library; of the first' $step_cases
    "$1" deadlines_within bin/bench_deadlines bin/bench 'a step of the second engine within Rattle, inlined; of the first' $step_cases
    "$1" board bench/board_library bench/board_reference 'a board through the C library; the reference' 201 202 203 204 205 206 207 208
    "$1" notebook bench/notebook_library bench/notebook_reference "a till's notebook through the C library; the reference" $notebook_cases
}

size_of() { case $1 in *1) echo 2 ;; *2) echo 24 ;; *) echo 96 ;; esac; }

label_of() {
    n=$(size_of "$1")
    case $1 in
    1?) echo "accepted, n = $n" ;;
    2?) echo "refused 8, late, n = $n" ;;
    3?) echo "refused 1, the last entry, n = $n" ;;
    4?) echo "busy: accepted, n = $n" ;;
    5?) echo "busy: refused 8, late, n = $n" ;;
    6?) echo "busy: refused 1, the last entry, n = $n" ;;
    7?) echo "busy, in all places: accepted, n = $n" ;;
    8?) echo "refused 9, out of place, n = $n" ;;
    93) echo "refused 1, the first entry, n = $n" ;;
    94) echo 'refused 1, n = 97' ;;
    10?) echo "an accepted crit, n = $n" ;;
    11?) echo "busy, clock moves: accepted, n = $n" ;;
    12?) echo "all places, clock moves: accepted, n = $n" ;;
    13?) echo "busy, clock moves, one sells, n = $n" ;;
    14?) echo "waits past half the clock: accepted, n = $n" ;;
    15?) echo "busy, clock moves, unequal a: accepted, n = $n" ;;
    201) echo 'adding, none kept' ;;
    202) echo 'adding, 100 kept, one expires' ;;
    203) echo 'adding, 1,024 kept, one expires' ;;
    204) echo 'refused 18, 1,024 kept' ;;
    205) echo 'showing, none kept' ;;
    206) echo 'showing, 100 kept' ;;
    207) echo 'showing, 1,024 kept' ;;
    208) echo 'showing, 1,024 kept around the end' ;;
    301) echo 'agrees, no entries' ;;
    302) echo 'agrees, 10 entries' ;;
    303) echo 'agrees, 100 entries' ;;
    304) echo 'agrees, 1,000 entries' ;;
    305) echo 'refused 21, no shift, 1,000 entries' ;;
    306) echo 'refused 20, the last act, 1,000 entries' ;;
    307) echo 'refused 20, the first act, 1,000 entries' ;;
    308) echo 'refused 19, the last moment, 1,000 entries' ;;
    esac
}

# How a part is timed: the steps of a run, and the runs. Many short runs, as a busy machine seldom leaves a long one alone; the
# programs in Rattle make 2,000 steps and no other number. RUNS sets another number of runs.
steps_of() { case $1 in inlined | called | recorded_within | deadlines_within) echo 2000 ;; *) echo 5000 ;; esac; }
runs_of() { case $1 in inlined | called | recorded_within | deadlines_within) echo "${RUNS:-200}" ;; *) echo "${RUNS:-100}" ;; esac; }

# agree, for `parts`: both programs print the same sums, for as many steps as are timed
agree() {
    steps=$(steps_of "$1") ours=target/$2 beside=target/$3
    shift 4
    for case; do
        said=$("$ours" "$case" "$steps")
        said_beside=$("$beside" "$case" "$steps")
        [ -n "$said" ] && [ "$said" = "$said_beside" ] || fail "case $case: $ours says $said, $beside says $said_beside"
    done
}

# rows, for `parts`
rows() {
    part=$1 ours=target/$2 beside=target/$3
    echo "$4"
    shift 4
    for case in 0 "$@"; do
        # both at once; what they count is noted
        counted "$ours" "$case" >/dev/null &
        counted "$beside" "$case" >/dev/null
        wait
    done
    for case; do
        count=$(steps_counted "$ours" "$case")
        count_beside=$(steps_counted "$beside" "$case")
        times=$(step_times "$part" "$case" "$ours" "$beside")
        row "$part" "$case" "$(label_of "$case")" 2000 "$count" "$count_beside" $times
    done
}

# step_times PART CASE PROGRAM PROGRAM_BESIDE: of one step of each, less what the programs take without a step
step_times() {
    steps=$(steps_of "$1")
    times=$(target/bench/timer "$(runs_of "$1")" /dev/null "$3" "$2" "$steps" -- "$3" 0 -- "$4" "$2" "$steps" -- "$4" 0)
    echo $times | awk -v steps="$steps" '{ printf "%.0f %.0f\n", ($1 - $2) / steps, ($3 - $4) / steps }'
}
