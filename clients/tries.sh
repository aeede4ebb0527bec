# What try_replay and try_spans have in common, which is all but the name of the program and the ending of what the corpus has stored of it.
# Each sets `name` and `ending` and sources this, which makes the runs, tells of each that differs, and has the exit status at its end.
[ $# -ge 1 ] && [ $# -le 2 ] || { echo "usage: try_$name DIRECTORY [PROVED]" >&2; exit 2; }
directory=$1 proved=$2 corpus=reference/corpus

# stored RECORDING: the file with what the program prints for the recording of that name in the corpus; a faulty one has its report alone
stored() {
    if [ -e "$corpus/$1.$ending" ]; then echo "$corpus/$1.$ending"; else echo "$corpus/$1.out"; fi
}

# ends_with RECORDING: the status, 1 where the stored report tells a fault of the recording, by a number that no step is answered with
ends_with() { awk -F, 'NR == 2 && $2 > 10 { fault = 1 } END { print fault + 0 }' "$corpus/$1.out"; }

recording=examples/two-windows.csv long=$corpus/length-65536.in
printed=$(stored whole-case) printed_long=$(stored length-65536) printed_too_long=$(stored length-65537)
export directory program recording long

runs=0 differ=0
# due STATUS OUTPUT MESSAGE COMMAND: the shell command ends soon, with this status; it prints what the file OUTPUT has, and on standard
# error something exactly if MESSAGE is `told` and not `quiet`
due() {
    runs=$((runs + 1))
    timeout 20 sh -c "$4" >"$directory/said" 2>"$directory/told"
    status=$? message=quiet
    [ ! -s "$directory/told" ] || message=told
    if [ "$status $message" = "$1 $3" ] && cmp -s "$2" "$directory/said"; then return; fi
    differ=$((differ + 1))
    echo "$program: $4"
    echo "  $1 and $3 are due, and the output of $2: exit status $status, $message: $(cmp "$2" "$directory/said" 2>&1)"
    cat "$directory/told"
}

# both FAULTY FAILED STACK: what the program in C and the proved one are to do alike, but for the status with which each ends where a
# recording is faulty and where a read or a write fails, and the KiB of stack on which it runs
both() {
    due 0 "$printed" quiet '$program <$recording'
    due 0 "$printed" quiet '{ dd bs=7 count=1; sleep 0.1; dd bs=50 count=1; sleep 0.1; cat; } <$recording 2>/dev/null | $program'
    due 0 "$printed_long" quiet "ulimit -s $3; env -i \$program <\$long"
    # an input without end
    due "$1" "$printed_too_long" quiet '$program </dev/zero'
    due "$1" "$printed_too_long" quiet 'yes 2>/dev/null | $program'
    # what cannot be read, and what cannot be written
    due "$2" /dev/null told '$program <.'
    due "$2" /dev/null told '$program <&-'
    due "$2" /dev/null told '$program <$recording >&-'
    due "$2" /dev/null told '$program <$recording >/dev/full'
}

program=$directory/$name
for each in "$corpus"/*.in; do
    each=$(basename "$each" .in)
    due "$(ends_with "$each")" "$(stored "$each")" quiet "\$program <$corpus/$each.in"
done
both 1 2 256
# nowhere to tell why
due 0 "$printed" quiet '$program <$recording 2>&-'
due 2 /dev/null quiet '$program <&- 2>&-'
due 2 /dev/null quiet '$program <&- >&- 2>&-'
due 2 /dev/null quiet '$program <$recording >&- 2>&-'
due 2 /dev/null quiet '$program <$recording >/dev/full 2>&-'
# a report that cannot be written, and a text of which a part can
due 2 /dev/null told '$program </dev/null >/dev/full'
due 2 /dev/null told 'ulimit -f 1; $program <$long >$directory/part'
# a reader that has gone before it is written; or, of more than a pipe holds, on the way
rm -f "$directory/gone"
due 2 /dev/null told '{ until [ -e $directory/gone ]; do sleep 0.01; done; $program <$recording; echo $? >$directory/status; } |
    { exec <&-; : >$directory/gone; }; exit $(cat $directory/status)'
[ "$(wc -c <"$printed_long")" -le 65536 ] ||
    due 2 /dev/null told '{ $program <$long; echo $? >$directory/status; } | true; exit $(cat $directory/status)'

program=$directory/$name.faults
due 0 "$printed_long" quiet '$program <$long'
due 1 "$printed_too_long" quiet '$program </dev/zero'
due 2 /dev/null told 'FAULT=read $program <$long'
due 2 /dev/null told 'FAULT=write $program <$long'
due 2 "$printed_long" told 'FAULT=close $program <$long'

beside=
if [ -n "$proved" ]; then
    beside=" and the proved one" program=$proved
    # it always ends with 0
    both 0 0 1024
fi
echo "the program $name in C$beside: $runs runs, $differ differ"
[ "$differ" -eq 0 ]
