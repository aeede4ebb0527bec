# bench/RESULTS.md: what bench/run has measured, as a page, and whether the page that stands is still that. Sourced by it.

# table HEAD PARTS COLUMNS: of `$work/rows`, with HEAD as the cells of its first line. A row of each part is put where its label says: those that
# end with `, n = 24` are one line, with a cell for each of COLUMNS, and any other is in the last of them.
table() {
    awk -F '\t' -v head="$1" -v parts="$2" -v columns="$3" "$grouped"'
        BEGIN { part_count = split(parts, part, " "); column_count = split(columns, column, " ") }
        {
            name = $6
            n = column[column_count]
            if (match(name, /, n = (2|24|96)$/)) {
                n = substr(name, RSTART + 6)
                name = substr(name, 1, RSTART - 1)
            }
            cell[$1, name, n] = grouped($3 / $5) " / " grouped($4 / $5) " = " sprintf("%.2f", $3 / $4)
            if ($1 == part[1]) names[++name_count] = name
        }
        END {
            ruled = head
            gsub(/[^|]+/, "---", ruled)
            printf "| %s |\n|%s|\n", head, ruled
            for (i = 1; i <= name_count; i++) {
                if (names[i] in seen) continue
                seen[names[i]]
                printf "| %s |", names[i]
                for (p = 1; p <= part_count; p++)
                    for (k = 1; k <= column_count; k++) printf " %s |", cell[part[p], names[i], column[k]]
                printf "\n"
            }
        }' "$work/rows"
}

# section TITLE TEXT HEAD PARTS COLUMNS
section() {
    printf '\n## %s\n\n%s\n\n' "$1" "$2"
    table "$3" "$4" "$5"
}

# page: the whole of it
page() {
    cat <<'END'
# What was measured

`bench/run` writes this page, all of it, and nothing here is edited by hand. `bench/run check` measures anew and holds the page to that: the same rows, and
each number within 2 per cent. [`README.md`](README.md) says how it is measured and what each case is, and which kit compiled the programs.

A cell has the instructions of one call, counted by `valgrind`: of what is proved, of what stands beside it, and the first divided by the second. Times
differ from run to run; `bench/run` prints them, and they are not here.
END
    section 'A step within Rattle' 'The step by value; beside it the twin, which is set into the loop, or called, as the step is.' \
        'case | inlined: n = 2 | n = 24 | n = 96 | called: n = 2 | n = 24 | n = 96' 'inlined called' '2 24 96'
    section 'A step through the C library' 'The step on lent numbers; beside it the twin, called.' 'case | n = 2 | n = 24 | n = 96' library '2 24 96'
    section 'A recorded step' 'The recorded step on lent numbers, and by value; beside each the recorded step of the reference.' \
        'case | through the C library: n = 2 | n = 24 | n = 96 | within Rattle: n = 2 | n = 24 | n = 96' 'recorded recorded_within' '2 24 96'
    section 'A recorded step after long waits' 'The same through the C library, where the waits so far are past half the clock; beside it the reference.' \
        'case | n = 2 | n = 24 | n = 96' recorded_apart '2 24 96'
    section 'A recorded step that tells a board' 'The same through the C library, with a board that keeps 100 entries; beside it the reference.' \
        'case | n = 2 | n = 96' told '2 96'
    section 'A step of the second engine' 'The step on lent numbers, and by value, inlined; beside each the same step of the first engine.' \
        'case | through the C library: n = 2 | n = 24 | n = 96 | within Rattle: n = 2 | n = 24 | n = 96' 'deadlines deadlines_within' '2 24 96'
    section 'A board' 'A call on a board through the C library; beside it the board of the reference.' 'case | proved / reference' board only
    section 'A notebook' 'A comparison through the C library; beside it the comparison of the reference.' 'case | proved / reference' notebook only
    section 'The programs' 'The whole programs; beside them those of the reference, and at last `spans` beside `replay`.' \
        'recording | `replay` / reference | `spans` / reference | `spans` / `replay`' 'replay spans spans_beside_replay' only
    section 'Calls on a recording' 'Two calls of the C library; beside them `funnelfawn_replay` on the same recording.' \
        'recording | `funnelfawn_spans`, output as long as the recording | `funnelfawn_accepted_acts` of window 1, lists of 8,187 places' \
        'spans_call accepted_acts_call' only
    cat <<'END'

## The goals

The measured number is the largest of all rows that a goal speaks of. A goal that is missed and told leads to the reason, and does not decide.

| goal | bound | measured | verdict |
|---|---|---|---|
END
    cat "$work/goals"
}

# hold PAGE: whether PAGE is the measured one, `$work/page`, but for numbers that differ by 2 per cent or less, as they may where the stack begins at
# another place; a row goes by its section and its first cell
hold() {
    [ -f "$1" ] || { echo "there is no $1; bench/run writes it"; return 1; }
    awk -v page="$1" '
        function is_row(line) { return line ~ /^\|/ }
        function key_of(line,   cells, name) {
            if (!is_row(line)) return line
            split(line, cells, / *\| */)
            name = section ": " cells[2]
            return name " " ++times[FILENAME, name]
        }
        # a ratio is of two counts, and is rounded
        function is_close(old, new, is_ratio,   slack) {
            slack = is_ratio ? 0.04 * old + 0.01 : 0.02 * old
            return new <= old + slack && new >= old - slack
        }
        # whether two cells are equal, or have numbers that nearly are
        function is_near(old, new,   olds, news, count, i) {
            if (old == new) return 1
            if (old !~ numbers || new !~ numbers) return 0
            gsub(/,/, "", old)
            gsub(/,/, "", new)
            count = split(old, olds, / [\/=] /)
            if (split(new, news, / [\/=] /) != count) return 0
            for (i = 1; i <= count; i++) if (!is_close(olds[i], news[i], i == 3)) return 0
            return 1
        }
        function is_at(bound, measured) {
            gsub(/[^0-9.,]/, "", bound)
            return is_near(bound, measured)
        }
        function are_near(old, new,   olds, news, count, i) {
            count = split(old, olds, / *\| */)
            if (split(new, news, / *\| */) != count) return 0
            # whether a goal is met was judged anew, and may come out otherwise where it is nearly at its bound
            if (section == "The goals" && is_at(news[3], news[4])) count--
            for (i = 2; i < count; i++) if (!is_near(olds[i], news[i])) return 0
            return 1
        }
        function stale(text) { printf "stale: %s\n", text; stales++ }
        BEGIN { numbers = "^[0-9][0-9,.]*( / [0-9,]+ = [0-9.]+)?$" }
        FNR == 1 { section = "" }
        /^## / { section = substr($0, 4) }
        { key = key_of($0) }
        FILENAME == page { stood[key] = $0; next }
        {
            is_measured[key]
            rows += is_row($0)
            if (/^\|---/) rows -= 2
            if (!(key in stood)) stale("what is missing: " section ": " $0)
            else if (is_row($0) && !are_near(stood[key], $0)) stale(section ": " stood[key] " is now " $0)
        }
        END {
            for (key in stood) if (!(key in is_measured)) stale("what was not measured: " stood[key])
            if (stales) printf "%s is stale, in %s; bench/run writes it anew\n", page, stales == 1 ? "one line" : stales " lines"
            else printf "ok: %s is what was measured: %d rows, each number within 2 per cent\n", page, rows
            exit stales > 0
        }' "$1" "$work/page"
}

# results [check]: writes the page, or holds it
results() {
    page >"$work/page"
    case ${1-} in
    check) hold bench/RESULTS.md ;;
    *) cp "$work/page" bench/RESULTS.md && echo 'bench/RESULTS.md is written' ;;
    esac
}
