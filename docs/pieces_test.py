#!/usr/bin/env python3
"""Tries docs/pieces.py: each made page below has one thing wrong, and has to be refused for it and for nothing else; the first two are right."""
import sys

import pieces

FENCE = "```"


def block(tag, *lines):
    return "\n".join((FENCE + tag, *lines, FENCE, ""))


HELLO_C = block("c", 'printf("hello\\n");')
HELLO_RUST = block("rust", 'println!("hello");')
HELLO = block("text", "hello")
FRESH = ("static const uint64_t a[] = {5, 5};", "uint64_t table[FUNNELFAWN_TABLE_LENGTH];")
TABLE = "[a recording](../../examples/two-windows.csv)\n\n| line | recording | `replay` prints | what happens |\n|---|---|---|---|\n"
NO_RECORDING = TABLE.replace("(../../examples/two-windows.csv)", "")
REPLAY = "tools/build replay && target/bin/replay < examples/two-windows.csv | sed -n 1p"

# what is wrong; the page; what must be said of it, or None
PAGES = [
    (
        "nothing",
        block("c", *FRESH, "if (funnelfawn_fresh(2, 8, 12, a, 2, table, FUNNELFAWN_TABLE_LENGTH).number != FUNNELFAWN_OK) return 1;")
        + block("rattle", "machine::step(state)") + block("", "neither code nor output") + HELLO_C + HELLO
        + block("rust", "use funnelfawn::{Limits, Table};", "Table::fresh(&Limits::equal(2, 5, 8, 12))?;") + HELLO_RUST + HELLO
        + "\n<!-- input: examples/two-windows.csv -->\n" + block("c", "return getchar() != 'w';")
        + block("sh", "tools/build spans", REPLAY, "cc nowhere.c 2>/dev/null  # ends with 1") + block("text", "line,answer,window,moment"),
        None,
    ),
    (
        "nothing in a table",
        TABLE + "| 1 | `windows,a,b,c` | `line,answer,window,moment` | names |\n| 2 | | | |\n| 4 | `0,1,try` | `4,0,0,0` | \\| |\n",
        None,
    ),
    ("C prints something else", HELLO_C + block("text", "hallo"), "prints something else"),
    ("Rust prints something else", HELLO_RUST + block("text", "hallo"), "prints something else"),
    ("a command prints something else", block("sh", REPLAY) + block("text", "line,answer"), "prints something else"),
    ("C prints, and the page does not say so", HELLO_C, "does not say that it prints"),
    ("so does Rust", HELLO_RUST, "does not say that it prints"),
    ("the output is that of the piece before", HELLO_C + HELLO_C + HELLO, "does not say that it prints"),
    ("C ends with another status", block("c", "return 1;"), "ends with 1, and has to end with 0"),
    ("Rust does", block("rust", 'Err("no")?;'), "ends with 1, and has to end with 0"),
    ("a command does", block("sh", "target/bin/replay < nowhere.csv"), "and has to end with 0"),
    ("a command ends with 0 after all", block("sh", "target/bin/replay < examples/tills.csv # ends with 1"), "and has to end with 1"),
    ("C does not end", block("c", "for (;;) {}"), "ends with nothing within"),
    ("C is not C", block("c", "int x = 1"), "does not compile"),
    ("C that the compiler warns of", block("c", "int unused = 1;"), "does not compile"),
    ("a piece of C leaves something out", block("c", "funnelfawn_new_summary(summary, ...);"), "does not compile"),
    ("Rust is not Rust", block("rust", "let x: u64 = -1;"), "does not compile"),
    ("a call in Rust that is not there", block("rust", "funnelfawn::nothing();"), "does not compile"),
    ("an output without a piece", HELLO, "no piece stands before this output"),
    ("a second output", HELLO_C + HELLO + HELLO, "no piece stands before this output"),
    ("the output of code that is not run", block("rattle", "fn f()") + HELLO, "no piece stands before this output"),
    ("the output of commands that are not run", block("sh", "tools/build replay") + HELLO, "none of the commands is run"),
    ("another language", block("python", "print()"), "is tagged 'python'"),
    ("a block that does not end", FENCE + "\nhello\n", "the block does not end"),
    ("an input that is not there", "<!-- input: examples/nowhere.csv -->\n" + HELLO_C + HELLO, "there is no examples/nowhere.csv"),
    ("a row with another step", TABLE + "| 4 | `0,2,try` | | |\n", "`0,2,try` is not line 4"),
    ("a row with another answer", TABLE + "| 4 | `0,1,try` | `4,0,1,0` | |\n", "`4,0,1,0` is not what `replay` prints"),
    ("a row of a line that is not there", TABLE + "| 99 | `0,1,try` | | |\n", "`0,1,try` is not line 99"),
    ("an answer where none is printed", TABLE + "| 2 | | `2,0,0,0` | |\n", "`2,0,0,0` is not what `replay` prints"),
    ("a table of no recording", NO_RECORDING + "| 4 | `0,1,try` | | |\n", "no recording is linked above"),
]


def shown(*changes):
    """The page that shows a program, with the program changed."""
    text = "".join((pieces.ROOT / pieces.SHOWN).read_text(encoding="utf8").splitlines(keepends=True)[1:])
    for old, new in changes:
        text = text.replace(old, new)
    return block("c", *text.splitlines()) + block("text", *(pieces.ROOT / "clients/c/first.expected").read_text(encoding="utf8").splitlines())


def is_refused(faults, page, reason):
    mine = [fault for fault in faults if fault.startswith(f"{page}:")]
    return not mine if reason is None else len(mine) == 1 and reason in mine[0]


def main():
    tries = [(f"docs/guide/made_{number}.md", *made) for number, made in enumerate(PAGES)]
    tries.append((pieces.SHOWN_ON, "a page shows another program", shown(("a new till", "an old till")), f"is not {pieces.SHOWN}"))
    pieces.SECONDS = 3
    faults, _ = pieces.faults_of({page: text for page, _, text, _ in tries})
    wrong = [f"{what}: not {reason!r}" for page, what, _, reason in tries if not is_refused(faults, page, reason)]
    print("\n".join((*wrong, f"{len(tries)} pages, {len(wrong)} not as they have to be")))
    return 1 if wrong else 0


if __name__ == "__main__":
    sys.exit(main())
