#!/usr/bin/env python3
"""Tries docs/pages.py: each page and each edit below is made in memory, and has to be refused for its own reason; and one page to be accepted."""
import sys

import pages
from pages import HEADER, Repository

FENCE = "```"
LONG = "word " * 32 + "w"
MADE = "docs/guide/made.md"

# what is wrong; a page that comes to the others as docs/guide/made.md; what must be said of it
REFUSED = [
    # links
    ("a link to a file that is not there", "[x](nowhere.md)", "(nowhere.md) leads nowhere"),
    ("one with other letters", "[x](../specification.md)", "(../specification.md) leads nowhere"),
    ("one from the wrong folder", "[x](docs/SPECIFICATION.md)", "(docs/SPECIFICATION.md) leads nowhere"),
    ("one out of the repository", "[x](../../../README.md)", "leads nowhere"),
    ("one to what is not kept", "[x](../../target/bin/replay)", "leads nowhere"),
    ("one from the root", "[x](/README.md)", "is not relative"),
    ("one without a target", "[x]()", "is empty"),
    ("one with code for its text", "[`x`](nowhere.md)", "(nowhere.md) leads nowhere"),
    ("one over two lines", "[x\ny](nowhere.md)", f"{MADE}:2: the link (nowhere.md)"),
    ("one in a table", "| a |\n|---|\n| [x](nowhere.md) |", f"{MADE}:3: the link (nowhere.md)"),
    ("one around an image", "[![x](../timeline.svg)](nowhere.md)", "(nowhere.md) leads nowhere"),
    ("one by a definition", "[x][there]\n\n[there]: nowhere.md", "(nowhere.md) leads nowhere"),
    ("one by no definition", "[x][there]", "the label [there] of a link is not defined"),
    ("one in HTML", '<a href="nowhere.md">x</a>', "(nowhere.md) leads nowhere"),
    ("an image that is not there", "![x](nowhere.svg)", "(nowhere.svg) leads nowhere"),
    # anchors
    ("an anchor that another page does not have", "[x](../SPECIFICATION.md#nowhere)", "SPECIFICATION.md has no heading"),
    ("one that this page does not have", "# Here\n\n[x](#there)", f"{MADE} has no heading"),
    ("one of a heading within code", f"{FENCE}sh\n# Here\n{FENCE}\n\n[x](#here)", f"{MADE} has no heading"),
    ("a third heading where there are two", "# Here\n\n# Here\n\n[x](#here-2)", f"{MADE} has no heading"),
    ("one of no heading, but a mark within a line", "as # Here\n\n[x](#here)", f"{MADE} has no heading"),
    ("an anchor with capitals", "# Here\n\n[x](#Here)", f"{MADE} has no heading"),
    ("an anchor of no page", "[x](../../LICENSE#here)", "leads to no page"),
    # lines, blocks and sizes
    ("a line that is too long", f"short\n{LONG}", f"{MADE}:2: has 161 columns"),
    ("one in a list", f"- {LONG}", "has 163 columns"),
    ("one in a block of code", f"{FENCE}c\n{LONG}\n{FENCE}", "has 161 columns"),
    ("a block that does not end", f"{FENCE}c\nreturn 0;", f"{MADE}:1: the fenced block does not end"),
    ("a page that is too large", "short\n" * 5000, f"{MADE}: has 30,000 bytes"),
    # counts
    ("another count of calls, in words", "It is a library of eleven calls.", "calls: says 11, and it is"),
    ("one in digits", "It is a library of 11 calls.", "calls: says 11, and it is"),
    ("one over two lines", "the proofs end at the twenty-nine\nfunctions of the header", f"{MADE}:1: calls: says 29, and it is"),
    ("one in a comment", "```c\n/* all eleven\n *   calls */\n```", "calls: says 11, and it is"),
    ("one in bold type", "all **twelve** functions", "calls: says 12, and it is"),
    ("another count of acts", "There are nine acts.", "acts: says 9, and it is"),
    ("one of answers", "the twenty-one answers", "answers: says 21, and it is"),
    ("another last answer", "answers 0 to 20", "last answer: says 20, and it is"),
    ("another layout", "The layout is 2.", "layout: says 2, and it is"),
    ("another length, in digits with a comma", "A board is 3,075 numbers", "board: says 3,075, and it is"),
    ("one in a table of them", "| list | numbers |\n|---|---|\n| deadline table | 293 |", "deadline table: says 293, and it is"),
    ("one that no list has", "keep all 294 numbers", "lists: says 294, and it is"),
    ("another count of recordings", "the 275 readable recordings", "readable recordings: says 275, and it is"),
]

# a page on which nothing is wrong, with holes for the counts
ACCEPTED = """# The `first_page`: *of* "two", or [three](../SPECIFICATION.md)!

## Here

## Here

Underlined
---

<a id="named"></a> [a](#the-first_page-of-two-or-three) [b](#here) [c](#here-1) [d](#underlined) [e](#named)
[f](../../README.md) [g](../guide) [h](../..) [i](https://example.org/nowhere#there)
[j](<../SPECIFICATION.md> "a title") [k][l] [8.78][8.80] ![m](../timeline.svg) <mailto:nobody@example.org>

[l]: ../SPECIFICATION.md#5-summary

`[x](nowhere.md)` and ``[x`](nowhere.md)`` <!-- [x](nowhere.md) --> are no links, nor is

```sh
[x](nowhere.md)
```

| LONG |
|---|

```text
LONG
```

A library of {calls} calls, {acts} acts and {answers} answers; two calls of it, its first four acts, the 20 acts that a box accepted.
The layout is {layout}. A table is {table} numbers, a board is {board:,} numbers, and once a table had 198 numbers.
""".replace("LONG", LONG)

ACT, ANSWER = "enum funnelfawn_act {\n", "enum funnelfawn_number {\n"
LAYOUT, WORD, PLACES = "FUNNELFAWN_LAYOUT = ", "    FUNNELFAWN_AT_WORD,\n", "FUNNELFAWN_BOARD_PLACES = "
CALL = "uint64_t funnelfawn_layout(void);\n"

# what is edited; the file, what stands there and what is put in its place; what must be said of a page that had been right
EDITS = [
    ("the header gets a call", (HEADER, CALL, CALL + "uint64_t funnelfawn_more(void);\n"), "calls: says"),
    ("it gets an act", (HEADER, ACT, ACT + "    FUNNELFAWN_ACT_MORE,\n"), "acts: says"),
    ("it gets an answer", (HEADER, ANSWER, ANSWER + "    FUNNELFAWN_MORE = 99,\n"), "answers: says"),
    ("it gets another layout", (HEADER, LAYOUT, LAYOUT + "1 + "), "layout: says"),
    ("a table gets longer", (HEADER, WORD, WORD + "    FUNNELFAWN_AT_MORE,\n"), "table: says"),
    ("a board gets places", (HEADER, PLACES, PLACES + "1 + "), "board: says"),
    ("a stored call comes", ("reference/vectors/fresh.txt", "\n", "\n0\n"), "stored calls of reference/vectors/fresh.txt: says"),
    ("README.md gets too large", ("README.md", "\n", "\n" + "word\n" * 3000), "and may have 14,336"),
]

# what goes; what must be said
GONE = [
    ("README.md", "README.md: is not there"),
    ("docs/timeline.svg", "there is no docs/timeline.svg"),
    ("reference/vectors/fresh.txt", "stored calls of reference/vectors/fresh.txt: says"),
]


def with_page(repository, text):
    return Repository({**repository.files, MADE: text}, repository.paths | {MADE})


def edited(repository, edit):
    path, old, new = edit
    if old not in repository.files[path]:
        sys.exit(f"{path} does not have {old!r}: edit docs/pages_test.py too")
    return Repository({**repository.files, path: repository.files[path].replace(old, new, 1)}, repository.paths)


def without(repository, path):
    return Repository({other: text for other, text in repository.files.items() if other != path}, repository.paths - {path})


def accepted(repository):
    """The page on which nothing is wrong; small counts in words."""
    counts = {name: min(values) for name, values in pages.counts_of(repository).items()}
    words = {number: word for word, number in pages.WORDS.items() if number < 100}
    return ACCEPTED.format(**{name: words[count] if name in ("calls", "acts", "answers") else count for name, count in counts.items()})


def tries_of(repository):
    """What is tried, the repository, and what must be said of it."""
    for what, text, reason in REFUSED:
        yield what, with_page(repository, text), reason
    for what, edit, reason in EDITS:
        yield what, edited(with_page(repository, accepted(repository)), edit), reason
    for path, reason in GONE:
        yield f"{path} goes", without(repository, path), reason


def main():
    repository = pages.read_repository()
    before = set(pages.faults_of(repository))
    tries = list(tries_of(repository))
    wrong = []
    for what, changed, reason in tries:
        if not any(reason in fault for fault in set(pages.faults_of(changed)) - before):
            wrong.append(f"{what}: nothing says {reason!r}")
    for fault in set(pages.faults_of(with_page(repository, accepted(repository)))) - before:
        wrong.append(f"refused, though nothing is wrong: {fault}")
    print("\n".join((*wrong, f"{len(tries)} edits, {len(wrong)} not refused")))
    return 1 if wrong else 0


if __name__ == "__main__":
    sys.exit(main())
