#!/usr/bin/env python3
"""Tries docs/traceability.py: each edit below is made to the repository's files in memory, and has to be refused for its own reason."""
import sys

import traceability
from traceability import CLAUSES, SPECIFICATION

PROPERTIES = "docs/PROPERTIES.md"
ANSWERS = "crates/model/specs/Answers.antt"
WHOLES = "crates/grammar/specs/Wholes.antt"
STEP = "crates/machine/src/lib.rt"
TYPES = "crates/model/src/lib.rt"
CASES = "crates/run_cases/src/rows.rt"
PUTS = "crates/text/specs/Puts.antt"
PASSES = "crates/trace/specs/Passes.antt"
PRELUDE = "use Rattle.std.specs.Prelude."
NEW = "\n- [2.55] **New.**\n- [2.60] "
STALE = "the page is not the one"

# what is wrong; the edits, each a file, what stands there and what is put in its place (of None, the file is gone); what must be said of it
EDITS = [
    # clauses
    ("a clause gets another number, its citations do not", [(SPECIFICATION, "- [8.80] ", "- [8.81] ")], "[8.80] is no clause"),
    ("a clause's text is edited, and nothing else", [(SPECIFICATION, "more than 2c + 5a past", "more than 2c + 4a past")], STALE),
    ("a line of the whole case is joined to the next", [(SPECIFICATION, "  2,5,8,12\n", "  2,5,8,12 ")], STALE),
    ("the columns of a table are exchanged", [(SPECIFICATION, "| process | time |", "| time | process |")], STALE),
    ("a note is edited", [(SPECIFICATION, "number of microseconds", "number of milliseconds")], STALE),
    ("two clauses have one number", [(SPECIFICATION, "\n- [2.30] ", "\n- [2.20] ")], "[2.20] stands twice"),
    ("a clause's number falls", [(SPECIFICATION, "\n- [2.30] ", "\n- [2.15] ")], "[2.15] stands after [2.20]"),
    ("a clause stands in another section", [(SPECIFICATION, "\n- [2.130] ", "\n- [3.130] ")], "[3.130] stands in section 2."),
    ("a clause has no number", [(SPECIFICATION, "\n- [2.60] ", "\n- **New.**\n- [2.60] ")], "has a line without a number"),
    (
        "a section does not say what it renders",
        [(SPECIFICATION, "Renders *The running", "As *The running")],
        "section 5. Summary does not say",
    ),
    # citations
    ("a clause comes without a citation", [(SPECIFICATION, "\n- [2.60] ", NEW)], "[2.55] stands above no"),
    (
        "it is cited inside a function only",
        [
            (SPECIFICATION, "\n- [2.60] ", NEW),
            (STEP, "    let slot = slot_of", "    // [2.55]\n    let slot = slot_of"),
        ],
        "[2.55] stands above no",
    ),
    (
        "it is cited above a constant only",
        [
            (SPECIFICATION, "\n- [2.60] ", NEW),
            ("crates/text/src/words.rt", "// [3.40]", "// [2.55]"),
        ],
        "[2.55] stands above no",
    ),
    ("a clause's only citation goes", [(WHOLES, "-- [7.80]", "--")], "[7.80] stands above no"),
    (
        "a citation does not stand directly above",
        [(WHOLES, "\nabbrev pub EmptyCase", "\n\nabbrev pub EmptyCase")],
        "[7.80] stands above no",
    ),
    ("a citation is of no clause", [(ANSWERS, "-- [4.4]\n", "-- [4.44]\n")], "[4.44] is no clause"),
    ("a document cites no clause", [(PROPERTIES, "round-trip | [6.200]", "round-trip | [6.201]")], "docs/PROPERTIES.md:"),
    ("two clauses in one citation", [(ANSWERS, "-- [4.4]\n", "-- [4.4, 4.5]\n")], "is no citation"),
    # definitions and contracts
    ("a definition neither cites nor is a helper", [(ANSWERS, "-- [4.4]\n", "-- back in time\n")], "backward cites no clause"),
    ("so does an indented one", [(ANSWERS, "-- [4.4]\n", "  abbrev pub inner : ℕ\n-- [4.4]\n")], "inner cites no clause"),
    (
        "a public contract rests on what is for the proofs only",
        [(PUTS, "Assumes nothing.", "For the proofs only.")],
        "Put of its contract is for the proofs only",
    ),
    (
        "so does a file that a customer reads",
        [
            (PASSES, PRELUDE, f"use Rattle.layout.specs.Steps.{{survey_in}}\n{PRELUDE}"),
            (PASSES, "For the proofs only.", ""),
        ],
        "survey_in is for the proofs only",
    ),
    (
        "a public function asks for something",
        [(STEP, "    ensures { result ≡ fresh_of", "    requires { 1 ≤ n }\n    ensures { result ≡ fresh_of")],
        "fresh is public and has a requires",
    ),
    (
        "it does so on the line of its signature",
        [(STEP, "fresh(parameters: Parameters) -> Outcome<Arrivals>\n", "fresh(parameters: Parameters) -> Outcome<Arrivals> requires { 1 ≤ n }\n")],
        "fresh is public and has a requires",
    ),
    (
        "a method does",
        [(TYPES, "        ensures { result ≡ code_of self", "        requires { 1 ≤ n }\n        ensures { result ≡ code_of self")],
        "Refusal::code is public and has a requires",
    ),
    ("a row of the table of cases loses its clause", [(CASES, "    // [20.90]\n", "")], "[20.90] stands above no"),
    # CLAUSES
    ("its page lacks a heading", [(CLAUSES, "## 3. Actions", "")], STALE),
    ("its opening is edited by hand", [(CLAUSES, "Look up, do not read", "Read")], STALE),
    ("there is no page", [(CLAUSES, None, None)], STALE),
]


def edited(files, edits):
    files = dict(files)
    for path, old, new in edits:
        if old is None:
            del files[path]
            continue
        if files[path].count(old) != 1:
            sys.exit(f"{path} has {files[path].count(old)} times {old!r}: edit docs/traceability_test.py too")
        files[path] = files[path].replace(old, new)
    return files


def main():
    files = traceability.read_files()
    wrong = 0
    for what, edits, reason in EDITS:
        faults = traceability.faults_of(traceability.repository_of(edited(files, edits)))
        if not any(reason in fault for fault in faults):
            print(f"{what}: nothing says {reason!r}")
            wrong += 1
    print(f"{len(EDITS)} edits, {wrong} not refused")
    return 1 if wrong else 0


if __name__ == "__main__":
    sys.exit(main())
