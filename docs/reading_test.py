#!/usr/bin/env python3
"""Tries docs/reading.py: each edit below is made to the repository's files in memory, and has to be refused for its own reason, or to be let pass."""
import sys

import reading
from reading import REVIEW

CHAINS = "crates/history/specs/Chains.antt"
FACTS = "crates/model/specs/Facts.antt"
TYPES = "crates/model/src/lib.rt"
STEP = "crates/machine/src/lib.rt"
PROOF = "crates/history/proofs/Chain.antt"
ENTERS = "use Rattle.model.specs.Acts.{wait_act}\n"
ANSWERS = "ghost use Rattle.model.specs.Answers.{fresh_of, step_of};"
STALE = "**the three demands**, of the lock"

# what is edited; the file, what stands there and what is put in its place; what must be said of it, or None
EDITS = [
    ("a figure is of another day", REVIEW, "the rows above | 2", "the rows above | 1", STALE),
    ("a file that is read has a line more", FACTS, "-- [2.80]", "-- and so on\n-- [2.80]", STALE),
    ("a statement uses one file more", CHAINS, ENTERS, f"use Rattle.model.specs.Readings.{{read_of}}\n{ENTERS}", STALE),
    ("a type that is read has a field more", TYPES, "    pub clock: u64,", "    pub clock: u64,\n    pub more: u64,", STALE),
    ("a type comes to hold another", TYPES, "    pub clock: u64,", "    pub clock: Found,", STALE),
    ("a contract has a line more", STEP, "    ensures { result ≡ step_of", "    ensures {\n        result ≡ step_of", STALE),
    ("a contract rests on another file", STEP, ANSWERS, f"{ANSWERS}\nghost use Rattle.model.specs.Reports.{{step_of}};", STALE),
    ("a body has a line more", STEP, "    let slot = slot_of", "    // its place\n    let slot = slot_of", None),
    ("a proof has a line more", PROOF, "pub every_chain : EveryChain", "-- proved\npub every_chain : EveryChain", None),
    ("a statement is not there", CHAINS, "abbrev pub EveryChain : Type 0", "abbrev pub EachChain : Type 0", "has no EveryChain"),
    ("a statement is not proved", PROOF, "pub every_chain : EveryChain", "every_chain : EveryChain", "EveryChain is proved nowhere"),
    ("a contract is not there", STEP, "pub fn step(", "pub fn stepped(", "has no step"),
    ("a row names no statement", REVIEW, "`EveryChain`, ", "", "no statement of a file"),
    ("a row names no file", REVIEW, "| `EveryChain`, `crates/", "| `EveryChain`, `crate/", "no statement of a file"),
    ("a use leads nowhere", CHAINS, ENTERS, "use Rattle.model.specs.Nowhere.{wait_act}\n", "which is no file"),
    ("a use has another form", CHAINS, ENTERS, "use Rattle.model.specs.Acts\n", "a line of `use` that is not followed"),
    ("the table has no figures", REVIEW, " files, ", " pages, ", "no row has figures"),
]


def main():
    on_disk = reading.read
    wrong = 0
    for what, path, old, new, reason in EDITS:
        text = on_disk(path)
        if old not in text or (path != REVIEW and text.count(old) != 1):
            sys.exit(f"{path} has {text.count(old)} times {old!r}: edit docs/reading_test.py too")
        edited = {path: text.replace(old, new)}
        reading.read = lambda asked, edited=edited: edited.get(str(asked)) or on_disk(asked)
        faults = list(reading.faults_in(reading.read(REVIEW)))
        if faults if reason is None else not any(reason in fault for fault in faults):
            print(f"{what}: {faults or 'nothing is said'}")
            wrong += 1
    print(f"{len(EDITS)} edits, {wrong} not told")
    return 1 if wrong else 0


if __name__ == "__main__":
    sys.exit(main())
