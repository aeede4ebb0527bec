#!/usr/bin/env python3
"""Holds docs/SPECIFICATION.md, the citations of its clauses, and the table of docs/CLAUSES.md together.

    docs/traceability.py check    says what is wrong; the exit status is 1 where anything is
    docs/traceability.py write    writes docs/CLAUSES.md anew
"""
import collections
import functools
import hashlib
import os
import pathlib
import re
import sys

ROOT = pathlib.Path(__file__).resolve().parent.parent
SPECIFICATION = "docs/SPECIFICATION.md"
CLAUSES = "docs/CLAUSES.md"

CITATION = re.compile(r"\[(\d+\.\d+)\]")
# two clauses in one pair of brackets, or a number of three parts: nobody would find it by a clause's number
NO_CITATION = re.compile(r"\[\d+\.\d+[^\]\w][^\]]*\]")
# what a file of specs says in its opening lines if no customer has to believe it
PROOFS_ONLY = "For the proofs only"
# where citations are looked at: in no stored input or output, nor where clauses that do not exist are cited in order to be refused
ENDINGS = (".md", ".rt", ".antt", ".edit", ".rs", ".h", ".c", ".py", ".sh", ".txt")
NOT_LOOKED_AT = {".git", "target", "out", "traceability_test.py"}

Section = collections.namedtuple("Section", "title lines")
Clause = collections.namedtuple("Clause", "number title lines section note")
# What a comment can stand directly above, or a part of it; `head` is the contract of a function, with its signature.
Item = collections.namedtuple("Item", "path line name kind public comment head")
Repository = collections.namedtuple("Repository", "files sections clauses items")


def is_looked_at(path):
    if path.name in NOT_LOOKED_AT or not (ROOT / path).is_file():
        return False
    return path.suffix in ENDINGS or (path.suffix == "" and (ROOT / path).read_bytes().startswith(b"#!"))


def read_files():
    """The text of each file that is looked at, by its path."""
    paths = []
    for folder, folders, names in os.walk(ROOT):
        folders[:] = set(folders) - NOT_LOOKED_AT
        paths += [(pathlib.Path(folder) / name).relative_to(ROOT) for name in names]
    paths.sort()
    return {path.as_posix(): (ROOT / path).read_text(encoding="utf8") for path in paths if is_looked_at(path)}


def repository_of(files):
    sections = sections_of(files[SPECIFICATION])
    clauses = [clause for section in sections for clause in clauses_of(section)]
    return Repository(files, sections, clauses, list(items_of(files)))


# The specification


CLAUSE = re.compile(r"(?:- |\| )\[(\d+\.\d+)\] (\*\(note\)\* )?")


def sections_of(text):
    sections = []
    for line in text.splitlines():
        if line.startswith("## "):
            sections.append(Section(line[3:], []))
        elif sections:
            sections[-1].lines.append(line)
    return sections


def clauses_of(section):
    """A clause is the line that its number starts, and the lines directly after it that are indented."""
    clauses, open_clause = [], False
    for line in section.lines:
        start = CLAUSE.match(line)
        if start:
            note = bool(start.group(2)) or section.title.endswith("(notes)")
            clauses.append(Clause(start.group(1), title_of(line), [line], section.title, note))
        elif open_clause and line.startswith("  "):
            clauses[-1].lines.append(line)
        open_clause = bool(start) or (open_clause and line.startswith("  "))
    return clauses


def title_of(line):
    """The bold words of a clause; of a row, the cell after the number."""
    if line.startswith("|"):
        return line.split("|")[2].strip()
    bold = re.search(r"\*\*(.+?)\*\*", line)
    return bold.group(1).rstrip(".,") if bold else ""


def as_numbers(number):
    return tuple(int(part) for part in number.split("."))


def fingerprint(lines):
    return hashlib.sha256("\n".join(lines).encode()).hexdigest()[:6]


# Definitions, statements and contracts, with the comments directly above them


# a definition at the start of a line, or an indented one, which a word before `pub` or `record` or `data` tells from a field
ANTT = re.compile(r"(?:\s*(?:[a-z]+ )+pub|pub|\s*pub(?= record | data )) (?:record |data )?(?!mod )([^\s:({]+)")
ANTT_PART = re.compile(r"  (?:pub )?([^\s:(){}]+) :")
RT = re.compile(r'(pub(?:\(crate\))? )?(?:unsafe )?(?:extern "C" )?(fn|struct|enum|const|static|type) (\w+)')
RT_BLOCK = re.compile(r"(?:pub(?:\(crate\))? )?(?:impl|trait)(?:<.*?>)? (?:.* for )?(\w+)")
RT_METHOD = re.compile(r"    (pub(?:\(crate\))? )?fn (\w+)")
RT_PART = re.compile(r"    (?:pub )?(\w+)[:(,]")


def antt_item(line, inside):
    whole, part = ANTT.match(line), ANTT_PART.match(line)
    if whole:
        return whole.group(1), "definition", True
    if part and inside:
        return f"{inside[0]}.{part.group(1)}", "part", False
    return None


def rt_item(line, inside):
    whole, part = RT.match(line), RT_PART.match(line)
    if whole:
        return whole.group(3), whole.group(2), whole.group(1) == "pub "
    block = RT_BLOCK.match(line)
    if block:
        return block.group(1), "block", False
    method = RT_METHOD.match(line)
    if method and inside and inside[1] == "block":
        return f"{inside[0]}::{method.group(2)}", "fn", method.group(1) == "pub "
    if inside and inside[1] == "static" and line.startswith("    row!("):
        return inside[0], "row", False
    if inside and inside[1] in ("struct", "enum") and part:
        return f"{inside[0]}.{part.group(1)}", "part", False
    return None


def head_of(lines):
    """A function up to the brace that opens its body, without comments. The brace of a clause is closed within the head."""
    code, depth = [], 0
    for line in lines:
        code.append(line.split("//")[0].rstrip())
        is_clause = depth > 0 or re.match(r"\s*(?:requires|ensures)\b", code[-1])
        if is_clause:
            depth += code[-1].count("{") - code[-1].count("}")
        elif code[-1] == "{" or code[-1].endswith((" {", ";")):
            break
    return "\n".join(code)


@functools.cache
def items_in(path, text):
    item_at, slashes = (antt_item, "--") if path.endswith(".antt") else (rt_item, "//")
    lines, comment, inside, in_attribute, items = text.splitlines(), [], None, False, []
    for number, line in enumerate(lines, 1):
        # an attribute stands between a comment and its item, perhaps on several lines
        in_attribute = in_attribute or line.startswith("#[")
        if in_attribute:
            in_attribute = not line.rstrip().endswith("]")
        elif line.strip().startswith(slashes):
            comment.append(line.strip()[len(slashes):].strip())
        else:
            found = item_at(line, inside)
            if found:
                name, kind, public = found
                head = head_of(lines[number - 1:]) if kind == "fn" else ""
                items.append(Item(path, number, name, kind, public, " ".join(comment), head))
                is_within = kind in ("part", "row") or (inside and inside[1] == "block" and line.startswith(" "))
                inside = inside if is_within else (name, kind)
            comment = []
    return items


# a line of crates.txt: a name, and perhaps what kind of crate it is
CRATE = re.compile(r"^(\w+)(?: [^:#\n]*)?:", re.MULTILINE)


def items_of(files):
    """In the order of crates.txt: of each crate its code, what a customer reads, and its proofs."""
    for crate in CRATE.findall(files["crates.txt"]):
        for folder in ("src", "specs", "proofs"):
            for path, text in files.items():
                if path.startswith(f"crates/{crate}/{folder}/") and path.endswith((".rt", ".antt")):
                    yield from items_in(path, text)


def delivers(item):
    """Definitions, statements, declared types and their parts; contracts; rows of a table. No constant, bare function or inner lemma."""
    if item.kind == "fn":
        return "ensures" in item.head
    return item.kind in ("definition", "part", "row", "struct", "enum", "type") and ("/proofs/" not in item.path or item.public)


def delivering(items):
    """What delivers each clause, by the clause's number."""
    found = collections.defaultdict(list)
    for item in items:
        if delivers(item):
            for number in dict.fromkeys(CITATION.findall(item.comment)):
                found[number].append(item)
    return found


def is_for_proofs_only(files, path):
    return PROOFS_ONLY in " ".join(files.get(path, "").splitlines()[:3])


def is_read(files, item):
    """Whether a customer reads it: a public definition of a spec file, unless the file is for the proofs only."""
    return item.public and "/specs/" in item.path and not is_for_proofs_only(files, item.path)


# What is looked at


def check_sections(repository):
    for section in repository.sections:
        if not any("Renders " in line for line in section.lines[:4]):
            yield f"{SPECIFICATION}: section {section.title} does not say what it renders"
        for line in section.lines:
            if line.startswith(("- ", "| ")) and not CLAUSE.match(line) and not line.startswith("| clause |"):
                yield f"{SPECIFICATION}: section {section.title} has a line without a number: {line[:60]}"


def check_numbers(repository):
    for before, clause in zip(repository.clauses, repository.clauses[1:]):
        if as_numbers(clause.number) == as_numbers(before.number):
            yield f"{SPECIFICATION}: [{clause.number}] stands twice"
        elif as_numbers(clause.number) < as_numbers(before.number):
            yield f"{SPECIFICATION}: [{clause.number}] stands after [{before.number}]"
    for clause in repository.clauses:
        if clause.number.split(".")[0] != clause.section.split(".")[0]:
            yield f"{SPECIFICATION}: [{clause.number}] stands in section {clause.section}"


def check_cited(repository):
    found = delivering(repository.items)
    for clause in repository.clauses:
        if not clause.note and clause.number not in found:
            yield f"{SPECIFICATION}: [{clause.number}] stands above no definition, statement or contract"


def check_citations(repository):
    known = {clause.number for clause in repository.clauses}
    for path, text in repository.files.items():
        for number, line in enumerate(text.splitlines(), 1):
            for citation in CITATION.findall(line):
                if citation not in known:
                    yield f"{path}:{number}: [{citation}] is no clause"
            for citation in NO_CITATION.findall(line):
                yield f"{path}:{number}: {citation} is no citation"


def check_definitions(repository):
    for item in repository.items:
        if is_read(repository.files, item) and not CITATION.search(item.comment) and not item.comment.startswith("helper:"):
            yield f"{item.path}:{item.line}: {item.name} cites no clause and is not marked as a helper"


def check_promises(repository):
    """No public function asks anything of its caller."""
    for item in repository.items:
        if item.kind == "fn" and item.public and re.search(r"\brequires\b", item.head):
            yield f"{item.path}:{item.line}: {item.name} is public and has a requires"


def imported_specs(text):
    """The spec file that each name comes from."""
    found = re.findall(r"^(?:ghost )?use Rattle\.(\w+)\.specs\.(\w+)\.\{([^}]*)\}", text, re.MULTILINE)
    return {name.strip(" \n«»"): f"crates/{crate}/specs/{file}.antt" for crate, file, names in found for name in names.split(",")}


def check_proofs_only(repository):
    """No public contract, and no spec file that a customer reads, uses what is for the proofs only."""
    for item in repository.items:
        if item.kind == "fn" and item.public:
            specs = imported_specs(repository.files[item.path])
            for name in sorted(set(re.findall(r"[\w']+", item.head)) & set(specs)):
                if is_for_proofs_only(repository.files, specs[name]):
                    yield f"{item.path}:{item.line}: {item.name} is public, and {name} of its contract is for the proofs only"
    for path in dict.fromkeys(item.path for item in repository.items if is_read(repository.files, item)):
        for name, specs in imported_specs(repository.files[path]).items():
            if is_for_proofs_only(repository.files, specs):
                yield f"{path}: a customer reads it, and {name} is for the proofs only"


def check_table(repository):
    if repository.files.get(CLAUSES) != page_of(repository):
        yield f"{CLAUSES}: the page is not the one that docs/traceability.py writes"


CHECKS = (check_sections, check_numbers, check_cited, check_citations, check_definitions, check_promises, check_proofs_only, check_table)


def faults_of(repository):
    return [fault for check in CHECKS for fault in check(repository)]


def counts_of(repository):
    notes = [clause for clause in repository.clauses if clause.note]
    definitions = [item for item in repository.items if is_read(repository.files, item)]
    helpers = [item for item in definitions if not CITATION.search(item.comment)]
    return (
        f"{len(repository.clauses)} clauses, {len(notes)} of them notes; {len(definitions)} public definitions that a customer reads,"
        f" {len(helpers)} of them helpers"
    )


# The table


# what stands before the names of functions, and of tables
PREFIXES = {"fn": "contract of ", "row": "rows of "}


def names_in(items):
    """Each name once, those with a prefix together."""
    names = collections.defaultdict(dict)
    for item in items:
        names[PREFIXES.get(item.kind, "")][f"`{item.name}`"] = True
    return ", ".join(prefix + ", ".join(named) for prefix, named in names.items())


def rows_of(clause, items):
    """A row for each file that delivers the clause: `items` are those that do."""
    paths = dict.fromkeys(item.path for item in items)
    rows = [f"{names_in(item for item in items if item.path == path)} | `{path}` |" for path in paths] or [" | |"]
    note = " *(note)*" if clause.note else ""
    first = f"[{clause.number}] {clause.title}{note} | `{fingerprint(clause.lines)}`"
    return [f"| {first} | {rows[0]}"] + [f"| | | {row}" for row in rows[1:]]


def table_of(repository):
    lines, found = [], delivering(repository.items)
    for section in repository.sections:
        lines += [f"## {section.title}, `{fingerprint(section.lines)}`", ""]
        clauses = [clause for clause in repository.clauses if clause.section == section.title]
        if not all(clause.note for clause in clauses):
            lines += ["| clause | text | definition, statement or contract | file |", "|---|---|---|---|"]
            lines += [row for clause in clauses for row in rows_of(clause, found[clause.number])] + [""]
    return "\n".join(lines)


OPENING = """\
# From each clause to what delivers it

Look up, do not read: `docs/traceability.py write` writes this page. It has, for each clause of the [specification](SPECIFICATION.md), the definitions,
statements and contracts under its number; [PROPERTIES.md](PROPERTIES.md) leads here from the demands. Beside each clause stands a fingerprint of its text,
beside each section one of all that stands in it: whoever edits a clause has to write the page anew, and is led by the rows that change to the definitions that
have to say the same. The gate fails where the page is not what the script writes; also where a clause that is no note stands above no definition, statement or
contract, where a citation is of no clause, and where a public definition that a customer reads neither cites one nor is marked as a helper.
"""


def page_of(repository):
    return f"{OPENING}\n{table_of(repository)}"


def main(arguments):
    if arguments not in (["check"], ["write"]):
        print(__doc__)
        return 2
    repository = repository_of(read_files())
    if arguments == ["write"]:
        (ROOT / CLAUSES).write_text(page_of(repository), encoding="utf8")
        repository = repository_of(read_files())
    faults = faults_of(repository)
    print("\n".join(faults or [counts_of(repository)]))
    return 1 if faults else 0


if __name__ == "__main__":
    sys.exit(main(sys.argv[1:]))
