#!/usr/bin/env python3
"""Counts what has to be read in order to know what a statement says.

    docs/reading.py STATEMENT ..         how many files and lines that is, for all of these statements together
    docs/reading.py list STATEMENT ..    which files, and which lines of them
    docs/reading.py check                whether the figures in the table of docs/REVIEW.md are these, and whether each statement that it names is
                                         there and is proved; the exit status is 1 where one is not
    docs/reading.py write                writes the figures that are counted into that table

A STATEMENT is a file of specs, crates/CRATE/specs/FILE.antt, or the contract of a function, crates/CRATE/src/FILE.rt:FUNCTION.

From a file of specs its `use` lines are followed. Another file of specs of this repository is to be read as a whole, with its comments. A name that
the checker makes out of the source leads there: of a type its declaration is to be read, with the types of its fields; of a function its head, which
is its comment, signature and contract, with the types there and with the files of specs that the names of the contract come from. No body of a
function and no proof is to be read. What the library of the logic has (numbers, lists, equality) is listed by its names and not counted.
"""
import collections
import functools
import pathlib
import re
import sys

ROOT = pathlib.Path(__file__).resolve().parent.parent
REVIEW = "docs/REVIEW.md"

# use Rattle.CRATE.specs.FILE.{NAMES}, of another crate or of the own one, or `as NAME`, which brings the whole module
USE = re.compile(r"^(?:ghost )?use ([\w.'+-]+?)(?:\.\{([^}]*)\}| as [\w'-]+);?$", re.MULTILINE)
# use CRATE::MODULE::NAME; or use CRATE::MODULE::{NAMES};
RT_USE = re.compile(r"^(?:pub(?:\(crate\))? )?use ((?:\w+::)+)(?:(\w+)|\{([^{}]*)\});$", re.MULTILINE)
# what the checker makes of a type or of a contract, as a module of that name
MADE = re.compile(r"The[A-Z]\w*|Reads")
DECLARED = r"(?:pub(?:\(crate\))? )?(?:struct|enum|type) {}\b"
FUNCTION = r'(?:pub(?:\(crate\))? )?(?:unsafe )?(?:extern "C" )?fn {}\b'

Row = collections.namedtuple("Row", "line promise statement figures")


class Unreadable(Exception):
    """A statement or a `use` line that leads nowhere."""


class Reading:
    """What is to be read: the lines of each file, and the names of the logic's library."""

    def __init__(self):
        self.lines = {}
        self.library = set()
        self.done = set()

    def add(self, start):
        """A statement, as the command line and docs/REVIEW.md name it."""
        path, _, function = start.partition(":")
        if not (ROOT / path).is_file() or not (path.endswith(".rt") if function else path.endswith(".antt")):
            raise Unreadable(f"{start} is no file of specs and no contract")
        if function:
            self.item(path, FUNCTION, function)
        else:
            self.specs(path)

    def specs(self, path):
        """A file of specs, as a whole."""
        if path not in self.lines:
            text = read(path)
            self.lines[path] = set(range(1, len(text.splitlines()) + 1))
            used = USE.findall(text)
            if len(used) != len(re.findall("^use ", text, re.MULTILINE)):
                raise Unreadable(f"{path} has a line of `use` that is not followed")
            for module, names in used:
                self.use(path, module, names)

    def use(self, path, module, names):
        """What a `use` line of the file at this path leads to."""
        first, *parts = module.split(".")
        crate = parts.pop(0) if first == "Rattle" and parts else ""
        if not crate or not (ROOT / "crates" / crate).is_dir():
            self.library.update(f"{module}.{name.strip()}" for name in names.split(",") if name.strip())
            return
        file = f"crates/{crate}/specs/{'/'.join(parts[1:])}.antt"
        if parts[0] == "specs" and (ROOT / file).is_file():
            self.specs(file)
        elif parts[:2] == ["specs", "declared"]:
            self.source(crate, [part for part in parts[2:] if not MADE.fullmatch(part)], DECLARED)
        elif parts[:2] == ["specs", "contracts"]:
            self.source(crate, [part for part in parts[2:] if not MADE.fullmatch(part)], FUNCTION)
        elif parts[:1] == ["proofs"]:
            self.source(crate, [part for part in parts[1:] if not MADE.fullmatch(part)], FUNCTION)
        else:
            raise Unreadable(f"{path} uses {module}, which is no file")

    def source(self, crate, parts, form):
        """An item of a crate's source, by its modules and its name."""
        *modules, name = parts or [""]
        self.item(source_file(crate, modules), form, name)

    def item(self, path, form, name):
        """A declaration, or the head of a function, with the comment and the attributes above it."""
        if (path, name) in self.done:
            return
        self.done.add((path, name))
        text = read(path)
        lines = text.splitlines()
        first = next((number for number, line in enumerate(lines) if re.match(form.format(re.escape(name)), line)), None)
        if first is None:
            raise Unreadable(f"{path} has no {name}")
        last = first
        while not lines[last].startswith(("{", "}")) and not lines[last].endswith(";"):
            last += 1
        code = "\n".join(line.split("//")[0] for line in lines[first:last + 1])
        while first > 0 and lines[first - 1].startswith(("//", "#[")):
            first -= 1
        # the brace that opens a body is no part of a head
        last -= lines[last].startswith("{")
        self.lines.setdefault(path, set()).update(range(first + 1, last + 2))
        self.mentioned(path, text, code, name)

    def mentioned(self, path, text, code, item):
        """The types and, in a contract, the definitions that an item of the source names."""
        words = set(re.findall(r"[\w'-]+", code)) - {item}
        for module, names in USE.findall(text):
            named = [name for name in (name.strip() for name in names.split(",")) if name.strip("«»") in words or name.strip("◌") in code.split()]
            if named:
                self.use(path, module, ",".join(named))
        for modules, name, names in RT_USE.findall(text):
            crate, *modules = modules.split("::")[:-1]
            crate = path.split("/")[1] if crate == "crate" else crate
            for name in [name] if name else [name.strip() for name in names.split(",")]:
                if name in words and (ROOT / "crates" / crate).is_dir() and has(source_file(crate, modules), DECLARED, name):
                    self.source(crate, [*modules, name], DECLARED)
        for word in sorted(words):
            if has(path, DECLARED, word):
                self.item(path, DECLARED, word)

    def figures(self):
        return len(self.lines), sum(len(lines) for lines in self.lines.values())


@functools.cache
def read(path):
    return (ROOT / path).read_text(encoding="utf8")


def has(path, form, name):
    return re.search("^" + form.format(re.escape(name)), read(path), re.MULTILINE)


def source_file(crate, modules):
    """The file of a crate's module; of the crate itself lib.rt, or main.rt of a program."""
    names = ["/".join(modules)] if modules else ["lib", "main"]
    for name in names:
        if (ROOT / f"crates/{crate}/src/{name}.rt").is_file():
            return f"crates/{crate}/src/{name}.rt"
    raise Unreadable(f"crate {crate} has no module {'::'.join(modules)}")


def reading_of(starts):
    reading = Reading()
    for start in starts:
        reading.add(start)
    return reading


def said(figures):
    return f"{figures[0]} files, {figures[1]:,} lines"


def ranges(lines):
    """1-12, 20-31"""
    found = []
    for line in sorted(lines):
        if found and line == found[-1][1] + 1:
            found[-1][1] = line
        else:
            found.append([line, line])
    return ", ".join(f"{first}-{last}" for first, last in found)


def listed(reading):
    for path in sorted(reading.lines, key=lambda path: (path.endswith(".rt"), path)):
        lines = reading.lines[path]
        yield f"{path} ({len(lines)})" if path.endswith(".antt") else f"{path}: {ranges(lines)} ({len(lines)})"
    yield f"{said(reading.figures())}; and of the logic's library {len(reading.library)} names: {', '.join(sorted(reading.library))}"


# The table of docs/REVIEW.md: | promise | statement | files, lines | ..


FIGURES = re.compile(r"(\d+) files, ([\d,]+) lines")
DEFINED = r"(?:[a-z]+ )*pub (?:record |data )?{}\s"
PROVED = r"(?:[a-z]+ )*pub \S+ : {}$"


def is_proved(path, name):
    """Whether the proofs of the crate have a term of this statement."""
    proofs = (ROOT / path).parent.parent / "proofs"
    return any(has(file.relative_to(ROOT), PROVED, name) for file in sorted(proofs.rglob("*.antt")))


def starts_in(cell):
    """Parts that end with a path, and before it the names of what stands there: statements or, in a file of source, functions."""
    for part in cell.split(";"):
        *names, path = re.findall(r"`([^`]+)`", part) or [""]
        if not names or not (ROOT / path).is_file():
            raise Unreadable(f"no statement of a file: {part.strip()}")
        for name in names:
            if not has(path, FUNCTION if path.endswith(".rt") else DEFINED, name):
                raise Unreadable(f"{path} has no {name}")
            if path.endswith(".antt") and not is_proved(path, name):
                raise Unreadable(f"{name} is proved nowhere in its crate")
        yield from [f"{path}:{name}" for name in names] if path.endswith(".rt") else [path]


def rows_of(text):
    """The rows that have figures: the line, the promise, the statement and the figures."""
    for number, line in enumerate(text.splitlines(), 1):
        cells = [cell.strip() for cell in line.strip("| ").split("|")]
        found = FIGURES.fullmatch(cells[2]) if line.startswith("|") and len(cells) > 2 else None
        if found:
            yield Row(number, cells[0], cells[1], (int(found.group(1)), int(found.group(2).replace(",", ""))))


def faults_in(text):
    """Of each row that is wrong, why; one whose statement is `the rows above` is of all of them together."""
    above = []
    for row in rows_of(text):
        place = f"{REVIEW}:{row.line}: {row.promise}"
        try:
            starts = above if row.statement == "the rows above" else list(starts_in(row.statement))
            counted = reading_of(starts).figures()
        except Unreadable as fault:
            yield f"{place}: {fault}"
            continue
        above = above + starts
        if counted != row.figures:
            yield f"{place}: {said(row.figures)}; it is {said(counted)}"
    if not above:
        yield f"{REVIEW}: no row has figures"


def write():
    """Puts the figures that are counted in the place of those that stand, in each row that can be read."""
    lines, above = read(REVIEW).split("\n"), []
    for row in rows_of("\n".join(lines)):
        starts = above if row.statement == "the rows above" else list(starts_in(row.statement))
        above = above + starts
        lines[row.line - 1] = FIGURES.sub(said(reading_of(starts).figures()), lines[row.line - 1])
    (ROOT / REVIEW).write_text("\n".join(lines), encoding="utf8")
    read.cache_clear()


def check():
    text = read(REVIEW)
    faults = list(faults_in(text))
    print("\n".join(faults or [f"{len(list(rows_of(text)))} rows of {REVIEW} have the figures that are counted"]))
    return 1 if faults else 0


def main(arguments):
    if not arguments or arguments == ["list"]:
        print(__doc__)
        return 2
    try:
        if arguments == ["write"]:
            write()
        if arguments in (["check"], ["write"]):
            return check()
        if arguments[0] == "list":
            print("\n".join(listed(reading_of(arguments[1:]))))
        else:
            print(said(reading_of(arguments).figures()))
    except Unreadable as fault:
        print(fault)
        return 1
    return 0


if __name__ == "__main__":
    sys.exit(main(sys.argv[1:]))
