#!/usr/bin/env python3
"""Compiles and runs the pieces of code on README.md, docs/guide/*.md and clients/README.md, and holds what they print to what the page says;
and holds the tables of recordings there to the recordings and to what `replay` prints.

    docs/pieces.py [PAGE..]    of these pages only; says what is wrong, and the exit status is 1 where anything is

A fenced block is a piece by its tag:
    c       a whole program, or statements that are put into a `main` with <inttypes.h>, <stdio.h>, <string.h> and "funnelfawn.h"
    rust    statements that are put into a `main` which gives back a Result
    sh      commands: those that start with `cc ` or `target/` are run, also behind `tools/build X &&`; all others are left out
    text    what the piece before it prints, on standard output and then on standard error; a piece in C or Rust without one prints nothing
    rattle  code in Rattle, which is not run; and a block without a tag is neither code nor output
All are run from the repository's root, and end with 0; a command ends with N where its line says `# ends with N`. A line
`<!-- input: PATH -->` directly above a block names its standard input, which is else empty.

A table that has the columns `line` and `recording` in front is held to the recording that was linked last above it. The library is that in
target/staticlib, or in the directory of the environment variable FUNNELFAWN_LIB; `replay` is target/bin/replay, and `spans` is target/bin/spans. Needs cc and cargo.
"""
import collections
import concurrent.futures
import difflib
import os
import pathlib
import posixpath
import re
import shutil
import signal
import subprocess
import sys

import pages

ROOT = pages.ROOT
WORK = ROOT / "target/pieces"
LIBRARY = pathlib.Path(os.environ.get("FUNNELFAWN_LIB") or ROOT / "target/staticlib").resolve()
REPLAY, SPANS = "target/bin/replay", "target/bin/spans"
# how long a piece may run, and how long the compiler for one in C
SECONDS, COMPILING = 10, 60

# the program in C that a page shows as a whole, but for its first line
SHOWN, SHOWN_ON = "clients/c/first.c", "docs/guide/linking.md"

# A piece of a page: `line` is the number of the line that opens its block, `name` is for its program, `input` is the path of its standard input,
# and `printed` what it prints by the page, None where the page does not say.
Piece = collections.namedtuple("Piece", "page line name tag text input printed")
# A row of a table: its line on the page; the recording and the number of a line there; what the page has for that line, and for the answer.
Row = collections.namedtuple("Row", "page line recording number step answer")
Ran = collections.namedtuple("Ran", "status output errors")

TAGS = ("c", "rust", "sh", "text", "rattle", "")
CODE = ("c", "rust", "sh")
INPUT = re.compile(r"\s*<!-- input: (\S+) -->\s*$")


def all_pages():
    return ["README.md", *sorted(path.relative_to(ROOT).as_posix() for path in ROOT.glob("docs/guide/*.md")), "clients/README.md"]


# What a page has


def text_of(fence):
    return "".join(f"{line}\n" for line in fence.lines)


def pieces_of(page, text):
    """The pieces of a page, and what is wrong with its blocks."""
    pieces, faults, last = [], [], None
    lines = text.split("\n")
    for fence in pages.fences_of(text):
        above = INPUT.match(lines[fence.line - 2]) if fence.line > 1 else None
        if not fence.closed:
            faults.append(f"{page}:{fence.line}: the block does not end")
        if fence.tag not in TAGS:
            faults.append(f"{page}:{fence.line}: a block is tagged {fence.tag!r}, which is none of {', '.join(filter(None, TAGS))}")
        elif fence.tag == "text" and last is None:
            faults.append(f"{page}:{fence.line}: no piece stands before this output")
        elif fence.tag == "text":
            pieces[last] = pieces[last]._replace(printed=text_of(fence))
            last = None
        elif fence.tag in CODE:
            last = len(pieces)
            name = re.sub(r"\W+", "_", f"{page}_{last}")
            pieces.append(Piece(page, fence.line, name, fence.tag, text_of(fence), above and above.group(1), None))
        elif fence.tag:
            last = None
    return pieces, faults


CSV = re.compile(r"\]\(([^)\s]+\.csv)\)")
CELLS = re.compile(r"((?:`[^`]*`|\\.|[^|`\\])*)\|")
LINE, RECORDING, ANSWER = "line", "recording", "`replay` prints"


def cells_of(line):
    return [cell.strip() for cell in CELLS.findall(line.strip()[1:] + "|")]


def rows_of(page, text):
    """The rows of the tables that show a recording."""
    recording, heads = None, None
    for number, line in enumerate(pages.without_fences(text).split("\n"), 1):
        linked = CSV.findall(line)
        if not line.lstrip().startswith("|"):
            heads = None
        elif heads is None:
            heads = cells_of(line)
        elif heads[:2] == [LINE, RECORDING] and not re.fullmatch(r"[\s|:-]*", line):
            cells = dict(zip(heads, cells_of(line)))
            yield Row(page, number, recording, cells[LINE], cells.get(RECORDING, ""), cells.get(ANSWER, ""))
        if linked:
            recording = posixpath.normpath(posixpath.join(posixpath.dirname(page), linked[-1]))


# What is run


def run(command, path=None, seconds=None):
    """Runs a command from the root, with the file at `path` as its input. Past its time it is ended, with all that it started."""
    seconds = seconds or SECONDS
    with open(ROOT / path if path else os.devnull, "rb") as source:
        running = subprocess.Popen(command, cwd=ROOT, stdin=source, stdout=subprocess.PIPE, stderr=subprocess.PIPE, start_new_session=True)
        try:
            output, errors = running.communicate(timeout=seconds)
        except subprocess.TimeoutExpired:
            os.killpg(running.pid, signal.SIGKILL)
            running.communicate()
            return Ran(f"nothing within {seconds} seconds", "", "")
    return Ran(running.returncode, output.decode("utf8", "replace"), errors.decode("utf8", "replace"))


def difference(said, printed):
    lines = difflib.unified_diff(said.splitlines(), printed.splitlines(), "the page", "what is printed", lineterm="")
    return indented("\n".join(lines)) or "    only in the newline at the end\n"


def indented(text):
    return "".join(f"    {line}\n" for line in text.splitlines())


def check_printed(piece, said, ran):
    """Faults of a piece that has run: it ends with 0 and prints what is said."""
    printed = ran.output + ran.errors
    if ran.status != 0:
        yield f"{piece.page}:{piece.line}: ends with {ran.status}, and has to end with 0\n{indented(printed)}"
    elif said is None and printed:
        yield f"{piece.page}:{piece.line}: the page does not say that it prints\n{indented(printed)}"
    elif said is not None and said != printed:
        yield f"{piece.page}:{piece.line}: prints something else\n{difference(said, printed)}"


# C


INCLUDES = '#include <inttypes.h>\n#include <stdio.h>\n#include <string.h>\n#include "funnelfawn.h"\n'


def program_in_c(piece):
    at = f'#line {piece.line + 1} "{piece.page}"\n'
    if re.search(r"\bint main\b", piece.text):
        return at + piece.text
    return f"{INCLUDES}int main(void) {{\n{at}{piece.text}return 0;\n}}\n"


def check_c(piece):
    source, program = WORK / f"{piece.name}.c", WORK / piece.name
    source.write_text(program_in_c(piece), encoding="utf8")
    flags = ["-std=c11", "-Wall", "-Wextra", "-Wpedantic", "-Werror", "-I", "include"]
    built = run(["cc", *flags, str(source), str(LIBRARY / "libfunnelfawn.a"), "-o", str(program)], seconds=COMPILING)
    if built.status != 0:
        return [f"{piece.page}:{piece.line}: does not compile\n{indented(built.errors)}"]
    return list(check_printed(piece, piece.printed, run([str(program)], piece.input)))


# Rust


MANIFEST = '[package]\nname = "pieces"\nversion = "0.0.0"\nedition = "2021"\n\n[workspace]\n\n[dependencies]\nfunnelfawn = {{ path = "{}" }}\n'
MAIN = "fn main() -> Result<(), Box<dyn std::error::Error>> {"


def program_in_rust(piece):
    """Each line of the piece has the number that it has on the page."""
    before, after = ("", "") if re.search(r"\bfn main\b", piece.text) else (MAIN, "Ok(())\n}\n")
    return "\n" * (piece.line - 1) + f"#![allow(unused)] {before}\n{piece.text}{after}"


def write_package(pieces):
    """A package with a program for each piece. Programs of another day go."""
    package = WORK / "rust"
    shutil.rmtree(package, ignore_errors=True)
    (package / "src/bin").mkdir(parents=True)
    (package / "Cargo.toml").write_text(MANIFEST.format((ROOT / "clients/rust").as_posix()), encoding="utf8")
    for piece in pieces:
        (package / f"src/bin/{piece.name}.rs").write_text(program_in_rust(piece), encoding="utf8")
        (WORK / "cargo/debug" / piece.name).unlink(missing_ok=True)
    return package / "Cargo.toml"


def cargo():
    """Where rustup puts it, if the shell was not told."""
    return shutil.which("cargo") or str(pathlib.Path.home() / ".cargo/bin/cargo")


def build_rust(pieces):
    """Builds all at once; gives back what the compiler says, a line for each error."""
    if not pieces:
        return ""
    manifest = write_package(pieces)
    command = [cargo(), "build", "--offline", "--quiet", "--keep-going", "--message-format", "short", "--bins", "--manifest-path", str(manifest)]
    environment = {**os.environ, "FUNNELFAWN_LIB": str(LIBRARY), "CARGO_TARGET_DIR": str(WORK / "cargo")}
    built = subprocess.run(command, cwd=ROOT, env=environment, stdin=subprocess.DEVNULL, capture_output=True, check=False)
    return built.stderr.decode("utf8", "replace")


def errors_of(piece, said):
    """Of all that the compiler says, the lines about one piece, with its page for its file; all lines, if there are none."""
    file = f"src/bin/{piece.name}.rs"
    return "\n".join(line.replace(file, piece.page) for line in said.splitlines() if line.startswith(file)) or said


def check_rust(piece, said):
    program = WORK / "cargo/debug" / piece.name
    if not program.exists():
        return [f"{piece.page}:{piece.line}: does not compile\n{indented(errors_of(piece, said))}"]
    return list(check_printed(piece, piece.printed, run([str(program)], piece.input)))


# Commands


BEHIND = re.compile(r"tools/build \w+ && ")
ENDS = re.compile(r"#.*\bends with (\d+)")


def commands_of(piece):
    """The commands of a block that are run, each with the status that it ends with."""
    for line in piece.text.replace("\\\n", " ").split("\n"):
        command = BEHIND.sub("", line.strip(), count=1)
        if command.startswith(("cc ", "target/")):
            ends = ENDS.search(line)
            if "FUNNELFAWN_LIB" in os.environ:
                command = command.replace("target/staticlib/", f"{LIBRARY}/")
            yield command, int(ends.group(1)) if ends else 0


def check_sh(piece):
    """What the commands print, all together, is what the page says, if it does; without a word, only standard error has to be empty."""
    commands = list(commands_of(piece))
    if not commands and piece.printed is not None:
        return [f"{piece.page}:{piece.line}: none of the commands is run, and the page says what they print"]
    printed = ""
    for command, status in commands:
        ran = run(["sh", "-c", command], piece.input)
        printed += ran.output + ran.errors
        if ran.status != status:
            return [f"{piece.page}:{piece.line}: {command!r} ends with {ran.status}, and has to end with {status}\n{indented(printed)}"]
        if piece.printed is None and status == 0 and ran.errors:
            return [f"{piece.page}:{piece.line}: {command!r} has something to say\n{indented(ran.errors)}"]
    return list(check_printed(piece, piece.printed, Ran(0, printed if piece.printed is not None else "", "")))


# Tables of recordings


def code_in(cell):
    """What a cell has between backquotes; None where it is not just that."""
    code = re.fullmatch(r"`([^`]+)`", cell)
    return code and code.group(1)


class Recordings:
    """The lines of each recording, and what `replay` prints for each line, read once."""

    def __init__(self):
        self.read = {}

    def __getitem__(self, path):
        if path not in self.read:
            names, *answers = run([REPLAY], path).output.splitlines() or [None]
            self.read[path] = (ROOT / path).read_text(encoding="utf8").splitlines(), {1: names} | by_line(answers)
        return self.read[path]


def by_line(answers):
    return {int(answer.split(",")[0]): answer for answer in answers}


def check_row(row, recordings):
    """Faults of a row. An empty cell is not looked at."""
    at = f"{row.page}:{row.line}"
    if row.recording is None or not (ROOT / row.recording).is_file():
        return [f"{at}: no recording is linked above this table"]
    if row.number == "":
        return []
    if not row.number.isdigit():
        return [f"{at}: {row.number!r} is no line"]
    lines, answers = recordings[row.recording]
    number = int(row.number)
    there = lines[number - 1] if 1 <= number <= len(lines) else None
    of = f"line {number} of {row.recording}"
    pairs = ((row.step, there, of), (row.answer, answers.get(number), f"what `replay` prints for {of}"))
    wrong = [(cell, right, what) for cell, right, what in pairs if cell and (right is None or code_in(cell) != right)]
    return [f"{at}: {cell} is not {what}: {right or 'there is nothing'}" for cell, right, what in wrong]


# The program that a page shows


def check_shown(pieces):
    program = "".join((ROOT / SHOWN).read_text(encoding="utf8").splitlines(keepends=True)[1:])
    shown = [piece for piece in pieces if piece.tag == "c" and piece.text.split("\n")[0] == program.split("\n")[0]]
    if not shown:
        return [f"{SHOWN_ON}: does not show {SHOWN}"]
    if all(piece.text != program for piece in shown):
        return [f"{SHOWN_ON}:{shown[0].line}: is not {SHOWN} from its second line on\n{difference(shown[0].text, program)}"]
    return []


# All of it


def missing():
    """What has to be there and is not."""
    for path, name in ((LIBRARY / "libfunnelfawn.a", "funnelfawn"), (ROOT / REPLAY, "replay"), (ROOT / SPANS, "spans")):
        if not path.is_file():
            yield f"there is no {path}: 'tools/build {name}' makes it"
    for program in ("cc", cargo()):
        if not shutil.which(program):
            yield f"there is no {program}"


def check_pieces(pieces):
    """Builds and runs all pieces, several at a time; but commands one after the other, as some write the same file."""
    tagged = {tag: [piece for piece in pieces if piece.tag == tag] for tag in CODE}
    with concurrent.futures.ThreadPoolExecutor(os.cpu_count() or 1) as pool:
        building = pool.submit(build_rust, tagged["rust"])
        in_sh = pool.submit(lambda: [fault for piece in tagged["sh"] for fault in check_sh(piece)])
        in_c = pool.map(check_c, tagged["c"])
        said = building.result()
        in_rust = pool.map(lambda piece: check_rust(piece, said), tagged["rust"])
        return [fault for faults in (*in_c, *in_rust, in_sh.result()) for fault in faults]


def has_input(piece):
    return piece.input is None or (ROOT / piece.input).is_file()


def check_inputs(pieces):
    return [f"{piece.page}:{piece.line}: there is no {piece.input}" for piece in pieces if not has_input(piece)]


def faults_of(texts):
    """All faults of these pages, and how many pieces and rows they have."""
    pieces, faults = [], []
    for page, text in texts.items():
        found, wrong = pieces_of(page, text)
        pieces, faults = pieces + found, faults + wrong
    rows = [row for page, text in texts.items() for row in rows_of(page, text)]
    recordings = Recordings()
    WORK.mkdir(parents=True, exist_ok=True)
    faults += check_inputs(pieces) + check_pieces([piece for piece in pieces if has_input(piece)])
    faults += [fault for row in rows for fault in check_row(row, recordings)]
    if SHOWN_ON in texts:
        faults += check_shown([piece for piece in pieces if piece.page == SHOWN_ON])
    counts = collections.Counter(piece.tag for piece in pieces)
    commands = sum(1 for piece in pieces if piece.tag == "sh" for _ in commands_of(piece))
    return faults, f"{len(texts)} pages: {counts['c']} pieces of C, {counts['rust']} of Rust, {commands} commands, {len(rows)} rows of recordings"


def main(arguments):
    not_there = list(missing())
    if not_there:
        print("\n".join(not_there))
        return 1
    texts = {page: (ROOT / page).read_text(encoding="utf8") for page in arguments or all_pages()}
    faults, counts = faults_of(texts)
    print("\n".join(faults or [counts]))
    return 1 if faults else 0


if __name__ == "__main__":
    sys.exit(main(sys.argv[1:]))
