#!/usr/bin/env python3
"""Holds the pages of the repository to each other and to what they count: links and anchors, sizes, lengths of lines, and counts in prose.

    docs/pages.py    says what is wrong; the exit status is 1 where anything is
"""
import collections
import fnmatch
import functools
import html
import math
import os
import pathlib
import posixpath
import re
import sys
import urllib.parse

ROOT = pathlib.Path(__file__).resolve().parent.parent
HEADER = "include/funnelfawn.h"
VECTORS = "reference/vectors/"
NOT_LOOKED_AT = {".git", "target", "out", "__pycache__"}

# How many bytes a page may have, the first pattern that its path has; a path that is written out has to be there.
SIZES = (
    ("README.md", 14336),
    ("docs/REVIEW.md", 8192),
    ("docs/PROPERTIES.md", 53248),
    ("docs/ARCHITECTURE.md", 16384),
    ("docs/PROVING.md", 24576),
    ("docs/guide/*.md", 8192),
)

# How many characters a line may have. Rows of tables and what a program prints may be longer, and pages that tell of other days are left alone.
COLUMNS = 160
LEFT_ALONE = ("docs/landings/*", "docs/DECISIONS.md")
# Pages that quote code of another spelling are not looked at.
NO_PAGES = ("docs/PORT*.md", "PORTING-LEFT.md")

# Where counts are looked for: in pages and in the comments of code that somebody reads, but not where counts of other days are told.
COUNTING = ("*.md", "*.h", "*.c", "*.rs", "crates/*.rt", "crates/*/specs/*.antt")
NOT_COUNTING = (*LEFT_ALONE, *NO_PAGES, "docs/CHANGES.md")

# `paths` has every file and folder of the repository, `files` the text of those that are read.
Repository = collections.namedtuple("Repository", "files paths")
# A fenced block: `line` is the number of the line that opens it, and `lines` are those within, without the indentation of that line.
Fence = collections.namedtuple("Fence", "tag line lines closed")
# What is counted; how pages say it, {} being the number, in words or in digits, or {words} in words alone; and the least number that is taken
# for this count, as "two calls" are seldom all of them.
Phrase = collections.namedtuple("Phrase", "count text least", defaults=(0,))

PHRASES = (
    Phrase("calls", "library of {} (?:calls|functions)"),
    Phrase("calls", "{} (?:exported )?(?:calls|functions) (?:of|in) the (?:header|library|archive)"),
    Phrase("calls", "{} exported (?:calls|functions)", 6),
    Phrase("calls", "{words} (?:calls|functions)", 11),
    Phrase("acts", "{} (?:kinds of )?acts in all"),
    Phrase("acts", "{words} (?:acts|actions)", 9),
    Phrase("answers", "{} answers in all"),
    Phrase("answers", "{words} answers", 11),
    Phrase("last answer", "answers?(?: numbers)?,? (?:from )?0 to {}"),
    Phrase("layout", "layout(?:'s number)? is (?:now |still )?{}"),
    Phrase("layout", "`FUNNELFAWN_LAYOUT`,? (?:is |now |is now ){}"),
    Phrase("table", "(?:a|the) table (?:is|has|is lent as) {} numbers"),
    Phrase("table", "{} numbers of a table"),
    Phrase("deadline table", "deadline table (?:is|has|is lent as) {} numbers"),
    Phrase("deadline table", "{} numbers (?:of|for) a deadline table"),
    Phrase("summary", "summary (?:is|has|is lent as) {}(?: numbers|:)"),
    Phrase("board", "board (?:is|has|is lent as) {} numbers"),
    Phrase("board", "{} numbers of (?:a|the|its) board"),
    *(Phrase(name, rf"\| {name} \| {{}} \|") for name in ("table", "deadline table", "summary", "board")),
    Phrase("lists", "(?:all|as|as:|copy|copy the|first|in|is|has|with) {} (?:lent )?numbers", 97),
    Phrase("recordings", "(?:all|the) {} recordings of (?:the corpus|`?reference/corpus`?)"),
    Phrase("readable recordings", "{} (?:readable|faultless) recordings"),
    Phrase("stored calls", "{} stored calls"),
    Phrase("must-fail edits", "{} must-fail edits"),
    Phrase("crates", "{} crates", 11),
)


def is_one_of(path, patterns):
    return any(fnmatch.fnmatchcase(path, pattern) for pattern in patterns)


def is_page(path):
    return path.endswith(".md") and not is_one_of(path, NO_PAGES)


def is_counting(path):
    return is_one_of(path, COUNTING) and not is_one_of(path, NOT_COUNTING)


def is_read(path):
    return is_page(path) or is_counting(path) or path == "crates.txt" or path.startswith(VECTORS)


def read_repository():
    files, paths = {}, set()
    for folder, folders, names in os.walk(ROOT):
        folders[:] = sorted(set(folders) - NOT_LOOKED_AT)
        for name in folders + sorted(names):
            path = (pathlib.Path(folder) / name).relative_to(ROOT).as_posix()
            paths.add(path)
            if name in names and is_read(path):
                files[path] = (ROOT / path).read_text(encoding="utf8")
    return Repository(files, paths)


def pages_of(repository):
    return {path: text for path, text in repository.files.items() if is_page(path)}


# What a page is made of


FENCE = re.compile(r"(\s*)(`{3,}|~{3,})\s*([^`]*?)\s*$")


@functools.lru_cache(maxsize=None)
def fences_of(text):
    indent, mark, fences = 0, None, []
    for number, line in enumerate(text.split("\n"), 1):
        fence = FENCE.match(line)
        if mark is None and fence:
            indent, mark = len(fence.group(1)), fence.group(2)
            fences.append(Fence(fence.group(3), number, [], False))
        elif mark and fence and fence.group(2).startswith(mark) and not fence.group(3):
            mark, fences[-1] = None, fences[-1]._replace(closed=True)
        elif mark:
            fences[-1].lines.append(line[:indent].lstrip() + line[indent:])
    return fences


def blank(match):
    return re.sub(r"[^\n]", " ", match.group())


# a code span ends within its paragraph, and in a table within its row
SPAN = re.compile(r"(?<!`)(`+)(?!`)((?:(?!\n\s*(?:\n|\|)).)+?)(?<!`)\1(?!`)", re.DOTALL)
COMMENT = re.compile(r"<!--.*?-->", re.DOTALL)


def without_fences(text):
    lines = text.split("\n")
    for fence in fences_of(text):
        for number in range(fence.line - 1, min(fence.line + len(fence.lines) + 1, len(lines))):
            lines[number] = " " * len(lines[number])
    return "\n".join(lines)


@functools.lru_cache(maxsize=None)
def prose_of(text):
    """The page with blanks where it has fenced blocks, code spans or comments: each character stands where it stood."""
    return SPAN.sub(blank, COMMENT.sub(blank, without_fences(text)))


def line_at(text, offset):
    return text.count("\n", 0, offset) + 1


# Anchors


HEADING = re.compile(r"^ {0,3}#{1,6}[ \t]+(.*?)(?:[ \t]+#+)?[ \t]*$", re.MULTILINE)
UNDERLINED = re.compile(r"(?:^|\n[ \t]*\n) {0,3}([^\s|#>-][^\n]*)\n {0,3}(?:=+|-+)[ \t]*(?=\n|$)")
NAMED = re.compile(r"<[a-zA-Z][^>]*\s(?:id|name)=[\"']([^\"']+)[\"']")


def words_of(heading):
    """What is read of a heading: of links their text, of images nothing."""
    parts = re.split(r"(`+[^`]+`+)", heading)
    for number in range(0, len(parts), 2):
        part = re.sub(r"!\[[^\]]*\]\([^)]*\)", "", parts[number])
        part = re.sub(r"\[((?:[^\[\]]|\[[^\]]*\])*)\](?:\([^)]*\)|\[[^\]]*\])", r"\1", part)
        part = re.sub(r"<[^>]+>", "", part)
        parts[number] = re.sub(r"(?<!\w)(_+)(\S|\S.*?\S)\1(?!\w)", r"\2", part)
    return html.unescape("".join(parts))


def anchor_of(heading):
    """By GitHub's rule: lower case, letters, digits, hyphens and underscores alone, a hyphen for each space."""
    return re.sub(r"[^\w\- ]", "", words_of(heading).strip().lower()).replace(" ", "-")


@functools.lru_cache(maxsize=None)
def anchors_of(text):
    """Of equal headings the second gets -1, the third -2."""
    text = COMMENT.sub(blank, without_fences(text))
    headings = sorted((match.start(1), match.group(1)) for pattern in (HEADING, UNDERLINED) for match in pattern.finditer(text))
    seen = {}
    for _, heading in headings:
        first = anchor = anchor_of(heading)
        while anchor in seen:
            seen[first] += 1
            anchor = f"{first}-{seen[first]}"
        seen[anchor] = 0
    return set(seen) | set(NAMED.findall(text))


# Links


Link = collections.namedtuple("Link", "line target")

TARGET = r"(<[^<>\n]*>|[^\s()<>]*(?:\([^\s()]*\)[^\s()<>]*)*)"
INLINE = re.compile(r"\]\(\s*" + TARGET + r"(?:\s+(?:\"[^\"]*\"|'[^']*'))?\s*\)")
DEFINITION = re.compile(r"^ {0,3}\[([^\]\n]+)\]:\s*(\S+)", re.MULTILINE)
HREF = re.compile(r"<(?:a|img|source)\b[^>]*\s(?:href|src|srcset)=[\"']([^\"']*)[\"']")
REFERENCE = re.compile(r"\[([^\[\]]+)\]\[([^\[\]]*)\]")
# [8.78][8.80] are two clauses
CLAUSE = re.compile(r"\d+\.\d+")
SCHEME = re.compile(r"[a-zA-Z][a-zA-Z0-9+.-]*:|//")


@functools.lru_cache(maxsize=None)
def links_of(text):
    """The links of a page, images too, be they written in place, as a definition or in HTML."""
    prose = prose_of(text)
    matches = [(match, group) for pattern, group in ((INLINE, 1), (DEFINITION, 2), (HREF, 1)) for match in pattern.finditer(prose)]
    return [Link(line_at(prose, match.start(group)), match.group(group).strip("<>")) for match, group in matches]


def label_of(text):
    return " ".join(text.lower().split())


@functools.lru_cache(maxsize=None)
def undefined_of(text):
    """The labels that a page uses and does not define. Labels with code in them are taken from the page as it stands."""
    prose = prose_of(text)
    defined = {label_of(text[match.start(1):match.end(1)]) for match in DEFINITION.finditer(prose)}
    used = [(match, 2 if match.group(2) else 1) for match in REFERENCE.finditer(prose)]
    links = [Link(line_at(prose, match.start()), label_of(text[match.start(group):match.end(group)])) for match, group in used]
    return [link for link in links if link.target not in defined and not CLAUSE.fullmatch(link.target)]


def check_link(repository, anchors, page, target):
    """What is wrong with a link of a page, or None."""
    path, _, anchor = target.partition("#")
    path, anchor = urllib.parse.unquote(path), urllib.parse.unquote(anchor)
    if path.startswith("/"):
        return "is not relative"
    there = posixpath.normpath(posixpath.join(posixpath.dirname(page), path)) if path else page
    if there != "." and there not in repository.paths:
        return f"leads nowhere: there is no {there}"
    if "#" not in target:
        return None if path else "is empty"
    if not is_page(there):
        return "has an anchor, and leads to no page"
    return None if anchor in anchors[there] else f"leads nowhere: {there} has no heading for it"


def check_links(repository):
    pages = pages_of(repository)
    anchors = {path: anchors_of(text) for path, text in pages.items()}
    for page, text in pages.items():
        for link in links_of(text):
            fault = None if SCHEME.match(link.target) else check_link(repository, anchors, page, link.target)
            if fault:
                yield f"{page}:{link.line}: the link ({link.target}) {fault}"
        for link in undefined_of(text):
            yield f"{page}:{link.line}: the label [{link.target}] of a link is not defined"


# Sizes and lines


def check_sizes(repository):
    for path, _ in SIZES:
        if "*" not in path and path not in repository.files:
            yield f"{path}: is not there, and has a bound on its size"
    for page, text in pages_of(repository).items():
        most = next((size for pattern, size in SIZES if fnmatch.fnmatchcase(page, pattern)), None)
        size = len(text.encode("utf8"))
        if most is not None and size > most:
            yield f"{page}: has {size:,} bytes, and may have {most:,}"


def check_fences(repository):
    for page, text in pages_of(repository).items():
        for fence in fences_of(text):
            if not fence.closed:
                yield f"{page}:{fence.line}: the fenced block does not end"


def check_lines(repository):
    for page, text in pages_of(repository).items():
        if is_one_of(page, LEFT_ALONE):
            continue
        printed = {fence.line + 1 + number for fence in fences_of(text) if fence.tag == "text" for number in range(len(fence.lines))}
        for number, line in enumerate(text.split("\n"), 1):
            if len(line) > COLUMNS and not line.lstrip().startswith("|") and number not in printed:
                yield f"{page}:{number}: has {len(line)} columns, and may have {COLUMNS}"


# Counts


STORED = re.compile(r"\| `(\w+\.txt)` \| ([\d,]+) \|")
ENUM = re.compile(r"\benum(?: (\w+))? \{(.*?)\};", re.DOTALL)
FUNCTION = re.compile(r"^(?:struct )?\w+ (funnelfawn_\w+)\(", re.MULTILINE)


def constants_of(header):
    """The enums of the header: of each its names with their values, in order; an enum without a name has "" for it."""
    values, enums = {}, collections.defaultdict(dict)
    for name, members in ENUM.findall(re.sub(r"/\*.*?\*/", "", header, flags=re.DOTALL)):
        value = -1
        for member in filter(None, (part.strip() for part in members.split(","))):
            constant, _, sum_of = (part.strip() for part in member.partition("="))
            value = value_of(sum_of, values) if sum_of else value + 1
            values[constant] = enums[name][constant] = value
    return enums


def value_of(sum_of, values):
    """A sum of products of numbers and of constants that were given a value before."""
    products = ([factor.strip() for factor in product.split("*")] for product in sum_of.split("+"))
    return sum(math.prod(values[factor] if factor in values else int(factor) for factor in factors) for factors in products)


def stored_calls(repository):
    """How many calls each file of reference/vectors has, a line each; a line that starts with # is none."""
    texts = {path: text for path, text in repository.files.items() if path.startswith(VECTORS) and path.endswith(".txt")}
    return {path: sum(1 for line in text.splitlines() if line and not line.startswith("#")) for path, text in texts.items()}


def paths_like(repository, pattern):
    return sum(1 for path in repository.paths if fnmatch.fnmatchcase(path, pattern))


def counts_of(repository):
    """What each count is; a list lent to a call may be any of four."""
    header = repository.files[HEADER]
    enums = constants_of(header)
    answers = set(enums["funnelfawn_number"].values())
    lengths = {name: enums[""][f"FUNNELFAWN_{name}_LENGTH"] for name in ("TABLE", "DEADLINES", "SUMMARY", "BOARD")}
    return {
        "calls": {len(set(FUNCTION.findall(header)))},
        "acts": {len(enums["funnelfawn_act"])},
        "answers": {len(answers)},
        "last answer": {max(answers)},
        "layout": {enums[""]["FUNNELFAWN_LAYOUT"]},
        "table": {lengths["TABLE"]},
        "deadline table": {lengths["DEADLINES"]},
        "summary": {lengths["SUMMARY"]},
        "board": {lengths["BOARD"]},
        "lists": set(lengths.values()),
        "recordings": {paths_like(repository, "reference/corpus/*.in")},
        "readable recordings": {paths_like(repository, "reference/corpus/*.spans")},
        "stored calls": {sum(stored_calls(repository).values())},
        "must-fail edits": {paths_like(repository, "crates/*/must-fail/*.edit")},
        "crates": {len(re.findall(r"^\w+(?: [^:#\n]*)?:", repository.files["crates.txt"], re.MULTILINE))},
    }


def number_words():
    """Zero to a hundred, in words."""
    ones = "zero one two three four five six seven eight nine ten eleven twelve thirteen fourteen fifteen sixteen seventeen eighteen nineteen".split()
    tens = "twenty thirty forty fifty sixty seventy eighty ninety".split()
    words = dict(zip(ones, range(20)))
    for ten, word in zip(range(20, 100, 10), tens):
        words.update({word: ten}, **{f"{word}-{one}": ten + number for number, one in enumerate(ones[1:10], 1)})
    return words | {"a hundred": 100, "one hundred": 100, "hundred": 100}


WORDS = number_words()
NUMBER = re.compile(r"(?<![\w.,-])(?:" + "|".join(sorted(WORDS, key=len, reverse=True)) + r"|\d{1,3}(?:,\d{3})+|\d+)(?![\w-]|[.,]\d)", re.IGNORECASE)
# between two words, at the end of a line the marks of a comment and of bold type too
BLANK = r"(?:\*\*)?\s+(?:(?:\*{1,2}|//[/!]?|--|>)\s*)?"
# no phrase has more characters before its number
BEFORE = 100


def number_of(said):
    return WORDS[said.lower()] if said.lower() in WORDS else int(said.replace(",", ""))


def patterns_of(phrase):
    """What stands before the number of a phrase, and what after it."""
    before, after = re.split(r"\{\w*\}", phrase.text.replace(" ", BLANK))
    start = r"\b" if re.match(r"\w|\(\?:", before) else ""
    return re.compile(f"{start}{before}$", re.IGNORECASE), re.compile(rf"{after}(?!\w)", re.IGNORECASE)


PATTERNS = {phrase: patterns_of(phrase) for phrase in PHRASES}


def phrases_at(text, number):
    """The phrases that a number is the number of."""
    for phrase, (before, after) in PATTERNS.items():
        in_words = not number.group()[0].isdigit()
        if in_words or "{words}" not in phrase.text:
            if after.match(text, number.end()) and before.search(text[max(0, number.start() - BEFORE):number.start()]):
                yield phrase


@functools.lru_cache(maxsize=None)
def counts_in(text):
    """Each count that a text says: the phrase, the line and the number."""
    found = ((phrase, match) for match in NUMBER.finditer(text) for phrase in phrases_at(text, match))
    said = [(phrase, line_at(text, match.start()), number_of(match.group())) for phrase, match in found]
    return [(phrase, line, number) for phrase, line, number in said if number >= phrase.least]


def said_counts(repository):
    """Each count that is said somewhere, with the path of the file."""
    for path, text in repository.files.items():
        if is_counting(path):
            for said in counts_in(text):
                yield path, *said


def check_counts(repository):
    counts = counts_of(repository)
    for path, phrase, line, number in said_counts(repository):
        if number not in counts[phrase.count]:
            right = " or ".join(f"{count:,}" for count in sorted(counts[phrase.count]))
            yield f"{path}:{line}: {phrase.count}: says {number:,}, and it is {right}"


def check_stored(repository):
    """The table of stored calls has each file, with its count."""
    page = VECTORS + "README.md"
    rows = {VECTORS + name: number_of(said) for name, said in STORED.findall(repository.files.get(page, ""))}
    calls = stored_calls(repository)
    for path in sorted(set(rows) | set(calls)):
        if rows.get(path) != calls.get(path):
            yield f"{page}: stored calls of {path}: says {rows.get(path)}, and it is {calls.get(path)}"


CHECKS = (check_links, check_sizes, check_fences, check_lines, check_counts, check_stored)


def faults_of(repository):
    return [fault for check in CHECKS for fault in check(repository)]


def summary_of(repository):
    pages = pages_of(repository)
    links = sum(1 for text in pages.values() for link in links_of(text) if not SCHEME.match(link.target))
    counts = len({(path, line, number) for path, _, line, number in said_counts(repository)})
    return f"{len(pages)} pages, {links} links between them and to files, {counts} counts in prose"


def main(arguments):
    if arguments:
        print(__doc__)
        return 2
    repository = read_repository()
    faults = faults_of(repository)
    print("\n".join(faults or [summary_of(repository)]))
    return 1 if faults else 0


if __name__ == "__main__":
    sys.exit(main(sys.argv[1:]))
