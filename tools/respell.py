#!/usr/bin/env python3
"""Brings the names of this repository's own definitions and lemmas to the spelling of today's Rattle: words in snake case, types in
camel case. It runs once, right after the kit's port.py, at the top of the checkout; what it wrote is in the same commit.

A definition `waitAct` becomes `wait_act`, a lemma `count-stands` becomes `count_stands` where no other word has that spelling. Names of
functions of src/, names that Rattle makes, strings, inputs and outputs stay."""

import collections
import os
import re
import sys

WORD = re.compile(r'[^\s(){}.;,@"«»`:]+')
DECLARED = re.compile(r"^\s*(?:(?:abbrev|unfoldable|pub)\s+)*([^\s(){}.;,@\"«»:]+)\s*(?:\([^)]*\)\s*|\{[^}]*\}\s*)*:(?!:)")
# names of the kit that look like ours
OF_THE_KIT = {"mut_Tells", "uint_Makes", "uint_Tells", "walk_Meets"}


def files(ends):
    for top in ("crates", "crates.txt", "docs", "README.md"):
        if os.path.isfile(top) and top.endswith(ends):
            yield top
        for folder, folders, names in os.walk(top):
            folders[:] = sorted(f for f in folders if f not in ("out", "target", ".git"))
            for name in sorted(names):
                if name.endswith(ends):
                    yield os.path.join(folder, name)


def text_of(path):
    with open(path, encoding="utf-8") as file:
        return file.read()


def is_camel(word):
    return re.match(r"^[a-z]+[A-Za-z0-9]*[A-Z]", word) and word not in OF_THE_KIT


def snake(word):
    return "-".join(re.sub(r"(?<=[a-z0-9])([A-Z])", r"_\1", part).lower() if re.match("[a-z]", part) else part for part in word.split("-"))


def code_words(text):
    for line in text.splitlines():
        if not line.lstrip().startswith("--"):
            yield from WORD.findall(line)


def table():
    """The old spelling of each name and its new one."""
    words, lemmas, made = collections.Counter(), set(), set(OF_THE_KIT)
    goal = re.compile(r"goal\.([^\s(){}.;,]+)")
    ours = os.listdir("crates")
    for path in files((".antt",)):
        text = text_of(path)
        words.update(code_words(text))
        parts = path.split(os.sep)
        own = len(parts) > 2 and (parts[2] == "specs" or (parts[2] == "proofs" and len(parts) == 4))
        for line in text.splitlines():
            brought = re.match(r"use (?:Rattle\.(\w+)|[\w.]+)\S*\{(.*)\}", line)
            if brought and brought.group(1) not in ours:
                made.update(WORD.findall(brought.group(2)))
            made.update(goal.findall(line))
            found = DECLARED.match(line)
            if found and own:
                lemmas.add(found.group(1))
    for path in files((".rt",)):
        words.update(WORD.findall(text_of(path)))
    turned = {w: snake(w) for w in words if is_camel(w)}
    taken = set(words) - set(turned) | set(turned.values())
    for w in sorted(lemmas - made):
        to = w.replace("-", "_")
        if re.fullmatch(r"[a-z][a-z0-9]*(-[a-z0-9]+)+'*", w) and to not in taken:
            turned[w] = to
            taken.add(to)
    together = [f"{w} and {to}" for w, to in turned.items() if to in words and "-" not in w]
    return turned, together


def turn(text, turned, camel_only=False, code_only=False):
    def word(found):
        w = found.group(0)
        return turned[w] if w in turned and (not camel_only or is_camel(w)) else w

    return WORD.sub(word, text)


def turn_rt(text, turned):
    """Clauses, ghost items and comments; strings of the code stay."""
    return "\n".join(line if '"' in line and not line.lstrip().startswith("//") else turn(line, turned, True) for line in text.split("\n"))


def turn_pages(text, turned, spelled):
    """A page's code spans."""
    def span(found):
        return WORD.sub(lambda f: spelled.get(f.group(0), f.group(0)), found.group(0))

    return re.sub(r"`[^`\n]+`", span, text)


def main():
    turned, together = table()
    for line in together:
        print("falls together:", line)
    changed = 0
    for path in files((".antt", ".rt", ".edit")):
        text = text_of(path)
        new = turn_rt(text, turned) if path.endswith(".rt") else turn(text, turned)
        if new != text:
            changed += 1
            with open(path, "w", encoding="utf-8") as file:
                file.write(new)
    # pages and edits may also have names that port.py turned
    now = set()
    for path in files((".antt",)):
        now.update(code_words(text_of(path)))
    spelled = dict(turned)
    for path in files((".md", ".txt", ".edit")):
        for w in WORD.findall(text_of(path)):
            if is_camel(w) and w not in now and snake(w) in now:
                spelled[w] = snake(w)
    for path in files((".md", ".txt", ".edit")):
        text = text_of(path)
        new = turn_pages(text, turned, spelled) if path.endswith((".md", ".txt")) else WORD.sub(lambda f: spelled.get(f.group(0), f.group(0)), text)
        if new != text:
            changed += 1
            with open(path, "w", encoding="utf-8") as file:
                file.write(new)
    print(f"{len(turned)} names turned, {changed} files written")


if __name__ == "__main__":
    sys.exit(main())
