#!/usr/bin/env python3
"""Tries docs/timeline.py on every recording of the corpus and on some that are made here: each picture is XML of a fit size in which all words are
inside the frame and none meet, every sale is a cell of its colour and every refusal is red; and what is no recording is told so."""
import io
import re
import subprocess
import sys
import tempfile
import time
import xml.etree.ElementTree as tree
from itertools import combinations
from pathlib import Path

import overview
import timeline
from drawing import COLOURS, RED, Axis
from recording import FAULTS, read

ROOT = Path(__file__).resolve().parent.parent
CORPUS = ROOT / "reference" / "corpus"
WIDE, HIGH, BYTES, SECONDS = 1400, 1100, 1_500_000, 3
SVG = "{http://www.w3.org/2000/svg}"
NARROW, BROAD = "fijlrtI'()[]|.,:;- ", "mwMW%="


class Words:
    """A text of a picture, and about the box that it takes: left, right, top, low."""

    def __init__(self, element, size):
        self.words, self.y = element.text, float(element.get("y"))
        self.size = size = float(element.get("font-size", size))
        self.is_bold = element.get("font-weight") == "bold"
        wide = sum(0.35 if sign in NARROW else 0.9 if sign in BROAD else 0.61 for sign in self.words) * size * (1.1 if self.is_bold else 1)
        left = float(element.get("x")) - wide * {"start": 0, "middle": 0.5, "end": 1}[element.get("text-anchor")]
        self.box = left, left + wide, self.y - 0.75 * size, self.y + 0.22 * size
        turn = re.fullmatch(r"rotate\(-90 (\S+) (\S+)\)", element.get("transform", ""))
        if turn:
            x, y = map(float, turn.groups())
            left, right, top, low = self.box
            self.box = x + top - y, x + low - y, y - (right - x), y - (left - x)

    def meets(self, other):
        left, right, top, low = self.box
        left_too, right_too, top_too, low_too = other.box
        return left < right_too and left_too < right and top < low_too and top_too < low


class Seen:
    """What is found in a picture: its frame, its words, its cells of sales and its red marks, each as a box."""

    def __init__(self, drawn):
        root = tree.fromstring(drawn)
        _, _, self.wide, self.high = map(float, root.get("viewBox").split())
        self.words = [Words(element, root.get("font-size")) for element in root.iter(f"{SVG}text")]
        self.sales, self.red = [], []
        for element in root.iter():
            if element.get("fill") == COLOURS["selling"]:
                self.sales += boxes(element)
            if element.tag == f"{SVG}path" and RED in (element.get("stroke"), element.get("fill")):
                self.red += boxes(element)

    def rows(self):
        """The middle of the row of each window that has a name."""
        named = (re.fullmatch(r"(?:window )?(\d+)", text.words) for text in self.words)
        return {int(name[1]): text.y - 0.34 * text.size for name, text in zip(named, self.words) if name and text.box[1] < timeline.LEFT}


def boxes(element):
    """Left, right, top and low of a rectangle, or of each part of a path of lines."""
    if element.tag == f"{SVG}rect":
        x, y, wide, high = (float(element.get(name)) for name in ("x", "y", "width", "height"))
        return [(x, x + wide, y, y + high)]
    found = []
    for part in element.get("d").split("M")[1:]:
        xs, ys = [], []
        for letter, numbers in re.findall(r"([MLlv])([^MLlvz]*)", "M" + part):
            values = [float(number) for number in numbers.split()]
            if letter == "v":
                values = [xs[-1], ys[-1] + values[0]]
            elif letter == "l":
                values = [xs[-1] + values[0], ys[-1] + values[1]]
            xs.append(values[0])
            ys.append(values[1])
        found.append((min(xs), max(xs), min(ys), max(ys)))
    return found


def is_at(places, x, y, near=2.5):
    return any(left - near <= x <= right + near and top <= y <= low for left, right, top, low in places)


def faults_of(recording, drawn):
    """What is wrong with a picture."""
    seen = Seen(drawn)
    if seen.wide > WIDE or seen.high > HIGH or len(drawn.encode()) > BYTES:
        yield f"it is too large: {seen.wide:g} by {seen.high:g}, {len(drawn.encode())} bytes"
    for text in seen.words:
        left, right, top, low = text.box
        if left < 0 or top < 0 or right > seen.wide or low > seen.high:
            yield f"'{text.words}' is cut off"
    for one, other in combinations(seen.words, 2):
        if one.meets(other):
            yield f"'{one.words}' and '{other.words}' meet"
    yield from faults_of_marks(recording, seen, "refused act" in drawn)


def faults_of_marks(recording, seen, is_overview):
    module, rows = overview if is_overview else timeline, seen.rows()
    axis = Axis(*recording.frame(), module.LEFT, module.WIDTH - module.RIGHT)
    for step in recording.steps:
        x, row = axis.x(step.moment), rows.get(step.window if recording.has(step.window) else None)
        if step.act == "crit" and not step.number and not is_at(seen.sales, x, row):
            yield f"no sale is seen at {step.moment}"
        # a refusal is red in its row, or just above it, or below all rows where it is of no window
        reach = (max(rows.values(), default=0), seen.high) if row is None else (row - timeline.BAND / 2 - 12, row)
        if step.number and not any(left - 9 <= x <= right + 9 and top < reach[1] and reach[0] < low for left, right, top, low in seen.red):
            yield f"the refusal at {step.moment} is not seen"


def made(windows, acts, pace):
    """A day of the house: windows are let in one after another, another one looks in meanwhile and goes, and some acts are refused."""
    head = [f"windows,b,c\n{windows},{8 * pace},{12 * pace}\nwindow,a"] + [f"{w},{5 * pace - w % 2}" for w in range(1, windows + 1)]
    steps, answers, clock, turn = [], [], 0, 0

    def take(window, act, number=0, seller=0, moment=None):
        steps.append(f"{clock if moment is None else moment},{window},{act}")
        answers.append((number, seller, clock))

    while len(steps) < acts:
        turn += 1
        window, other = turn % windows + 1, (turn + 7) % windows + 1
        for act, rest in (("try", 1), ("test", 2), ("set", 9), ("check", 1), ("crit", 0)):
            take(window, act, 0, window if act == "crit" else 0)
            clock += rest * pace
        for act in ("try", "test", "withdraw") if other != window else ():
            take(other, act, 0, window)
            clock += 2 * pace + turn % 3
        for act, rest in (("exit", 2), ("reset", 1), ("rem", turn % 7)):
            take(window, act)
            clock += rest * pace
        take(other, "crit", 9, other)
        take(windows + 1, "try", 7)
    take(0, "wait", 5, 0, 10**12 + turn)
    first = 5 + windows
    told = [f"{line},{number},{window},{moment}" for line, (number, window, moment) in enumerate(answers, first)]
    return "\n".join([*head, "time,window,act", *steps, ""]), "\n".join(["line,answer,window,moment", *told, ""])


def at_one_moment(steps, number):
    """A recording whose steps are all at 0 and have one answer; with the largest limits."""
    head = "windows,a,b,c\n96,9999999,10000000,10000000\ntime,window,act"
    told = [f"{line},{number},0,0" for line in range(4, 4 + len(steps))]
    return "\n".join([head, *(f"0,{step}" for step in steps), ""]), "\n".join(["line,answer,window,moment", *told, ""])


# what is drawn besides the corpus: a name, and a recording with its answers
MADE = {
    "96 windows, 5,000 acts": made(96, 5000, 1),
    "96 windows, hours": made(96, 3400, 400_000),
    "12 windows, minutes": made(12, 400, 400_000),
    "one window": made(1, 300, 1000),
    "no step": at_one_moment([], 0),
    "all refused": at_one_moment(["99999999,try", "0,wait", "1,crit"] * 20, 7),
    "all at 0": at_one_moment([f"{window},try" for window in range(1, 97)], 0),
    "eight tries at 0": at_one_moment([f"{window},try" for window in range(1, 9)], 0),
    "forty refusals of a window at 0": at_one_moment(["96,withdraw"] * 40, 9),
}


def tell(*arguments):
    """What the program does: its status, and what it says on standard output and on standard error."""
    streams = sys.stdout, sys.stderr
    sys.stdout, sys.stderr = (io.TextIOWrapper(io.BytesIO(), "utf-8") for _ in streams)
    try:
        status = timeline.main([str(argument) for argument in arguments])
        said = [stream.flush() or stream.buffer.getvalue().decode() for stream in (sys.stdout, sys.stderr)]
    finally:
        sys.stdout, sys.stderr = streams
    return status, *said


def is_refused(due, status, drawn, message, words=""):
    """Whether it ended with the status that is due, a message of one line with these words, and no picture."""
    return status == due and not drawn and message.count("\n") == 1 and message.endswith("\n") and words in message


def try_picture(recording, answers):
    """What is wrong with the picture of two files."""
    status, drawn, message = tell(recording, answers)
    if status or message:
        return [f"status {status}: {message}"]
    return list(faults_of(read(recording, answers), drawn))


def try_corpus():
    """How many recordings are drawn and how many are refused, and what is wrong."""
    drawn, refused, wrong = 0, 0, []
    for recording in sorted(CORPUS.glob("*.in")):
        answers = recording.with_suffix(".out")
        first = answers.read_text().split("\n")[1]
        if first and int(first.split(",")[1]) in FAULTS:
            refused += 1
            told = tell(recording, answers)
            wrong += [] if is_refused(1, *told, "is no recording") else [f"{recording.name}: {told}"]
        else:
            drawn += 1
            wrong += [f"{recording.name}: {fault}" for fault in try_picture(recording, answers)]
    return drawn, refused, wrong


def try_made(work):
    wrong = []
    for name, texts in MADE.items():
        files = work / "made.csv", work / "made.out"
        for file, text in zip(files, texts):
            file.write_text(text)
        start = time.process_time()
        wrong += [f"{name}: {fault}" for fault in try_picture(*files)]
        if time.process_time() - start > SECONDS:
            wrong.append(f"{name}: it took {time.process_time() - start:.1f} s")
    return wrong


def try_messages(work):
    """What cannot be drawn, and the status and words that are due."""
    case, told, other = ROOT / "examples" / "two-windows.csv", ROOT / "crates" / "replay" / "stdout", CORPUS / "spans-none.out"
    moved, cut = work / "moved", work / "cut"
    moved.write_text(told.read_text().replace("4,0,0,0\n5,0,0,3", "4,9,1,0\n5,0,0,3"))
    cut.write_text(case.read_text()[:-3])
    cases = [
        (1, [work / "none", told], "none: No such file"), (1, [case, work / "none"], "none: No such file"), (1, [work, told], "directory"),
        (1, [ROOT / "LICENSE", told], "is no recording: line 1"), (1, [case, case], "is not what `replay` prints: line 1"),
        (1, [case, ROOT / "LICENSE"], "is not what `replay` prints"), (1, [cut, told], "is no recording: line 16"),
        (1, [case, other], "has not the answers"), (1, [case, moved], "has not the answers"), (1, ["/dev/null", told], "is no recording"),
        (2, [], "usage"), (2, [case], "usage"), (2, [case, told, told], "usage"),
    ]
    wrong = [f"{arguments}: {tell(*arguments)}" for due, arguments, words in cases if not is_refused(due, *tell(*arguments), words)]
    # once as it is called: with a status, and with nothing lost where the picture cannot be written
    program = [sys.executable, "-B", ROOT / "docs" / "timeline.py"]
    for due, arguments in ((0, [case, told]), (1, [case, work / "none"]), (2, [])):
        status = subprocess.run([*program, *arguments], stdout=subprocess.DEVNULL, stderr=subprocess.DEVNULL, check=False).returncode
        wrong += [f"{arguments}: status {status}"] if status != due else []
    with open("/dev/full", "wb") as full:
        done = subprocess.run([*program, case, told], stdout=full, stderr=subprocess.PIPE, text=True, check=False)
    wrong += [] if is_refused(1, done.returncode, "", done.stderr, "cannot be written") else [f"/dev/full: {done}"]
    return len(cases) + 4, wrong


def main():
    drawn, refused, wrong = try_corpus()
    with tempfile.TemporaryDirectory() as work:
        wrong += try_made(Path(work))
        messages, more = try_messages(Path(work))
    wrong += more
    print(*wrong[:20], sep="\n", end="\n" * bool(wrong))
    print(f"{drawn + len(MADE)} recordings drawn, {refused} refused, {messages} messages, {len(wrong)} wrong")
    return bool(wrong)


if __name__ == "__main__":
    sys.exit(main())
