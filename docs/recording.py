"""Reads a recording and what `replay` prints for it, and follows it by the acts table: docs/timeline.py and docs/overview.py draw what comes of it.

The answers alone tell which acts are accepted. A Fault says in one line why there is nothing to draw."""
import re
from collections import namedtuple

FORMER, PRESENT, OWN, STEPS = "windows,a,b,c", "windows,b,c", "window,a", "time,window,act"
ANSWERS = "line,answer,window,moment"
NUMBER, LONG = "(0|[1-9][0-9]{0,7})", "(0|[1-9][0-9]{0,12})"
MOST_WINDOWS, MOST_LIMIT, MOST_BYTES = 96, 10_000_000, 1 << 20
REFUSALS = {4: "backward", 5: "end of clock", 6: "no act", 7: "no window", 8: "late", 9: "out of place", 10: "early"}
FAULTS = {11: "window count", 12: "limits", 13: "names", 14: "line", 15: "length"}
# of each act the place that it leaves and the one that it leads to; of a test and a check the word tells
ACTS = {
    "try": ("remainder", "testing"), "test": ("testing", None), "set": ("setting", "checking"), "check": ("checking", None),
    "crit": ("entering", "selling"), "exit": ("selling", "resetting"), "reset": ("resetting", "leaving"),
    "rem": ("leaving", "remainder"), "withdraw": ("testing", "remainder"),
}
WORDS = "(" + "|".join(["wait", *ACTS]) + ")"

Step = namedtuple("Step", "moment window act number")


class Fault(Exception):
    """What is the matter with the files, in one line."""


class Recording:
    """Its limits and steps, and by the acts table: what each window's place and the word become, and when; the uses of the word, with what it
    was then; and the clock after the last step."""

    def __init__(self, own, b, c, steps):
        self.own, self.b, self.c, self.steps, self.n = own, b, c, steps, len(own)
        self.places, self.word, self.uses, self.clock = [[(0, "remainder")] for _ in own], [(0, 0)], [], 0

    def has(self, window):
        return 0 < window <= self.n

    def follow(self, step):
        """Goes on by a step, and tells whether its answer may be one to it."""
        moment, window, act, number = step
        if (number == 4) != (moment < self.clock) or number and number not in REFUSALS:
            return False
        if number:
            return True
        self.clock = moment
        if act == "wait":
            return window == 0
        leaves, to = ACTS[act]
        if not self.has(window) or self.places[window - 1][-1][1] != leaves:
            return False
        found = self.word[-1][1]
        if act in ("set", "reset"):
            self.word.append((moment, window if act == "set" else 0))
        if act == "test":
            to = "testing" if found else "setting"
        if act == "check":
            to = "entering" if found == window else "testing"
        if act in ("test", "set", "check", "reset"):
            self.uses.append((moment, window, act, self.word[-1][1]))
        self.places[window - 1].append((moment, to))
        return True

    def frame(self):
        """From when to when a picture goes: from the first act of a window to the last accepted one, and on to other moments, but at most as long
        again, or as c where no time has gone by. It starts at 0 unless a third would be empty then."""
        acts = [step for step in self.steps if step.act != "wait"]
        last = max([step.moment for step in acts if not step.number], default=self.clock)
        first = min([last, *(step.moment for step in acts if step.number != 4)])
        first = first if 3 * first > last else 0
        limit = last + (last - first or self.c)
        last = max([last, *(step.moment for step in self.steps if step.moment <= limit)])
        air = max(1, (last - first) // 25)
        return max(0, first - air), last + air


def lines_of(name):
    """The lines of a file; what comes after its last end of a line is one too. No byte is lost, be it ASCII or not."""
    try:
        with open(name, encoding="latin-1", newline="\n") as file:
            lines = file.read(MOST_BYTES).split("\n")
    except OSError as error:
        raise Fault(f"{name}: {error.strerror}") from error
    return lines if lines[-1] else lines[:-1]


def fields(what, lines, number, form):
    """Those of the line of that number, which has to have that form."""
    if number > len(lines):
        raise Fault(f"{what}: it ends before line {number}")
    line = lines[number - 1]
    if not re.fullmatch(form, line):
        raise Fault(f"{what}: line {number} is {ascii(line[:60])}")
    return line.split(",")


def numbers(what, lines, number, *forms):
    return [int(field) for field in fields(what, lines, number, ",".join(forms))]


def limits_of(what, lines):
    """The a of each window, b and c, and how many lines stand before the steps."""
    if lines[:1] == [FORMER]:
        (n, a, b, c), own = numbers(what, lines, 2, *[NUMBER] * 4), []
        head, own = 3, [a] * min(n, MOST_WINDOWS)
    else:
        fields(what, lines, 1, PRESENT)
        n, b, c = numbers(what, lines, 2, *[NUMBER] * 3)
        fields(what, lines, 3, OWN)
        own = [numbers(what, lines, 3 + window, str(window), NUMBER)[1] for window in range(1, min(n, MOST_WINDOWS) + 1)]
        head = 4 + n
    if not 0 < n <= MOST_WINDOWS or not 0 < min(own) <= max(own) < b <= c <= MOST_LIMIT:
        raise Fault(f"{what}: its number of windows or its limits do not stand")
    fields(what, lines, head, STEPS)
    return own, b, c, head


def answers_of(name, recording):
    """The lines of answers, each as four numbers."""
    lines, what = lines_of(name), f"{name} is not what `replay` prints"
    fields(what, lines, 1, ANSWERS)
    answers = [numbers(what, lines, number, *[LONG] * 4) for number in range(2, len(lines) + 1)]
    if len(answers) == 1 and answers[0][1] in FAULTS:
        line, number, *_ = answers[0]
        raise Fault(f"{recording} is no recording: `replay` has found {number} ({FAULTS[number]}) at line {line}")
    return answers


def read(recording, answers):
    """The Recording of two files."""
    said, lines, what = answers_of(answers, recording), lines_of(recording), f"{recording} is no recording"
    *limits, head = limits_of(what, lines)
    steps = [fields(what, lines, number, f"{LONG},{NUMBER},{WORDS}") for number in range(head + 1, len(lines) + 1)]
    other = f"{answers} has not the answers to {recording}"
    if len(said) != len(steps):
        raise Fault(f"{other}: {len(said)} answers, {len(steps)} steps")
    steps = [Step(int(moment), int(window), act, answer[1]) for (moment, window, act), answer in zip(steps, said)]
    read_so = Recording(*limits, steps)
    for line, (step, (told, number, _, moment)) in enumerate(zip(steps, said), head + 1):
        if told != line or not read_so.follow(step) or not number and moment != step.moment:
            raise Fault(f"{other}: see line {line}")
    return read_so
