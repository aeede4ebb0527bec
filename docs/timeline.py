#!/usr/bin/env python3
"""Draws a recording over time: the places of each window, the shared word, every act, and when a check may come.

    docs/timeline.py RECORDING ANSWERS > PICTURE.svg

RECORDING is a faultless recording, of either shape, and ANSWERS what `replay` prints for it: that alone tells which acts are accepted. Up to 40
steps of up to 8 windows are drawn one by one, if they fit on a screen; of anything longer docs/overview.py makes one picture. The exit status is 1
where there is nothing to draw, which a line on standard error explains. docs/timeline.svg is made of examples/two-windows.csv and
crates/replay/stdout."""
import sys
import textwrap

sys.dont_write_bytecode = True

import overview
from drawing import COLOURS, GREEN, INK, PALE, RED, SIZE, TAKEN, WHITE, Axis, Sheet, title_of, width
from recording import REFUSALS, Fault, read

WIDTH, LEFT, RIGHT, BAND, ROW = 900, 104, 60, 50, 16
MOST_STEPS, MOST_WINDOWS, MOST_WIDE, MOST_HIGH = 40, 8, 1400, 1100
USES = {"test": "finds", "set": "sets", "check": "finds", "reset": "sets"}


class Picture(Sheet):
    """The sheet for a picture of every act. It is wide enough for every flag."""

    def __init__(self, start, end):
        super().__init__(WIDTH)
        self.axis = Axis(start, end, LEFT, WIDTH - RIGHT)

    def x(self, moment):
        return self.axis.x(moment)

    def band(self, name, values, colour):
        """The values of a window or of the word; the last one, which nothing ends, gets a point. A sale is there however short it is."""
        self.name(name, BAND)
        for (start, value), (stop, _) in zip(values, values[1:] + [(None, None)]):
            left, right = self.x(start), self.x(self.axis.end if stop is None else stop)
            if value == "selling":
                right = max(right, left + 2)
            if left < right:
                self.cell(left, right, value, colour(value), stop is None)
        self.y += BAND

    def cell(self, left, right, value, colour, is_last):
        """With its value in words, upright where it is narrow, or without where it is too narrow for that."""
        top, low = self.y, self.y + BAND
        point = [(right + 12, top + BAND / 2)] * is_last
        self.path((left, top), (right, top), *point, (right, low), (left, low), (left, top), fill=colour)
        x, y = (left + right) / 2, top + BAND / 2
        size = 10 if width(value, 10) < BAND else 9
        turned = f' font-size="{size}" transform="rotate(-90 {x:.1f} {y:.1f})"' * (right - left < width(value))
        if right - left >= SIZE or not turned:
            self.text(x, y + 4, value, more=turned)

    def flags(self, marks, out):
        """A pole for each (moment, words, colour), its words to the right: farther out than those whose poles they would meet. One that is out of the
        frame stands at its edge, with its moment."""
        placed = []
        for moment, words, colour in reversed(sorted(marks, key=lambda mark: mark[0])):
            x, side = self.x(moment), (moment > self.axis.end) - (moment < self.axis.start)
            words += f" at {moment}" * abs(side)
            row = max((row + 1 for right, row, *_ in placed if right < x + width(words) + 8), default=0)
            placed.append((x, row, words, colour, side))
        height = ROW * (1 + max((row for _, row, *_ in placed), default=0)) + 6
        foot = self.y + height * (out < 0)
        for x, row, words, colour, side in placed:
            tip = foot + out * (ROW * row + 14)
            self.path((x, foot), (x, tip), stroke=colour)
            self.text(x + 5, tip + 4, words, "start", colour)
            self.wide = max(self.wide, round(x + 5 + width(words) + 12))
            if colour == RED:
                self.cross(x, foot + out * 5, side)
        self.y += height

    def cross(self, x, y, side):
        """What marks a refusal; beyond the edge of the frame an arrow that points there."""
        if side:
            self.path((x, y - 4), (x + 8 * side, y), (x, y + 4), (x, y - 4), fill=RED, stroke=RED)
            return
        for slope in (4, -4):
            self.path((x - 4, y - slope), (x + 4, y + slope), stroke=RED, more=' stroke-width="2"')

    def measure(self, start, stop, words):
        """A line from one moment to another with its words in the middle, if there is room for them."""
        left, right, y = self.x(start), self.x(stop), self.y + 11
        middle, half = (left + right) / 2, len(words) * SIZE * 0.265 + 2
        is_said = right - left > 2 * half
        half *= is_said
        end = [(right, y - 5), (right, y + 5)] * (stop <= self.axis.end)
        self.path((left, y - 5), (left, y + 5), (left, y), (middle - half, y), stroke=PALE)
        self.path(*end, (right, y), (middle + half, y), stroke=PALE)
        if is_said:
            self.text(middle, y + 4, words, fill=PALE)

    def may_check(self, start, stop):
        """When a check is accepted, in as many words as there is room for."""
        left, right, low = self.x(start), self.x(stop), self.y + 20
        self.path((left, low), (left, low - 18), (right, low - 18), (right, low), fill=GREEN, stroke="none")
        for words in (f"check: {start} to {stop}", f"{start} to {stop}", "check"):
            if width(words) + 4 <= right - left:
                self.text((left + right) / 2, low - 5, words, fill=WHITE)
                break


def mark(step):
    """The flag of a step; of an act that is no window's, whose."""
    words = step.act if step.number != 7 or not step.window else f"window {step.window} {step.act}"
    return (step.moment, f"{words}: {step.number} {REFUSALS[step.number]}", RED) if step.number else (step.moment, words, INK)


def draw_window(picture, window, places, steps, b, c):
    picture.flags([mark(step) for step in steps if step.window == window], -1)
    picture.band(f"window {window}", places, COLOURS.get)
    checks = [moment for moment, place in places if place == "checking" and picture.x(moment + c) - picture.x(moment) > SIZE]
    top, lanes = picture.y, []
    for came in checks:
        # the first lane in which the check before has ended
        lane = next((lane for lane, ended in enumerate(lanes) if ended <= came), len(lanes))
        lanes[lane:lane + 1] = [came + c]
        picture.y = top + 36 * lane
        picture.measure(came, came + b, f"b = {b}: too early")
        picture.may_check(came + b, came + c)
        picture.y += 18
        picture.measure(came, came + c, f"c = {c}: then late")
    picture.y = top + 36 * len(lanes) + 12


def lesson(recording):
    """Why the lock holds, what each check came to, and what is left to say."""
    own, each = ("a", "a") if len(set(recording.own)) == 1 else ("its own a", "each a")
    yield f"Whoever finds the word free sets it within {own}, and checks b or more after that: as {each} < b, all such sets are done by then."
    for moment, window, act, word in recording.uses:
        if act == "check" and word == window:
            yield f"At {moment} window {window} finds its own number and enters."
        elif act == "check":
            yield f"At {moment} window {window} finds {word} and goes back to testing."
    yield f"The recording ends at {recording.clock}. Red: refused, with the answer's number."


def draw(recording):
    """The picture of every act: how wide and how high it is, and what it is."""
    n, steps = recording.n, recording.steps
    picture = Picture(*recording.frame())
    title = title_of(recording, WIDTH - 24)
    picture.title(title)
    for window in acting(recording):
        draw_window(picture, window, recording.places[window - 1], steps, recording.b, recording.c)
    uses = [(moment, f"window {window} {USES[act]} {value}", INK) for moment, window, act, value in recording.uses]
    picture.flags(uses, -1)
    words = [(moment, f"window {value}" if value else "0, free") for moment, value in recording.word]
    picture.band("shared word", words, lambda value: WHITE if value == "0, free" else TAKEN)
    picture.y += 14
    picture.clock(recording.clock, ("\u00b5s", 1), 24, 44)
    picture.flags([mark(step) for step in steps if not recording.has(step.window)], 1)
    told = list(lesson(recording))
    picture.prose(told[:1] + textwrap.wrap(" ".join(told[1:]), 125))
    return picture.wide, picture.y + 14, picture.svg(title, " ".join(told))


def acting(recording):
    return sorted({step.window for step in recording.steps if recording.has(step.window)})


def picture_of(recording):
    """Every act, or where that would be too much for a screen the overview."""
    if len(recording.steps) <= MOST_STEPS and len(acting(recording)) <= MOST_WINDOWS:
        wide, high, drawn = draw(recording)
        if wide <= MOST_WIDE and high <= MOST_HIGH:
            return drawn
    return overview.draw(recording)


def main(arguments):
    if len(arguments) != 2:
        print("usage: docs/timeline.py RECORDING ANSWERS > PICTURE.svg", file=sys.stderr)
        return 2
    try:
        drawn = picture_of(read(*arguments))
        sys.stdout.buffer.write(drawn.encode())
        sys.stdout.flush()
    except Fault as fault:
        print(f"timeline.py: {fault}", file=sys.stderr)
        return 1
    except OSError as error:
        print(f"timeline.py: the picture cannot be written: {error.strerror}", file=sys.stderr)
        # what is left to write would be tried once more at the end
        sys.stdout = None
        return 1
    return 0


if __name__ == "__main__":
    sys.exit(main(sys.argv[1:]))
