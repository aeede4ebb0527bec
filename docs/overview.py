"""Draws a long recording on one screen: a row for each window, its places by colour, refused acts as red ticks, and the shared word below.

docs/timeline.py takes this picture where its own, which has every act by name, would be too large. What is too short to be seen is left away, but
never a sale or a refusal: either is at least a pixel wide."""
from collections import Counter

from drawing import COLOURS, PALE, PROSE, RED, TAKEN, WHITE, Axis, Sheet, decimal, title_of, unit_of, width, wrapped
from recording import REFUSALS

WIDTH, LEFT, RIGHT, TOP = 1300, 104, 36, 62
WORD, OTHERS = 20, 14
LEAST, LEAST_SALE, WIDE_SALE = 0.5, 1, 3
# how many windows at most, and how high each row is then
ROWS = [(8, 34), (16, 26), (32, 20), (48, 16), (64, 12), (96, 9)]


class Overview(Sheet):
    def __init__(self, recording):
        super().__init__(WIDTH)
        self.recording, self.row = recording, next(high for n, high in ROWS if recording.n <= n)
        self.axis = Axis(*recording.frame(), LEFT, WIDTH - RIGHT)

    def box(self, left, right, top, height, fill, more=""):
        self.parts.append(f'<rect x="{left:.2f}" y="{top}" width="{right - left:.2f}" height="{height}" fill="{fill}"{more}/>')

    def label(self, words, height):
        """The name of a row, at its left."""
        size = min(12, height)
        self.text(LEFT - 12, self.y + (height - 1) / 2 + size * 0.36, words, "end", more=f' font-size="{size}"')

    def legend(self):
        """What each colour and each mark is."""
        x, y = 12, TOP - 24
        for place, colour in COLOURS.items():
            x = self.key(x, y, colour, place)
        x = self.key(x, y, TAKEN, "word taken, by the window of that number")
        x = self.key(x, y, WHITE, "word free")
        self.parts.append(f'<path d="M{x + 5} {y}v9" stroke="{RED}" stroke-width="1.5"/>')
        self.text(x + 12, y + 10, "refused act", "start")

    def key(self, x, y, colour, words):
        self.box(x, x + 12, y, 12, colour, f' stroke="{PALE}" stroke-width=".5"')
        self.text(x + 17, y + 10, words, "start")
        return round(x + 17 + width(words) + 14)

    def window(self, window, places):
        """The row of a window: where it is in no other place it is in the remainder."""
        height = self.row - 1
        self.label(f"window {window}" if window == 1 else str(window), self.row)
        self.box(LEFT, self.axis.right, self.y, height, COLOURS["remainder"])
        seen = cells(places, self.axis)
        for (left, right, place), (after, *_) in zip(seen, seen[1:] + [[self.axis.right]]):
            # a short sale is made wider, but not so much that it seems to be one with the next
            least = min(WIDE_SALE, max(LEAST_SALE, (after - left) * 0.6)) if place == "selling" else LEAST
            if place != "remainder":
                self.box(left, max(right, left + least), self.y, height, COLOURS[place])
        self.y += self.row

    def ticks(self, steps, top, height):
        """A tick for each refused step of a row; those out of the frame are arrows beside it."""
        inside = sorted({round(self.axis.x(step.moment), 1) for step in steps if self.axis.has(step.moment)})
        if inside:
            through = "".join(f"M{x:.1f} {top}v{height}" for x in inside)
            self.parts.append(f'<path d="{through}" stroke="{RED}" stroke-width="1.5"/>')
        self.arrows(steps, top, min(height, 7), RED)

    def arrows(self, steps, top, height, colour):
        """One at each edge of the frame beyond which there are steps."""
        for side in sorted({(step.moment > self.axis.end) - (step.moment < self.axis.start) for step in steps} - {0}):
            x = (self.axis.left if side < 0 else self.axis.right) + 2 * side
            self.parts.append(f'<path d="M{x} {top}l{6 * side} {height / 2}l{-6 * side} {height / 2}z" fill="{colour}"/>')


def cells(values, axis):
    """What is seen of (moment, value) after (moment, value): left, right and value of each. Equal neighbours are one; and of those that are narrower
    than LEAST and start in the same part of a pixel a sale is kept, or else the longest. Sales come last, on top."""
    joined = []
    for (start, value), (stop, _) in zip(values, values[1:] + [(axis.end, None)]):
        if joined and joined[-1][2] == value != "selling":
            joined[-1][1] = stop
        else:
            joined.append([start, stop, value])
    kept = {}
    for start, stop, value in joined:
        left, right = axis.x(start), axis.x(stop)
        key, rank = (int(left / LEAST) if right - left < LEAST else (start, stop)), (value == "selling", stop - start)
        if rank[1] and stop > axis.start or rank[0]:
            if key not in kept or kept[key][0] < rank:
                kept[key] = (rank, left, right, value)
    return [cell for _, *cell in sorted(kept.values(), key=lambda one: (one[0][0], one[1]))]


def draw_word(sheet, word):
    """The row of the word, with the number of the window where there is room for it."""
    sheet.name("shared word", WORD)
    sheet.box(LEFT, sheet.axis.right, sheet.y, WORD, WHITE, f' stroke="{PALE}" stroke-width=".5"')
    for left, right, value in cells(word, sheet.axis):
        if value:
            sheet.box(left, max(right, left + LEAST), sheet.y, WORD, TAKEN, f' stroke="{PALE}" stroke-width=".3"')
            if width(str(value)) + 4 <= right - left:
                sheet.text((left + right) / 2, sheet.y + 14, str(value))
    sheet.y += WORD + 8


def draw_others(sheet, steps):
    """A row for waits, accepted or refused, and for refused acts of a window that is none."""
    sheet.label("waits, others", OTHERS)
    accepted = [step for step in steps if not step.number]
    for x in sorted({round(sheet.axis.x(step.moment), 1) for step in accepted if sheet.axis.has(step.moment)}):
        sheet.parts.append(f'<path d="M{x:.1f} {sheet.y}v{OTHERS}" stroke="{PALE}"/>')
    sheet.arrows(accepted, sheet.y + 7, 7, PALE)
    sheet.ticks([step for step in steps if step.number], sheet.y, OTHERS)
    sheet.y += OTHERS + 6


def count(number, what):
    return f"{number:,} {what}{'s' * (number != 1)}"


def tally(recording, axis):
    """What the recording comes to."""
    steps, refused = recording.steps, Counter(step.number for step in recording.steps if step.number)
    each = ", ".join(f"{times:,} {REFUSALS[number]} ({number})" for number, times in sorted(refused.items()))
    accepted = len(steps) - sum(refused.values())
    yield f"Of {count(len(steps), 'act')} {accepted:,} {'was' if accepted == 1 else 'were'} accepted and {sum(refused.values()):,} refused"
    yield f": {each}. " if each else ". "
    sales, (name, unit) = sum(1 for step in steps if step.act == "crit" and not step.number), unit_of(recording.clock)
    where = "; from there on the axis is dashed" if axis.has(recording.clock) else ", out of the frame"
    yield f"{count(sales, 'sale')}. The recording ends at {decimal(recording.clock / unit)} {name}{where}."


def key_of(recording, axis):
    """How the picture is read."""
    yield "A row is a window, and its colour the place that the window is in. A red tick is an act that was refused; it changed nothing."
    beyond = sum(1 for step in recording.steps if step.number and not axis.has(step.moment))
    if beyond:
        yield f"Red arrows at the edge stand for {count(beyond, 'refused act')} at moments out of the frame."
    if any(not recording.has(step.window) for step in recording.steps):
        yield "The row above the word has the waits, grey where they were accepted, and refused acts of a window that is none."


def draw(recording):
    sheet = Overview(recording)
    title = title_of(recording, WIDTH - 24)
    sheet.title(title)
    sheet.legend()
    sheet.y = TOP
    steps = {}
    for step in recording.steps:
        steps.setdefault(step.window if recording.has(step.window) else 0, []).append(step)
    for window, places in enumerate(recording.places, 1):
        top = sheet.y
        sheet.window(window, places)
        sheet.ticks([step for step in steps.get(window, []) if step.number], top, round(sheet.row * 0.65))
    sheet.y += 6
    if 0 in steps:
        draw_others(sheet, steps[0])
    draw_word(sheet, recording.word)
    sheet.clock(recording.clock, unit_of(sheet.axis.end - sheet.axis.start), 50, TOP - 4, is_behind=False)
    told = [" ".join(key_of(recording, sheet.axis)), "".join(tally(recording, sheet.axis))]
    for words in told:
        sheet.prose(wrapped(words, WIDTH - 4 * 12, PROSE))
    return sheet.svg(title, " ".join(told))
