"""What docs/timeline.py and docs/overview.py have in common: colours, how wide words are, the axis, and the sheet that they draw on."""
from html import escape

INK, PALE, GRID, RED, GREEN, WHITE, TAKEN = "#222", "#666", "#e4e4e4", "#c4161c", "#3a8a3d", "#fff", "#fdf0a6"
COLOURS = {
    "remainder": "#ededed", "testing": "#cfe2f6", "setting": "#fbdfb0", "checking": "#e2d5f3",
    "entering": "#c9eac7", "selling": "#7cc47f", "resetting": "#f6d6d2", "leaving": "#dddddd",
}
SIZE, TITLE, PROSE = 12, 15, 13
# hundredths of the font's size, in a sans-serif font that is wider than most
WIDTHS = {sign: wide for wide, signs in {
    28: "'ijlIJ", 34: " ,./:;|", 39: "-()[]tf", 41: "r!", 52: "szc", 59: "Fkvxy", 69: "KAVBRXZC", 78: "UHNDG&OQ", 84: "w=<>+", 98: "mMW%",
}.items() for sign in signs}
UNITS = [("h", 3_600_000_000), ("min", 60_000_000), ("s", 1_000_000), ("ms", 1_000), ("\u00b5s", 1)]


def width(words, size=SIZE, bold=False):
    return sum(WIDTHS.get(sign, 64) for sign in words) * size / 100 * (1.13 if bold else 1)


def unit_of(time):
    """The largest unit of which a time has five or more: its name and its length."""
    return next((name, unit) for name, unit in UNITS if unit == 1 or time >= 5 * unit)


def decimal(number):
    """With as many of three digits after the point as it has."""
    return f"{number:.3f}".rstrip("0").rstrip(".")


def listed(words):
    *most, last = map(str, words)
    return f"{', '.join(most)} and {last}" if most else last


def wrapped(words, room, size=PROSE):
    """Lines that are no wider than the room."""
    lines = [""]
    for word in words.split():
        longer = f"{lines[-1]} {word}".strip()
        if width(longer, size) <= room:
            lines[-1] = longer
        else:
            lines.append(word)
    return lines


def title_of(recording, room):
    """In words short enough for the room; the a of each window only if they are."""
    own, n = recording.own, recording.n
    each = [f"{a} (window {window})" for window, a in enumerate(own, 1)]
    title = f"Fischer's timed lock: {n} window{'s' * (n > 1)}, one shared word; {{}}, b = {recording.b}, c = {recording.c} \u00b5s"
    ways = [[own[0]]] if len(set(own)) == 1 else [each, own]
    for way in ways:
        words = title.format(f"a = {listed(way)}")
        if width(words, TITLE, True) <= room:
            return words
    return title.format(f"a from {min(own)} to {max(own)}")


class Axis:
    """Moments from left to right; one that is out of the frame is at its edge."""

    def __init__(self, start, end, left, right):
        self.start, self.end, self.left, self.right = start, end, left, right

    def has(self, moment):
        return self.start <= moment <= self.end

    def x(self, moment):
        moment = min(max(moment, self.start), self.end)
        return self.left + (self.right - self.left) * (moment - self.start) / (self.end - self.start)

    def ticks(self, unit, least):
        """Moments with their labels, as far apart as these need and at least so many pixels; and the moment that they count from, which is not 0 where
        they would be long for that."""
        for step in (max(1, unit * m * 10**k // 10) for k in range(15) for m in (1, 2, 5)):
            moments = range(-(-self.start // step) * step, self.end + 1, step)
            base = moments[0] if moments and self.start > 1000 * step else 0
            if len(moments) > self.end - self.start + 1 or len(moments) > 200:
                continue
            ticks = [(moment, decimal((moment - base) / unit)) for moment in moments]
            apart = (self.right - self.left) * step / (self.end - self.start)
            if apart >= max([least, *(width(label) + 8 for _, label in ticks)]):
                return ticks, base
        return [], 0


class Sheet:
    """Its parts, made from the top down: the next one goes to `y`. It is wide enough for all words that start somewhere."""

    def __init__(self, wide):
        self.parts, self.y, self.wide = [], 40, wide

    def text(self, x, y, words, anchor="middle", fill=INK, more=""):
        self.parts.append(f'<text x="{x:.1f}" y="{y:.1f}" text-anchor="{anchor}" fill="{fill}"{more}>{escape(words)}</text>')

    def path(self, *points, fill="none", stroke=INK, more=""):
        through = "L".join(f"{x:.1f} {y:.1f}" for x, y in points)
        self.parts.append(f'<path d="M{through}" fill="{fill}" stroke="{stroke}"{more}/>')

    def name(self, words, height):
        """At the left of what is drawn next, which is so high."""
        self.text(self.axis.left - 12, self.y + height / 2 + 4, words, "end", more=' font-weight="bold"')

    def title(self, words):
        self.text(12, 24, words, "start", more=f' font-size="{TITLE}" font-weight="bold"')
        self.wide = max(self.wide, round(24 + width(words, TITLE, True)))

    def prose(self, lines):
        for line in lines:
            self.y += 18
            self.text(12, self.y, line, "start", more=f' font-size="{PROSE}"')
            self.wide = max(self.wide, round(24 + width(line, PROSE)))

    def clock(self, clock, unit, least, top, is_behind=True):
        """The axis, dashed where the recording has ended, and its lines from the top down to here, behind all else or as a shade over it."""
        axis, (name, unit) = self.axis, unit
        ticks, base = axis.ticks(unit, least)
        for moment, label in ticks:
            self.text(axis.x(moment), self.y + 15, label)
            line, stroke = f"M{axis.x(moment):.1f} {top}V{self.y}", f'"{GRID}"' if is_behind else f'"{INK}" stroke-opacity=".12"'
            self.parts.insert(0 if is_behind else len(self.parts), f'<path d="{line}" stroke={stroke}/>')
        self.path((axis.left, self.y), (axis.x(clock), self.y), more=' stroke-width="2"')
        self.path((axis.x(clock), self.y), (axis.x(axis.end), self.y), more=' stroke-dasharray="3 3"')
        self.name(f"clock ({name})", 22)
        self.y += 22
        if base:
            self.text(axis.left, self.y + 10, f"0 of this axis is the moment {base:,} \u00b5s", "start", PALE)
            self.y += 16

    def svg(self, title, told):
        head = f'<svg xmlns="http://www.w3.org/2000/svg" viewBox="0 0 {self.wide} {self.y + 14}" role="img"\n'
        head += f'     font-family="sans-serif" font-size="{SIZE}">'
        about = [f"<title>{escape(title)}</title>", f"<desc>{escape(told)}</desc>"]
        return "\n".join([head, *about, '<rect width="100%" height="100%" fill="#fff"/>', *self.parts, "</svg>", ""])
