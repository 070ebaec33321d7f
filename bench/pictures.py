"""Draws the pictures of docs/figures.md and of the README: bars of speeds, each as a multiple of its peer's.

A bar that is better than its peer has one color, every other bar another, and a line marks the peer's speed. Each picture
has its own background and text of enough contrast, on light pages and on dark ones.
"""
import math
import textwrap
from html import escape

# What is drawn: the attribute that colors it, its color on a light page, and its color on a dark one.
COLORS = {
    "page": ("fill", "#ffffff", "#0d1117"),
    "ink": ("fill", "#1f2328", "#e6edf3"),
    "note": ("fill", "#59636e", "#9198a1"),
    "grid": ("stroke", "#e1e4e8", "#2a313a"),
    "peer": ("stroke", "#1f2328", "#e6edf3"),
    "better": ("fill", "#2f74b5", "#58a6ff"),
    "other": ("fill", "#c2703d", "#dd8a52"),
}
DARK = "".join(f".{name}{{{what}:{dark}}}" for name, (what, _, dark) in COLORS.items())


def paint(name):
    """The attributes of what is drawn. Its color on a dark page comes from the style of the picture."""
    what, light, _ = COLORS[name]
    return f'class="{name}" {what}="{light}"'


def words(x, y, said, name="ink", size=13, anchor="start", bold=False):
    """A text that begins, is centered or ends at a place, by its anchor."""
    weight = ' font-weight="bold"' if bold else ""
    font = f'font-size="{size}" text-anchor="{anchor}"{weight}'
    return f'<text x="{x:.1f}" y="{y:.1f}" {font} {paint(name)}>{escape(said)}</text>\n'


def box(x, y, width, height, name):
    return f'<rect x="{x:.1f}" y="{y:.1f}" width="{max(width, 1):.1f}" height="{height:.1f}" {paint(name)}/>\n'


def upright(x, top, foot, name, width=1):
    return f'<path d="M{x:.1f} {top:.1f}V{foot:.1f}" stroke-width="{width}" {paint(name)}/>\n'


def color_of(ratio):
    return "better" if ratio >= 1 else "other"


def amount(x, y, ratio, size):
    """The number of a bar, over the lines of the axis."""
    said = as_times(ratio)
    return box(x - 2, y - size, len(said) * size * 0.62 + 4, size + 4, "page") + words(x, y, said, size=size)


def legend(x, y):
    """What the two colors mean."""
    return (box(x, y - 11, 12, 12, "better") + words(x + 18, y, "faster than the peer") +
            box(x + 180, y - 11, 12, 12, "other") + words(x + 198, y, "slower than the peer"))


def number(ratio):
    """A ratio with two decimals, or with two digits that are not 0 if it is small."""
    return f"{ratio:.2f}" if ratio >= 0.1 else f"{ratio:.2g}"


def as_times(ratio):
    """A ratio of speeds as a reader says it."""
    slower = f": {float(f'{1 / ratio:.2g}'):,.0f} times slower" if ratio < 0.1 else ""
    return f"{number(ratio)} times{slower}"


def write(path, size, title, said, drawn):
    """Writes a picture of a width and a height. Readers that cannot see it get its title and what is said."""
    width, height = size
    with open(path, "w", encoding="utf-8") as picture:
        picture.write(f"""<svg xmlns="http://www.w3.org/2000/svg" viewBox="0 0 {width} {height:.0f}" width="{width}" \
height="{height:.0f}" role="img" aria-labelledby="title desc" font-family="DejaVu Sans, Verdana, sans-serif">
<title id="title">{escape(title)}</title>
<desc id="desc">{escape(said)}</desc>
<style>@media (prefers-color-scheme: dark) {{ {DARK} }}</style>
<rect width="{width}" height="{height:.0f}" rx="8" {paint("page")}/>
{drawn}</svg>
""")


class Wide:
    """The picture of all figures: groups of sections of bars that begin at the peer's speed, on a logarithmic axis."""

    WIDTH, LEFT, RIGHT, EDGE = 920, 330, 110, 20
    ROW, BAR = 22, 14

    def __init__(self, ratios):
        least, most = min(ratios + [0.5]), max(ratios + [4.0])
        tens = range(math.floor(math.log10(least)), math.ceil(math.log10(most)) + 1)
        steps = [step * 10.0 ** ten for ten in tens for step in (1, 2, 5)]
        # The axis begins and ends at a tick, so that each bar lies within it.
        self.low = max(step for step in steps if step <= least)
        self.high = min(step for step in steps if step >= most)
        self.ticks = [step for step in steps if self.low <= step <= self.high]
        self.y = 0

    def place(self, ratio):
        """Where a ratio is on the axis."""
        long = self.WIDTH - self.LEFT - self.RIGHT
        return self.LEFT + long * math.log(ratio / self.low) / math.log(self.high / self.low)

    def heading(self, group):
        """The heading of a group, with the axis."""
        one = self.place(1.0)
        drawn = words(self.EDGE, self.y + 24, group, size=17, bold=True)
        drawn += words(one, self.y + 16, "the peer", size=12, anchor="middle", bold=True)
        for tick in self.ticks:
            name = "ink" if tick == 1 else "note"
            drawn += words(self.place(tick), self.y + 32, f"{tick:g}", name, 11, "middle", tick == 1)
        self.y += 38
        return drawn

    def row(self, what, ratio):
        """One bar with its label, and its number to the right of it and of the peer's line."""
        one, end = self.place(1.0), self.place(ratio)
        top = self.y + (self.ROW - self.BAR) / 2
        drawn = words(self.LEFT - 12, self.y + 15.5, what, anchor="end")
        drawn += box(min(one, end), top, abs(end - one), self.BAR, color_of(ratio))
        drawn += amount(max(one, end) + 7, self.y + 15.5, ratio, 12)
        self.y += self.ROW
        return drawn

    def section(self, heading, rows):
        """The bars of one section, over the lines of the axis."""
        drawn = words(self.EDGE, self.y + 17, heading, bold=True)
        self.y += 24
        foot = self.y + self.ROW * len(rows)
        drawn += "".join(upright(self.place(tick), self.y, foot, "grid") for tick in self.ticks if tick != 1)
        drawn += "".join(self.row(what, ratio) for what, ratio in rows)
        drawn += upright(self.place(1.0), foot - self.ROW * len(rows) - 2, foot + 2, "peer", 1.5)
        self.y += 6
        return drawn

    def group(self, group, sections):
        drawn = self.heading(group)
        drawn += "".join(self.section(heading, rows) for heading, rows in sections)
        self.y += 14
        return drawn


def described(groups):
    """What a reader hears who cannot see the bars."""
    return " ".join(f"{heading}: " + "; ".join(f"{what}, {as_times(ratio)}" for what, ratio in rows) + "."
                    for _, sections in groups for heading, rows in sections)


def write_all(path, when, groups, note):
    """Draws the groups, each a heading and its sections, each a heading and its rows."""
    wide = Wide([ratio for _, sections in groups for _, rows in sections for _, ratio in rows])
    title = "The speed of sysvmsg, as a multiple of each peer's"
    drawn = words(wide.EDGE, 32, title, size=18, bold=True)
    drawn += words(wide.EDGE, 54, f"Measured by bench/all on {when}. The axis is logarithmic.", "note", 12)
    drawn += legend(wide.EDGE, 80)
    wide.y = 98
    drawn += "".join(wide.group(group, sections) for group, sections in groups)
    for line in textwrap.wrap(note, 110):
        drawn += words(wide.EDGE, wide.y + 6, line, "note", 12)
        wide.y += 17
    write(path, (wide.WIDTH, wide.y + 8), f"{title}, {when}", f"{described(groups)} {note}".strip(), drawn)


class Front:
    """The picture of a few figures: bars from 0 on, on a linear axis, with a line at the peer's speed."""

    WIDTH, LEFT, RIGHT, EDGE, HEAD = 760, 320, 100, 20, 96
    ROW, BAR = 50, 24
    MOST_TICKS = 8

    def __init__(self, ratios):
        # The axis ends at a tick, so that each bar lies within it.
        most = max(ratios + [1.5])
        step = math.ceil(most / self.MOST_TICKS)
        high = step * math.ceil(most / step)
        self.ticks = range(0, high + 1, step)
        self.long = (self.WIDTH - self.LEFT - self.RIGHT) / high

    def place(self, ratio):
        """Where a ratio is on the axis."""
        return self.LEFT + self.long * ratio

    def row(self, at, what, peer, ratio):
        """One bar with its label and its number, to the right of the bar and of the peer's line."""
        y, end = self.HEAD + at * self.ROW, self.place(ratio)
        drawn = words(self.LEFT - 12, y + 22, what, size=14, anchor="end", bold=True)
        drawn += words(self.LEFT - 12, y + 39, peer, "note", 12, "end")
        drawn += box(self.LEFT, y + (self.ROW - self.BAR) / 2, end - self.LEFT, self.BAR, color_of(ratio))
        return drawn + amount(max(end, self.place(1)) + 9, y + 30, ratio, 13)

    def axis(self, foot):
        """The lines at the ticks and at the peer's speed, with their numbers."""
        drawn = words(self.place(1), self.HEAD - 20, "the peer", size=12, anchor="middle", bold=True)
        drawn += words(self.place(1), self.HEAD - 6, "1", size=12, anchor="middle", bold=True)
        for tick in self.ticks:
            if tick != 1:
                drawn += words(self.place(tick), self.HEAD - 6, f"{tick}", "note", 12, "middle")
                drawn += upright(self.place(tick), self.HEAD, foot, "grid")
        return drawn

    def rows(self, rows):
        """All bars, over the lines of the axis."""
        foot = self.HEAD + self.ROW * len(rows)
        drawn = self.axis(foot) + "".join(self.row(at, *row) for at, row in enumerate(rows))
        return drawn + upright(self.place(1), self.HEAD, foot, "peer", 1.5)


def write_front(path, when, rows, note):
    """Draws a few figures. A row is what is measured, how and with what it is compared, and the ratio."""
    front = Front([ratio for _, _, ratio in rows])
    title = "The speed of sysvmsg, as a multiple of each peer's"
    drawn = words(front.EDGE, 32, title, size=17, bold=True) + legend(front.EDGE, 60) + front.rows(rows)
    y = front.HEAD + front.ROW * len(rows) + 24
    for line in textwrap.wrap(f"Measured by bench/all on {when}. {note}", 100):
        drawn += words(front.EDGE, y, line, "note", 12)
        y += 17
    said = "; ".join(f"{what}, {peer}: {as_times(ratio)}" for what, peer, ratio in rows)
    write(path, (front.WIDTH, y), f"{title}, {when}", f"{said}. {note}".strip(), drawn)
