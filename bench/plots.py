#!/usr/bin/env python3
"""Draws docs/index-run.svg and docs/search.svg from the newest report of bench/growth.py in bench/results/.

    plots.py [REPORT]

The first shows time and memory of an index run by the number of messages, the second those of a search, with the digest of its index. Both axes are
logarithmic. Prints how many times the time and the memory each takes when the number of messages doubles, from 10,000 on.
"""
import math, os, re, sys
from glob import glob

HERE = os.path.dirname(os.path.abspath(__file__))
DOCS = os.path.join(HERE, "..", "docs")
COLOURS = {"mairix": "#0b6e4f", "C-mairix": "#c1440e", "notmuch": "#3d5a98", "mu": "#8a6d3b", "sha256sum": "#777777"}
LINE = re.compile(r"(\S+) +(\d+) +([\d.]+) s +([\d.]+) MB")
LARGE = 10_000
WIDTH, HEIGHT, LEFT, BOTTOM, TOP_EDGE, RIGHT = 440, 300, 62, 44, 30, 66


def read(report):
    """The points of each line's name, by the number of messages: messages, seconds, megabytes."""
    found = {}
    with open(report, encoding="utf-8") as file:
        for name, count, seconds, memory in LINE.findall(file.read()):
            found.setdefault(name, []).append((int(count), float(seconds), float(memory)))
    return {name: sorted(points) for name, points in found.items()}


def tell_growth(name, line):
    """Prints what a doubling of the messages does, where small runs' own costs no longer show."""
    large = [it for it in line if it[0] >= LARGE]
    if len(large) > 1:
        (few, fast, low), (many, slow, high) = large[0], large[-1]
        doublings = math.log2(many / few)
        print(
            f"{name}: {few:,} to {many:,} messages: at each doubling {(slow / max(fast, 0.001)) ** (1 / doublings):.2f} times the time, "
            f"{(high / low) ** (1 / doublings):.2f} times the memory"
        )


def ticks(low, high):
    """Powers of ten between two numbers, and if these are few, also twice and five times these."""
    steps = [mantissa * 10.0**power for power in range(-4, 8) for mantissa in ((1, 2, 5) if high < 200 * low else (1,))]
    return [it for it in steps if low <= it <= high]


def shown(number):
    return f"{number:,.0f}" if number >= 1 else f"{number:g}"


class Chart:
    """A chart at a place of a picture, over curves that have a name and points."""

    def __init__(self, left, title, across, up, curves):
        self.left, self.title, self.across, self.up, self.curves = left, title, across, up, curves
        xs = [x for points in curves.values() for x, _ in points]
        ys = [max(y, 0.001) for points in curves.values() for _, y in points]
        self.x_range = (min(xs) / 1.15, max(xs) * 1.15)
        self.y_range = (min(ys) / 1.4, max(ys) * 1.4)

    def x(self, value):
        low, high = map(math.log, self.x_range)
        return self.left + LEFT + (math.log(value) - low) / (high - low) * (WIDTH - LEFT - RIGHT)

    def y(self, value):
        low, high = map(math.log, self.y_range)
        return HEIGHT - BOTTOM - (math.log(max(value, 0.001)) - low) / (high - low) * (HEIGHT - BOTTOM - TOP_EDGE)

    def svg(self):
        right, floor = self.left + WIDTH - RIGHT, HEIGHT - BOTTOM
        yield f'<text x="{self.left + LEFT}" y="18" font-weight="bold">{self.title}</text>'
        for tick in ticks(*self.y_range):
            yield f'<line x1="{self.left + LEFT}" y1="{self.y(tick):.1f}" x2="{right}" y2="{self.y(tick):.1f}" stroke="#e4e4e4"/>'
            yield f'<text x="{self.left + LEFT - 6}" y="{self.y(tick) + 4:.1f}" text-anchor="end">{shown(tick)}</text>'
        for tick in ticks(*self.x_range):
            yield f'<text x="{self.x(tick):.1f}" y="{floor + 16}" text-anchor="middle">{shown(tick)}</text>'
        yield f'<path d="M{self.left + LEFT} {TOP_EDGE}V{floor}H{right}" fill="none" stroke="#444"/>'
        yield f'<text x="{(self.left + LEFT + right) / 2}" y="{HEIGHT - 8}" text-anchor="middle">{self.across}</text>'
        yield f'<text x="{self.left + 14}" y="{HEIGHT / 2}" text-anchor="middle" transform="rotate(-90 {self.left + 14} {HEIGHT / 2})">{self.up}</text>'
        for name, points in self.curves.items():
            way = " ".join(f"{self.x(x):.1f},{self.y(y):.1f}" for x, y in points)
            yield f'<polyline points="{way}"'
            yield f' fill="none" stroke="{COLOURS[name]}" stroke-width="2"/>'
        yield from self.names()

    def names(self):
        """The name of each curve at its end, a line below another that ends as far to the right."""
        above = {}
        for name, points in sorted(self.curves.items(), key=lambda it: self.y(it[1][-1][1])):
            x, y = points[-1]
            above[x] = max(self.y(y) + 4, above.get(x, 0) + 12)
            yield f'<text x="{self.x(x) + 4:.1f}" y="{above[x]:.1f}" fill="{COLOURS[name]}">{name.replace("-", " ")}</text>'


def write(name, charts):
    width = WIDTH * len(charts)
    body = "\n".join(line for chart in charts for line in chart.svg())
    text = f'<svg xmlns="http://www.w3.org/2000/svg" width="{width}" height="{HEIGHT}" font-family="sans-serif" font-size="11">\n'
    text += f'<rect width="{width}" height="{HEIGHT}" fill="white"/>\n{body}\n</svg>\n'
    with open(os.path.join(DOCS, name), "w", encoding="utf-8") as file:
        file.write(text)


def draw(name, title, points):
    """A picture of the time and the memory of some programs."""
    seconds = {program: [(count, second) for count, second, _ in line] for program, line in points.items()}
    memory = {program: [(count, used) for count, _, used in line] for program, line in points.items()}
    write(name, [Chart(0, f"{title}: time", "messages", "processor seconds", seconds), Chart(WIDTH, f"{title}: memory", "messages", "MB", memory)])


def main(report):
    points = read(report)
    for name, line in points.items():
        tell_growth(name, line)
    draw("index-run.svg", "An index run", {name: points[name] for name in COLOURS if name in points and name != "sha256sum"})
    searches = {name: points[f"{name}-search"] for name in COLOURS if f"{name}-search" in points}
    draw("search.svg", "A search", searches | {"sha256sum": points["sha256sum"]})


if __name__ == "__main__":
    main(sys.argv[1] if len(sys.argv) > 1 else sorted(glob(os.path.join(HERE, "results", "growth-*.txt")))[-1])
