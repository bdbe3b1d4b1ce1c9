"""Draws the table of growth as three small plots: growth.py DATA FIGURE"""

import math
import sys

WIDTH, HEIGHT = 300, 220  # of one plot's frame
LEFT, TOP, GAP = 60, 60, 80
COLOURS = {"sheet": "#1f5fa8", "C": "#c0562b"}


def rows(path):
    """The lines of the table by what grows: size, milliseconds and nanoseconds a step of each program."""
    plots = {}
    with open(path) as table:
        next(table)
        for line in table:
            what, size, _, sheet_ms, c_ms, sheet_ns, c_ns = line.split()
            plots.setdefault(what, []).append((float(size), (float(sheet_ms), float(c_ms)), (float(sheet_ns), float(c_ns))))
    return plots


def ticks(most):
    """Round numbers from 0 to at least `most`."""
    step = 1.0
    while most / step > 5:
        step *= 2.5 if str(step / 2)[0] == "1" else 2
    while most / step < 2:
        step /= 2
    return [step * i for i in range(math.ceil(most / step) + 1)]


def short(number):
    return f"{number / 1e6:g}M" if number >= 1e6 else f"{number / 1e3:g}k" if number >= 1e3 else f"{number:g}"


def text(x, y, words, anchor="middle", size=12, colour="#333333"):
    return f'<text x="{x:.1f}" y="{y:.1f}" text-anchor="{anchor}" font-size="{size}" fill="{colour}">{words}</text>'


def stroke(points, colour, width):
    path = " ".join(f"{x:.1f},{y:.1f}" for x, y in points)
    return f'<polyline points="{path}" fill="none" stroke="{colour}" stroke-width="{width}"/>'


def plot(left, title, sizes, series):
    """One frame: `series` maps a program to its values at the sizes."""
    across, up = ticks(max(sizes)), ticks(max(max(values) for values in series.values()))
    place_x = lambda size: left + WIDTH * size / across[-1]
    place_y = lambda value: TOP + HEIGHT - HEIGHT * max(value, 0) / up[-1]
    parts = [text(left + WIDTH / 2, TOP - 14, title, size=13, colour="#000000")]
    for tick in up:
        parts.append(stroke([(left, place_y(tick)), (left + WIDTH, place_y(tick))], "#dddddd", 1))
        parts.append(text(left - 6, place_y(tick) + 4, short(tick), "end", 11))
    for tick in across:
        parts.append(text(place_x(tick), TOP + HEIGHT + 17, short(tick), size=11))
    parts.append(stroke([(left, TOP), (left, TOP + HEIGHT), (left + WIDTH, TOP + HEIGHT)], "#333333", 1))
    for program, values in series.items():
        points = [(place_x(size), place_y(value)) for size, value in zip(sizes, values)]
        parts.append(stroke(points, COLOURS[program], 2))
        parts += [f'<circle cx="{x:.1f}" cy="{y:.1f}" r="3" fill="{COLOURS[program]}"/>' for x, y in points]
    return parts


def draw(plots):
    titles = {"steps": "milliseconds by steps", "tasks": "nanoseconds a step by tasks", "objects": "nanoseconds a step by objects"}
    width = LEFT + len(titles) * (WIDTH + GAP)
    height = TOP + HEIGHT + 60
    parts = [
        f'<svg xmlns="http://www.w3.org/2000/svg" width="{width}" height="{height}" viewBox="0 0 {width} {height}" font-family="sans-serif">',
        f'<rect width="{width}" height="{height}" fill="#ffffff"/>',
    ]
    for i, (what, title) in enumerate(titles.items()):
        sizes = [row[0] for row in plots[what]]
        which = 1 if what == "steps" else 2
        series = {program: [row[which][n] for row in plots[what]] for n, program in enumerate(COLOURS)}
        parts += plot(LEFT + i * (WIDTH + GAP), title, sizes, series)
    for i, (program, name) in enumerate([("sheet", "sheet"), ("C", "plain C (gcc -O2)")]):
        x, y = LEFT + i * 120, height - 14
        parts.append(stroke([(x, y - 4), (x + 24, y - 4)], COLOURS[program], 2))
        parts.append(text(x + 30, y, name, "start"))
    return "\n".join(parts + ["</svg>", ""])


def main():
    data, figure = sys.argv[1:]
    with open(figure, "w") as out:
        out.write(draw(rows(data)))


main()
