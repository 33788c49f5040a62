"""Plots of what `bench/run` measured: a group of bars a program with a bar a machine; or, of one group, a
line a machine. Where values are far apart, the scale's steps are tenfold."""

import math
from xml.sax.saxutils import escape

COLOURS = ("#1f6f8b", "#c7a252", "#a0603a", "#7a7a7a", "#4c8c4a", "#7b5ea7", "#b0486a", "#3a7ca5", "#8a8f3c", "#555555")
LEFT, TOP, BAR, GAP, HEIGHT = 64, 40, 12, 18, 240
HEAD = '<svg xmlns="http://www.w3.org/2000/svg" width="{}" height="{}" font-family="sans-serif" font-size="11">'


def rect(x, y, width, height, colour, title):
    box = f'x="{x:.1f}" y="{y:.1f}" width="{width:.1f}" height="{height:.1f}"'
    return f'<rect {box} fill="{colour}"><title>{escape(title)}</title></rect>'


def label(x, y, text, anchor="middle"):
    return f'<text x="{x:.1f}" y="{y:.1f}" text-anchor="{anchor}">{escape(text)}</text>'


def line(x1, y1, x2, y2):
    return f'<line x1="{x1:.1f}" y1="{y1:.1f}" x2="{x2:.1f}" y2="{y2:.1f}" stroke="#ddd"/>'


def number(value):
    return f"{value:,.0f}" if value >= 100 else f"{value:.3g}"


def ticks_of(values):
    """The ticks of a scale for these values: powers of ten, where they are far apart, else whole numbers."""
    if max(values) < 60 * min(values):
        step = 10.0 ** math.floor(math.log10(max(values)))
        return [step * tick for tick in range(math.ceil(max(values) / step) + 1)]
    low = math.floor(math.log10(min(values)))
    return [10.0**power for power in range(low, max(low + 1, math.ceil(math.log10(max(values)))) + 1)]


def share(value, ticks):
    """Where a value stands between the first tick and the last, 0 to 1."""
    if ticks[0] == 0:
        return value / ticks[-1]
    return math.log10(value / ticks[0]) / math.log10(ticks[-1] / ticks[0])


def lines(unit, times):
    """A line a machine."""
    ticks, left, width = ticks_of(times.values()), 190, 420
    high = TOP + 20 * len(times)
    parts = [HEAD.format(left + width + 70, high + 20), label(left, 20, unit, "start")]
    for tick in ticks:
        x = left + width * share(tick, ticks)
        parts += [line(x, TOP - 6, x, high), label(x, high + 14, number(tick))]
    for place, (who, value) in enumerate(times.items()):
        y, long = TOP + 20 * place, max(1, width * share(value, ticks))
        parts += [label(left - 6, y + 11, who, "end"), label(left + long + 4, y + 11, number(value), "start")]
        parts.append(rect(left, y, long, 15, COLOURS[place % len(COLOURS)], f"{who}: {number(value)} {unit}"))
    return [*parts, "</svg>", ""]


def groups(unit, each):
    """A group of bars a program."""
    names = list(dict.fromkeys(who for times in each.values() for who in times))
    ticks = ticks_of([value for times in each.values() for value in times.values()])
    group = BAR * len(names) + GAP
    width = LEFT + group * len(each) + 10
    parts = [HEAD.format(max(width, LEFT + 90 * len(names)), TOP + HEIGHT + 40)]
    for tick in ticks:
        y = TOP + HEIGHT * (1 - share(tick, ticks))
        parts += [line(LEFT, y, width, y), label(LEFT - 6, y + 4, number(tick), "end")]
    for place, (name, times) in enumerate(each.items()):
        x = LEFT + GAP // 2 + group * place
        for at, who in enumerate(names):
            if who in times:
                high = max(1, HEIGHT * share(times[who], ticks))
                colour, title = COLOURS[at % len(COLOURS)], f"{who}: {number(times[who])} {unit}"
                parts.append(rect(x + BAR * at, TOP + HEIGHT - high, BAR - 1, high, colour, title))
        parts.append(label(x + BAR * len(names) / 2, TOP + HEIGHT + 16 + 14 * (place % 2), name))
    for place, who in enumerate(names):
        x = LEFT + 90 * place
        parts += [rect(x, 12, 10, 10, COLOURS[place % len(COLOURS)], who), label(x + 14, 21, who, "start")]
    return [*parts, label(2, 21, unit, "start"), "</svg>", ""]


def plot(unit, each):
    """An SVG picture of {program: {machine: value}}."""
    made = lines(unit, *each.values()) if len(each) == 1 else groups(unit, each)
    return "\n".join(made)
