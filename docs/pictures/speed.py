"""Processor time by that of a plain reader with the same checks: a bar for each command and stream of the table in MEASURED."""
import os
import re

import svg

TOP = os.path.dirname(os.path.dirname(os.path.dirname(os.path.abspath(__file__))))

# The commands, their colours, and the columns of the table that have their ratios.
COMMANDS = (("check", "blue", 2), ("show", "green", 4), ("copy", "yellow", 6))
LEFT, TOP_OF_BARS, BAR, GAP, UNIT, RIGHT = 300, 56, 8, 10, 210, 60
FOOT = 30


def rows():
    """The name of each stream, with the ratio of each command."""
    with open(f"{TOP}/docs/MEASURED.md", encoding="utf-8") as it:
        table = it.read().partition("<!-- begin bench/beside_peer -->")[2].partition("<!-- end")[0]
    for line in re.findall(r"^\| (.*) \|$", table, re.M)[1:]:
        cells = line.split(" | ")
        yield cells[0], [float(cells[column]) for _, _, column in COMMANDS]


def legend():
    for number, (name, colour, _) in enumerate(COMMANDS):
        x = LEFT + 90 * number
        yield svg.box(x, 18, 14, 14, f"{colour}-fill", colour)
        yield svg.text(x + 20, 30, name, anchor="start", is_mono=True)


def bars(y, name, ratios):
    yield svg.text(LEFT - 12, y + 1.5 * BAR + 4, name, anchor="end")
    for number, (ratio, (_, colour, _)) in enumerate(zip(ratios, COMMANDS)):
        top = y + BAR * number
        yield svg.box(LEFT, top, UNIT * ratio, BAR - 1, f"{colour}-fill", colour)
        yield svg.text(LEFT + UNIT * ratio + 6, top + BAR - 1, f"{ratio:.2f}", colour="faint", size=8, anchor="start")


def picture():
    found = list(rows())
    step = BAR * len(COMMANDS) + GAP
    end = TOP_OF_BARS + step * len(found)
    width = LEFT + UNIT * max(max(ratios) for _, ratios in found) + RIGHT
    parts = [*legend()]
    for number, (name, ratios) in enumerate(found):
        parts += bars(TOP_OF_BARS + step * number, name, ratios)
    parts.append(svg.line(LEFT + UNIT, TOP_OF_BARS - 8, LEFT + UNIT, end, "red", is_dashed=True))
    parts.append(svg.text(LEFT + UNIT, end + 16, "1.0: as the plain reader", colour="red"))
    title = "Processor time of check, show and copy by that of a plain reader, for each stream of the table below"
    return svg.picture(width, end + FOOT, title, *parts)
