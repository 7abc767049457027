"""The crates by layer, from crates.txt: each crate is above all that it uses, with a line to each crate that it uses and that no
other line leads to.

Crates of tests are left out. A line that goes past layers has a point in each of them, so that it crosses no box. The items of a
layer are ordered so that few lines cross, and each is moved towards where its lines lead, as far as its neighbours allow.
"""
import os
import re

import svg

TOP = os.path.dirname(os.path.dirname(os.path.dirname(os.path.abspath(__file__))))
# Crates that only tests use.
OF_TESTS = re.compile(r"_tests?$|_test_|_vectors_")
SIZE, HIGH, GAP, STEP, MARGIN, ROUNDS = 12, 26, 16, 62, 24, 40


def crates():
    """For each crate the crates of this repository that it uses."""
    with open(f"{TOP}/crates.txt", encoding="utf-8") as it:
        rows = [line.partition("#")[0].partition(":") for line in it]
    found = {name.split()[0]: uses.split() for name, colon, uses in rows if colon and not OF_TESTS.search(name.split()[0])}
    return {name: [it for it in uses if it in found] for name, uses in found.items()}


def below(name, uses):
    return {it for one in uses[name] for it in (one, *below(one, uses))}


def direct(uses):
    """What each crate uses, except what it reaches through another that it uses."""
    return {name: [it for it in its if not any(it in below(other, uses) for other in its)] for name, its in uses.items()}


def layer(name, uses):
    return 1 + max((layer(it, uses) for it in uses[name]), default=-1)


def is_front(name):
    """Whether a crate is a front crate, without a function of its own."""
    folder = f"{TOP}/crates/{name}/src"
    for file in os.listdir(folder):
        with open(f"{folder}/{file}", encoding="utf-8") as it:
            if re.search(r"^\s*(?:pub(?:\(.*?\))? )?(?:const )?fn ", it.read(), re.M):
                return False
    return True


class Graph:
    """The items of each layer: crates, and points (line, layer) of lines that go past it; and the neighbours of each item above
    and below."""

    def __init__(self, uses):
        self.rows = [[] for _ in range(1 + max(layer(it, uses) for it in uses))]
        self.up, self.down, self.lines = {}, {}, []
        for name in uses:
            self.rows[layer(name, uses)].append(name)
        for name, its in direct(uses).items():
            for it in its:
                self.join(name, it, range(layer(name, uses) - 1, layer(it, uses), -1))

    def join(self, name, used, between):
        """Draws a line from a crate to one that it uses, past the layers between them."""
        points = [name, *(((name, used), at) for at in between), used]
        for at, point in zip(between, points[1:-1]):
            self.rows[at].append(point)
        for one, other in zip(points, points[1:]):
            self.down.setdefault(one, []).append(other)
            self.up.setdefault(other, []).append(one)
        self.lines.append(points)

    def order(self):
        """Orders each layer by where the lines of its items lead, and keeps the order with the fewest crossings."""
        best, fewest = [*map(list, self.rows)], self.crossings()
        for turn in range(ROUNDS):
            rows, near = (self.rows[1:], self.down) if turn % 2 else (self.rows[-2::-1], self.up)
            for row in rows:
                at = {it: place for its in self.rows for place, it in enumerate(its)}
                row.sort(key=lambda it: mean([at[other] for other in near.get(it, [])], at[it]))
            if self.crossings() < fewest:
                best, fewest = [*map(list, self.rows)], self.crossings()
        self.rows = best

    def crossings(self):
        found = 0
        for row, under in zip(self.rows[1:], self.rows):
            at = {it: place for place, it in enumerate(under)}
            ends = [at[it] for one in row for it in sorted(self.down.get(one, []), key=at.get)]
            found += sum(one > other for place, one in enumerate(ends) for other in ends[place + 1 :])
        return found

    def places(self):
        """The middle of each box and point, from left to right."""
        found = {}
        for row in self.rows:
            x = 0
            for it in row:
                found[it] = x + wide(it) / 2
                x += wide(it) + GAP
        for turn in range(ROUNDS):
            rows, near = (self.rows, self.down) if turn % 2 else (self.rows[::-1], self.up)
            for row in rows:
                found.update(apart(row, [mean([found[other] for other in near.get(it, [])], found[it]) for it in row]))
        return found


def wide(it):
    """The width of a crate's box, or of a line that goes past."""
    return len(it) * SIZE * svg.LETTER + 18 if isinstance(it, str) else 4


def mean(its, otherwise):
    return sum(its) / len(its) if its else otherwise


def apart(row, desired):
    """The positions nearest to the desired ones at which the boxes of a row do not touch."""
    offsets, at = [], 0
    for it in row:
        offsets.append(at + wide(it) / 2)
        at += wide(it) + GAP
    # those that would touch are moved together: each group has the mean of its members' desired positions
    groups = []
    for it, offset in zip(desired, offsets):
        groups.append([it - offset, 1])
        while len(groups) > 1 and groups[-2][0] >= groups[-1][0]:
            (one, many), (other, more) = groups[-2:]
            groups[-2:] = [[(one * many + other * more) / (many + more), many + more]]
    moved = [place for place, many in groups for _ in range(many)]
    return {it: place + offset for it, place, offset in zip(row, moved, offsets)}


def colours(name, is_used):
    """The colour of a crate's box and of its line, and whether the line is dashed."""
    if not is_used:
        return "yellow-fill", "yellow", False
    if is_front(name):
        return "ground", "faint", True
    return ("green-fill", "green", False) if name.startswith("arrowflow") else ("blue-fill", "blue", False)


def picture():
    graph = Graph(crates())
    graph.order()
    places = graph.places()
    left = min(x - wide(it) / 2 for it, x in places.items())
    width = max(x + wide(it) / 2 for it, x in places.items()) - left + 2 * MARGIN
    rows = len(graph.rows)
    height = rows * STEP - STEP + HIGH + 2 * MARGIN + 34
    y = {it: MARGIN + (rows - 1 - at) * STEP for at, row in enumerate(graph.rows) for it in row}
    x = {it: place - left + MARGIN for it, place in places.items()}
    lines = []
    for points in graph.lines:
        first, *past, last = points
        inner = [point for it in past for point in ((x[it], y[it]), (x[it], y[it] + HIGH))]
        lines.append(svg.path([(x[first], y[first] + HIGH), *inner, (x[last], y[last])], "faint"))
    boxes = []
    for name in (it for row in graph.rows for it in row if isinstance(it, str)):
        fill, line, is_dashed = colours(name, name in graph.up)
        boxes.append(svg.box(x[name] - wide(name) / 2, y[name], wide(name), HIGH, fill, line, is_dashed))
        boxes.append(svg.text(x[name], y[name] + 17, name, size=SIZE, is_mono=True))
    title = f"The {len(y) - len([it for it in y if not isinstance(it, str)])} crates in {rows} layers, each above the crates that it uses."
    return svg.picture(width, height, title, *lines, *boxes, *legend(MARGIN, height - 22))


def legend(x, y):
    for fill, line, words, is_dashed in (("blue-fill", "blue", "the format", False), ("green-fill", "green", "the commands", False),
            ("ground", "faint", "a name for others, without a function", True), ("yellow-fill", "yellow", "used by no other", False)):
        yield svg.box(x, y - 11, 22, 14, fill, line, is_dashed)
        yield svg.text(x + 29, y, words, "faint", anchor="start")
        x += 52 + len(words) * 6.4
