"""The program's commands, arguments and options, read from the pages of help that a test compares with what the program prints.

So nothing that is made from this table can differ from `arrowflow COMMAND --help`. A row that does not have the form of its
section is an error, which names its line: nothing is left out silently.
"""
import dataclasses
import os
import re

TOP = os.path.dirname(os.path.dirname(os.path.abspath(__file__)))
PAGES = "crates/arrowflow_tests/src/tests/help_pages.rt"
PROGRAM = "arrowflow"
# A constant that is a page: a text of several lines.
PAGE = re.compile(r'^const (\w+): &str = "\\\n(.*?)\n";$', re.M | re.S)
COMMAND = re.compile(r"  ([a-z]+) {2,}(\S.*)")
ARGUMENT = re.compile(r"  ([\[<])([A-Z]+)[\]>](\.\.\.)? {2,}(\S.*)")
OPTION = re.compile(r"  (?:-(\w), |    )--([a-z][a-z-]*)(?: <(\w+)>)? {2,}(\S.*)")
MORE = re.compile(r" {8,}(\S.*)")
# What clap writes about an option's value after the help.
DEFAULT, VALUES = re.compile(r" ?\[default: ([^]]*)\]"), re.compile(r" ?\[possible values: ([^]]*)\]")


@dataclasses.dataclass(frozen=True)
class Argument:
    """An argument of a command that is not an option: its name, and whether it may be left out or repeated."""
    name: str
    is_needed: bool
    is_many: bool
    text: str


@dataclasses.dataclass(frozen=True)
class Option:
    """An option. `letter` is None if there is none, and so is `value`, the name of what follows it."""
    name: str
    letter: str
    value: str
    text: str
    default: str
    values: tuple

    @property
    def words(self):
        """The words that select it."""
        return [*([f"-{self.letter}"] if self.letter else []), f"--{self.name}"]


@dataclasses.dataclass(frozen=True)
class Command:
    """A command, or the program itself, whose name is empty: what help says about it, and the text of that help."""
    name: str
    about: str
    usage: str
    arguments: tuple
    options: tuple
    notes: tuple
    examples: tuple
    page: str


@dataclasses.dataclass(frozen=True)
class Table:
    program: Command
    commands: tuple
    # the words that help lists as commands, `help` among them
    listed: tuple


class Page:
    """A page of help, as blocks of lines with empty lines between them."""

    def __init__(self, name, text, first):
        self.name, self.text, self.blocks = name, text, []
        for at, line in enumerate(text.split("\n")):
            if not line:
                self.blocks.append([])
            else:
                self.blocks = self.blocks or [[]]
                self.blocks[-1].append((first + at, line))
        if "\\" in text or any(not it for it in self.blocks):
            self.fail(first, "a backslash, or two empty lines")

    def fail(self, at, what):
        raise SystemExit(f"{PAGES}:{at}: the page {self.name} cannot be read: {what}")

    def block(self, at, title=None):
        """The lines of block `at`; with a title, the lines after it of the block that begins with that title."""
        if title is None:
            return self.blocks[at] if at < len(self.blocks) else []
        return next((it[1:] for it in self.blocks if it[0][1] == title), [])

    def rows(self, title, form):
        """The rows of the block with this title: what the form matches in the first line of each, and its complete text."""
        found = []
        for at, line in self.block(0, title):
            first, more = form.fullmatch(line), MORE.fullmatch(line)
            if first:
                found.append([first, first.groups()[-1]])
            elif more and found:
                found[-1][1] += " " + more[1]
            else:
                self.fail(at, f"no row of {title} {line!r}")
        return [(first, text.strip()) for first, text in found]


def argument(row, text):
    opened, name, many, _ = row.groups()
    return Argument(name, opened == "<", bool(many), text)


def option(row, text):
    letter, name, value, _ = row.groups()
    default, values = DEFAULT.search(text), VALUES.search(text)
    text = VALUES.sub("", DEFAULT.sub("", text)).strip()
    return Option(name, letter, value, text, default and default[1], tuple(values[1].split(", ")) if values else ())


def command(page):
    """The command that a page describes."""
    about, usage = page.block(0), page.block(1)
    said = re.fullmatch(rf"Usage: {PROGRAM} (?:([a-z]+) )?(\S.*)", usage[0][1] if len(usage) == 1 else "")
    if len(about) != 1 or not said:
        page.fail(about[0][0], "no line on what it does, or no usage")
    known, notes, examples = ("Usage:", "Arguments:", "Options:", "Commands:"), [], []
    for block in page.blocks[1:]:
        (at, first), *more = block
        if first in ("Example:", "Examples:"):
            examples += [line.strip() for _, line in more]
        elif not first.startswith(known):
            if first.startswith(" ") or first.endswith(":"):
                page.fail(at, f"a block that is not known: {first!r}")
            notes.append(" ".join(line for _, line in block))
    options = tuple(option(*it) for it in page.rows("Options:", OPTION))
    arguments = tuple(argument(*it) for it in page.rows("Arguments:", ARGUMENT))
    if not options or not examples:
        page.fail(usage[0][0], "no options, or no example")
    return Command(said[1] or "", about[0][1], said[2], arguments, options, tuple(notes), tuple(examples), page.text)


def text_of(place):
    """A file of the repository."""
    with open(f"{TOP}/{place}", encoding="utf-8") as it:
        return it.read()


def read(text):
    """The table that is read from this text of the file PAGES."""
    pages = [Page(it[1], it[2], text[: it.start(2)].count("\n") + 1) for it in PAGE.finditer(text)]
    found = {it.name: (it, page) for page, it in ((page, command(page)) for page in pages)}
    if "" not in found or len(found) != len(pages):
        raise SystemExit(f"{PAGES}: not one page of the program, and one for each command")
    program, page = found.pop("")
    listed = {row[1]: about for row, about in page.rows("Commands:", COMMAND)}
    for name in {*listed} ^ {*found, "help"}:
        raise SystemExit(f"{PAGES}: the command {name} has no page, or help does not list it")
    for name, (it, its) in found.items():
        if listed[name] != it.about:
            raise SystemExit(f"{PAGES}: what help says of {name} is not what its page {its.name} says")
    return Table(program, tuple(found[name][0] for name in listed if name != "help"), tuple(listed.items()))
