"""The manual pages of the program and of its commands, from the texts of help, the kinds of faults in the header for C, and
prose.txt."""
import re

import calls
import roff
import table

PROSE = "share/prose.txt"
ORDER = ("DESCRIPTION", "COMMANDS", "ARGUMENTS", "OPTIONS", "FILES AND PIPES", "SIZES", "LIMITS AND TYPES", "EXIT STATUS", "DIAGNOSTICS",
         "ENVIRONMENT", "EXAMPLES")
# The beginning of the sentence of help that belongs to the section EXIT STATUS.
STATUS = "The exit status is "


def prose(text):
    """The texts of prose.txt: a list of paragraphs for each page and section."""
    parts, found = re.split(r"^== (.*)\n", text, flags=re.M), {}
    for head, text in zip(parts[1::2], parts[2::2]):
        name, _, title = head.partition(": ")
        if title not in ORDER or (name, title) in found:
            raise SystemExit(f"{PROSE}: {head!r} names no section of a page, or one that has its text")
        found[name, title] = text.strip("\n").split("\n\n")
    return found


def formatted(paragraph):
    """A paragraph of prose.txt in the form of a page."""
    row = re.match(r"\[(\w+)\] ", paragraph)
    if paragraph.startswith("    "):
        return roff.verbatim(re.sub("^    ", "", paragraph, flags=re.M))
    return roff.row(roff.bold(row[1]), paragraph[row.end() :]) if row else roff.paragraph(paragraph)


def name_of(command):
    """The name of a command's page; for the program, its own name."""
    return f"{table.PROGRAM}-{command.name}" if command.name else table.PROGRAM


def usage(command):
    """How a command is called: names in italics, the rest as it is typed."""
    words = re.sub(r"[A-Z]+", lambda it: roff.italic(it[0]), command.usage)
    return f"{roff.bold(name_of(command).replace('-', ' '))} {words}\n"


def option(it):
    """A row for an option, with its values and its default."""
    head = ", ".join(map(roff.bold, it.words)) + (f" {roff.italic(it.value)}" if it.value else "")
    more = [f"Values: {', '.join(f'`{value}`' for value in it.values)}."] if it.values else []
    more += [f"Default: `{it.default}`."] if it.default else []
    return roff.row(head, " ".join([f"{it.text}.", *more]))


def argument(it):
    return roff.row(roff.italic(it.name) + (" ..." if it.is_many else ""), f"{it.text}.")


def notes(command):
    """The notes of help after the options: the one about the exit status, and the others."""
    sentences = re.split(r"(?<=\.) (?=[A-Z])", " ".join(command.notes))
    status = [it for it in sentences if it.startswith(STATUS)]
    rest = [it for it in sentences if it not in status]
    return [[roff.paragraph(" ".join(its))] if any(its) else [] for its in (status, rest)]


def of_table(command):
    """The sections of a page that come from the table."""
    status, said = notes(command)
    return {
        "DESCRIPTION": said,
        "ARGUMENTS": map(argument, command.arguments),
        "OPTIONS": map(option, command.options),
        "EXIT STATUS": status,
        "EXAMPLES": map(roff.verbatim, command.examples),
    }


def of_program(its_table):
    """The same for the program."""
    return {
        **of_table(its_table.program),
        "COMMANDS": [roff.row(roff.bold(name), f"{about}.") for name, about in its_table.listed],
        "DIAGNOSTICS": [roff.row(roff.bold(name), f"{text[0].upper()}{text[1:]}.") for name, text in calls.kinds(table.text_of(calls.HEADERS[0]))],
    }


class Book:
    """The pages: the table, the texts of prose.txt that are not yet in a page, and the version of all."""

    def __init__(self, version):
        self.table, self.texts, self.version = table.read(table.text_of(table.PAGES)), prose(table.text_of(PROSE)), version
        self.names = [(name_of(it), 1) for it in (self.table.program, *self.table.commands)]

    def page(self, command, own):
        """A page: in each section the part from prose.txt comes after the part from the table, except for the kinds of faults."""
        name, about = name_of(command), f"{command.about[0].lower()}{command.about[1:]}"
        sections = [
            roff.section("NAME", f"{roff.code(name)} \\- {roff.plain(about)}\n"),
            roff.section("SYNOPSIS", usage(command)),
        ]
        for title in ORDER:
            its, more = [*own.get(title, [])], [formatted(it) for it in self.texts.pop((name, title), [])]
            sections.append(roff.section(title, *(more + its if title == "DIAGNOSTICS" else its + more)))
        others = [it for it in self.names if it[0] != name] + ([] if command.name else [(table.PROGRAM, 3)])
        made_of = f"{table.PAGES}, {calls.HEADERS[0]} and {PROSE}"
        return roff.page(name, 1, self.version, made_of, *sections, roff.see_also(*others))


def pages(version):
    """The pages, keyed by their paths."""
    book = Book(version)
    found = {table.PROGRAM: book.page(book.table.program, of_program(book.table))}
    found.update((name_of(it), book.page(it, of_table(it))) for it in book.table.commands)
    for name, title in book.texts:
        raise SystemExit(f"{PROSE}: there is no page {name}, which has {title}")
    return {f"man/man1/{name}.1": text for name, text in found.items()}
