"""The manual pages of the calls for C, made only from the headers and their comments.

The script reads the first comment of a header, which is about all calls, the titles between rules of hyphens, and each
declaration with the comment right before it. A comment with an empty line after it is about all calls too. Anything without such
a form is an error that names its line.
"""
import dataclasses
import re

import roff
import table

HEADERS = "c/arrowflow.h", "c/arrowflow_stream.h"
# The header whose calls share one page, since most of its text is about all of them.
OF_ONE_PAGE = HEADERS[1]
LINK = "Link with `-larrowflow`, or as `pkg-config --cflags --libs arrowflow` says."
CALL = re.compile(r"([\w ]+?[ *]+)(arrowflow_\w+)\(([^()]*)\);", re.S)
TYPE = re.compile(r"(?:enum|struct) (\w+) \{.*|typedef [^{;]*?\(\*(\w+)\).*|typedef .*\b(\w+);", re.S)
# A row with a head of its own, in the first comment.
HEAD = re.compile(r"([A-Z][a-z]+) {2,}")
KIND = re.compile(r"ARROWFLOW_KIND_(\w+) = (\d+),?\s*/\* (.*?) \*/")
# The kinds that are faults of a stream.
FAULTS = range(1, 19)
CODE = "    "
# The longest line of a page that says what the page is about.
LONG = 75


@dataclasses.dataclass(frozen=True)
class Item:
    """What a header declares, with the lines of the comment before it."""
    name: str
    code: str
    comment: tuple
    is_call: bool

    @property
    def result(self):
        """The name of the type that a call returns, or points to."""
        return re.sub(r"\b(const|struct)\b|\*", "", CALL.fullmatch(self.code)[1]).strip()


class Header:
    """A header: `about` has the lines of its first comment, `shared` other comments that are about all calls, `items` its
    declarations."""

    def __init__(self, file, text):
        self.file, self.about, self.inside, self.shared, self.items = file, (), (), [], []
        self.name = file.rpartition("/")[2]
        # only C++ reads these lines
        self.text = re.sub(r"^#ifdef __cplusplus\n.*?^#endif\n", lambda it: "\n" * it[0].count("\n"), text, flags=re.M | re.S)
        at, comment = 0, ()
        while at < len(self.text):
            found = re.compile(r"/\*(.*?)\*/\n", re.S).match(self.text, at)
            if found:
                comment, at = self.comment(found[1]), found.end()
            elif self.text[at] in "#\n":
                self.put_by(comment, at)
                comment, at = (), self.text.index("\n", at) + 1
            else:
                end = self.end_of(at)
                self.items.append(self.item(at, end, comment or self.inside))
                comment, self.inside, at = (), (), end + 1

    def put_by(self, comment, at):
        """Keeps a comment that is not followed at once by a declaration."""
        if not self.about:
            self.about = comment
        elif self.text.startswith("#ifndef", at):
            # it is about the first declaration inside of it
            self.inside = comment
        elif comment:
            self.shared.append(comment)

    def fail(self, at, what):
        raise SystemExit(f"{self.file}:{self.text.count(chr(10), 0, at) + 1}: {what}")

    def comment(self, text):
        """The lines of a comment; no lines for a title between hyphens."""
        lines = [re.sub(r"^ \* ?", "", it) for it in text.rstrip().split("\n")]
        return () if re.fullmatch(r" -{4} .* -{4}", lines[0]) else (lines[0].strip(), *lines[1:])

    def end_of(self, at):
        """The end of a declaration, which is after a semicolon outside of all brackets."""
        depth = 0
        for it in re.compile(r"/\*.*?\*/|[{}();]", re.S).finditer(self.text, at):
            depth += {"{": 1, "(": 1, "}": -1, ")": -1}.get(it[0], 0)
            if it[0] == ";" and not depth:
                return it.end()
        return self.fail(at, "a declaration without an end")

    def item(self, at, end, comment):
        code = self.text[at:end]
        call, its_type = CALL.fullmatch(code), TYPE.fullmatch(code)
        if not call and not its_type:
            self.fail(at, "a declaration that is neither a call nor a type")
        if call and not comment:
            self.fail(at, f"{call[2]} has no comment right before it")
        name = call[2] if call else next(filter(None, its_type.groups()))
        return Item(name, code, comment, bool(call))

    def calls(self):
        return [it for it in self.items if it.is_call]


def kinds(text):
    """The faults of a stream in the first header: the name of each as the program prints it, and what it means."""
    body = re.search(r"^enum arrowflow_kind \{(.*?)^\};", text, re.M | re.S)
    found = [(int(number), name.title().replace("_", ""), text) for name, number, text in KIND.findall(body[1] if body else "")]
    its = [it for it in found if it[0] in FAULTS]
    if [it[0] for it in its] != [*FAULTS]:
        raise SystemExit(f"{HEADERS[0]}: not each of the kinds {FAULTS[0]} to {FAULTS[-1]} has a row with a comment")
    return [(name, text) for _, name, text in its]


# ---- comments


def joined(lines):
    return " ".join(it.strip() for it in lines)


def blocks(lines):
    """The lines of a comment in parts, each a paragraph, code, a point of a list, or a row with a head."""
    found, has_head = [[]], False
    for it in lines:
        starts = it.startswith(" - ") or HEAD.match(it)
        is_code = it.startswith(CODE) and not has_head
        if not it or starts or (found[-1] and is_code != found[-1][0].startswith(CODE)):
            found.append([])
        has_head = bool(starts) or (has_head and it.startswith(" "))
        if it:
            found[-1].append(it)
    return [it for it in found if it]


def formatted(lines):
    """A comment as a part of a page."""
    found = []
    for block in blocks(lines):
        head = HEAD.match(block[0])
        if head:
            found.append(roff.row(roff.bold(head[1]), joined([block[0][head.end() :], *block[1:]])))
        elif block[0].startswith(" - "):
            found.append(roff.point(joined([block[0][3:], *block[1:]])))
        elif block[0].startswith(CODE):
            found.append(roff.verbatim("\n".join(it.removeprefix(CODE) for it in block)))
        else:
            found.append(roff.paragraph(joined(block)))
    return "".join(found)


def parted(lines):
    """The lines of a comment that are text, and those that are code."""
    its = blocks(lines)
    return [[line for it in its if it[0].startswith(CODE) == is_code for line in [*it, ""]] for is_code in (False, True)]


def sentences(lines):
    return re.split(r"(?<=\.) (?=[A-Z`])", joined(parted(lines)[0]).strip())


def about(lines):
    """What a comment is about: the beginning of its first sentence."""
    first = re.split(r"\.(?: |$)|[:;] | \(", joined(lines))[0].strip()
    first = first if len(first) <= LONG else first.split(", ")[0]
    return first if first.startswith("Arrow") else first[0].lower() + first[1:]


# ---- pages


def name_section(names, lines):
    return roff.section("NAME", f"{roff.code(', '.join(names))} \\- {roff.plain(about(lines))}\n")


def synopsis(header, calls):
    """The line that includes the header, and the calls as they are declared, with parameters in italics."""
    declared = []
    for it in calls:
        code = re.sub(r"(\w+)(?=[,)])", lambda m: m[0] if m[0] == "void" else f"\\fI{m[0]}\\fB", roff.code(it.code))
        declared += [".PP\n", *(f"\\fB{line}\\fR\n" for line in code.split("\n"))]
    return roff.section("SYNOPSIS", f".nf\n\\fB#include <{roff.code(header.name)}>\\fR\n", *declared, ".fi\n", roff.paragraph(LINK))


def type_of(item):
    """A type: its comment and its declaration."""
    return formatted(item.comment) + roff.verbatim(item.code)


def reached(item, types, found):
    """Adds the types that a declaration names, and those that these name."""
    for name in re.findall(r"\barrowflow_\w+\b", item.code):
        if name in types and name not in found:
            found.add(name)
            reached(types[name], types, found)
    return found


def answered(comment):
    """The sentences of a comment that say what a call returns."""
    return [it for it in sentences(comment) if re.search(r"\b([Rr]eturns|answers|[Nn]ever NULL)\b", it)]


def returned(call, types):
    """What a call returns: a struct, or what its comment says about it."""
    if call.result == "void":
        return []
    if call.result in types:
        return [roff.paragraph(f"`{call.result}`, by value."), type_of(types[call.result])]
    return [roff.paragraph(" ".join(answered(call.comment) or sentences(call.comment)[:1]))]


def overview(header):
    """The name of a header's page."""
    return header.name.removesuffix(".h")


def handle(call):
    """The handle that a call works on, if it has one."""
    return next((it for it in ("copier", "reader") if call.name.startswith(f"arrowflow_{it}_")), None)


def of_call(call, header, types, version):
    """The page of a call."""
    text, code = parted(call.comment)
    its = reached(call, types, set()) - {call.result, "arrowflow_kind"}
    near = [(it.name, 3) for it in header.calls() if it is not call and handle(it) == handle(call)]
    return roff.page(call.name, 3, version, header.file,
        name_section([call.name], text),
        synopsis(header, [call]),
        roff.section("DESCRIPTION", formatted(text)),
        roff.section("TYPES", *(type_of(it) for name, it in types.items() if name in its)),
        roff.section("RETURN VALUE", *returned(call, types)),
        roff.section("EXAMPLES", formatted(code)),
        roff.see_also((overview(header), 3), *near))


def of_header(header, types, version, others):
    """The page of a header. If its calls have pages of their own, it has a row for each, and the kinds, which all calls share."""
    has_pages = header.file != OF_ONE_PAGE
    calls, lines = header.calls(), list(header.about)
    lines[0] = lines[0].removeprefix(f"{header.name}: ")
    names = [overview(header), *(it.name for it in calls if not has_pages)]
    said = formatted([lines[0][0].upper() + lines[0][1:], *lines[1:]]), *map(formatted, header.shared)
    if has_pages:
        rows = [roff.row(f"{roff.bold(it.name)}(3)", f"{about(it.comment)}.") for it in calls]
        more = [roff.section("CALLS", *rows), roff.section("ERRORS", type_of(types["arrowflow_kind"]))]
    else:
        rows = [roff.row(roff.bold(it.name), joined(it.comment)) for it in calls]
        its = [type_of(it) for it in header.items if not it.is_call]
        answers = [roff.paragraph(" ".join(answered(it))) for it in header.shared if answered(it)]
        more = [roff.section("CALLS", *rows), roff.section("TYPES", *its), roff.section("RETURN VALUE", *answers)]
    sections = name_section(names, lines), synopsis(header, [] if has_pages else calls), roff.section("DESCRIPTION", *said)
    return roff.page(overview(header), 3, version, header.file, *sections, *more, roff.see_also(*others))


def pages(version):
    """The pages, keyed by their paths."""
    headers = [Header(it, table.text_of(it)) for it in HEADERS]
    types = {it.name: it for header in headers for it in header.items if not it.is_call}
    found = {}
    for header in headers:
        others = [(overview(it), 3) for it in headers if it is not header] + [(table.PROGRAM, 1)]
        found[overview(header)] = of_header(header, types, version, others)
        for call in header.calls():
            link = f".so man3/{overview(header)}.3\n"
            found[call.name] = link if header.file == OF_ONE_PAGE else of_call(call, header, types, version)
    return {f"man/man3/{name}.3": text for name, text in found.items()}
