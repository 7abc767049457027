"""Manual pages in the macros of man(7)."""
import os
import re
import textwrap
import time

# Words in bold: those between backticks, and options.
BOLD = re.compile(r"`([^`]+)`|(?<![\w-])(--[a-z][a-z-]*)")
SENTENCE = re.compile(r"(?<=\.) (?=[A-Z`]|arrowflow)")
# The maximum length of a line of a page's source, except for longer words and verbatim lines.
WIDTH = 79


def code(text):
    """Text that can be copied from a page unchanged: each hyphen is one, each quote is straight."""
    text = text.replace("\\", "\\e").replace("-", "\\-")
    for plain, name in (("'", "aq"), ("`", "ga"), ("^", "ha"), ("~", "ti")):
        text = text.replace(plain, f"\\({name}")
    return text


def plain(text):
    """Text for reading, in which a hyphen between letters is not a minus."""
    kept = re.sub(r"(?<=[A-Za-z])-(?=[A-Za-z])", "\0", text)
    return code(kept).replace("\0", "-").replace("\\(aq", "'")


def bold(text):
    return f"\\fB{code(text)}\\fR"


def italic(text):
    return f"\\fI{code(text)}\\fR"


def line(text):
    """A line of a page: a line that begins like a roff request does not become one."""
    return f"\\&{text}\n" if text.startswith((".", "'")) else f"{text}\n"


def prose(text):
    """A paragraph's text; each sentence begins a line."""
    found = []
    for sentence in SENTENCE.split(" ".join(text.split())):
        parts, end = [], 0
        for it in BOLD.finditer(sentence):
            parts += [plain(sentence[end : it.start()]), bold(it[1] or it[2])]
            end = it.end()
        whole = "".join([*parts, plain(sentence[end:])])
        found += map(line, textwrap.wrap(whole, WIDTH, break_long_words=False, break_on_hyphens=False))
    return "".join(found)


def paragraph(text):
    return f".PP\n{prose(text)}"


def row(head, text):
    """A row of a list: its heading, which is roff already, and its text."""
    return f".TP\n{line(head)}{prose(text)}"


def point(text):
    """An item of a list."""
    return f".IP \\(bu 2\n{prose(text)}"


def verbatim(text):
    """Lines that are kept unchanged."""
    lines = "".join(line(code(it)) for it in text.rstrip("\n").split("\n"))
    return f".PP\n.RS 4\n.nf\n{lines}.fi\n.RE\n"


def section(title, *parts):
    """A section, or nothing if it has no parts."""
    body = "".join(parts).removeprefix(".PP\n")
    return f".SH {title}\n{body}" if body else ""


def see_also(*pages):
    """The section with these pages, each as (name, number)."""
    return section("SEE ALSO", ",\n".join(f"{bold(name)}({number})" for name, number in pages) + "\n")


def date():
    """The day of SOURCE_DATE_EPOCH, or none: a page depends on no other time."""
    at = os.environ.get("SOURCE_DATE_EPOCH")
    return time.strftime("%Y-%m-%d", time.gmtime(int(at))) if at else ""


def page(name, number, source, made_of, *sections):
    """A page. `source` is the name and the version of its subject, `made_of` the files that it was made from."""
    head = f'.\\" Made by share/make of {made_of}.\n'
    title = f'.TH {code(name.upper())} {number} "{date()}" "{code(source)}"\n'
    # words are not hyphenated, and the text is aligned only on the left
    return "".join([head, title, ".nh\n.ad l\n", *sections])
