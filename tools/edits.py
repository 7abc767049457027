"""The edits of a crate: wrong bodies, each a change of texts of its sources, and the functions that contain these texts.

An edit is a file of lines `file: src/x.rt`, `old: TEXT`, `new: TEXT`, with further pairs if necessary; each TEXT is one line and
occurs once in that file. The edits of a crate are those of crates/NAME/must-fail, which `rt ci` tries too, one by one, and those
of mutants/NAME. Those of mutants/let_through/NAME are controls: they change nothing, or only what a caller notices.
"""
import functools
import os
import re

from tools.crates import TOP, source

FUNCTION = re.compile(r'^([ \t]*)(?:pub(?:\([^)]*\))?\s+)?(?:const\s+)?(?:unsafe\s+)?(?:extern "C"\s+)?fn\s+(\w+)', re.M)
IMPL = re.compile(r"^([ \t]*)(?:unsafe\s+)?impl\b([^{}]*)\{[ \t]*$", re.M)
CYCLE = re.compile(r"#\[cycle\((\w+)\)\]")
# What the name of a copy of a function has after the name of the function.
AGAIN = "_again_"


# ---- functions of a source


@functools.lru_cache(maxsize=None)
def spans(text):
    """Each function's name with the type and trait of its impl, and the positions of its beginning and its end, which is where
    its indentation closes."""
    impls = []
    for m in IMPL.finditer(text):
        closes = re.compile(rf"^{m[1]}\}}", re.M).search(text, m.end())
        impls.append((m.start(), closes.end() if closes else len(text), owner_of(m[2])))
    found = []
    for m in FUNCTION.finditer(text):
        closes = re.compile(rf"^{re.escape(m[1])}\}}", re.M).search(text, m.end())
        owner = next((it for start, end, it in impls if start < m.start() < end), "")
        found.append((f"{owner}::{m[2]}" if owner else m[2], m.start(), closes.end() if closes else len(text)))
    return found


def owner_of(head):
    """The name that a check gives to an impl: its type's, followed by its trait's, followed by what the trait is about."""
    head = re.sub(r"\bwhere\b.*", "", head, flags=re.S).strip()
    head = re.sub(r"^<[^<>]*>", "", head)
    of_trait = re.match(r"\s*\w+<([\w:]+)>\s+for\s", head)
    while "<" in head:
        shorter = re.sub(r"<[^<>]*>", "", head)
        if shorter == head:
            break
        head = shorter
    words = [it.split("::")[-1].strip("& ") for it in re.split(r"\s+for\s+", head)]
    of_what = "".join(it[:1].upper() + it[1:] for it in of_trait[1].split("::")) if of_trait else ""
    return words[-1] + (words[0] + of_what if len(words) == 2 else "")


def module_of(path):
    module = path[len("src/") : -len(".rt")].removesuffix("/mod")
    return "" if module in ("lib", "main") else module.replace("/", "::")


class Function:
    """A function of a crate: where it is, and how a check names it."""

    def __init__(self, path, name, number):
        self.path, self.name, self.number = path, name, number
        # a method is named by its type, wherever its impl is
        self.full = name if "::" in name else "::".join(it for it in (module_of(path), name) if it)

    def key(self):
        return self.path, self.name, self.number

    def span(self, text):
        found = [(start, end) for name, start, end in spans(text) if name == self.name]
        return found[min(self.number, len(found) - 1)]

    def lines(self, text):
        """Its lines, with the docs and attributes above it: everything after the function before."""
        start, end = self.span(text)
        previous_end = max((it for _, _, it in spans(text) if it <= start), default=0)
        return range(text.count("\n", 0, previous_end) + 2 if previous_end else 1, text.count("\n", 0, end) + 2)

    def whole(self, text):
        """Its text, with the docs and attributes right above it."""
        start, end = self.span(text)
        while start:
            above = text[text.rfind("\n", 0, start - 1) + 1 : start - 1].strip()
            if not above or (above[-1] in "{};" and not above.startswith("//")):
                break
            start -= len(text[text.rfind("\n", 0, start - 1) + 1 : start])
        return text[start:end]

    def can_be_copied(self, text, in_cycle=False):
        """Whether a copy under another name can follow it: a function, or a method of no trait, and, unless `in_cycle` is set, of
        no cycle of calls."""
        start, _ = self.span(text)
        heads = [m[2] for m in IMPL.finditer(text) if m.start() < start and owner_of(m[2]) == self.name.rpartition("::")[0]]
        of_trait = heads and re.search(r"\sfor\s", heads[-1])
        within_another = "::" not in self.name and text[start].isspace()
        return not of_trait and not within_another and (in_cycle or not CYCLE.search(self.whole(text)))

    def copy_of(self, number):
        """A copy of the function, under another name."""
        return Function(self.path, f"{self.name}{AGAIN}{number}", 0)

    def renamed(self, text, other):
        """The text of this function under the name of the other one."""
        own, new = (it.name.rpartition("::")[2] for it in (self, other))
        return re.sub(rf"\bfn {own}\b", f"fn {new}", text, count=1)

    def proofs(self, room):
        """The folder of its written answers, if there is one."""
        folder = f"{room}/proofs/{self.place()}"
        return folder if os.path.isdir(folder) else None

    def place(self):
        inside = self.name.replace("::", "/")
        module = module_of(self.path).replace("::", "/")
        return f"{module}/{inside}" if module else inside


def function_at(path, text, at):
    """The function that contains this position, or None."""
    around = [(name, start) for name, start, end in spans(text) if start <= at < end]
    if not around:
        return None
    name, start = around[-1]
    return Function(path, name, [begin for n, begin, _ in spans(text) if n == name].index(start))


# ---- edits


class Edit:
    def __init__(self, name, file, is_control=False):
        self.is_control = is_control
        self.crate, self.label = name, f"{name}/{os.path.basename(file).removesuffix('.edit')}"
        self.pairs, self.functions, self.why = [], {}, None
        with open(file, encoding="utf-8") as it:
            self.text = it.read()
        path, old, texts = "", None, {}
        for line in self.text.split("\n"):
            if line.startswith("file: "):
                path = line[len("file: ") :].strip()
            elif line.startswith("old: "):
                old = line[len("old: ") :]
            elif line.startswith("new:") and old and path:
                self.add(texts, path, old, line[len("new:") :].removeprefix(" "))
                old = None
        if not self.pairs and not self.why:
            self.why = "it has no 'old:' and 'new:' pair"

    def add(self, texts, path, old, new):
        if path not in texts:
            texts[path] = source(self.crate, path)
        text = texts[path]
        if text.count(old) != 1:
            self.why = self.why or f"an 'old:' text is in {path} {text.count(old)} times"
            return
        self.pairs.append((path, old, new))
        owner = function_at(path, text, text.find(old))
        self.functions[owner.key() if owner else None] = owner
        texts[path] = text.replace(old, new)

    def is_outside_functions(self):
        return None in self.functions

    def owners(self):
        return [it for it in self.functions.values() if it]

    def can_be_copied(self):
        """Whether it can be tried in a copy of its function."""
        its = self.owners()
        return len(its) == len(self.functions) == 1 and its[0].can_be_copied(source(self.crate, its[0].path))

    def shares(self, other):
        return bool(set(self.functions) & set(other.functions))

    def clashes(self, other):
        return any(p == q and (a in b or b in a) for p, a, _ in self.pairs for q, b, _ in other.pairs)

    def fits(self, others):
        """Whether it can be in one round with these."""
        if self.is_outside_functions() or any(it.is_outside_functions() for it in others):
            return False
        if any(self.shares(it) for it in others):
            return self.can_be_copied()
        return not any(self.clashes(it) for it in others)


def files_in(folder):
    return [f"{folder}/{it}" for it in sorted(os.listdir(folder)) if it.endswith(".edit")] if os.path.isdir(folder) else []


def edits_of(name):
    """The edits of a crate, which have to be rejected."""
    return [Edit(name, it) for it in files_in(f"{TOP}/crates/{name}/must-fail") + files_in(f"{TOP}/mutants/{name}")]


def controls_of(name):
    """The edits that have to be let through."""
    return [Edit(name, it, is_control=True) for it in files_in(f"{TOP}/mutants/let_through/{name}")]


def rounds_of(edits):
    rounds = []
    for it in sorted(edits, key=lambda it: it.can_be_copied()):
        fitting = next((r for r in rounds if it.fits(r)), None)
        if fitting is None:
            rounds.append([it])
        else:
            fitting.append(it)
    return sorted(rounds, key=lambda r: -len(r))
