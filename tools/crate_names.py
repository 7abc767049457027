"""What the crates of this repository name: functions and their clauses, types and their members, definitions and the parts of
each, lemmas, edits, files. For the scripts that check the names in documents."""
import glob
import os
import re
import subprocess

from tools import crates

TOP = crates.TOP
PUB = r"(?:pub(?:\([^)]*\))? )?"
FUNCTION = re.compile(rf'^[ \t]*({PUB})(?:const )?(?:unsafe )?(?:extern "C" )?fn (\w+)', re.M)
# The attribute above a function that C calls.
EXPORTED = "#[unsafe(no_mangle)]"
CLAUSE = re.compile(r"^\s*(ensures|requires)\*?(?: (\w+))? \{", re.M)
BLOCK = re.compile(r"^(pub )?(?:unsafe )?(impl|trait)\b([^{}]*)\{", re.M)
# What an `impl` states about its type in the logic.
SAID = re.compile(r"^    ghost (\w+)(?::| =)", re.M)
TYPE = re.compile(rf"^[ \t]*{PUB}(?:struct|enum|trait|type) (\w+)", re.M)
CONSTANT = re.compile(rf"^[ \t]*{PUB}(?:const|static) (\w+):", re.M)
# A variant or a field of a type.
MEMBER = re.compile(rf"^    {PUB}(\w+)\s*(?:[:,(]|\{{|$)", re.M)
# What a crate exports of others.
REEXPORTS = re.compile(r"^pub use ([^;]*);", re.M)
DEFINED = re.compile(r"(?:abbrev |unfoldable | *)pub (?!mod )(record |data )?([^\s:(){}]+)")
PART = re.compile(r" +(?:pub )?([^\s:(){}]+) :")
LEMMA = re.compile(r"^(?:abbrev |unfoldable )?(?:pub )?([^\s:(){}]+) :", re.M)


class Function:
    """A function: the modules and the type that contain it; what makes it public, if it is (itself, its trait, or an export to
    C); what is stated about its type; and its contract."""

    def __init__(self, inside, name, public, said, text):
        self.inside, self.name, self.public, self.said = inside, name, public, said
        clauses = [(m[1], m[2] or "", block(text, m.end())) for m in CLAUSE.finditer(text)]
        # the names of the clauses that it ensures itself; "" is the name of a clause without one
        self.promises = {name for kind, name, _ in clauses if kind == "ensures"}
        self.clauses = {name for _, name, _ in clauses} | {*said}
        self.cited = {word for kind, _, text in clauses if kind == "ensures" for word in re.findall(r"\w+", text)}

    def is_called(self, path):
        """Whether these words, of which the last is its name, are a way to name it."""
        inside = iter(self.inside)
        return path[-1] == self.name and all(it in inside for it in path[:-1])

    def full(self):
        return "::".join([*self.inside[-1:], self.name])


def block(text, start):
    """The text from this position up to the brace that closes the one before the position."""
    depth = 1
    for m in re.finditer(r"[{}]", text[start:]):
        depth += 1 if m[0] == "{" else -1
        if not depth:
            return text[start : start + m.start()]
    return text[start:]


def owner_of(kind, head):
    """The name of the type or trait that an `impl` or a `trait` with this head is about."""
    head, shorter = re.sub(r"\bwhere\b.*", "", head, flags=re.S), None
    while shorter != head:
        head, shorter = re.sub(r"<[^<>]*>", "", head), head
    words = re.split(r"\bfor\b", head)[-1].split(":" if kind == "trait" else None)
    return words[0].split("::")[-1].strip("& ") if words else ""


def blocks(text):
    """Each `impl` and `trait`: where it begins and ends, its type's name, what makes all of it public, and what it states."""
    for m in BLOCK.finditer(text):
        closes = m.end() if text[m.end()] == "}" else text.find("\n}", m.end())
        public = "itself" if m[2] == "trait" and m[1] else "trait" if " for " in m[3] else ""
        yield m.start(), closes, owner_of(m[2], m[3]), public, SAID.findall(text[m.end() : closes])


def definitions_in(text):
    """The names that a file of definitions defines, each with its parts, or else the parts of the definitions that it is made
    from."""
    found, bodies, parts, last = {}, {}, set(), ""
    for line in text.split("\n"):
        defined, part = DEFINED.match(line), PART.match(line)
        if defined and (defined[1] or not line.startswith(" ")):
            last = defined[2]
            parts = found.setdefault(last, set())
        elif defined:
            # a part of the definition above, or one of several that refer to each other
            parts.add(defined[2])
            found.setdefault(defined[2], set())
        elif part:
            parts.add(part[1])
        bodies.setdefault(last, set()).update(re.findall(r"\w+", line))
    of_others = {name: set().union(*(found[it] for it in bodies.get(name, ()) if it in found)) for name in found}
    return {name: found[name] or of_others[name] for name in found}


class Crate:
    """The names of one crate. Its files and its definitions are keyed by their paths in it."""

    def __init__(self, name):
        self.name, self.files, self.functions, self.types, self.definitions = name, {}, [], {}, {}
        self.reexported, self.is_front = set(), False
        for file in crates.sources(name):
            with open(file, encoding="utf-8") as it:
                self.files[os.path.relpath(file, f"{TOP}/crates/{name}")] = it.read()
        for path, text in self.files.items():
            if path.endswith(".rt"):
                self.read_code(path, text)
            elif path.startswith("specs/"):
                self.definitions[path] = definitions_in(text)
        self.clauses = {clause for it in self.functions for clause in it.clauses}
        self.edits = {it.removesuffix(".edit") for it in self.folders_of_edits()}
        self.names = {name, *self.edits, *(os.path.basename(it).split(".")[0] for it in self.files)}
        for it in self.functions:
            self.names |= {it.name, *it.inside, *it.clauses}
        for its in (self.types, *self.definitions.values()):
            self.names |= {*its}.union(*its.values())
        self.names |= {it for path, text in self.files.items() if path.startswith("proofs/") for it in LEMMA.findall(text)}

    def folders_of_edits(self):
        for folder in (f"crates/{self.name}/must-fail", f"mutants/{self.name}", f"mutants/let_through/{self.name}"):
            if os.path.isdir(f"{TOP}/{folder}"):
                yield from os.listdir(f"{TOP}/{folder}")

    def read_code(self, path, text):
        module = [it for it in path.removesuffix(".rt").split("/")[1:] if it not in ("lib", "main", "mod")]
        its, starts = [*blocks(text)], [*FUNCTION.finditer(text)]
        self.reexported.update(re.findall(r"\w+", " ".join(REEXPORTS.findall(text))))
        for m in TYPE.finditer(text):
            closes = text.find("\n}", m.end())
            self.types.setdefault(m[1], set()).update(MEMBER.findall(text[m.end() : max(closes, m.end())]))
        for m, end in zip(starts, [*[it.start() for it in starts[1:]], len(text)]):
            owner, public, said = next((it[2:] for it in its if it[0] < m.start() < it[1]), ("", "", []))
            inside, public = [*module, owner] if owner else module, "itself" if m[1] == "pub " else public
            public = "export" if text[: m.start()].rstrip().endswith(EXPORTED) else public
            self.functions.append(Function(inside, m[2], public, said, text[m.start() : end]))
        for m in CONSTANT.finditer(text):
            owner = next((it[2] for it in its if it[0] < m.start() < it[1]), "")
            self.types.setdefault(owner, set()).add(m[1])

    def reexport(self, used):
        """Makes a crate without a function of its own a front crate: it has what the crates that it uses have."""
        if self.reexported and not self.functions:
            self.is_front = True
            self.functions = [it for crate in used for it in crate.functions]
            self.clauses = set().union(*(crate.clauses for crate in used))
            self.types = {name: its for crate in used for name, its in crate.types.items()}

    def shown(self):
        """Its own public functions that callers can reach: those in a public module, those exported by name or with their type,
        and those exported to C."""
        modules = {*re.findall(r"^pub mod (\w+)", self.files.get("src/lib.rt", ""), re.M)}
        its = [] if self.is_front else [it for it in self.functions if it.public in ("itself", "export")]
        return [it for it in its if it.public == "export" or modules & {*it.inside[:1]} or self.reexported & {*it.inside[-1:], it.name}]

    def called(self, path):
        """The functions that these words name."""
        return [it for it in self.functions if it.is_called(path)]

    def parts_of(self, name):
        """The parts of the definitions of this name, or None if there are none."""
        found = [its[name] for its in self.definitions.values() if name in its]
        return set().union(*found) if found else None

    def has(self, path):
        """Whether these words name a function, a type or a member of one, a constant, a module, an item exported from another
        crate, or (with its file) a lemma."""
        if path[0] in crates.PARTS:
            return path[-1] in LEMMA.findall(self.files.get(f"{'/'.join(path[:-1])}.antt", ""))
        if self.called(path) or path[-1] in self.reexported or path[-1] in self.types or path[-1] in self.types.get("::".join(path[-2:-1]), ()):
            return True
        return any(f"src/{path[-1]}{it}.rt" in self.files for it in ("", "/mod"))

    def file(self, path):
        """Whether the crate has this file or folder: by its path in the crate, or by its name below one of its parts."""
        top = f"{TOP}/crates/{self.name}"
        return any(glob.glob(f"{top}/{it}{path}", recursive=True) for it in ("", *(f"{part}/**/" for part in crates.PARTS)))


class Known:
    """The names of all crates."""

    def __init__(self):
        self.uses = crates.listed()
        self.crates = {name: Crate(name) for name in self.uses}
        for name, its in self.crates.items():
            its.reexport([self.crates[it] for it in self.uses[name] if it in self.crates])
        self.kit = {it for its in self.uses.values() for it in its if it not in self.uses} | {"std", "core", "alloc"}

    def near(self, name):
        """A crate and those below it; all crates if there is no name."""
        return [self.crates[it] for it in [name, *crates.below(name, self.uses)]] if name else [*self.crates.values()]

    def of_kit(self, names):
        """Which of these names std and the kit's crates define: after a keyword that defines a name, or at the beginning of a
        line."""
        given = rf"(^ *|\b(pub|fn|struct|enum|trait|type|mod|record|data) )({'|'.join(sorted(names))})\b"
        folders = [f"{crates.KIT}/rlibs/{it}.rlib" for it in self.kit - {"alloc"}]
        words = ["grep", "-rhoE", "--include=*.rt", "--include=*.antt", given, *folders]
        lines = subprocess.run(words, capture_output=True, text=True).stdout.split("\n") if names else []
        return {it.split()[-1] for it in lines if it}
