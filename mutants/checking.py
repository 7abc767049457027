"""One check of a crate with some edits, and what it reports about each of them."""
import collections
import os
import re
import shutil
import subprocess
import tempfile
import time

from tools.crates import KIT, PARTS, TOP, source, sources
from tools.edits import CYCLE, module_of


def command(name, libraries, kept, only):
    """The command of the check, with the arguments that `rt must-fail` gives to it."""
    words = [f"{KIT}/bin/rattle", "check", *libraries.read_by(name), "--jobs", "1", "--incremental", kept]
    return words + [it for path in only for it in ("--only", path)]


# A line about what was not proved. If the edit removed a name or a goal, it says only that a written answer cites that.
GOAL = re.compile(r"(?:note|warning): (?:\./)?(src/\S+?):(\d+):\d+: (?:it is not proved|.*not proved)")
ANSWER = re.compile(r"(?:\./)?(proofs/\S+?):\d+:\d+: error: (.*)")
NAMES_ONLY = re.compile(r"has no field|is not in scope|has no `|was not admitted|: module `[^`]*Goals`")
# If the texts could not be read, nothing is known about any contract.
UNREAD = re.compile(r"(?:\./)?(?:src|specs)/\S+?:\d+:\d+: error")


def evidence(said, function, text, cycles):
    """What was not proved in that function, and whether all of it is only a name that its written answers cite and that is
    gone."""
    lines = function.lines(text)
    folder = re.compile(rf"proofs/(?:\w+/)*{function.full.replace('::', '/')}/")
    # Functions that call each other share their answers. If there are several, a goal there begins with the name of its function;
    # if a function calls only itself, it does not.
    shared = re.compile(r"proofs/(?:\w+/)*\+(\w+)/")
    cycle = CYCLE.search("\n".join(text.split("\n")[lines[0] - 1 : lines[-1]]))
    of_this = re.compile(rf"`(?:\w+::)*{re.escape(function.name.rpartition('::')[2])}-")

    def is_shared(place, line):
        found = shared.search(place)
        return found and cycle and found[1] == cycle[1] and (cycles[cycle[1]] == 1 or of_this.search(line))

    own, names = [], []
    for line in said.split("\n"):
        goal, answer = GOAL.match(line), ANSWER.match(line)
        if goal and goal[1] == function.path and int(goal[2]) in lines:
            own.append(line)
        elif answer and (folder.match(answer[1]) or is_shared(answer[1], answer[2])):
            (names if NAMES_ONLY.search(answer[2]) else own).append(line)
        elif re.match(rf"fn (?:\w+::)+{re.escape(function.full)}(::\S+)?: (not proved|no proof)\b.*did not prove", line):
            if is_shared(line, line) or not shared.search(line):
                own.append(line)
    return own or names, not own


def any_evidence(said):
    found = [it for it in said.split("\n") if GOAL.match(it) or ANSWER.match(it)]
    return found, all(m and NAMES_ONLY.search(m[2]) for m in map(ANSWER.match, found))


class Round:
    """One check of a crate with some edits."""

    def __init__(self, name, libraries, edits, kept, whole=False):
        self.name, self.edits, self.texts, self.skipped = name, edits, {}, []
        # how long it took, and each function separately
        self.seconds, self.spent = 0, {}
        # the functions that each edit is in, and the copies of functions without an edit
        self.places, self.unedited = {}, {}
        # the number of functions in each cycle of calls
        its = [os.path.relpath(it, f"{TOP}/crates/{name}") for it in sources(name) if it.endswith(".rt")]
        self.cycles = collections.Counter(cycle for it in its for cycle in CYCLE.findall(source(name, it)))
        with tempfile.TemporaryDirectory(prefix="mutants-") as room:
            for part in PARTS:
                if os.path.isdir(f"{TOP}/crates/{name}/{part}"):
                    shutil.copytree(f"{TOP}/crates/{name}/{part}", f"{room}/{part}")
            self.apply(room)
            for path, text in self.texts.items():
                with open(f"{room}/{path}", "w", encoding="utf-8") as it:
                    it.write(text)
            whole = whole or any(it.is_outside_functions() for it in edits)
            functions = [f for its in self.places.values() for f in its] + [*self.unedited.values()]
            self.run(room, [] if whole else functions, libraries, kept)

    def run(self, room, functions, libraries, kept):
        """Runs the check. If it knows a function only under another name, it checks the function's complete module."""
        only = {f.full: f for f in functions}
        while True:
            self.said, self.status = self.check(room, command(self.name, libraries, kept, sorted(only)))
            unknown = re.search(r"has no function `(.*?)`", self.said, re.S)
            if self.status != 2 or not unknown or not only.get(unknown[1]):
                return
            only[module_of(only.pop(unknown[1]).path)] = None

    def apply(self, room):
        """Writes the edits into the texts: the first edit of a function into the function itself, each other one into a copy
        after it."""
        taken = set()
        for edit in self.edits:
            if taken & set(edit.functions):
                continue
            for path, old, new in edit.pairs:
                text = self.texts.get(path) or source(self.name, path)
                if text.count(old) != 1:
                    self.skipped.append(edit)
                    break
                self.texts[path] = text.replace(old, new)
            taken |= set(edit.functions)
            self.places[edit] = edit.owners()
        for number, edit in enumerate(it for it in self.edits if it not in self.places):
            function = edit.owners()[0]
            self.places[edit] = [self.add_copy(room, function, number, edit.pairs)]
            if function.key() not in self.unedited and function.proofs(f"{TOP}/crates/{self.name}"):
                self.unedited[function.key()] = self.add_copy(room, function, f"as_it_is_{number}", [])

    def add_copy(self, room, function, number, pairs):
        """Writes a copy of the function after it, with these changes, and a copy of its proof files next to them."""
        other = function.copy_of(number)
        text = function.whole(source(self.name, function.path))
        for _, old, new in pairs:
            text = text.replace(old, new)
        _, end = function.span(self.texts[function.path])
        self.texts[function.path] = f"{self.texts[function.path][:end]}\n\n{function.renamed(text, other)}{self.texts[function.path][end:]}"
        answers = function.proofs(room)
        if answers:
            shutil.copytree(answers, f"{room}/proofs/{other.place()}")
            own, new = (it.place().replace("/", ".") for it in (function, other))
            for at, _, files in os.walk(f"{room}/proofs/{other.place()}"):
                for file in files:
                    with open(f"{at}/{file}", encoding="utf-8") as it:
                        said = it.read()
                    with open(f"{at}/{file}", "w", encoding="utf-8") as it:
                        it.write(re.sub(rf"\bproofs\.{re.escape(own)}\.", f"proofs.{new}.", said))
        return other

    def check(self, room, words):
        """The output of the check, and its status; it also records the time for each function."""
        start = last = time.time()
        how = {"cwd": room, "stdin": subprocess.DEVNULL, "stdout": subprocess.PIPE, "stderr": subprocess.STDOUT}
        ran, said = subprocess.Popen([*words, "--progress"], text=True, errors="replace", **how), []
        for line in ran.stdout:
            done = re.match(r"checked (\S+), \d+ of", line)
            if done:
                self.spent[done[1].partition("::")[2]], last = time.time() - last, time.time()
            said.append(line)
        self.seconds += time.time() - start
        return "".join(said), ran.wait()

    def dearest(self):
        """The functions that took the longest, with their seconds: their edits are rejected late."""
        its = sorted(self.spent.items(), key=lambda it: -it[1])[:3]
        return ", ".join(f"{name} {seconds:.0f}" for name, seconds in its)

    def has_verdict(self):
        last = self.said.rstrip("\n").split("\n")[-1]
        return self.status in (0, 1) and bool(re.match(r"logic=|only=", last)) and not UNREAD.search(self.said)

    def verdict(self, edit):
        """The lines that reject the edit, none if it is let through, and whether they are only about a name that a written answer
        cites."""
        if edit.is_outside_functions():
            return any_evidence(self.said)
        found = [evidence(self.said, f, self.texts[f.path], self.cycles) for f in self.places[edit]]
        lines = [line for its, _ in found for line in its]
        return lines, all(only_names for its, only_names in found if its)

    def copy_is_proved(self, edit):
        """Whether the copy of the edit's function without an edit is proved: otherwise a rejection says nothing about the
        edit."""
        its = [self.unedited[key] for key in edit.functions if key in self.unedited and self.places[edit] != edit.owners()]
        return not any(evidence(self.said, f, self.texts[f.path], self.cycles)[0] for f in its)
