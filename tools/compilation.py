"""Has the compiler read edits without a proof: an edit that does not compile shows nothing about a contract.

All edits that fit into one copy of the sources are put into it together, each in a function of its own, below a crate that uses a
moved value. The compiler rejects that use last, after it has read every function and checked its borrows, and states nothing that
would have to be proved. So if that is the only error, all edits compile. There the edited function is in no cycle of calls: that
it still calls a function of its cycle, without which the name of the cycle is an error, is checked in its text.
"""
import os
import re
import subprocess
import tempfile

from tools.crates import KIT, TOP, below, copy_crates, listed, source, sources
from tools.edits import CYCLE

USES_A_MOVED_VALUE = """//! Ends the reading once all else was read.
#![tactic(auto)]

fn moved_twice(it: Vec<u8>) -> Vec<u8> {
    let _first = it;
    it
}
"""
ERROR = re.compile(r"(\S+?):(\d+):\d+: (error.*)")


def edited(edit, function):
    """The text of the function with the edit."""
    whole = function.whole(source(edit.crate, function.path))
    for _, old, new in edit.pairs:
        whole = whole.replace(old, new)
    return whole


def leaves_its_cycle(edit):
    """Whether the edit's function is in a cycle of calls and calls no function of the cycle any more."""
    for function in edit.owners():
        whole = edited(edit, function)
        cycle = CYCLE.search(whole)
        if cycle:
            texts = [source(edit.crate, path) for path in sources_of(edit.crate)]
            member = re.compile(rf"#\[cycle\({cycle[1]}\)\](?:\s*#\[.*\])*\s+(?:pub(?:\([^)]*\))?\s+)?fn\s+(\w+)")
            names = {name for text in texts for name in member.findall(text)}
            if not any(re.search(rf"(?<!fn )\b{name}(?:::<[^(]*>)?\(", whole) for name in names):
                return True
    return False


def sources_of(crate):
    """The paths of the code of a crate, relative to it."""
    return [path for path in (os.path.relpath(it, f"{TOP}/crates/{crate}") for it in sources(crate)) if path.startswith("src/")]


class Pass:
    """A copy of the sources with the edits that fit into it together."""

    def __init__(self, edits):
        self.texts, self.places, self.later = {}, {}, []
        for number, edit in enumerate(edits):
            its = edit.owners()
            if len(its) == len(edit.functions) == 1 and its[0].can_be_copied(self.original(edit.crate, its[0].path), in_cycle=True):
                self.add_copy(edit, its[0], number)
            elif not self.put_in_place(edit):
                self.later.append(edit)

    def original(self, crate, path):
        return source(crate, path)

    def text(self, crate, path):
        return self.texts.get((crate, path)) or source(crate, path)

    def add_copy(self, edit, function, number):
        """Puts the edited function after the original, under another name and in no cycle of calls."""
        other, text = function.copy_of(number), self.text(edit.crate, function.path)
        _, end = function.span(text)
        whole = CYCLE.sub("", function.renamed(edited(edit, function), other))
        self.texts[edit.crate, function.path] = f"{text[:end]}\n\n{whole}{text[end:]}"
        self.places[edit] = [other]

    def put_in_place(self, edit):
        """Puts the edit where it belongs, unless another edit is in the same function or has changed its text."""
        taken = [it for it in self.places if it.crate == edit.crate and (it.shares(edit) or it.clashes(edit)) and self.places[it] == it.owners()]
        texts = {path: self.text(edit.crate, path) for path, _, _ in edit.pairs}
        if taken or any(texts[path].count(old) != 1 for path, old, _ in edit.pairs):
            return False
        for path, old, new in edit.pairs:
            self.texts[edit.crate, path] = self.text(edit.crate, path).replace(old, new)
        self.places[edit] = edit.owners()
        return True

    def edit_at(self, crate, path, line):
        """The edit that this line belongs to: by its function, or, if it is in no function, by its own text."""
        for edit, functions in self.places.items():
            text = self.texts.get((edit.crate, path), "")
            lines = [it for function in functions if function.path == path for it in function.lines(text)]
            if edit.is_outside_functions():
                lines += [text.count("\n", 0, text.find(new)) + 1 for its, _, new in edit.pairs if its == path]
            if edit.crate == crate and line in lines:
                return edit
        return None

    def read(self):
        """The errors of the compiler: each edit with its first one, and the errors that belong to no edit."""
        crates = listed()
        names = [it for it in crates if any(it == edit.crate or it in below(edit.crate, crates) for edit in self.places)]
        with tempfile.TemporaryDirectory(prefix="reading-") as room:
            copy_crates(room, names, parts=("src",))
            for (crate, path), text in self.texts.items():
                with open(f"{room}/crates/{crate}/{path}", "w", encoding="utf-8") as it:
                    it.write(text)
            top = f"{room}/crates/all_that_is_read"
            os.makedirs(f"{top}/src")
            with open(f"{top}/src/lib.rt", "w", encoding="utf-8") as it:
                it.write(USES_A_MOVED_VALUE)
            ran = subprocess.run(command(room, names, crates), cwd=top, stdin=subprocess.DEVNULL, stdout=subprocess.PIPE, stderr=subprocess.STDOUT, text=True, errors="replace")
            return self.errors_by_edit(ran.stdout, room)

    def errors_by_edit(self, said, room):
        of_edits, others, is_complete = {}, [], False
        for path, line, text in (it.groups() for it in map(ERROR.match, said.split("\n")) if it):
            inside = re.match(rf"{re.escape(room)}/crates/(\w+)/(.*)", path)
            edit = inside and self.edit_at(inside[1], inside[2], int(line))
            if edit:
                of_edits.setdefault(edit, text[:200])
            elif path == "src/lib.rt" and "use of moved value" in text:
                is_complete = True
            else:
                others.append(f"{inside[1]}/{inside[2] if inside else path}:{line}: {text[:200]}" if inside else f"{path}:{line}: {text[:200]}")
        if not is_complete and not of_edits and not others:
            others.append(said[-600:])
        return of_edits, others


def command(room, names, crates):
    """A check of the crate on top, with these crates as sources."""
    kit = sorted({"core", "std", *(it for name in names for it in crates[name] if it not in crates)})
    words = [f"{KIT}/bin/rattle", "check", "--crate-name", "all_that_is_read", "src/lib.rt", "-L", f"dependency={KIT}/rlibs"]
    for it in kit:
        words += ["--extern", f"{it}={KIT}/rlibs/{it}.rlib"]
    for it in names:
        words += ["--lib", f"{it}:core,std,{','.join(crates[it])}={room}/crates/{it}/src/lib.rt".replace(",=", "=")]
    words += ["--antt-project", f"{KIT}/rattle/logic/antt-project.json", "--logic-built", f"{KIT}/logic_built"]
    return words + ["--jobs", "1", "--links", "all_that_is_read=", "--only", ""]


# A line of an edit that is not read.
STRAY = re.compile(r"^(?!file: |old: |new: |$)", re.M)


def main(edits):
    """Reads the edits, and prints those that do not compile."""
    failed = [(it, it.why) for it in edits if it.why]
    # The lines of a text after its first one would not be read.
    failed += [(it, "a line of it begins with neither file:, old: nor new:") for it in edits if not it.why and STRAY.search(it.text)]
    # (the compiler reads no statements and lemmas here)
    left, count = [it for it in edits if not it.why and all(path.startswith("src/") for path, _, _ in it.pairs)], len(edits)
    failed += [(it, "its function is in no cycle of calls any more, and has the name of one") for it in left if leaves_its_cycle(it)]
    while left:
        tried = Pass(left)
        of_edits, others = tried.read()
        failed += of_edits.items()
        if others:
            print("\n".join(others))
            print(f"{count - len(failed)} passed, {len(failed) + len(others)} failed")
            return 1
        # the edits with errors are reported, and the others are read again without them
        left = [it for it in tried.places if it not in of_edits] + tried.later if of_edits else tried.later
    for edit, why in failed:
        print(f"{edit.label}: BAD EDIT: {why}")
    print(f"{count - len(failed)} passed, {len(failed)} failed")
    return 1 if failed else 0
