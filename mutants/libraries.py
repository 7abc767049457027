"""The libraries below a crate whose edits are tried: those that `rt ci` left, or those of an `rt ci` that runs at the same
time."""
import os
import re
import shutil
import subprocess
import sys
import tempfile
import threading

from tools.crates import TOP, below, is_built, read_by, rlib


def build_below(names, crates):
    """Builds what the crates of these names use, if any of it is missing or old; returns what failed."""
    needed = []
    for name in names:
        needed += [it for it in below(name, crates) if it not in needed]
    if all(is_built(it) for it in needed):
        return None
    for it in needed:
        print(f"building {it}", flush=True)
        ran = subprocess.run(["rt", "lib"], cwd=f"{TOP}/crates/{it}", capture_output=True, text=True, errors="replace")
        if ran.returncode:
            return f"{it}: {ran.stdout[-600:]}"
    return None


class Libraries:
    """The libraries below the crates, as `rt ci` left them."""

    def __init__(self, crates):
        self.crates = crates

    def read_by(self, name):
        return read_by(name, self.crates, self.place)

    def place(self, name):
        return rlib(name)

    def kept(self, name):
        """The folder in which earlier checks of a crate kept their work, if they did."""
        return f"{TOP}/crates/{name}/out/incremental"

    def are_there(self, name):
        return True

    def can_come(self):
        return False


class ConcurrentLibraries(Libraries):
    """The libraries that an `rt ci` that runs at the same time has proved so far, as its lines on the standard input report. Each
    is copied into a folder at once, since in the end `rt ci` restores what was in the checkout before."""

    # Its line about a library that is proved, now or by an earlier run.
    PROVED = re.compile(r"rt: (\w+) (?:proved|is kept:)")

    def __init__(self, crates, names):
        super().__init__(crates)
        self.room, self.there = tempfile.TemporaryDirectory(prefix="mutants-libraries-"), set()
        # what the crates of these names depend on
        self.expected = {it for name in names for it in below(name, crates)}
        self.reader = threading.Thread(target=self.read, daemon=True)
        self.reader.start()

    def read(self):
        for line in sys.stdin:
            proved = self.PROVED.match(line)
            if proved and proved[1] in self.expected:
                shutil.copytree(rlib(proved[1]), self.place(proved[1]), copy_function=linked)
                self.there.add(proved[1])

    def place(self, name):
        return f"{self.room.name}/{name}/{name}.rlib"

    def kept(self, name):
        """Nothing: `rt ci` has moved it away."""
        return ""

    def are_there(self, name):
        return all(it in self.there for it in below(name, self.crates))

    def can_come(self):
        return self.reader.is_alive()


def linked(one, other):
    """A second name for a file that is replaced and never changed in place, or a copy if there can be none."""
    try:
        os.link(one, other)
    except OSError:
        shutil.copy2(one, other)
