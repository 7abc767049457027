"""The crates of this repository, for the scripts that check and measure them: the version, the list of crates, what they use and
read, a copy of them with one more program, and what earlier runs on this machine found for the same files."""
import hashlib
import json
import os
import re
import shutil
import subprocess
import time

TOP = os.path.dirname(os.path.dirname(os.path.abspath(__file__)))
KIT = os.path.dirname(subprocess.run(["rt", "doc"], capture_output=True, text=True, check=True).stdout.strip())
PARTS = ("src", "specs", "proofs")


# ---- the version, and the list of crates


def version():
    """The version in the file VERSION: three numbers with dots between them. checks/version compares the other places with it."""
    with open(f"{TOP}/VERSION", encoding="utf-8") as it:
        return re.fullmatch(r"(\d+\.\d+\.\d+)\n", it.read())[1]


def listed(top=TOP):
    """The crates, each with the names of those it uses."""
    found = {}
    with open(f"{top}/crates.txt", encoding="utf-8") as it:
        for line in it:
            name, colon, uses = line.partition("#")[0].partition(":")
            if colon:
                found[name.split()[0]] = uses.split()
    return found


def below(name, crates):
    """The crates of the repository that this one depends on, each after those that it uses."""
    found = []
    for it in crates[name]:
        if it in crates:
            found += [x for x in [*below(it, crates), it] if x not in found]
    return found


def sources(name, parts=PARTS):
    """The files of a crate that a proof reads, or those in these parts."""
    for part in parts:
        for at, folders, files in os.walk(f"{TOP}/crates/{name}/{part}"):
            folders.sort()
            yield from (f"{at}/{it}" for it in sorted(files))


def source(name, path):
    with open(f"{TOP}/crates/{name}/{path}", encoding="utf-8") as it:
        return it.read()


def rlib(name):
    return f"{TOP}/crates/{name}/out/rlib/{name}.rlib"


def is_built(name):
    """Whether the library is built, and is newer than each of its sources."""
    return os.path.isdir(rlib(name)) and all(os.path.getmtime(it) < os.path.getmtime(rlib(name)) for it in sources(name))


def read_by(name, crates, place=rlib):
    """The arguments of the kit's `rattle` that name a crate and what it reads, with the libraries below it where they were built,
    or where `place` has them."""
    root = "main" if os.path.isfile(f"{TOP}/crates/{name}/src/main.rt") else "lib"
    words = ["--crate-name", name, f"src/{root}.rt"]
    for it in ["std", *[x for x in crates[name] if x not in crates]]:
        words += ["--extern", f"{it}={KIT}/rlibs/{it}.rlib"]
    words += ["-L", f"dependency={KIT}/rlibs"]
    for it in [x for x in crates[name] if x in crates]:
        words += ["--extern", f"{it}={place(it)}"]
    for it in below(name, crates):
        words += ["-L", f"dependency={os.path.dirname(place(it))}"]
    words += ["--antt-project", f"{KIT}/rattle/logic/antt-project.json", "--logic-built", f"{KIT}/logic_built"]
    return [*words, "--links", f"{name}="]


# ---- a copy of the crates


def copy_crates(room, names=None, parts=PARTS):
    """Copies these parts of the crates with these names (or of all crates), and the files at the top that belong to them, into a
    folder."""
    crates = listed()
    names = [*crates] if names is None else names
    for name in names:
        for part in parts:
            if os.path.isdir(f"{TOP}/crates/{name}/{part}"):
                shutil.copytree(f"{TOP}/crates/{name}/{part}", f"{room}/crates/{name}/{part}", copy_function=shutil.copy2)
    with open(f"{room}/crates.txt", "w", encoding="utf-8") as it:
        it.write("".join(f"{name}: {' '.join(crates[name])}\n" for name in names))
    shutil.copy(f"{TOP}/HANDLES", f"{room}/HANDLES")


def copy_with_program(room, name, folder, parts=PARTS):
    """Copies the crates that a program depends on into the folder `room`, and adds the program as a crate of this name; returns
    the crate's folder. The program's folder has main.rt.txt, its modules and the file `uses`. The sources end in .txt because
    the gate accepts no source file that belongs to no crate."""
    crates = listed()
    with open(f"{folder}/uses", encoding="utf-8") as it:
        crates[name] = it.read().split()
    copy_crates(room, below(name, crates), parts)
    os.makedirs(f"{room}/crates/{name}/src")
    for it in os.listdir(folder):
        if it.endswith(".rt.txt"):
            shutil.copy(f"{folder}/{it}", f"{room}/crates/{name}/src/{it.removesuffix('.txt')}")
    with open(f"{room}/crates.txt", "a", encoding="utf-8") as it:
        it.write(f"{name}: {' '.join(crates[name])}\n")
    return f"{room}/crates/{name}"


# ---- what earlier runs found


def sum_of(*files, words=()):
    """A hash of these words and these files, each with its path from the top."""
    made = hashlib.sha256(repr(words).encode())
    for file in files:
        with open(file, "rb") as it:
            made.update(repr((os.path.relpath(file, TOP), it.read())).encode())
    return made.hexdigest()


def kit_sum():
    """A hash of what identifies the kit, and of the size and time of each file that a check runs."""
    items = []
    for file in ("KIT-ID", "WHAT"):
        with open(f"{KIT}/{file}", encoding="utf-8") as it:
            items.append(it.read())
    for folder in ("bin", "logic_built", "c"):
        for it in sorted(os.scandir(f"{KIT}/{folder}"), key=lambda it: it.name):
            items.append((it.name, it.stat().st_size, it.stat().st_mtime_ns))
    return hashlib.sha256(repr(items).encode()).hexdigest()


def crate_sum(name, crates=None):
    """A hash of all that a check of a crate reads: its files, those of the crates below it, what each uses, and the kit."""
    crates = crates or listed()
    its = [*below(name, crates), name]
    files = [file for it in its for file in sources(it)]
    return sum_of(*files, words=(kit_sum(), [(it, crates[it]) for it in its]))


class Kept:
    """What runs on this machine found or built, in any checkout: one line of text or one file for each item, under the hash of
    everything that it depends on. The files are in a folder next to what `rt ci` keeps, or in the folder that the variable KEPT
    names, never in the repository. Each is written as soon as it is known, so a run that is interrupted loses none. With `anew`
    nothing is read."""

    def __init__(self, what, anew=False):
        place = os.environ.get("KEPT") or f"{os.path.dirname(KIT)}/rattle-kept"
        self.anew, self.folder = anew, f"{place}/atticoregano-{what}"
        try:
            os.makedirs(self.folder, mode=0o700, exist_ok=True)
            self.forget()
        except OSError:
            self.folder = None

    def get(self, key):
        """What was found, or None."""
        if self.anew or not self.folder or not re.fullmatch(r"[0-9a-f]{64}", key):
            return None
        try:
            with open(f"{self.folder}/{key}", encoding="utf-8") as it:
                found = json.load(it)
            os.utime(f"{self.folder}/{key}")
            return found["seen"] if found["key"] == key else None
        except (OSError, ValueError, KeyError, TypeError):
            return None

    def put(self, key, seen):
        """Keeps what was found. If it cannot be written, the next run finds it out again."""
        if not self.folder:
            return
        new = f"{self.folder}/new-{os.getpid()}-{key}"
        try:
            with open(new, "w", encoding="utf-8") as it:
                json.dump({"key": key, "seen": seen}, it)
            os.replace(new, f"{self.folder}/{key}")
        except OSError:
            pass

    def take(self, key, file):
        """Copies the file that is kept under this key to this place, and returns whether there is one."""
        if self.anew or not self.folder:
            return False
        try:
            shutil.copy(f"{self.folder}/{key}", f"{file}.new")
            os.replace(f"{file}.new", file)
            os.utime(f"{self.folder}/{key}")
            return True
        except OSError:
            return False

    def keep(self, key, file):
        """Keeps a copy of this file. If it cannot be written, the next checkout builds it again."""
        if not self.folder:
            return
        new = f"{self.folder}/new-{os.getpid()}-{key}"
        try:
            shutil.copy(file, new)
            os.replace(new, f"{self.folder}/{key}")
        except OSError:
            pass

    def forget(self, days=30):
        """Deletes what no run has asked for in that many days."""
        for it in os.scandir(self.folder):
            if time.time() - it.stat().st_mtime > days * 86400:
                os.remove(it.path)
