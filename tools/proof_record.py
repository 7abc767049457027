"""What is known of the proofs of what is released: the file PROVED, for the script `release`.

It depends on the commit that is checked out, on what the kit left in crates/*/out, and on out/gate.txt, where the script `gate`
writes its results. The kit makes a library, a program or a program of tests once its proof is complete, and not before. A library
names the logic that it was proved in. The others are only files, which do not say what made them, so they are said to be built,
and proved if c/build wrote the verdict next to them. What is missing, or is older than a source, is not known.
"""
import hashlib
import os
import re
import subprocess

from tools import crates

# What a library states about itself: the logic that it was proved in, and the sum of what it states.
STATED = re.compile(r"^(logic|sum) ([0-9a-f]+)$", re.M)
GATE = f"{crates.TOP}/out/gate.txt"
# What is written after a commit if there are changes that it does not have.
CHANGED = " and changes that are in no commit"


def of_git(*words):
    """The output of git about this checkout, or nothing."""
    try:
        ran = subprocess.run(["git", *words], cwd=crates.TOP, stdin=subprocess.DEVNULL, capture_output=True, text=True)
    except FileNotFoundError:
        return ""
    return ran.stdout.strip() if ran.returncode == 0 else ""


def of_commit(what):
    """A part of the commit that is checked out, by the letter that `git log` has for it, or nothing if there is none."""
    return of_git("log", "-1", f"--format={what}")


def commit():
    """The commit that is checked out, and a note if there are changes that it does not have."""
    return f"{of_commit('%H') or 'none is known'}{CHANGED if of_git('status', '--porcelain') else ''}"


def kit():
    with open(f"{crates.KIT}/KIT-ID", encoding="utf-8") as it:
        return it.read().strip()


def is_newer(made, name, listed):
    """Whether what was built of a crate exists, and is newer than each source of it and of the crates below it."""
    files = [file for it in (*crates.below(name, listed), name) for file in crates.sources(name=it)]
    return os.path.isfile(made) and os.path.getmtime(made) > max(map(os.path.getmtime, files))


def of_crate(name, listed):
    """What is known of a crate."""
    out, known = f"{crates.TOP}/crates/{name}/out", []
    if crates.is_built(name) and os.path.isfile(f"{crates.rlib(name)}/format"):
        with open(f"{crates.rlib(name)}/format", encoding="utf-8") as it:
            stated = dict(STATED.findall(it.read()))
        known.append(f"library proved: logic {stated.get('logic', 'unknown')[:16]}, sum {stated.get('sum', 'unknown')}")
    for file, what in ((f"lib{name}.a", "static library"), (name, "program"), (f"{name}_tests", "tests")):
        if is_newer(f"{out}/{file}", name, listed):
            known.append(f"{what} built, sha256 {sum_of(f'{out}/{file}')}{verdict_on(out, file)}")
    return "; ".join(known) or "not known"


def sum_of(file):
    with open(file, "rb") as it:
        return hashlib.sha256(it.read()).hexdigest()


def verdict_on(out, file):
    """The verdict that c/build wrote for exactly this archive, if it did."""
    try:
        with open(f"{out}/{file.removesuffix('.a')}.verdict", encoding="utf-8") as it:
            sum, verdict = it.read().strip().split(" ", maxsplit=1)
    except (OSError, ValueError):
        return ""
    return f", {verdict}" if sum == sum_of(f"{out}/{file}") else ""


def of_gate():
    """The gate's results for this commit, line by line: its verdicts, and its last line if it has ended."""
    try:
        with open(GATE, encoding="utf-8") as it:
            of, *lines = it.read().splitlines()
    except (OSError, ValueError):
        return ["no gate was seen"]
    if not of_commit("%H") or of != f"commit {commit()}" or of.endswith(CHANGED):
        return [f"no gate was seen of just these files; one was seen of {of}"]
    ended = lines and re.match(r"\d+ passed, \d+ failed$", lines[-1])
    return lines if ended else [*lines, "it had not ended when this was written"]


def text(glibc):
    """The text of PROVED. `glibc` has the earliest glibc that the program and the library run with."""
    listed = crates.listed()
    lines = [f"version    {crates.version()}", f"commit     {commit()}", f"kit        {kit()}",
             f"runs on    Linux, x86-64-v2; the program with glibc {glibc[0]}, the library with glibc {glibc[1]}, or later", "",
             "What the kit left of each crate, which makes what it has proved and nothing else:", "",
             *(f"{name:26} {of_crate(name, listed)}" for name in listed), "", "The gate:", "", *of_gate()]
    return "".join(f"{it}\n" for it in lines)
