"""Runs the program with a terminal for its standard error, and once with a pipe, on inputs that come slowly and an output that is
read late, and compares what it reports there, and its status, with what is written here.

Its arguments are the program and a folder with the example streams, where files may be written.
"""
import os
import pty
import re
import subprocess
import sys
import time

PROGRAM, FOLDER = sys.argv[1:]
# the offsets of the first batch and of the message after it, as in growing_dictionary.check.txt
BATCH, SECOND = 424, 592
# the environment without NO_COLOR, and the explanation of a stream that is cut off, in colours
PLAIN = {name: value for name, value in os.environ.items() if name != "NO_COLOR"}
EXPLAINED = r"\x1b\[1mfault at byte 0: NoSchema\x1b\[0m\r\n[^\x1b]*status 1"
# longer than the second after which the progress of a call is first reported
PAUSE = 1.3
# what follows the last text when a call ends; a slow machine prints more texts than one
CLEARED = "\r" + 70 * " " + "\r"
# the progress in an input whose size is not known, and in one of two MiB
UNKNOWN = r"0 MiB, 0 MiB/s "
KNOWN = r"[0-2] MiB of 2 MiB, [0-2] MiB/s, \d+ s left "


def started(words, shown, prints=subprocess.PIPE, **variables):
    """A command whose standard error is this terminal or pipe, given by its two ends; the end of the program is closed here."""
    running = subprocess.Popen(
        [PROGRAM, *words], stdin=subprocess.PIPE, stdout=prints, stderr=shown[1], cwd=FOLDER, env={**PLAIN, **variables}
    )
    os.close(shown[1])
    return running


def ended(running, shown):
    """What was written there until all have closed it, and the status."""
    text = b""
    try:
        while piece := os.read(shown[0], 65536):
            text += piece
    except OSError:
        pass
    os.close(shown[0])
    return f"{text.decode()}status {running.wait()}"


def reported(words, *pieces, ends=pty.openpty):
    """What a command reports on a terminal or a pipe, if its input comes in pieces with a pause between them."""
    shown = ends()
    running = started(words, shown)
    for number, piece in enumerate(pieces):
        if number:
            time.sleep(PAUSE)
        running.stdin.write(piece)
        running.stdin.flush()
    running.stdin.close()
    running.stdout.read()
    return ended(running, shown)


def printed(words, *pieces, **variables):
    """What a command prints and reports on one terminal, if its input comes in pieces with a pause between them."""
    shown = pty.openpty()
    prints = os.dup(shown[1])
    running = started(words, shown, prints, **variables)
    os.close(prints)
    for number, piece in enumerate(pieces):
        if number:
            time.sleep(PAUSE)
        running.stdin.write(piece)
        running.stdin.flush()
    running.stdin.close()
    return ended(running, shown)


def reported_late(words, pipe):
    """What a command reports if its output, a named pipe, is read after a pause."""
    os.mkfifo(os.path.join(FOLDER, pipe))
    shown = pty.openpty()
    running = started([*words, pipe], shown)
    with open(os.path.join(FOLDER, pipe), "rb") as file:
        time.sleep(PAUSE)
        file.read()
    return ended(running, shown)


def main():
    with open(os.path.join(FOLDER, "growing_dictionary.arrows"), "rb") as file:
        stream = file.read()
    # two MiB and some bytes, more than a pipe holds
    with open(os.path.join(FOLDER, "long.arrows"), "wb") as file:
        file.write(stream[:BATCH] + stream[BATCH:SECOND] * 12500)
    # a piece, and the remaining bytes
    slow = stream[:700], stream[700:]
    cases = (
        ("a quiet check", reported(["check", "-", "--quiet"], *slow), f"(\rcheck: {UNKNOWN})+{CLEARED}status 0"),
        (
            "a quiet check of a stream that is cut off",
            reported(["check", "-", "--quiet"], slow[0], b""),
            f"(\rcheck: {UNKNOWN})+{CLEARED}fault at byte 592: Truncated\r\nstatus 1",
        ),
        ("a copy", reported(["copy", "-", "slow.copy"], *slow), f"(\rcopy: {UNKNOWN})+{CLEARED}status 0"),
        ("a copy of a file", reported_late(["copy", "long.arrows"], "late"), f"(\rcopy: {KNOWN})+{CLEARED}status 0"),
        ("a quiet check without a terminal", reported(["check", "-", "--quiet"], *slow, ends=os.pipe), "status 0"),
        ("a copy to a pipe", reported(["copy", "-", "-"], *slow), f"(\rcopy: {UNKNOWN})+{CLEARED}status 0"),
        ("a check to a pipe", reported(["check", "-"], *slow), f"(\rcheck: {UNKNOWN})+{CLEARED}status 0"),
        ("rows to a pipe", reported(["show", "-"], *slow), f"(\rshow: {UNKNOWN})+{CLEARED}status 0"),
        ("one column to a pipe", reported(["show", "-", "-c", "k"], *slow), f"(\rshow: {UNKNOWN})+{CLEARED}status 0"),
        ("rows on the terminal", printed(["show", "-"], *slow), "batch,k\r\n([0-2],[a-e]\r\n){7}status 0"),
        ("a check on the terminal", printed(["check", "-"], slow[0], b""), "(at .*\r\n)+fault at byte 592: Truncated\r\nstatus 1"),
        ("a short check", reported(["check", "growing_dictionary.arrows", "--quiet"]), "status 0"),
        ("an explanation", printed(["explain", "cut_off.arrows"]), EXPLAINED),
        (
            "an explanation with its bytes",
            printed(["explain", "floats.arrows"]),
            r"\x1b\[1mfault at byte 0: Unsupported\x1b\[0m\r\n(?:[^\x1b]*\r\n)*\x1b\[31m +\^\^\x1b\[0m\r\n[^\x1b]*status 1",
        ),
        ("an explanation without colours", printed(["explain", "cut_off.arrows"], NO_COLOR="1"), "fault at byte 0: NoSchema\r\n[^\x1b]*status 1"),
        ("an explanation where NO_COLOR is empty", printed(["explain", "cut_off.arrows"], NO_COLOR=""), EXPLAINED),
        ("an explanation of a sound stream", printed(["explain", "growing_dictionary.arrows"]), "The stream is sound[^\x1b]*status 0"),
        ("a short copy", reported(["copy", "growing_dictionary.arrows", "short.copy"]), "status 0"),
    )
    failed = False
    for name, text, expected in cases:
        if not re.fullmatch(expected, text):
            print(f"{name}: the terminal has {text!r} for {expected!r}")
            failed = True
    sys.exit(failed)


if __name__ == "__main__":
    main()
