"""What the tests of the package share. A test is a generator of (what, found, wanted)."""
import concurrent.futures
import pathlib
import subprocess
import sys

TOP = pathlib.Path(__file__).resolve().parent.parent.parent
# What the script `arrowflow` runs once it is built.
PROGRAM = TOP / "crates/arrowflow_program/out/arrowflow_program"
STREAMS = sorted([*(TOP / "examples").glob("*.arrows"), *(TOP / "vectors/streams").glob("*.arrows")])
# Streams with types outside of the core, which are tested with both sets of types.
OF_ALL_TYPES = sorted([*(it.with_suffix(".arrows") for it in (TOP / "examples").glob("*.options")),
                       *(TOP / "vectors/streams/all").glob("*.arrows")])
GROWING = TOP / "examples/growing_dictionary.arrows"
# Three batches of nine rows, with a column of each type, and one batch without rows.
EVERY_TYPE = TOP / "vectors/streams/each_type_untold.arrows"
METADATA = TOP / "examples/metadata.arrows"
NESTED = TOP / "examples/nested_values.arrows"


def run(*words, **how):
    """What a command writes to each output, and its status."""
    ran = subprocess.run([*map(str, words)], stdin=subprocess.DEVNULL, capture_output=True, **how)
    return ran.stdout, ran.stderr, ran.returncode


def python(*words, **how):
    """What this Python writes for these arguments, and its status."""
    return run(sys.executable, "-B", *words, **how)


def left_out(what):
    print(f"left out: {what}")


def raised_by(call, *given, **how):
    """The exception that a call raises, or None."""
    try:
        call(*given, **how)
    except BaseException as why:
        return why
    return None


def raises(kind, call, *given, **how):
    """Whether a call raises exactly this type of exception."""
    return type(raised_by(call, *given, **how)) is kind


def elsewhere(call, *given):
    """The result of a call on another thread."""
    with concurrent.futures.ThreadPoolExecutor(1) as pool:
        return pool.submit(call, *given).result()


def cut(data, size):
    """The pieces of this size."""
    return [data[at:at + size] for at in range(0, len(data), size)]


class IntoAlone:
    """A file that only has `readinto`."""

    def __init__(self, data, size):
        self._pieces = iter(cut(data, size))

    def readinto(self, room):
        piece = next(self._pieces, b"")
        room[:len(piece)] = piece
        return len(piece)


class ReadAlone:
    """A file that only has `read`, which returns fewer bytes than requested."""

    def __init__(self, data, size):
        self._pieces = iter(cut(data, size))

    def read(self, size):
        return next(self._pieces, b"")
