"""The command-line program: python -m arrowflow [--types core|all] schema|check|show IN, or sanitize IN OUT.

It prints what `arrowflow schema`, `check` and `show` print, or writes a copy of the stream to OUT. It exits with status 0; with status 1
and a line on standard error if the stream has a fault, after the output for the complete messages before it; with status 2 if the
arguments are wrong, a file cannot be read or written, or OUT is IN. `-` is standard input or output.
"""
import errno
import os
import sys
from typing import BinaryIO, List

from . import ALL_TYPES, STANDARD, ArrowflowError, Limits, messages, sanitize_pieces, schema_text, show

_CALLS = {"schema": schema_text, "check": messages, "show": show}
_USAGE = """usage: python -m arrowflow [--types core|all] schema|check|show IN
       python -m arrowflow [--types core|all] sanitize IN OUT"""


def opened(name: str, mode: str) -> BinaryIO:
    """Opens a file, or standard input or output, which are not closed."""
    return open(name, mode) if name != "-" else os.fdopen(0 if mode == "rb" else 1, mode, closefd=False)


def print_text(command: str, name: str, limits: Limits) -> None:
    """Prints the text that a call returns for a file, up to the fault if there is one."""
    with opened(name, "rb") as file:
        data = file.read()
    with os.fdopen(1, "wb", closefd=False) as output:
        try:
            output.write(_CALLS[command](data, limits).encode())
        except ArrowflowError as why:
            output.write(why.partial)
            raise


def write_again(source: str, name: str, limits: Limits) -> None:
    """Copies the stream of a file to another file, up to the fault if there is one."""
    with opened(source, "rb") as file:
        if os.path.isfile(name) and os.path.samestat(os.fstat(file.fileno()), os.stat(name)):
            raise OSError(errno.EINVAL, "the output is the input", name)
        with opened(name, "wb") as output:
            for piece in sanitize_pieces(file, limits):
                output.write(piece)


def main(words: List[str]) -> int:
    """Runs the program with these arguments, and returns the status."""
    limits = STANDARD
    if words[:1] == ["--types"] and words[1:2] in (["core"], ["all"]):
        limits, words = (ALL_TYPES if words[1] == "all" else STANDARD), words[2:]
    if len(words) != (3 if words[:1] == ["sanitize"] else 2) or words[0] not in [*_CALLS, "sanitize"]:
        print(_USAGE, file=sys.stderr)
        return 2
    try:
        if words[0] == "sanitize":
            write_again(words[1], words[2], limits)
        else:
            print_text(words[0], words[1], limits)
    except ArrowflowError as why:
        # the line of the program, without the meaning of the kind
        print(str(why).partition(",")[0], file=sys.stderr)
        return 1
    except (OSError, MemoryError) as why:
        print(f"arrowflow: {why}", file=sys.stderr)
        return 2
    return 0


if __name__ == "__main__":
    sys.exit(main(sys.argv[1:]))
