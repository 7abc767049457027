"""What streams are read from, and what they do if it fails."""
import bz2
import collections
import io
import os
import pathlib
import random
import signal
import socket
import sys
import tempfile
import threading

import arrowflow
from arrowflow import Kind

from tools import frames
from common import GROWING, IntoAlone, ReadAlone, cut, raised_by, raises


def each_source():
    """Everything that has the bytes of a stream yields its batches."""
    data = GROWING.read_bytes()
    with tempfile.TemporaryDirectory() as folder:
        packed = pathlib.Path(folder) / "packed"
        packed.write_bytes(bz2.compress(data))
        with open(GROWING, "rb") as file, open(GROWING, "rb", buffering=0) as raw, bz2.open(packed) as unpacked:
            sources = [str(GROWING), GROWING, data, bytearray(data), memoryview(data), io.BytesIO(data), file, raw, unpacked,
                       cut(data, 7), iter([data]), (it for it in cut(data, 100)), [b"", data, b""], [memoryview(data)],
                       IntoAlone(data, 50), ReadAlone(data, 50)]
            for it in sources:
                yield f"batches of {type(it).__name__}", [len(batch) for batch in arrowflow.open(it)], [3, 2, 2]
            yield "files that stay open", (file.closed, raw.closed, unpacked.closed), (False, False, False)
    yield "copies", [b"".join(arrowflow.sanitize_pieces(it)) for it in (GROWING, data, io.BytesIO(data), cut(data,
        9))], [arrowflow.sanitize(data)] * 4
    big = [b"", data, b"x" * (1 << 22)]
    yield "long pieces", [len(batch) for batch in arrowflow.open([b"".join(big)])], [3, 2, 2]


def comes_early():
    """A batch is returned as soon as its bytes are there, from a pipe and a socket that stay open."""
    data = GROWING.read_bytes()
    end, start = os.pipe()
    with open(end, "rb") as file, arrowflow.open(file) as stream:
        os.write(start, data[:-8])
        yield "batches of a pipe", [len(next(stream)) for _ in range(3)], [3, 2, 2]
        os.close(start)
        yield "the end of a pipe", [*stream], []
    here, there = socket.socketpair()
    with here, there, here.makefile("rb") as file, arrowflow.open(file) as stream:
        there.sendall(data)
        yield "batches of a socket", [len(it) for it in stream], [3, 2, 2]


class Failing:
    """A file that returns this many bytes, and then raises."""

    def __init__(self, data, why):
        self._pieces, self._why = iter([data]), why

    def read(self, size):
        for piece in self._pieces:
            return piece
        raise self._why


def that_raise():
    """An exception of a source is raised to the caller unchanged, by each call from then on; what came before was returned."""
    data = GROWING.read_bytes()
    for why in (OSError(5, "the disk"), KeyError("key"), KeyboardInterrupt(), MemoryError(), GeneratorExit(), RuntimeError("odd")):
        stream, batches = arrowflow.open(Failing(data[:975], why)), []
        found = raised_by(read_on, stream, batches)
        yield f"batches before {why!r}", [len(it) for it in batches], [3]
        yield f"{why!r} as it is", found is why, True
        yield f"{why!r} again", raised_by(stream.__next__) is why, True
        yield f"a schema before {why!r}", stream.schema == arrowflow.open(data).schema, True
        yield f"{why!r} of a copy", raised_by(list, arrowflow.sanitize_pieces(Failing(data[:975], why))) is why, True
        yield f"{why!r} before a schema", raised_by(lambda why=why: arrowflow.open(Failing(data[:9], why)).schema) is why, True
    for call in (arrowflow.open, arrowflow.sanitize_pieces):
        yield "a file that stops a loop", raises(RuntimeError, list, call(Failing(data[:975], StopIteration()))), True
    texts = arrowflow.open(Failing("text", None))
    yield "a file of text", raises(TypeError, next, texts), True
    none = arrowflow.open(Failing(None, None))
    yield "a file that does not block", raises(BlockingIOError, next, none), True
    cut_off = arrowflow.open(io.BytesIO(data[:975]))
    yield "a file that ends early", [len(next(cut_off)), raised_by(next, cut_off).kind], [3, Kind.TRUNCATED]


def read_on(stream, batches):
    while True:
        batches.append(stream.__next__())


def asks_itself():
    """A source that uses the stream that reads it gets a RuntimeError, and does not wait for itself."""
    found = []

    class Asks:
        def read(self, size):
            found.append(raised_by(next, stream))
            found.append(raised_by(stream.close))
            return b""
    stream = arrowflow.open(Asks())
    why = raised_by(next, stream)
    yield "a stream that is asked by its source", ([type(it) for it in found], why.kind), ([RuntimeError] * 2, Kind.NO_SCHEMA)


def on_threads():
    """The interpreter runs other threads while a stream waits for its source."""
    end, start = os.pipe()
    data = GROWING.read_bytes()

    def write():
        for piece in cut(data, 300):
            os.write(start, piece)
        os.close(start)
    writer = threading.Thread(target=write)
    with open(end, "rb", buffering=0) as file:
        stream = arrowflow.open(f"/dev/fd/{file.fileno()}")
        writer.start()
        yield "a path that waits", [len(it) for it in stream], [3, 2, 2]
        writer.join()
        stream.close()


class Alarm(Exception):
    """What the signal handler raises."""


def interrupted():
    """A signal whose handler raises, like that of Ctrl-C, comes at any moment: no batch comes twice, and the exception is not
    lost."""
    def handle(number, frame):
        raise Alarm
    pieces = [frames.schema(frames.field("x", frames.integer(32, True))),
        *(frames.batch(frames.numbers([it])) for it in range(300))]
    before, hook, twice, lost, times = signal.signal(signal.SIGALRM, handle), sys.unraisablehook, 0, 0, random.Random(5)
    odd, seen = [], collections.Counter()
    # Python ignores what is raised in a finalizer
    sys.unraisablehook = lambda it: None
    try:
        for _ in range(400):
            stream, found = arrowflow.open(iter(cut(b"".join(pieces), 40))), []
            why = [raised_by(alarmed, times.uniform(0.0001, 0.01), add_batches, stream, found)]
            why.append(raised_by(add_batches, stream, found))
            twice += len({*found}) < len(found)
            lost += len(found) < 300 and why == [None, None]
            odd += [repr(it) for it in why if type(it) not in (type(None), Alarm, KeyboardInterrupt)]
            seen[type(why[0])] += 1
    finally:
        signal.signal(signal.SIGALRM, signal.SIG_IGN)
        signal.setitimer(signal.ITIMER_REAL, 0)
        signal.signal(signal.SIGALRM, before)
        sys.unraisablehook = hook
    yield "streams with a batch that came twice", twice, 0
    yield "streams that ended early and reported nothing", lost, 0
    # before CPython 3.11 a handler may run between the last instruction inside of a `try` and the return
    yield "streams that reported something else", odd if sys.version_info >= (3, 11) else odd[4:], []
    # if a signal comes in the moment between two calls of Python, KeyboardInterrupt is raised
    yield "what was reported", (seen[Alarm] > 20, seen[KeyboardInterrupt] < seen[Alarm] // 2), (True, True)


def alarmed(seconds, call, *given):
    """Makes a call, with an alarm after this many seconds; none comes once the call is done."""
    try:
        signal.setitimer(signal.ITIMER_REAL, seconds)
        call(*given)
    finally:
        signal.setitimer(signal.ITIMER_REAL, 0)


def add_batches(stream, found):
    for batch in stream:
        found.append(batch.column(0)[0])
