"""Who owns what: views, batches, handles, threads."""
import gc
import os
import threading

import arrowflow
from arrowflow import Kind
from arrowflow import _capsules, _library
from arrowflow._batches import Owned

from common import EVERY_TYPE, GROWING, METADATA, NESTED, cut, elsewhere, raised_by, raises
from shown import Buffers


def lent():
    """How many objects C code refers to, after a garbage collection."""
    gc.collect()
    return len(_capsules.kept), len(_capsules._structs), len(_capsules._moved)


def churned():
    """Allocates and frees memory, so that freed memory is overwritten."""
    for size in (16, 64, 200, 1000, 5000, 70000):
        for it in [bytearray(b"\xa5" * size) for _ in range(300)]:
            del it
    gc.collect()


def views_of(column):
    """The buffers of a column and of all below it, with slices and casts of them."""
    for it in column.buffers():
        if it:
            yield from (it, it[1:], it[:8], it[len(it) // 2:][::-1], memoryview(it), it[:len(it) // 4 * 4].cast("i"))
    for it in [*column.children, *([column.dictionary] if column.dictionary else [])]:
        yield from views_of(it)


def views():
    """Views, slices and casts do not change when everything else is gone, even if that is freed on another thread."""
    for stream in (GROWING, EVERY_TYPE, NESTED):
        for source in (stream, stream.read_bytes(), cut(stream.read_bytes(), 13)):
            opened = arrowflow.open(source)
            batches = [*opened]
            kept = [view for batch in batches for column in batch.columns for view in views_of(column)]
            before = [view.tobytes() for view in kept]
            opened.close()
            del opened
            elsewhere(batches.clear)
            churned()
            yield f"views of {stream.name}", [view.tobytes() for view in kept], before
            yield f"views of {stream.name} are read alone", {it.readonly for it in kept} <= {True}, True
            elsewhere(kept.clear)


def columns():
    """Columns, their children and dictionaries outlive batches and streams; batches of a reader outlive it and the batches after
    them."""
    for stream in (GROWING, EVERY_TYPE, NESTED):
        with arrowflow.Reader() as reader:
            batches = [batch for piece in cut(stream.read_bytes(), 100) for batch in reader.feed(piece)]
            first = [repr(it.to_pylist()) for it in batches]
            kept = [column for batch in batches for column in batch.columns]
            expected = [repr(it.to_pylist()) for it in kept]
        churned()
        yield f"batches of {stream.name}", [repr(it.to_pylist()) for it in batches], first
        del batches, reader
        churned()
        yield f"columns of {stream.name}", [repr(it.to_pylist()) for it in kept], expected
        below = [it for column in kept for it in [*column.children, *([column.dictionary] if column.dictionary else [])]]
        expected = [repr(Buffers(it).value(0)) for it in below if len(it)]
        del kept
        churned()
        yield f"columns below those of {stream.name}", [repr(Buffers(it).value(0)) for it in below if len(it)], expected


def released_once():
    """The library's arrays are released once, when nothing refers to them: no view, no column, no array in a capsule."""
    holders = {"a view": lambda batch: batch.column(1).buffers()[1],
        "a slice of a view": lambda batch: batch.column(1).buffers()[1][:1],
               "a column": lambda batch: batch.column(1), "a child": lambda batch: batch.column(1).children[0],
               "a dictionary": lambda batch: batch.column(0).dictionary,
                   "an array in a capsule": lambda batch: batch.__arrow_c_array__(),
               "a column in a capsule": lambda batch: batch.column(1).__arrow_c_array__(), "a batch": lambda batch: batch}
    for name, hold in holders.items():
        batch, count = next(arrowflow.open(METADATA)), []
        count_releases(batch._owned.array, count)
        held = hold(batch)
        del batch
        gc.collect()
        yield f"an array with {name}", len(count), 0
        del held
        gc.collect()
        yield f"an array without {name}", len(count), 1
    yield "what is never filled", raised_by(Owned().__del__), None


def count_releases(array, count):
    """Counts each release of an array, and also performs it."""
    original = _library.RELEASE_ARRAY(array.release)

    def release(at):
        count.append(at.contents.length)
        original(at)
    callbacks.append(_library.RELEASE_ARRAY(release))
    array.release = _capsules._address(callbacks[-1])


# The functions that C code calls have to stay alive.
callbacks = []


def feeding():
    """`feed` does its work at once."""
    data = GROWING.read_bytes()
    with arrowflow.Reader() as reader:
        found = reader.feed(data)
        yield "what feed answers", (type(found), [len(it) for it in found]), (list, [3, 2, 2])
        yield "more after the end", (reader.feed(b"junk"), reader.end()), ([], [])
    reader = arrowflow.Reader()
    yield "a schema before it is complete", (reader.feed(data[:20]), reader.schema), ([], None)
    # nothing uses the result of this call
    reader.feed(data[20:-9])
    yield "a schema", reader.schema, arrowflow.open(data).schema
    yield "an end inside a message", raised_by(reader.end).kind, Kind.TRUNCATED
    yield "feeding after the end", raises(ValueError, reader.feed, b""), True
    reader.close()
    reader.close()
    reader = arrowflow.Reader()
    yield "junk", (raised_by(reader.feed, bytes(8)).kind, raised_by(reader.feed, b"more").kind,
        raised_by(reader.end).kind), (Kind.CONTINUATION,) * 3
    reader = arrowflow.Reader()
    junk = data[:-8] + bytes(8)
    yield "batches before junk", [len(it) for it in reader.feed(junk)], [3, 2, 2]
    why = raised_by(reader.feed, b"")
    yield "junk after batches", (why.kind, why.offset), (Kind.CONTINUATION, len(data) - 8)
    reader.close()
    yield "a closed reader", [raises(ValueError, it) for it in (lambda: reader.feed(b""), reader.end)], [True, True]
    for size, kind in ((0, Kind.NO_SCHEMA), (3, Kind.NO_SCHEMA), (len(data) - 9, Kind.TRUNCATED)):
        with arrowflow.Reader() as reader:
            reader.feed(data[:size])
            yield f"the end after {size} bytes", raised_by(reader.end).kind, kind


def closing():
    """Streams that are closed, or read by one loop after another."""
    stream = arrowflow.open(GROWING)
    first = next(stream)
    yield "a loop that is left", [len(first), *map(len, stream)], [3, 2, 2]
    yield "after the end", [*stream], []
    schema = stream.schema
    stream.close()
    stream.close()
    yield "a closed stream", [raises(ValueError, it) for it in (lambda: next(stream), stream.read_all,
        stream.__arrow_c_stream__)], [True] * 3
    yield "its schema", (stream.closed, stream.schema == schema, arrowflow.open(GROWING).schema == schema), (True, True, True)
    never = arrowflow.open(GROWING)
    never.close()
    yield "a schema that was not read", raises(ValueError, lambda: never.schema), True
    yield "rows", arrowflow.open(GROWING).to_pylist(), [row for it in arrowflow.open(GROWING).read_all() for row in it.to_pylist()]
    yield "open files", [it for it in map(file_of, os.listdir("/proc/self/fd")) if it == os.path.realpath(GROWING)], []


def file_of(number):
    try:
        return os.readlink(f"/proc/self/fd/{number}")
    except OSError:
        return None


def threads():
    """A stream and a reader go to any thread, one call after another; a copier stays on its own."""
    data = GROWING.read_bytes()
    stream = arrowflow.open(cut(data, 100))
    yield "a stream on other threads", [len(elsewhere(next, stream)) for _ in range(3)], [3, 2, 2]
    elsewhere(stream.close)
    reader = arrowflow.Reader()
    found = [len(it) for piece in cut(data, 100) for it in elsewhere(reader.feed, piece)]
    yield "a reader on other threads", (found, elsewhere(reader.end)), ([3, 2, 2], [])
    many = arrowflow.open(b"".join([data[:-8]]))
    taken, lock = [], threading.Lock()

    def work():
        for it in many:
            with lock:
                taken.append(len(it))
    several = [threading.Thread(target=work) for _ in range(8)]
    for it in several:
        it.start()
    for it in several:
        it.join()
    yield "threads on one stream", sorted(taken), [2, 2, 3]
    copier = arrowflow.Copier()
    for call in (lambda: copier.feed(b""), copier.end, copier.close):
        yield "a copier on another thread", elsewhere(raises, RuntimeError, call), True
    copier.close()
    copier.close()
    yield "a closed copier", [raises(ValueError, it) for it in (lambda: copier.feed(b""), copier.end)], [True, True]


def collected():
    """The library closes a copier only on its own thread: one that is collected elsewhere is closed the next time that its thread
    makes or uses a copier."""
    closed, close = [], _library.calls["copier_close"]
    _library.calls["copier_close"] = lambda handle: (closed.append(threading.get_ident()), close(handle))
    try:
        for name, make in (("a copier", arrowflow.Copier), ("pieces",
                lambda: begun(arrowflow.sanitize_pieces(cut(GROWING.read_bytes(), 50))))):
            given = [make()]
            elsewhere(given.clear)
            gc.collect()
            yield f"{name} collected on another thread", closed, []
            again = arrowflow.Copier()
            yield f"{name} closed by the next one", closed, [threading.get_ident()]
            closed.clear()
            again.close()
            given = [make()]
            given.clear()
            yield f"{name} collected on its own", closed, [threading.get_ident()] * 2
            closed.clear()
        # a thread that has ended closes nothing, even if another one has its number
        left = elsewhere(arrowflow.Copier)
        del left
        gc.collect()
        elsewhere(lambda: arrowflow.Copier().close())
        yield "a copier of a thread that has ended", len(closed), 1
    finally:
        _library.calls["copier_close"] = close


def begun(pieces):
    next(pieces)
    return pieces


def resident():
    """The memory of this process, in bytes."""
    with open("/proc/self/statm", encoding="ascii") as it:
        return int(it.read().split()[1]) * os.sysconf("SC_PAGE_SIZE")


def used(data):
    """Uses everything once."""
    for source in (data, cut(data, 1000), GROWING):
        with arrowflow.open(source) as stream:
            for batch in stream:
                batch.column(0).buffers()
        capsule = arrowflow.open(source).__arrow_c_stream__()
        del capsule
    batch.__arrow_c_array__()
    with arrowflow.Reader() as reader:
        reader.feed(data)
    with arrowflow.Copier() as copier:
        copier.feed(data)
    arrowflow.open(data).to_pylist()


def memory_growth():
    """Ten thousand streams are opened and closed, and memory use does not grow."""
    data = GROWING.read_bytes()
    for _ in range(300):
        used(data)
    gc.collect()
    before, lent_before = resident(), lent()
    for _ in range(10_000 // 7):
        used(data)
    gc.collect()
    yield "what is lent", lent(), lent_before
    yield "growth of memory in megabytes", max(0, resident() - before - (8 << 20)) >> 20, 0
