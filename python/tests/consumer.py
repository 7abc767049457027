"""A consumer of the Arrow PyCapsule interface, like the C code of other libraries: it takes structs out of capsules and calls
what they point to, on threads of its own."""
import ctypes
import threading

from arrowflow import _library as c
from arrowflow._batches import Batch, Owned
from arrowflow._schema import Schema, field_of

_pointer = ctypes.pythonapi.PyCapsule_GetPointer
_pointer.restype, _pointer.argtypes = ctypes.c_void_p, [ctypes.py_object, ctypes.c_char_p]


def moved(capsule, name, kind):
    """The struct of a capsule, moved out of it: the struct that remains is marked as released."""
    inside, out = kind.from_address(_pointer(capsule, name)), kind()
    if not inside.release:
        raise ValueError(f"the {name.decode()} was moved out before")
    ctypes.memmove(ctypes.byref(out), ctypes.byref(inside), ctypes.sizeof(kind))
    inside.release = None
    return out


def schema_in(capsule):
    """The Schema that a capsule has, which is released."""
    struct = moved(capsule, b"arrow_schema", c.ArrowSchema)
    schema = Schema(field_of(struct))
    c.RELEASE_SCHEMA(struct.release)(ctypes.byref(struct))
    return schema, not struct.release


def batch_in(capsules):
    """The Batch that two capsules have, which takes over the array."""
    schema, _ = schema_in(capsules[0])
    owned = Owned()
    owned.array = moved(capsules[1], b"arrow_array", c.ArrowArray)
    return Batch(owned, schema)


class Consumer:
    """A stream that was taken out of a capsule."""

    def __init__(self, capsule):
        self.stream = moved(capsule, b"arrow_array_stream", c.ArrowArrayStream)

    def error(self):
        """The text of the stream's error, or None."""
        at = c.GET_LAST_ERROR(self.stream.get_last_error)(ctypes.byref(self.stream))
        return ctypes.string_at(at).decode() if at else None

    def schema(self):
        """The status of get_schema, with the Schema if it is 0."""
        told = c.ArrowSchema()
        status = c.GET_SCHEMA(self.stream.get_schema)(ctypes.byref(self.stream), ctypes.byref(told))
        if status:
            return status, None
        schema = Schema(field_of(told))
        c.RELEASE_SCHEMA(told.release)(ctypes.byref(told))
        return status, schema

    def next(self):
        """The status of get_next, with the array if there is one."""
        owned = Owned()
        status = c.GET_NEXT(self.stream.get_next)(ctypes.byref(self.stream), ctypes.byref(owned.array))
        return status, owned if owned.array.release else None

    def release(self):
        c.RELEASE_STREAM(self.stream.release)(ctypes.byref(self.stream))
        return not self.stream.release


def consumed(capsule, most=None):
    """What another thread reads from a capsule's stream, at most this many batches: the Schema, the batches, the status that
    ended it and its text. The stream is released there before the batches are used."""
    found = []

    def work():
        consumer = Consumer(capsule)
        status, schema = consumer.schema()
        batches = []
        while not status and (most is None or len(batches) < most):
            status, owned = consumer.next()
            if owned is None:
                break
            batches.append(Batch(owned, schema))
        text = consumer.error()
        consumer.release()
        found.append((schema, batches, status, text))

    thread = threading.Thread(target=work)
    thread.start()
    thread.join()
    return found[0]
