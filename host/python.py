#!/usr/bin/env python3
"""Loads the shared library, compiles the rinse book, reads a run, and prints its tree and a refusal.

python.py LIBRARY, where LIBRARY is target/shared/libdrumbook.so or where `make install-shared` put it.
"""
import ctypes
import sys

DONE, PLAN_ROOM, NO_ROOM, EMPTY_RECORD = 0, 7, 16, 32768


class Compiled(ctypes.Structure):
    """What compiling answers."""
    _fields_ = [(name, ctypes.c_uint32) for name in ("number", "place", "size", "both")] + [("clash", ctypes.c_uint64)]


class Reading(ctypes.Structure):
    """What reading answers."""
    _fields_ = [(name, ctypes.c_uint32) for name in ("number", "place", "records", "label")]
    _fields_ += [("expected", ctypes.c_uint64)]


def loaded(path):
    """The library, its calls given their types."""
    library = ctypes.CDLL(path)
    size, bytes_in, words = ctypes.c_size_t, ctypes.c_char_p, ctypes.POINTER(ctypes.c_uint16)
    slots = ctypes.POINTER(ctypes.c_uint32)
    library.drumbook_compile.argtypes = [bytes_in, size, ctypes.POINTER(ctypes.c_uint8), size]
    library.drumbook_compile.restype = Compiled
    library.drumbook_read.argtypes = [bytes_in, size, bytes_in, size, slots, size, words, size]
    library.drumbook_read.restype = Reading
    return library


def compiled(library, book):
    """The plan of a book: its size is asked first, with no buffer."""
    asked = library.drumbook_compile(book, len(book), None, 0)
    if asked.number != PLAN_ROOM:
        raise ValueError(f"refused with {asked.number}, at {asked.place}, clash {asked.clash:#x}, both {asked.both}")
    plan = (ctypes.c_uint8 * asked.size)()
    library.drumbook_compile(book, len(book), plan, len(plan))
    return bytes(plan)


def read(library, plan, run, slots=512):
    """The answer to a run and its records: how many there are is asked first, with no tree."""
    held = (ctypes.c_uint32 * slots)()
    answer = library.drumbook_read(plan, len(plan), run, len(run), held, slots, None, 0)
    if answer.number != NO_ROOM:
        return answer, []
    tree = (ctypes.c_uint16 * answer.records)()
    answer = library.drumbook_read(plan, len(plan), run, len(run), held, slots, tree, len(tree))
    return answer, list(tree)


def words_of(*words):
    """These 16-bit words as bytes, low byte first."""
    return b"".join(word.to_bytes(2, "little") for word in words)


RINSE = words_of(
    2, 1, 14, 4, 2, 18, 54, 3, 8,
    2, 0, 0, 2, 1, 0, 2, 2, 0, 1, 0, 0, 6, 6, 0, 4, 1, 4, 3, 5, 3, 4, 6, 2, 4, 0, 7,
)


KINDS = ("fill", "rinse", "tip")


def kinds_of(expected):
    """The kinds of a set in words."""
    return " or ".join(name for kind, name in enumerate(KINDS) if expected >> kind & 1)


def main():
    """Prints what the library answers."""
    library = loaded(sys.argv[1])
    plan = compiled(library, RINSE)
    print(f"the rinse book: a plan of {len(plan)} bytes")
    for run in (bytes([0, 1, 2]), bytes([0, 0]), bytes([0, 1])):
        answer, tree = read(library, plan, run)
        records = [f"-{record - EMPTY_RECORD}" if record >= EMPTY_RECORD else str(record) for record in tree]
        if answer.number == DONE:
            print(f"run {list(run)}: accepted, tree {' '.join(records)}")
        else:
            expected = kinds_of(answer.expected)
            print(f"run {list(run)}: refused with {answer.number} at {answer.place}, expected {expected}")


if __name__ == "__main__":
    main()
