"""Picks versions, and runs scripts of the clause store, by Nivolakku's proved libraries.

    >>> import nivolakku
    >>> nivolakku.pick("request needs a 1..9\\na 1\\n")
    [Picked(name='a', version='1')]

A text is a str or bytes. What is said of it is a str, in which a byte that is no character is a surrogate. Calls may
run in several threads at once.
"""
import ctypes
import functools
import os
import pathlib
from typing import NamedTuple

STEPS = 1_000_000
FIRST_ROOM = 4096
_SIZE = ctypes.c_size_t
_TOO_SMALL = 4


class Picked(NamedTuple):
    """A package and its version."""

    name: str
    version: str


class Unanswered(Exception):
    """What was asked for has no answer."""


class NoSolution(Unanswered):
    """There is no solution. `reasons` has a line for each."""

    def __init__(self, reasons):
        super().__init__("\n".join(["there is no solution", *reasons]))
        self.reasons = reasons


class GaveUp(Unanswered):
    """The search gave up: it made too many steps, or memory was refused."""


class Unreadable(Unanswered):
    """A line isn't in the format. `line` is its number, and `transcript` what a script was answered before it."""

    def __init__(self, line, transcript=""):
        super().__init__(f"line {line} is unreadable")
        self.line = line
        self.transcript = transcript


class OutOfMemory(Unanswered):
    """Memory was refused. `transcript` is what a script was answered before."""

    def __init__(self, transcript=""):
        super().__init__("out of memory")
        self.transcript = transcript


class LibraryMissing(OSError):
    """The shared library can't be loaded."""


class _Version(ctypes.Structure):
    _fields_ = [(name, _SIZE) for name in ("name", "name_length", "version", "version_length")]


@functools.cache
def _library():
    """The shared library: the one that NIVOLAKKU_LIBRARY names, or else the one beside this file."""
    file = os.environ.get("NIVOLAKKU_LIBRARY") or str(pathlib.Path(__file__).with_name("libnivolakku.so"))
    try:
        library = ctypes.CDLL(file)
        pick, versions, script = library.nivolakku_pick, library.nivolakku_versions, library.nivolakku_script
    except (OSError, AttributeError) as fault:
        raise LibraryMissing(f"{fault}; tools/wheel makes the library, and NIVOLAKKU_LIBRARY names it") from None
    text, size = ctypes.c_char_p, ctypes.POINTER(_SIZE)
    pick.argtypes = [text, _SIZE, ctypes.c_uint64, text, _SIZE, size]
    script.argtypes = [text, _SIZE, text, _SIZE, size]
    versions.argtypes = [text, _SIZE, ctypes.POINTER(_Version), _SIZE]
    pick.restype = script.restype = ctypes.c_uint32
    versions.restype = _SIZE
    return library


def _bytes(text):
    return text.encode("utf-8", "surrogateescape") if isinstance(text, str) else bytes(text)


def _str(text):
    return text.decode("utf-8", "surrogateescape")


def _answered(call, *given):
    """The status of a call and what it answers. Where that is longer than a first buffer, it is called again."""
    room, needed = FIRST_ROOM, _SIZE()
    while True:
        buffer = ctypes.create_string_buffer(room)
        status = call(*given, buffer, room, ctypes.byref(needed))
        if status != _TOO_SMALL:
            return status, buffer.raw[:needed.value]
        room = needed.value


def answer(index, steps=STEPS):
    """What pick_versions prints for the index of a text, with its status (docs/C.md)."""
    text = _bytes(index)
    return _answered(_library().nivolakku_pick, text, len(text), steps)


def versions(text):
    """The versions that an answer names."""
    count = _library().nivolakku_versions(text, len(text), (_Version * 1)(), 0)
    places = (_Version * max(count, 1))()
    _library().nivolakku_versions(text, len(text), places, count)
    return [Picked(_str(text[v.name:v.name + v.name_length]), _str(text[v.version:v.version + v.version_length]))
            for v in places[:count]]


def pick(index, steps=STEPS):
    """The versions that are picked for the index of a text, in at most so many steps."""
    status, text = answer(index, steps)
    if status == 0:
        return versions(text)
    lines = _str(text).splitlines()
    if status == 1:
        raise NoSolution(lines[2:])
    if status == 3:
        raise Unreadable(int(lines[0].split()[1]))
    raise GaveUp("\n".join(line for line in lines if line != "request:") or "gave up: out of memory")


def script(text):
    """The transcript of a script: a line for each command."""
    given = _bytes(text)
    status, transcript = _answered(_library().nivolakku_script, given, len(given))
    if status == 0:
        return _str(transcript)
    if status == 1:
        lines = _str(transcript).splitlines(keepends=True)
        raise Unreadable(int(lines[-1].split()[1]), "".join(lines[:-1]))
    raise OutOfMemory(_str(transcript))
