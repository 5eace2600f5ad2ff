"""The calls: of the shared library of `witgraph_c`, and of the program `witgraph_json`."""
from __future__ import annotations

import ctypes
import functools
import json
import mmap
import os
import subprocess
import threading
import weakref
from collections.abc import Iterable
from typing import Any, Optional

from .commands import AnyCommand
from .data import Graph
from .documents import document_of, run_of
from .errors import NotUnderstood, ProgramFailed
from .replies import Run

__all__ = ["Library", "OpenGraph", "execute", "explain", "library", "run", "run_by"]

UNDERSTOOD, NOT_UNDERSTOOD, OUTPUT_TOO_SMALL, INPUT_NOT_UTF8, NO_MEMORY, NO_GRAPH, CUT_SHORT = range(7)
SMALLEST_ROOM = 1 << 16


class Rooms:
    """Memory for outputs, kept between calls. A room serves one call at a time, and no forked process shares one. The
    system keeps no page for a room that nothing has written to, so a room may be larger than most calls need."""

    def __init__(self) -> None:
        self._free: list[mmap.mmap] = []

    def take(self, least: int) -> mmap.mmap:
        """A room of at least this many bytes."""
        try:
            room = self._free.pop()
        except IndexError:
            room = None
        if room is not None and len(room) >= least:
            return room
        return mmap.mmap(-1, max(least, SMALLEST_ROOM), flags=mmap.MAP_PRIVATE | mmap.MAP_ANONYMOUS)

    def give_back(self, room: mmap.mmap) -> None:
        self._free.append(room)


class GraphHandle(ctypes.Structure):
    """Where the library has a graph that stays: a null pointer if none is open."""

    _fields_ = [("session", ctypes.c_void_p)]


def expect_memory(status: int) -> None:
    if status in (NO_MEMORY, CUT_SHORT):
        raise MemoryError("witgraph: memory was refused")


class OpenGraph:
    """A graph that stays in the library until nothing refers to this object. Calls in several threads wait for each
    other."""

    def __init__(self, library: ctypes.CDLL, rooms: Rooms):
        self._library, self._rooms, self._lock = library, rooms, threading.Lock()
        handle = GraphHandle()
        expect_memory(library.witgraph_open(handle))
        self._handle = handle
        # not at the end of a process, which may be a forked one
        weakref.finalize(self, library.witgraph_close, handle).atexit = False

    def apply(self, document: bytes) -> bytes:
        """Carries out the commands of a document, and gives the replies, or the first fault. A `MemoryError` says that
        it didn't carry them out, or not to their end."""
        needed = ctypes.c_size_t()
        with self._lock:
            expect_memory(self._library.witgraph_apply(self._handle, document, len(document), needed))
            return self._reply(needed)

    def write(self) -> bytes:
        """The graph with what stands beside it."""
        return self._written(self._library.witgraph_write)

    def write_new(self) -> bytes:
        """What is new of that since the last `write_new`, which isn't told again."""
        return self._written(self._library.witgraph_write_new)

    def _written(self, call: Any) -> bytes:
        needed = ctypes.c_size_t()
        with self._lock:
            expect_memory(call(self._handle, needed))
            return self._reply(needed)

    def _reply(self, needed: ctypes.c_size_t) -> bytes:
        """The text of this length that the last call left."""
        room = self._rooms.take(needed.value)
        output = ctypes.byref(ctypes.c_char.from_buffer(room))
        self._library.witgraph_reply(self._handle, output, len(room), needed)
        written = room[: needed.value]
        self._rooms.give_back(room)
        return written


class Library:
    """A shared library with the functions of include/witgraph.h: the one at a path, else the one that WITGRAPH_SHARED
    names, else `libwitgraph.so` beside this file, else the system's."""

    def __init__(self, path: Optional[str] = None):
        beside = os.path.join(os.path.dirname(os.path.abspath(__file__)), "libwitgraph.so")
        installed = beside if os.path.exists(beside) else "libwitgraph.so.0"
        try:
            self._library = ctypes.CDLL(path or os.environ.get("WITGRAPH_SHARED") or installed)
        except OSError as error:
            raise OSError(f"{error} (the wheel of a release has the library, and WITGRAPH_SHARED may name it)") from None
        self._rooms = Rooms()
        size, handle = ctypes.c_size_t, ctypes.POINTER(GraphHandle)
        text, output, needed = [ctypes.c_char_p, size], [ctypes.c_void_p, size], ctypes.POINTER(size)
        arguments: dict[str, list[Any]] = {
            **dict.fromkeys(("witgraph_json", "witgraph_execute", "witgraph_explain"), [*text, *output, needed]),
            **dict.fromkeys(("witgraph_open", "witgraph_close"), [handle]),
            "witgraph_apply": [handle, *text, needed],
            **dict.fromkeys(("witgraph_write", "witgraph_write_new"), [handle, needed]),
            "witgraph_reply": [handle, *output, needed],
        }
        for name, types in arguments.items():
            function = getattr(self._library, name)
            function.argtypes, function.restype = types, ctypes.c_uint32

    def _call(self, name: str, text: bytes) -> tuple[int, bytes]:
        """The status of a call and what it writes. The call is made twice only if its output is over four times as long
        as the text, and longer than the kept room."""
        function, needed = getattr(self._library, name), ctypes.c_size_t()
        room = self._rooms.take(4 * len(text))
        while True:
            output = ctypes.byref(ctypes.c_char.from_buffer(room))
            status = function(text, len(text), output, len(room), ctypes.byref(needed))
            if status != OUTPUT_TOO_SMALL:
                break
            room = self._rooms.take(needed.value)
        written = room[: needed.value]
        self._rooms.give_back(room)
        expect_memory(status)
        return status, written

    def open_graph(self) -> OpenGraph:
        """Opens an empty graph that stays."""
        return OpenGraph(self._library, self._rooms)

    def carry_out(self, document: bytes) -> bytes:
        """The document that comes out of one that goes in."""
        return self._call("witgraph_json", document)[1]

    def run(self, commands: Iterable[AnyCommand], graph: Optional[Graph] = None) -> Run:
        """Carries out commands on the graph of an earlier run, or on an empty one. Raises a `Fault` if one isn't a
        command, or the graph isn't valid."""
        return run_of(self.carry_out(document_of(commands, graph)))

    def _script(self, name: str, script: str) -> str:
        status, output = self._call(name, script.encode())
        if status == NOT_UNDERSTOOD:
            told = output.decode().rstrip()
            raise NotUnderstood(int(told.split()[1].rstrip(":")), told)
        return output.decode()

    def execute(self, script: str) -> str:
        """The answers of a script. Raises `NotUnderstood`."""
        return self._script("witgraph_execute", script)

    def explain(self, script: str) -> str:
        """The refusals of a script, and the commands that name something missing, with their lines. Raises
        `NotUnderstood` with the reason."""
        return self._script("witgraph_explain", script)


@functools.cache
def library() -> Library:
    """The library, loaded at the first call."""
    return Library()


def run(commands: Iterable[AnyCommand], graph: Optional[Graph] = None) -> Run:
    """Carries out commands on the graph of an earlier run, or on an empty one. Raises a `Fault` if one isn't a command,
    or the graph isn't valid."""
    return library().run(commands, graph)


def execute(script: str) -> str:
    """The answers of a script. Raises `NotUnderstood`."""
    return library().execute(script)


def explain(script: str) -> str:
    """The refusals of a script, and the commands that name something missing, with their lines. Raises `NotUnderstood`
    with the reason."""
    return library().explain(script)


def run_by(program: str, commands: Iterable[AnyCommand], graph: Optional[Graph] = None) -> Run:
    """As `run`, by a build of the program `witgraph_json`. Raises `ProgramFailed` if it doesn't write a whole
    document."""
    ran = subprocess.run([program], input=document_of(commands, graph), capture_output=True, check=False)
    try:
        return run_of(ran.stdout)
    except (json.JSONDecodeError, UnicodeDecodeError):
        raise ProgramFailed(program, ran.returncode, ran.stderr.decode(errors="replace")) from None
