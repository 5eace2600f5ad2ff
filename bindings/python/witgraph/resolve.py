"""A graph that stays."""
from __future__ import annotations

import threading
from collections.abc import Iterable
from typing import Optional

from .calls import Library, library
from .commands import AnyCommand
from .data import Graph
from .documents import copy_of, document_of, graph_of_text, replies_of, take_news
from .replies import Done, Merge, Pushed, Refused, Reply

__all__ = ["Resolve"]

# The replies behind which the graph, or what stands beside it, may be another one.
CHANGES = (Done, Merge, Pushed, Refused)


class Resolve:
    """A graph that stays in the library: `apply` changes it, and `graph` is its data.

        resolve = wg.Resolve()
        resolve.apply([push])
        resolve.graph.worlds

    It begins empty, or with a graph. Raises a `Fault` if the graph isn't valid. Each `apply` costs what it changes.
    """

    def __init__(self, graph: Optional[Graph] = None, by: Optional[Library] = None) -> None:
        self._open, self._lock = (by or library()).open_graph(), threading.Lock()
        # what the library told, if all of it was read
        self._told: Optional[Graph] = Graph()
        self._graph = Graph()
        self._may_differ = graph is not None
        if graph is not None:
            replies_of(self._open.apply(document_of([], graph)))

    def apply(self, commands: Iterable[AnyCommand]) -> list[Reply]:
        """Carries out commands, and gives a reply for each. Raises a `Fault` if one isn't a command, and leaves the
        graph as before. After a `MemoryError` the graph has what the commands did that were carried out."""
        try:
            replies = replies_of(self._open.apply(document_of(commands)))
        except MemoryError:
            self._may_differ = True
            raise
        if any(isinstance(it, CHANGES) for it in replies):
            self._may_differ = True
        return replies

    @property
    def graph(self) -> Graph:
        """The data of the graph, kept until a command changes something. When you then look at them, what is new alone is
        read. If you change these lists, the graph stays as it is. Don't change what is in them: later data share it."""
        with self._lock:
            if self._may_differ:
                self._may_differ = False
                self._read()
            return self._graph

    def _read(self) -> None:
        """Reads what is new. The library doesn't tell that again, so if it isn't read to its end, the next look reads all."""
        told, self._told = self._told, None
        try:
            news = self._open.write_new()
            if told is None:
                told = graph_of_text(self._open.write())
                self._graph = copy_of(told)
            elif take_news(told, news):
                self._graph = copy_of(told)
            self._told = told
        finally:
            if self._told is None:
                self._may_differ = True

    @property
    def text(self) -> bytes:
        """The graph with what stands beside it as JSON, as a document may begin with it (docs/JSON.md)."""
        return self._open.write()
