"""What calls raise. Each error can be pickled, so it leaves a process of a pool as it was raised there."""
from __future__ import annotations

from typing import Optional, Union

from .data import Place, Span
from .kinds import ErrorKind, WayStep

__all__ = ["Error", "Fault", "NotUnderstood", "ProgramFailed", "Refusal", "ShapeFault", "Unreadable"]

# the names and the numbers that lead to a value
Path = list[Union[str, int]]


def path_text(path: Path) -> str:
    """A path as a text: `commands[0].select`, say."""
    return "".join(f"[{it}]" if isinstance(it, int) else f".{it}" for it in path).removeprefix(".")


class Error(Exception):
    """The errors of this package. Want of memory is a `MemoryError`.

    Each hands the arguments of its `__init__` on, since pickle makes it of these again, and has its text from `__str__`.
    """


class Fault(Error):
    """A document of commands that can't be read: the `path` to a value, its place, and what was `expected` there.

    The place is where the value begins, or where the document stops being JSON. `offset` counts the bytes before it. `line` and
    `column` are from 1; the column counts characters. Of a graph that isn't valid, `clause` is the first that it breaks, and
    `message` says what is wrong with the thing there.
    """

    def __init__(
        self,
        path: Path,
        offset: int,
        line: int,
        column: int,
        expected: str,
        clause: Optional[str] = None,
        message: Optional[str] = None,
    ):
        super().__init__(path, offset, line, column, expected, clause, message)
        self.path, self.offset, self.line, self.column, self.expected = path, offset, line, column, expected
        self.clause, self.message = clause, message

    def __str__(self) -> str:
        told = f"expected {self.expected} at line {self.line}, column {self.column}"
        if self.path:
            told += f", at {path_text(self.path)}"
        return f"{told}: {self.message}" if self.message else told


class NotUnderstood(Error):
    """A script has a line that isn't understood: its number, and the text about it. Nothing of the script was run."""

    def __init__(self, line: int, text: str):
        super().__init__(line, text)
        self.line, self.text = line, text

    def __str__(self) -> str:
        return self.text


class ProgramFailed(Error):
    """A program ended without its output: its `status`, negative if a signal ended it, and what it wrote to standard
    error."""

    def __init__(self, program: str, status: int, stderr: str):
        super().__init__(program, status, stderr)
        self.program, self.status, self.stderr = program, status, stderr

    def __str__(self) -> str:
        ended = f"was ended by signal {-self.status}" if self.status < 0 else f"ended with status {self.status}"
        return f"{self.program} {ended}: {self.stderr.strip() or 'nothing on standard error'}"


class Refusal(Error):
    """Why a command is refused: `number`, `cause`, `text` and `span`; what the error names, as `fields`; its `places` in files;
    the `way` from what it names; `rendered`, which shows all that with the lines and the command; and `nearest`, the known
    package whose name is nearest to one that isn't there (1), if one is near."""

    def __init__(
        self,
        number: int,
        cause: str,
        text: str,
        span: Optional[Span],
        fields: ErrorKind,
        places: list[Place],
        way: list[WayStep],
        rendered: str,
        nearest: Optional[str] = None,
    ):
        super().__init__(number, cause, text, span, fields, places, way, rendered, nearest)
        self.number, self.cause, self.text, self.span = number, cause, text, span
        self.fields, self.places, self.way, self.rendered = fields, places, way, rendered
        self.nearest = nearest

    def __str__(self) -> str:
        return self.rendered


class ShapeFault(Error):
    """A pushed package lacks its shape. `path` leads to it from the push, `place` from there to what breaks the
    `clause`, and `text` says what the clause asks."""

    def __init__(self, path: Path, clause: str, place: str, text: str):
        super().__init__(path, clause, place, text)
        self.path, self.clause, self.place, self.text = path, clause, place, text

    def __str__(self) -> str:
        return f"{path_text(self.path)}: {self.place} breaks {self.clause}: {self.text}"


class Unreadable(Error, ValueError):
    """A value has another form than expected."""
