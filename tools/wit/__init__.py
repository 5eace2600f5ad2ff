"""Reads WIT as wit-parser does: what it reads is read, what it refuses is refused, by the same words at the same place.

`groups_of` reads the packages of files and folders, with those in their folders `deps`, as `Group`s: what each package
says (`statements`), and what it is, once its own names were looked up (`data`, in the layout of docs/JSON.md). A
`Report` has the faults, each of a class of `faults` and shown with FILE:LINE:COLUMN and its line. What is named of
other packages isn't looked up here.

- `tokens`, `versions`, `grammar`: from text to what it says (`syntax`)
- `names`, `order`, `data`, `scopes`: from that to what the package is
- `files`: files, folders, and the group of packages that they are

It reads less in three places: flags need a name, a list of a fixed length has an element, and a type whose name a later
`use` takes is told, where wit-parser drops it. check/wit_texts.py compares the two.
"""
from .data import Places
from .faults import Fault, Report
from .files import GroupReader, files_of, group_in, groups_of, opened
from .names import resolved
from .order import told_order
from .syntax import PRIMITIVES, Definition, Entry, File, Function, Group, Include, Package, Path, Scope, Type, Use
from .values import docs_of, stability_of, without_none

__all__ = [
    "PRIMITIVES", "Definition", "Entry", "Fault", "File", "Function", "Group", "GroupReader", "Include", "Package",
    "Path", "Places", "Report", "Scope", "Type", "Use", "docs_of", "files_of", "group_in", "groups_of", "opened",
    "resolved", "stability_of", "told_order", "without_none",
]
