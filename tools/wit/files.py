"""Files and folders of WIT."""
import os

from . import faults
from .data import PackageData, Places
from .faults import Fault
from .grammar import Parser
from .syntax import File, Group, Package


def files_of(path):
    """The files of a package: a file, or those of a folder by their names."""
    if not os.path.isdir(path):
        return [path]
    files = [os.path.join(path, name) for name in sorted(os.listdir(path)) if name.endswith(".wit")]
    if not files:
        raise OSError(f"{path}: no file of WIT")
    return files


def deps_of(path, report):
    """The packages in the folder `deps` of a package: its files of WIT, and its folders, by their names."""
    folder = os.path.join(path, "deps")
    if not os.path.isdir(folder):
        return []
    found = []
    for name in sorted(os.listdir(folder)):
        dep = os.path.join(folder, name)
        if os.path.isdir(dep) or name.endswith(".wit"):
            found.append(dep)
        elif name.endswith((".wasm", ".wat")):
            report.problem(faults.BinaryPackage(File(dep), None))
    return found


def opened(path):
    try:
        with open(path, encoding="utf-8", newline="") as file:
            return File(path, file.read())
    except UnicodeDecodeError:
        raise OSError(f"{path}: this isn't UTF-8") from None


class GroupReader:
    """Reads files as one package and those that are written in braces, and tells all faults that it meets."""

    def __init__(self, files, places, report):
        self.files, self.places, self.report = files, places, report
        self.main, self.nested = Package(), []
        self.has_comments = False  # whether a header line that was met has comments before it

    def read(self):
        """Whether it is a group of packages."""
        before = len(self.report.problems)
        for file in self.files:
            try:
                self.add(Parser(file).source())
            except Fault as fault:
                self.report.problem(fault)
        if len(self.report.problems) == before:
            if self.main.name is None:
                self.report.problem(faults.NoPackage(self.files[0], None))
            else:
                self.finish(self.main)
        return len(self.report.problems) == before

    def add(self, source):
        for package in source.nested:
            if package.inner:
                raise faults.NestedTooDeep(source.file, package.inner.span)
            self.finish(package)
            self.nested.append(package)
        self.main.statements += source.statements
        header, main = source.header, self.main
        if header is None:
            return
        if main.name not in (None, header.name):
            raise faults.OtherPackage(source.file, header.span, name=header.name, previous=main.name)
        main.name, main.span, main.file = header.name, header.span, source.file
        # (other comments count as documentation here)
        if header.docs_span and self.has_comments:
            raise faults.SecondDocs(source.file, header.docs_span)
        self.has_comments |= header.docs_span is not None
        main.docs = main.docs or header.docs

    def finish(self, package):
        package.data = PackageData(package, self.places, self.report).make()


def group_in(files, path, report):
    """The packages of these files, None where they can't be read."""
    reader = GroupReader(files, Places(files), report)
    return Group(reader.main, reader.nested, files, path) if reader.read() else None


def groups_of(paths, report):
    """The packages of these files and folders, and behind them those in the folders `deps` of these.

    What is there twice with the same texts is read once.
    """
    all_paths = [*paths, *(dep for path in paths for dep in deps_of(path, report))]
    groups = []
    for path in all_paths:
        group = group_in([opened(it) for it in files_of(path)], path, report)
        if group and not any(is_copy(group, it) for it in groups):
            groups.append(group)
    return groups


def is_copy(group, other):
    """Whether two groups have the same main package and the same texts."""
    return group.main.name == other.main.name and [it.text for it in group.files] == [it.text for it in other.files]
