"""The names that scripts write: versions, names of packages, and paths of interfaces and worlds."""
import re

WORD = r"(?:[a-z][a-z0-9]*|[A-Z][A-Z0-9]*)"
KEBAB = re.compile(rf"{WORD}(?:-(?:[a-z0-9]+|[A-Z0-9]+))*")
NUMBER = r"(0|[1-9][0-9]*)"
# an identifier before a release, and one of a build
BEFORE = r"(?:0|[1-9][0-9]*|[0-9]*[A-Za-z-][0-9A-Za-z-]*)"
BUILD = r"[0-9A-Za-z-]+"
VERSION = re.compile(rf"{NUMBER}\.{NUMBER}\.{NUMBER}(?:-({BEFORE}(?:\.{BEFORE})*))?(?:\+({BUILD}(?:\.{BUILD})*))?")
PATH = re.compile(r"(?:([^:/@]*):([^:/@]*)/)?([^:/@]*)(?:@(.*))?")
# what a release has in its key where a version before it has its identifiers
RELEASED = (1, ())


class NotUnderstood(Exception):
    """A line that the script's rules don't read."""


def need(holds):
    """Nothing where it holds; otherwise the line isn't understood."""
    if not holds:
        raise NotUnderstood


def identifiers_key(text):
    """What identifiers with dots between them compare by: numbers before words."""
    return tuple((0, int(it), "") if it.isdigit() else (1, 0, it) for it in text.split("."))


def version_key(text):
    """What versions compare by, the build included."""
    found = VERSION.fullmatch(text)
    need(found and all(int(found[n]) < 2**64 for n in (1, 2, 3)))
    before = RELEASED if found[4] is None else (0, identifiers_key(found[4]))
    build = () if found[5] is None else identifiers_key(found[5])
    return int(found[1]), int(found[2]), int(found[3]), before, build


class PackageName:
    """The name of a package. Those of one `key` are the same; packages are sorted by `order`."""

    def __init__(self, namespace, name, version):
        self.namespace, self.name, self.version = namespace, name, version
        self.key = namespace, name, version and version_key(version)
        self.order = namespace, name, (0,) if version is None else (1, self.key[2])

    @staticmethod
    def read(text):
        namespace, _, rest = text.partition(":")
        name, at, version = rest.partition("@")
        need(namespace and name and (version or not at))
        return PackageName(namespace, name, version or None)

    def __str__(self):
        return f"{self.namespace}:{self.name}" + (f"@{self.version}" if self.version else "")

    def id_of(self, item):
        """The id of an interface or a world of the package."""
        return f"{self.namespace}:{self.name}/{item}" + (f"@{self.version}" if self.version else "")


def read_use_path(text):
    """The package and the name of `ns:pkg/name[@version]`, None for the package of a name alone."""
    found = PATH.fullmatch(text)
    need(found and (found[1] is not None or found[4] is None) and found[4] != "")
    need(all(KEBAB.fullmatch(it) for it in (found[1], found[2], found[3]) if it is not None))
    if found[1] is None:
        return None, found[3]
    return PackageName(found[1], found[2], found[4]), found[3]
