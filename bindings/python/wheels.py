"""Makes the wheel of the package witgraph, for pip (pyproject.toml) and for tools/release: it needs no other package, and so no
network.

    pip install bindings/python

The shared library goes into the wheel where it stands in witgraph/libwitgraph.so. Then the wheel is of its platform: the
machine, and the least glibc that has what the library asks for. Without it the wheel is of any platform, and WITGRAPH_SHARED
names the library, or the system has it.
"""
import base64
import hashlib
import os
import re
import sys
import zipfile
from typing import Any, Optional

if sys.version_info >= (3, 11):
    import tomllib
else:
    import tomli as tomllib

HERE = os.path.dirname(os.path.abspath(__file__))
TOP = os.path.dirname(os.path.dirname(HERE))
LIBRARY = os.path.join(HERE, "witgraph", "libwitgraph.so")
# the machines that the head of an ELF file names
MACHINES = {62: "x86_64", 183: "aarch64"}
LICENSES = ("LICENSE-APACHE", "LICENSE-Apache-2.0_WITH_LLVM-exception", "LICENSE-MIT", "NOTICE")
# pip knows no older glibc by number
OLDEST_GLIBC = 17


def read(*path: str) -> bytes:
    with open(os.path.join(*path), "rb") as file:
        return file.read()


def project() -> dict[str, Any]:
    """What pyproject.toml says of the package, with its version."""
    table: dict[str, Any] = tomllib.loads(read(HERE, "pyproject.toml").decode())["project"]
    return table | {"version": read(TOP, "VERSION").decode().strip()}


def metadata(about: dict[str, Any]) -> bytes:
    lines = [
        "Metadata-Version: 2.1",
        f"Name: {about['name']}",
        f"Version: {about['version']}",
        f"Summary: {about['description']}",
        f"License: {about['license']}",
        *(f"Classifier: {it}" for it in about["classifiers"]),
        f"Requires-Python: {about['requires-python']}",
        "Description-Content-Type: text/markdown",
        "",
    ]
    return "\n".join(lines).encode() + b"\n" + read(HERE, about["readme"])


def platform(library: bytes) -> str:
    """The platform of a shared library, as names of wheels have it."""
    machine = MACHINES[int.from_bytes(library[18:20], "little")]
    newest = max((int(it) for it in re.findall(rb"\0GLIBC_2\.(\d+)", library)), default=0)
    return f"manylinux_2_{max(newest, OLDEST_GLIBC)}_{machine}"


def record(files: dict[str, bytes], name: str) -> bytes:
    """The list of all files with their sums, itself among them."""
    lines = []
    for path, content in files.items():
        digest = base64.urlsafe_b64encode(hashlib.sha256(content).digest()).rstrip(b"=").decode()
        lines.append(f"{path},sha256={digest},{len(content)}")
    return "\n".join([*lines, f"{name},,", ""]).encode()


def make(folder: str, library: Optional[bytes], licenses: dict[str, bytes], local: str = "") -> str:
    """Makes the wheel in a folder, and tells its name. The licenses are those of what the library has in it. What is `local`,
    as "+unproved", stands behind the version."""
    about = project()
    about["version"] += local
    stem = f"{about['name']}-{about['version']}"
    tag = f"py3-none-{platform(library) if library else 'any'}"
    names = sorted(it for it in os.listdir(f"{HERE}/witgraph") if it.endswith(".py") or it == "py.typed")
    files = {f"witgraph/{it}": read(HERE, "witgraph", it) for it in names}
    if library:
        files["witgraph/libwitgraph.so"] = library
    about_wheel = f"Wheel-Version: 1.0\nGenerator: wheels.py\nRoot-Is-Purelib: {str(not library).lower()}\nTag: {tag}\n"
    info = f"{stem}.dist-info"
    files |= {f"{info}/licenses/{it}": read(TOP, it) for it in LICENSES}
    files |= {f"{info}/licenses/{name}": content for name, content in sorted(licenses.items())}
    files |= {f"{info}/METADATA": metadata(about), f"{info}/WHEEL": about_wheel.encode()}
    files[f"{info}/RECORD"] = record(files, f"{info}/RECORD")
    write(os.path.join(folder, f"{stem}-{tag}.whl"), files)
    return f"{stem}-{tag}.whl"


def write(path: str, files: dict[str, bytes]) -> None:
    """An archive of files, the same wherever and whenever it is made."""
    with zipfile.ZipFile(path, "w", zipfile.ZIP_DEFLATED) as archive:
        for name, content in files.items():
            entry = zipfile.ZipInfo(name)
            entry.compress_type = zipfile.ZIP_DEFLATED
            entry.external_attr = (0o100755 if name.endswith(".so") else 0o100644) << 16
            archive.writestr(entry, content)


# What pip calls


def build_wheel(wheel_directory: str, config_settings: Any = None, metadata_directory: Optional[str] = None) -> str:
    return make(wheel_directory, read(LIBRARY) if os.path.exists(LIBRARY) else None, {})


def build_sdist(sdist_directory: str, config_settings: Any = None) -> str:
    sys.exit("wheels: no source archive is made, since the toolchain of the library isn't public: make a wheel")
