"""Debian's packages of the crates that the made crate stands on, and whether cargo gets them from a registry."""
import os
import pathlib
import shutil
import subprocess
import sys

REGISTRY = pathlib.Path("/usr/share/cargo/registry")
# the folders that a package puts into REGISTRY begin with the crate's name
PACKAGES = {
    "indexmap": "librust-indexmap-dev",
    "semver": "librust-semver-dev",
    "serde": "librust-serde-dev",
    "serde_json": "librust-serde-json-dev",
    "unicode-ident": "librust-unicode-ident-dev",
}
CONFIG = f"""[source.crates-io]
replace-with = "debian"

[source.debian]
directory = "{REGISTRY}"

[net]
offline = true
"""
# how long cargo may look for crates, in seconds
PATIENCE = 60


def missing():
    """The packages that aren't installed."""
    return [package for crate, package in PACKAGES.items() if not list(REGISTRY.glob(f"{crate}-[0-9]*"))]


def can_install():
    return shutil.which("apt-get") is not None and (os.geteuid() == 0 or shutil.which("sudo") is not None)


def apt_get(*words):
    """Whether `apt-get` did what it is told."""
    as_root = [] if os.geteuid() == 0 else ["sudo"]
    return subprocess.run([*as_root, "apt-get", "-q", *words], stdout=sys.stderr).returncode == 0


def install(names):
    """Installs packages, with new lists of them where the machine's lists lack one, as those of a fresh machine do."""
    words = ["install", "-y", *names]
    if not can_install() or not (apt_get(*words) or apt_get("update") and apt_get(*words)):
        sys.exit(f"plain-rust: these packages of Debian are missing: {' '.join(names)}")


def take(out):
    """Installs what is missing, and points the crate's cargo at Debian's packages."""
    if names := missing():
        install(names)
    path = out / ".cargo" / "config.toml"
    path.parent.mkdir(parents=True, exist_ok=True)
    path.write_text(CONFIG, encoding="utf-8")


def are_fetched(out):
    """Whether cargo gets the crates for the one in a folder: from where it is told to take them, else from its registry."""
    try:
        done = subprocess.run(["cargo", "fetch", "--quiet"], cwd=out, capture_output=True, timeout=PATIENCE)
    except (OSError, subprocess.TimeoutExpired):
        return False
    return done.returncode == 0


def tell_of_registry(out):
    """Says what to do where cargo gets no crates."""
    if not are_fetched(out):
        print("plain-rust: cargo gets no crates here: take --debian, or name a registry of your own", file=sys.stderr)
