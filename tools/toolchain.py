"""The repository, and the command `rt` as a module, for tools that replace functions of it within one run."""
import importlib.machinery
import importlib.util
import os
import shutil
import subprocess
import sys

TOP = os.path.dirname(os.path.dirname(os.path.abspath(__file__)))
# The kits whose `rt` has these functions under these names.
KITS = "rattle-kit-13f", "rattle-kit-13b"


def loaded():
    """The command `rt`, as a module, whose crates know the files beside it. Ends where the kit is another one."""
    kit = subprocess.run(["rt", "version"], capture_output=True, text=True, check=True).stdout
    if not kit.startswith(KITS):
        sys.exit(f"toolchain: these tools know the inside of {' and '.join(KITS)}; this is {kit.strip()}")
    sys.dont_write_bytecode = True
    path = os.path.realpath(shutil.which("rt"))
    sys.path.insert(0, os.path.dirname(path))
    loader = importlib.machinery.SourceFileLoader("rt", path)
    made = importlib.util.module_from_spec(importlib.util.spec_from_loader("rt", loader))
    sys.modules["rt"] = made
    loader.exec_module(made)
    return made


def lines(folder, ending):
    """How many lines the files below a folder have whose name ends so."""
    count = 0
    for at, _, names in os.walk(folder):
        for name in names:
            if name.endswith(ending):
                with open(os.path.join(at, name), encoding="utf-8") as text:
                    count += text.read().count("\n")
    return count
