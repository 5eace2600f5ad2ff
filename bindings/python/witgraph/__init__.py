"""The resolve layer of WIT, by commands or by scripts, over the shared library of `witgraph_c`.

    import witgraph as wg

    resolve = wg.Resolve()
    replies = resolve.apply([{"push-groups": ..}, wg.Select(["wasi:cli@0.2.0"], "command")])
    command = resolve.graph.worlds[wg.accepted(replies[1], wg.WorldReply).id]

A `Resolve` keeps a graph. `apply` carries out commands, and gives a reply for each. A command is one of the classes of
commands.py, or a dict as docs/JSON.md says and `tools/wit2json.py` writes. The classes have the names of wit-parser; an id is
an index in its list. `run` does the same once: a graph goes in, and a `Run` comes out. `run_by` takes a build of the program
`witgraph_json` for that. `execute` and `explain` run scripts (docs/SCRIPT.md).

Calls in several threads don't disturb each other. The package needs only Python 3.10.
"""
from . import calls, commands, data, documents, errors, kinds, replies, resolve
from .calls import *
from .commands import *
from .data import *
from .documents import *
from .errors import *
from .kinds import *
from .replies import *
from .resolve import *

__version__ = "0.1.0"

__all__ = ["__version__"]
__all__ += calls.__all__
__all__ += commands.__all__
__all__ += data.__all__
__all__ += documents.__all__
__all__ += errors.__all__
__all__ += kinds.__all__
__all__ += replies.__all__
__all__ += resolve.__all__
