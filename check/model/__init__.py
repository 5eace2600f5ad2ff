"""An independent model of what `witgraph` prints: the rules written once more, plainly and without care for speed.

`answers` reads a script and tells for each command which texts it may print: where several causes hold, a refusal
may name any of them. `check/compare.py` compares the program with it. A merge also compares the structures of types
that it makes one, unless `Rules` say that it doesn't.

From below: `names`, `data`, `labels`, `causes` and `walks` are what the others are written in; `reader` reads the
lines of packages; `elaboration`, `including` and `adding` say what becomes of them; `graph` has what is done to one
graph, `merging` and `tracks` what merges, with `mismatches` and `finishing`; `scripts` answers commands, and `refusals` has
what JSON tells of a refusal.
"""
from .labels import groups_of
from .names import NotUnderstood
from .reader import Reader
from .scripts import Follower, Rules, answers, is_right

__all__ = ["Follower", "NotUnderstood", "Reader", "Rules", "answers", "groups_of", "is_right"]
