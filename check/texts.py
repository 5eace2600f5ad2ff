#!/usr/bin/env python3
"""Tells which texts of refusals no stored case prints and no test expects.

    python3 check/texts.py        # at the top of the repository

The texts are the equations of FILES that give a text and hold literals, `codes "TEXT"`, and the constructors there that
say `text ≡ codes "TEXT"`. Between its literals a text may have anything, but in place of a definition that it calls one
of the texts of that, and in place of a parameter of which the comment above says that it is `WORD` or `WORD` one of
these; each of them has to be met. A text is met where all of a refusal is made of it, or a line of it, or what stands
between two `: ` of a line. Refusals are those that the cases of `test_cases` print, and the literals of the crates
of tests. Ends with status 1 where a text isn't met.
"""
import glob
import re
import sys

FILES = """
wit_graph_data/specs/ErrorText wit_link_spec/specs/CauseText wit_remap_spec/specs/Borrows wit_remap_spec/specs/FunctionMismatch
wit_merge_spec/specs/MismatchText wit_merge_spec/specs/Structure wit_semver/specs/SemverMerged
wit_elaboration/specs/AllElaborated wit_transform/specs/Transformed wit_queries/specs/Selection
""".split()
CASES = "crates/test_cases/stdin"
TESTS = "crates/test_*/src/**/*.rt"
LITERAL = r'"((?:[^"\\]|\\(?:.|\n))*)"'
# The words of a parameter of which no comment tells them.
WORDS = {"item_type": ["import", "export"]}


def read(path):
    with open(path, encoding="utf-8") as file:
        return file.read()


def unescaped(literal):
    """What a literal stands for, as far as texts have it."""
    return literal.replace(r"\x20", " ").replace(r"\n", "\n").replace(r"\"", '"')


def equations(path):
    """The texts of a file: the name, what it is of, the words of its parameters, and what it is made of."""
    name, words = "", {}
    for line in re.sub(r"\n    +", " ", read(path)).split("\n"):
        declared = re.match(r"(?:abbrev|unfoldable|pub)[\w ]*? (\w+) : (.*)", line)
        constructor = re.match(r"  (\w+) : .* text ≡ (codes .*?) →", line)
        if line.startswith("--"):
            said = re.findall(r"(\w+) is ((?:`\w+`(?:, | or )?)+)", line)
            words = {parameter: re.findall(r"`(\w+)`", those) for parameter, those in said}
        elif declared:
            name = declared[1] if re.search(r"List (ℕ|\(List ℕ\))$", declared[2]) else ""
        elif constructor:
            yield constructor[1], "", {}, constructor[2]
        elif name and (equation := re.match(rf"{name}\b(.*?) = (.*)", line)):
            yield name, equation[1], WORDS | words, equation[2]


class Texts:
    """The texts by their names. An expression has a group for each text and word in it; `keys` tells which."""

    def __init__(self, paths):
        self.of = {}
        for path in paths:
            for name, *text in equations(path):
                self.of.setdefault(name, []).append(text)

    def expression(self, name, keys, seen):
        """One of the texts of a name, that with the most literals first; within others one without literals, too."""
        texts = sorted(self.of[name], key=lambda text: -text[2].count("codes"))
        texts = [text for text in texts if seen or "codes" in text[2]]
        return "(?:" + "|".join(self.one(name, text, keys, (*seen, name)) for text in texts) + ")"

    def one(self, name, text, keys, seen):
        arguments, words, body = text
        body = re.sub(r"\((\w+) ∷ \w+\)", r"\1", body)
        keys.append(f"{name}{arguments}" if "codes" in body else None)
        atoms = re.findall(rf"codes {LITERAL}|((?:(?!codes |\+\+|∷).)+|∷)", body)
        atoms = [(literal, other.strip("() ")) for literal, other in atoms if literal or other.strip("() ")]
        return "(" + "".join(self.part(name, *atom, words, keys, seen) for atom in atoms) + ")"

    def part(self, name, literal, other, words, keys, seen):
        if literal:
            return re.escape(unescaped(literal))
        if other in words:
            keys.extend(f"{name}, {other} `{word}`" for word in words[other])
            return "(?:" + "|".join(f"({word})" for word in words[other]) + ")"
        called = [word for word in re.findall(r"\w+", other) if word in self.of and word not in seen]
        return "" if other == "[]" else self.expression(called[0], keys, seen) if called else ".*?"


def refusals():
    """What the cases print of refusals, and the literals of tests."""
    for answer in re.findall(r"(?ms)^---$(.*?)(?=^=== |\Z)", read(CASES)):
        yield from re.findall(r"(?m)^refused \d+ (.*(?:\n  .*)*)", answer)
    for path in glob.glob(TESTS, recursive=True):
        for literal in re.findall(LITERAL, read(path)):
            yield unescaped(re.sub(r"\\\n\s*", "", literal))


def main():
    texts = Texts(f"crates/{path}.antt" for path in FILES)
    said = sorted(set(refusals()))
    wanted, met = set(), set()
    for name in [name for name, those in texts.of.items() if any("codes" in text[2] for text in those)]:
        keys = []
        whole = rf"(?m)(?:^|: |\d |message ){texts.expression(name, keys, ())}(?:$|: |(?<=: ))"
        wanted.update(filter(None, keys))
        for text in said:
            for found in re.finditer(whole, text):
                met.update(key for key, group in zip(keys, found.groups()) if group is not None)
    for key in sorted(wanted - met):
        print(f"no case and no test has the text {key}")
    print(f"{len(wanted)} texts, {len(wanted - met)} not met")
    return 1 if wanted - met else 0


if __name__ == "__main__":
    sys.exit(main())
