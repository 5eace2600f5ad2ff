#!/usr/bin/env python3
"""Compares the examples of the documents with the stored cases of `test_cases`.

    python3 check/examples.py        # at the top of the repository

In docs/REFUSALS.md an example is a line `**N**, `CASE`` and the block below it: without its lines that begin with `# `
it is the script of the case, and those lines, without the `# `, are what the case prints. In docs/SCRIPT.md it is a
block, a line `answers` and a second block: the script of some case, and what that prints. Ends with status 1 where one
differs, where an example of a number doesn't print a refusal of that number, where the table of refusals isn't of 1 to
28 in order, or where one of them but 27 and 28, which have no script, has no example.
"""
import re
import sys

REFUSALS = "docs/REFUSALS.md"
LANGUAGE = "docs/SCRIPT.md"
CASES = "crates/test_cases/stdin"


def cases():
    """The scripts under the lines `=== NAME` with their answers, by their names."""
    parts = dict(part.split("\n", 1) for part in re.split(r"(?m)^=== ", open(CASES).read())[1:])
    return {name: tuple(case.split("---\n", 1)) for name, case in parts.items()}


def wrong_refusals(document, stored):
    """The examples of refusals, and what is wrong with them."""
    examples = re.findall(r"(?ms)^\*\*(\d+)\*\*, `([^`]+)`\n\n```\n(.*?)^```$", document)
    listed = re.findall(r"(?m)^\| (\d+) \| `", document)
    wrong = ["the table isn't of 1 to 28 in order"] * (listed != [str(number) for number in range(1, 29)])
    lacking = set(listed) - {"27", "28"} - {example[0] for example in examples}
    wrong += [f"no example of {number}" for number in sorted(lacking, key=int)]
    for number, case, block in examples:
        lines = block.splitlines(keepends=True)
        script = "".join(line for line in lines if not line.startswith("# "))
        answer = "".join(line[2:] for line in lines if line.startswith("# "))
        if stored.get(case) != (script, answer) or not re.search(rf"(?m)^refused {number} ", answer):
            wrong.append(f"the example of {number} is not as its case")
    return examples, wrong


def wrong_scripts(document, stored):
    """The examples of scripts, and what is wrong with them."""
    examples = re.findall(r"(?ms)^```\n(.*?)^```\n\nanswers\n\n```\n(.*?)^```$", document)
    unknown = [script for script, answer in examples if (script, answer) not in stored.values()]
    unpaired = document.count("\n```\n") - 4 * len(examples)
    wrong = [f"no case is the example\n{script}" for script in unknown]
    return examples, wrong + [f"{unpaired} ends of blocks that are of no example"] * (unpaired != 0)


def main():
    stored = cases()
    refusals, language = open(REFUSALS).read(), open(LANGUAGE).read()
    examples, wrong = wrong_refusals(refusals, stored)
    scripts, wrong_of_scripts = wrong_scripts(language, stored)
    for path, those in (REFUSALS, wrong), (LANGUAGE, wrong_of_scripts):
        for one in those:
            print(f"{path}: {one}")
    count = len(wrong) + len(wrong_of_scripts)
    print(f"{len(examples) + len(scripts)} examples, {count} wrong")
    return 1 if count else 0


if __name__ == "__main__":
    sys.exit(main())
