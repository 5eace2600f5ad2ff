"""A document in its parts: prose, spans between backquotes, tables, blocks, commands of a shell."""
import re

COMMAND = r"\(?(?:[A-Z_]+=\S+ )?(?:(?:cd|rt|python3|cargo|cc|dot|nice|apt-get) |(?:tools|bench|check|docs|examples|/tmp)/)"


def without_blocks(text):
    """A text without what stands in fences and in indented blocks."""
    text = re.sub(r"(?ms)^```.*?^```$", "", text)
    return re.sub(r"(?m)(?:^\n|\A)(?:    (?![-|*]).*\n)+", "\n", text)


def cells_of(line):
    """The cells of a line of a table, with the empty ones before the first and behind the last bar."""
    return re.split(r"(?<!\\)\|", line)


def rows_of(text):
    """The rows of all tables of a text: the heading above, the names of the columns, and the cells, without signs."""
    heading, columns = "", []
    for line in text.split("\n"):
        cells = [cell.strip() for cell in cells_of(line)][1:-1]
        if line.startswith("#"):
            heading = line.lstrip("# ")
        if not line.startswith("|"):
            columns = []
        elif not columns:
            columns = cells
        elif not re.fullmatch(r"[-|: ]+", line):
            yield heading, columns, cells


def is_original(cell):
    """Whether a column of this heading has names of wit-parser."""
    return re.fullmatch(r"\s*(?:with )?wit-parser(?: [\d.]+)?\s*", cell, re.I)


def is_plain(cell):
    """Whether a column of this heading has names of the crate in plain Rust."""
    return cell.strip() == "Plain Rust"


def without_original(text):
    """A text in which the columns headed by wit-parser, and those of the crate in plain Rust, are empty."""
    lines, columns = [], []
    for line in text.split("\n"):
        cells = cells_of(line)
        if not line.startswith("|"):
            columns = []
        elif not columns and any(is_original(cell) for cell in cells):
            columns = [at for at, cell in enumerate(cells) if is_original(cell) or is_plain(cell)]
        lines.append("|".join("" if at in columns else cell for at, cell in enumerate(cells)))
    return "\n".join(lines)


def spans(text):
    """What stands between backquotes, by one or by two."""
    return [(two or one).strip() for two, one in re.findall(r"``(.+?)``|`([^`\n]+)`", text)]


def blocks(text, language=""):
    """What stands in the fences of a language."""
    return re.findall(rf"(?ms)^```{language}\n(.*?)^```$", text)


def commands_of(text):
    """The commands of a shell in blocks; one that goes on on the next line is one."""
    found = blocks(text, "(?:sh|bash)?") + re.findall(r"(?m)^    (.*)$", text)
    for line in re.sub(r"\\\n *", "", "\n".join(found)).split("\n"):
        line = re.sub(r"\s{2,}#.*", "", line.strip())
        if re.match(COMMAND, line):
            yield line


def section(text, heading):
    """What stands below a heading, up to the next one of its depth or a lesser one."""
    depth = len(heading) - len(heading.lstrip("#"))
    found = re.search(rf"(?ms)^{re.escape(heading)}$(.*?)(?=^#{{1,{depth}}} |\Z)", text)
    return found[1] if found else ""
