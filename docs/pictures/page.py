#!/usr/bin/env python3
"""Writes index.html: each script of this folder beside its picture, which is part of the page. It loads nothing.

The order and the headings are those of docs/PICTURES.md, with what that says of each.
"""
import html
import re
from pathlib import Path

HERE = Path(__file__).resolve().parent
STYLE = """
body { font-family: Helvetica, Arial, sans-serif; margin: 2em auto; max-width: 1500px; padding: 0 1em; color: #222; }
section { border-top: 1px solid #ddd; padding: 0.5em 0 1.5em; }
.pair { display: flex; flex-wrap: wrap; gap: 1.5em; align-items: flex-start; }
pre { flex: 0 1 34em; white-space: pre-wrap; margin: 0; padding: 0.8em; background: #f6f6f3; border: 1px solid #ddd; border-radius: 6px;
  font-size: 12px; overflow-x: auto; max-width: 100%; box-sizing: border-box; }
.choice { color: #1f5fa8; } .comment { color: #6a6a6a; }
.numbered { padding-left: 3.2em; }
.numbered .line { counter-increment: line; }
.numbered .line::before { content: counter(line); display: inline-block; width: 2em; margin-left: -2.8em; margin-right: 0.8em; text-align: right; color: #a0a0a0; }
figure { flex: 1 1 420px; margin: 0; min-width: 0; }
figure svg { max-width: 100%; height: auto; }
code { background: #f0f0ec; padding: 0 0.2em; }
nav a { margin-right: 1em; }
"""
PART = re.compile(r"^## (?P<title>.*)\n\n(?P<body>(?:(?!## ).*\n?)*)", re.M)
PAIR = re.compile(r"\[(\w+)\.script\]\(pictures/\w+\.script\)(.*)\n\n!\[(.*)\]\(pictures/\w+\.svg\)")


def inline(text):
    """What a line of Markdown is here: code, and links as their text."""
    text = html.escape(re.sub(r"\[([^]]*)\]\([^)]*\)", r"\1", text))
    return re.sub(r"`([^`]*)`", r"<code>\1</code>", text)


def listing(script):
    """A script, its comments in a colour, its lines with the numbers that notes tell, where no line stands for others."""

    def line(text):
        sort = "" if not text.startswith("#") else " choice" if re.match(r"# (show|hide|only-added)", text) else " comment"
        return f'<span class="line{sort}">{html.escape(text)}</span>'

    lines = script.rstrip("\n").split("\n")
    sort = "" if any(it.startswith("#+ ") for it in lines) else ' class="numbered"'
    return f"<pre{sort}>" + "\n".join(line(it) for it in lines) + "</pre>"


def picture(name, told):
    """The drawing itself, its ids made ones of its own, since a page has each once."""
    text = (HERE / f"{name}.svg").read_text()
    text = re.sub(r"<!--.*?-->\s*", "", text[text.index("<svg") :], flags=re.S)
    text = re.sub(r'\bid="', f'id="{name}-', text)
    text = re.sub(r"<title>.*?</title>\n?", "", text, flags=re.S)
    return text.replace("<svg ", f'<svg role="img" aria-label="{html.escape(told)}" ', 1)


def section(title, body):
    pairs = PAIR.findall(body)
    shown = []
    for name, more, told in pairs:
        script = (HERE / f"{name}.script").read_text()
        shown.append(
            f"<p>{inline(name + '.script' + more)}</p>\n"
            f'<div class="pair">\n{listing(script)}\n<figure>\n{picture(name, told)}</figure>\n</div>'
        )
    anchor = pairs[0][0]
    return anchor, f'<section id="{anchor}">\n<h2>{inline(title)}</h2>\n' + "\n".join(shown) + "\n</section>"


def main():
    parts = PART.findall((HERE.parent / "PICTURES.md").read_text())
    made = [(title, *section(title, body)) for title, body in parts if PAIR.search(body)]
    links = "\n".join(f'<a href="#{anchor}">{inline(title)}</a>' for title, anchor, _ in made)
    text = f"""<!DOCTYPE html>
<html lang="en">
<head>
<meta charset="utf-8">
<meta name="viewport" content="width=device-width">
<title>Pictures of graphs</title>
<style>{STYLE}</style>
</head>
<body>
<h1>Pictures of graphs</h1>
<p>Scripts of witgraph, each beside the picture that <code>witgraph_dot</code> draws of its graph.
<a href="../PICTURES.md">PICTURES.md</a> says what a picture shows and what a script chooses. Lines <code>#+</code> stand
for the scripts of packages of WASI.</p>
<nav>
{links}
</nav>
{chr(10).join(it for _, _, it in made)}
</body>
</html>
"""
    (HERE / "index.html").write_text(text)


main()
