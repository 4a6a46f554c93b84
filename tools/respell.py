#!/usr/bin/env python3
"""Respells the definitions and lemmas of this repository: run once, at the top, right after the kit's port.py.

tools/names.txt has a line for each name: as it was, and as it is. Strings stay as they are, and so does prose:
in comments and documents only names between backticks are turned. docs/PORT.md, which says what was turned, stays as it is.
"""
import glob
import pathlib
import re

NAME = r"[\w'·-]"
names = dict(line.split() for line in (pathlib.Path(__file__).parent / "names.txt").read_text().splitlines())
any_name = re.compile(rf"(?<!{NAME})(?:{'|'.join(re.escape(n) for n in sorted(names, key=len, reverse=True))})(?!{NAME})")


def respell(text):
    return any_name.sub(lambda m: names[m.group()], text)


def in_backticks(text):
    return re.sub(r"`[^`\n]*`", lambda m: respell(m.group()), text)


def source(text, comment):
    pieces = re.split(r'("(?:\\.|[^"\\\n])*"|' + comment + r"[^\n]*)", text)
    return "".join(
        respell(p) if i % 2 == 0 else p if p.startswith('"') else in_backticks(p) for i, p in enumerate(pieces)
    )


for path in sorted(glob.glob("crates/*/**/*", recursive=True) + ["README.md"] + glob.glob("docs/**/*.md", recursive=True)):
    if "/out/" in path or path == "docs/PORT.md" or not re.search(r"\.(antt|rt|edit|md)$", path):
        continue
    file = pathlib.Path(path)
    old = file.read_text()
    new = in_backticks(old) if path.endswith(".md") else source(old, "--" if path.endswith(".antt") else "//")
    if new != old:
        file.write_text(new)
