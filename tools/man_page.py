#!/usr/bin/env python3
"""Makes the man page xt(1) of docs/COMMANDS.md, on standard output: tools/man_page.py VERSION DATE

Of Markdown it knows what that page has: headings, paragraphs, blocks of code, tables, `words`, **words** and links."""
import pathlib
import re
import sys

PAGE = pathlib.Path(__file__).resolve().parent.parent / "docs/COMMANDS.md"


def plain(text):
    """A text of roff: no line of it is taken for a request, and each character for itself."""
    text = text.replace("\\", "\\e").replace("-", "\\-").replace("`", "\\(ga")
    return re.sub(r"^([.'])", r"\\&\1", text)


def inline(text):
    text = re.sub(r"\[([^]]+)\]\([^)]+\)", r"\1", text.strip())
    parts = re.split(r"(`[^`]+`|\*\*[^*]+\*\*)", text)
    made = "".join(f"\\fB{plain(it.strip('`*'))}\\fR" if it.startswith(("`", "**")) else plain(it) for it in parts)
    return re.sub(r"^([.'])", r"\\&\1", made)


def cells(line):
    return [it.strip() for it in re.split(r"(?<!\\)\|", line.strip().strip("|"))]


def table(lines):
    """A table as tagged paragraphs: the first column is the tag. A row without one goes on with the last."""
    for line in lines[2:]:
        tag, *rest = [inline(it) for it in cells(line)]
        body = " \\(em ".join(it for it in rest if it)
        if tag:
            yield ".TP"
            yield tag
        else:
            yield ".br"
        yield body or "\\&"


def code(lines):
    yield ".PP"
    yield ".EX"
    yield from (plain(it) or "\\&" for it in lines)
    yield ".EE"


def blocks(text):
    """The page's blocks: a kind and its lines."""
    lines = text.splitlines()
    at = 0
    while at < len(lines):
        line = lines[at]
        if not line:
            at += 1
            continue
        if line.startswith("```"):
            end = lines.index("```", at + 1)
            yield "code", lines[at + 1 : end]
            at = end + 1
            continue
        kind = "heading" if line.startswith("#") else "table" if line.startswith("|") else "text"
        end = at + 1
        while kind != "heading" and end < len(lines) and lines[end] and not lines[end].startswith(("```", "#")) and lines[end].startswith("|") == (kind == "table"):
            end += 1
        yield kind, lines[at:end]
        at = end


def page(text, version, date):
    yield f'.TH XT 1 "{date}" "Ruhvelma {version}" "Ruhvelma"'
    yield ".SH NAME"
    yield "xt \\- types, samples and values of DDS\\-XTypes on the command line"
    for kind, lines in blocks(text):
        if kind == "heading":
            depth, title = lines[0].split(" ", 1)
            yield ".SH SYNOPSIS" if depth == "#" else f".SH {inline(title).upper()}"
        elif kind == "code":
            yield from code(lines)
        elif kind == "table":
            yield from table(lines)
        else:
            yield ".PP"
            yield inline(" ".join(lines))


def main():
    version, date = sys.argv[1:]
    text = PAGE.read_text().replace("./xt ", "xt ").replace("`./xt", "`xt")
    print("\n".join(page(text, version, date)))


if __name__ == "__main__":
    main()
