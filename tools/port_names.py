#!/usr/bin/env python3
"""port_names.py [FOLDER]: respells the repository's own definitions and lemmas, by port_names.tsv beside it (old, a tab, new), once, after
the kit's port/port.py has turned the rest. Whole names turn: in .antt files, in clauses, `ghost use` items and comments of .rt files, in the
texts of edits, and in code spans and fenced blocks of .md files. In a comment or a page a name with a dash, or a plain word, turns only in a code span.
What stays: strings, names of modules (behind a dot that another name follows), inputs and outputs, and Rust's own names, of which none has an old spelling."""
import os
import re
import sys

HERE = os.path.dirname(os.path.abspath(__file__))
TOP = os.path.abspath(sys.argv[1]) if len(sys.argv) > 1 else os.path.dirname(HERE)
WORD = re.compile(r'[^\s(){}\[\].;,@"«»`]+')
SPAN = re.compile(r"`[^`\n]+`")
FENCE = re.compile(r"^```.*?^```", re.S | re.M)

with open(os.path.join(HERE, "port_names.tsv"), encoding="utf-8") as f:
    TABLE = dict(line.rstrip("\n").split("\t") for line in f if line.strip())


PLAIN = re.compile(r"[a-z_0-9]+")


def code(text, plain=True):
    """The text with each whole name of the table turned; a module in a path stays, and without plain what a function of src/ may be called."""

    def one(m):
        if not plain and PLAIN.fullmatch(m[0]):
            return m[0]
        path = text[m.end() : m.end() + 1] == "." and text[m.end() + 1 : m.end() + 2] not in (" ", "\n", "{", "") and text[max(0, m.start() - 1) : m.start()] == "."
        if path and re.search(r"Rattle\.[\w.+\-]*\.$", text[: m.start()][-200:]):
            return m[0]
        return TABLE.get(m[0], m[0])

    return WORD.sub(one, text)


def prose(text):
    """A comment: names in camel case turn anywhere, others in code spans alone."""
    text = SPAN.sub(lambda m: code(m[0]), text)
    return WORD.sub(lambda m: TABLE[m[0]] if m[0] in TABLE and re.search("[a-z][A-Z]", m[0]) else m[0], text)


def lines(text, comment, plain=True):
    """Code line by line, with what stands behind the comment's sign as prose."""
    out = []
    for line in text.split("\n"):
        m = re.search(r"(^|\s)" + comment, line)
        at = m.start() if m else len(line)
        out.append(code(line[:at], plain) + prose(line[at:]))
    return "\n".join(out)


def rust(text):
    return re.sub(r'("(?:\\.|[^"\\\n])*")|([^"]+)', lambda m: m[1] or lines(m[2], "//", False), text)


def edit(text):
    return "\n".join(code(line) if line.startswith(("old:", "new:")) else line for line in text.split("\n"))


def page(text):
    spans = lambda t: SPAN.sub(lambda m: code(m[0]), t)
    out, at = [], 0
    for m in FENCE.finditer(text):
        out += [spans(text[at : m.start()]), code(m[0])]
        at = m.end()
    return "".join(out) + spans(text[at:])


KINDS = {".antt": lambda t: lines(t, "--"), ".rt": rust, ".edit": edit, ".md": page}


def main():
    changed = 0
    for folder, below, files in os.walk(TOP):
        below[:] = [d for d in below if d not in (".git", "out", "target", "data")]
        for name in files:
            turn = KINDS.get(os.path.splitext(name)[1])
            path = os.path.join(folder, name)
            if turn is None or path == os.path.join(TOP, "docs", "PORT.md"):
                continue
            with open(path, encoding="utf-8") as f:
                old = f.read()
            new = turn(old)
            if new != old:
                changed += 1
                with open(path, "w", encoding="utf-8") as f:
                    f.write(new)
    print(f"port_names: {changed} files changed")


if __name__ == "__main__":
    main()
