#!/usr/bin/env python3
"""Brings the repository's own antt names to today's spelling, once, behind port.py: words in snake case, types in camel case.

usage: python3 tools/port_names.py [--dry]     at the top of the repository

Names that the library or the checker makes keep their dashes. Code, contracts, proofs and must-fail edits are turned whole; in comments and pages a name is
turned only between backticks, since a word of English may have a dash.
"""

import os
import re
import sys

WORD = r"[A-Za-z_\u0370-\u03ff\u2080-\u2089\U0001d400-\U0001d7ff][A-Za-z0-9_'\u0370-\u03ff\u2080-\u2089]*(?:-[A-Za-z0-9_'\u0370-\u03ff\u2080-\u2089]+)+"
TOKEN = re.compile(r"(?<![\w'\u25cc-])" + WORD + r"(?![\w'\u25cc-])")
ANY = re.compile(r"(?<![\w'\u25cc-])[A-Za-z_][\w']*(?:-[\w']+)*(?![\w'\u25cc-])")


def files(root, ends, top="crates"):
    for folder, dirs, names in os.walk(os.path.join(root, top)):
        dirs[:] = sorted(d for d in dirs if d not in ("out", ".git", "__pycache__"))
        for name in sorted(names):
            if name.endswith(ends):
                yield os.path.join(folder, name)


def read(path):
    with open(path, encoding="utf-8") as f:
        return f.read()


def without_comments(text, mark):
    return "\n".join(line.split(mark)[0] if line.lstrip().startswith(mark) or (" " + mark + " ") in line else line for line in text.split("\n"))


def imported(text):
    """Names that a file brings in from elsewhere than this repository's crates, and the crates' own."""
    theirs, ours = set(), set()
    for m in re.finditer(r"(?ms)^\s*(?:pub |ghost )*use ([^\s{]+?)\.\{([^}]*)\}", text):
        names = {n.split(" as ")[0].strip() for n in m.group(2).split(",")}
        own = m.group(1).startswith("Rattle.") and not re.match(r"Rattle\.(std|core|io|os|libc)\b", m.group(1))
        (ours if own else theirs).update(names)
    return theirs, ours


def declared(text):
    code = without_comments(text, "--")
    found = set()
    for m in re.finditer(r"(?m)^\s*(?:(?:pub|abbrev|unfoldable|record|data)\s+)*(" + WORD + r")(?=\s*[:({\n]|\s+[\w'({])", code):
        found.add(m.group(1))
    for m in re.finditer(r"[({]\s*((?:[\w'-]+\s+)+)(?=:)", code):
        found.update(re.findall(WORD, m.group(1)))
    for m in re.finditer(r"\blet\s+(" + WORD + r")\b", code):
        found.add(m.group(1))
    for m in re.finditer(r"\u03bb\s+([^.]*?)\.", code):
        found.update(re.findall(WORD, m.group(1)))
    return found


# A definition that a parameter of the code would hide in a clause.
OWN_WAY = {"no-any-input": "has_no_any_input"}


def today(name):
    if name in OWN_WAY:
        return OWN_WAY[name]
    parts = name.replace("getD", "get_or").split("-")
    if name[0].isupper():
        return "".join(p[:1].upper() + p[1:] for p in parts)
    return "_".join(parts)


def main(argv):
    root = os.getcwd()
    antt, rt = list(files(root, ".antt")), list(files(root, ".rt"))
    texts = {p: read(p) for p in antt + rt}
    library = set()
    for p, t in texts.items():
        library |= imported(t)[0]
    own = set()
    for p in antt:
        own |= declared(texts[p])
    own = {n for n in own if n not in library}
    turn = {n: today(n) for n in own}
    # Names that fall together: two of the old spelling with one new, or a new one that stands already.
    known = set()
    for t in texts.values():
        known |= {m.group(0) for m in ANY.finditer(t)}
    back = {}
    for n, new in turn.items():
        back.setdefault(new, set()).add(n)
    clash = {new: sorted(olds) for new, olds in back.items() if len(olds) > 1 or new in known}
    for p, t in texts.items():
        here = {m.group(0) for m in ANY.finditer(t)}
        for new, olds in clash.items():
            at = [o for o in olds if o in here]
            if at and (new in here or len(at) > 1):
                print("clash:", os.path.relpath(p, root), new, at)
    print(len(turn), "names;", len(clash), "with a new spelling that stands already")
    if "--dry" in argv:
        return 0

    def by(m):
        return turn.get(m.group(0), m.group(0))

    def turned(text):
        return TOKEN.sub(by, text)

    def quoted(text):
        return re.sub(r"`[^`\n]*`", lambda m: turned(m.group(0)), text)

    def source(text, mark):
        lines = []
        for line in text.split("\n"):
            at = 0 if line.lstrip().startswith(mark) else line.find(" " + mark + " ")
            listed = re.match(r"\s*" + re.escape(mark) + r" {3,}\S", line)  # a line of a file's list of names
            lines.append(turned(line) if at < 0 or listed else turned(line[:at]) + quoted(line[at:]))
        return "\n".join(lines)

    def write(p, old, new):
        if new != old:
            with open(p, "w", encoding="utf-8") as f:
                f.write(new)

    for p in antt:
        write(p, texts[p], source(texts[p], "--"))
    for p in rt:
        write(p, texts[p], source(texts[p], "//"))
    for p in files(root, ".edit"):
        t = read(p)
        write(p, t, turned(t))
    for top in ("README.md", "docs", "tests/README.md"):
        at = os.path.join(root, top)
        for p in [at] if os.path.isfile(at) else files(root, ".md", top):
            if os.path.basename(p) != "PORT.md":
                write(p, read(p), quoted(read(p)))
    return 0


if __name__ == "__main__":
    raise SystemExit(main(sys.argv[1:]))
