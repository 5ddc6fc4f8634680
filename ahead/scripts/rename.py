#!/usr/bin/env python3
"""Renames names of the sources in one go: rename.py ROOT. Textual; every rule is scoped by files."""
import re, subprocess, sys
from pathlib import Path

ROOT = Path(sys.argv[1]).resolve()
CRATES = ROOT / "crates"
log = {}

def files(*globs):
    seen = []
    for g in globs:
        for p in sorted(ROOT.glob(g)):
            if p.is_file() and "target" not in p.parts and p not in seen:
                seen.append(p)
    return seen

ALL = ("crates/**/*.rt", "crates/**/*.antt", "crates/**/*.edit")
DOCS = ("README.md", "docs/*.md", "tests/README.md", "crates.txt", "tests/**/*.py", "docs/requests/*.md")

def sub(globs, pattern, repl, flags=0):
    count = 0
    for p in files(*globs):
        text = p.read_text()
        new, n = re.subn(pattern, repl, text, flags=flags)
        if n:
            p.write_text(new)
            count += n
    log[pattern] = log.get(pattern, 0) + count
    if count == 0:
        print("nothing for", pattern, globs)

def move(old, new):
    src, dst = ROOT / old, ROOT / new
    if not src.exists():
        print("no", old)
        return
    dst.parent.mkdir(parents=True, exist_ok=True)
    subprocess.run(["git", "-C", str(ROOT), "mv", old, new], check=True)

def word(globs, old, new):
    """A whole name, hyphens counted as part of it."""
    sub(globs, rf"(?<![\w\-'«]){re.escape(old)}(?![\w\-'»])", new)

def stem(globs, old, new):
    """A name, and names that it begins (old-..)."""
    sub(globs, rf"(?<![\w\-'«]){re.escape(old)}(?![\w'»])", new)

PREFIX = r"(?:After-|Need-|Need-sub-|Need-add-|Need-cast-|Need-mul-|sub-|add-|cast-|mul-|at-)?"
SUFFIX = r"(?:-requires(?:-\d+)?|-spec|-\d+)?"

def function(owner, module, old, new, users):
    """A function `old` of crates/owner/src/module.rt, called in crates `users` (owner among them)."""
    hold, hnew = old.replace("_", "-"), new.replace("_", "-")
    for crate in users:
        rt = (f"crates/{crate}/src/*.rt",)
        if crate == owner:
            sub((f"crates/{crate}/src/*.rt",), rf"(?<![\w.:]){old}(?=\()", new)
            for q in (module, "crate"):
                pass
            sub_quiet(rt, rf"\b{module}::{old}\b", f"{module}::{new}")
        sub_quiet(rt, rf"\b{owner}::{old}\b", f"{owner}::{new}")
        edits = (f"crates/{crate}/must-fail/*.edit",)
        sub_quiet(edits, rf"(?<![\w.]){old}(?=\()", new)
        antt = (f"crates/{crate}/proofs/**/*.antt",)
        # names made from the function's: After-.., Need-..-requires, ..-spec
        sub_quiet(antt, rf"(?<![\w\-'])(After-|Need-)((?:sub-|add-|cast-|mul-)?){hold}(?=\d*(?![\w])|-)", lambda m: m.group(1) + m.group(2) + hnew)
        sub_quiet(antt, rf"(?<![\w\-']){hold}(?=-requires|-spec)", hnew)
        sub_quiet(antt, rf"(?<![\w\-'])(sub-|add-|cast-|mul-|slice-aggregate-){hold}(?=-\d+(?![\w-])|(?![\w-]))", lambda m: m.group(1) + hnew)
        sub_quiet(antt, rf"(?<![\w\-'])(Need-slice-aggregate-){hold}(?=-\d+(?![\w-])|(?![\w-]))", lambda m: m.group(1) + hnew)
        # fields of a place
        sub_quiet(antt, rf"(?<= \.){hold}(?=\d*\b(?!-))", hnew)
        sub_quiet(antt, rf"(?<=proofs\.{module}\.){old}(?=\.)", new)
    if (CRATES / owner / "proofs" / module / old).exists():
        move(f"crates/{owner}/proofs/{module}/{old}", f"crates/{owner}/proofs/{module}/{new}")

def sub_quiet(globs, pattern, repl):
    for p in files(*globs):
        text = p.read_text()
        new, n = re.subn(pattern, repl, text)
        if n:
            p.write_text(new)

def crate(old, new):
    move(f"crates/{old}", f"crates/{new}")
    sub(ALL, rf"Rattle·{old}(?=[·.])", f"Rattle·{new}")
    sub_quiet(ALL, rf"(?<![\w\-.:]){old}::", f"{new}::")
    sub_quiet(ALL, rf"#{old}·", f"#{new}·")
    sub_quiet(ALL, rf"calls-{old}·", f"calls-{new}·")
    sub(("crates.txt",), rf"(?<![\w-]){old}(?![\w-])", new)
    sub_quiet(("README.md", "docs/*.md", "tests/README.md", "tests/**/*.py"), rf"`{old}`", f"`{new}`")

exec(Path(__file__).with_name("names_rules.py").read_text())
