#!/usr/bin/env python3
"""Respells the repository's own definitions, lemmas and record fields: words in snake case, types and facts in upper camel case. Crates with the name of a library get another.

usage: python3 tools/respell.py [--dry] [ROOT]

Looks at every .antt file of specs/ and proofs/ for what it declares, and writes the new spelling in every .antt file, in the ghost
lines of every .rt file, in the ghost text of the edits, and between backticks in README.md and docs/. Names of functions, of goals and of the
library, strings, inputs and outputs stay. Says which names fall together, and then changes nothing.
"""
import collections
import os
import re
import sys

WORD = r"[^\W\d][\w'-]*"
TOKEN = re.compile(r"(?<![\w'-])(" + WORD + r")(?![\w'-])")
DECLARED = re.compile(r"^(\s*)(?:(?:abbrev|unfoldable|axiom|pub|data|record)\s+)*(" + WORD + r")((?: [({][^\n]*?[)}])*) : (.*)$")
NOT_NAMES = {"let", "in", "use", "mod", "pub", "where", "elim"}
# a crate that has the name of a library of the kit
CRATES = {"bytes": "stored_bytes"}
# two names that would become one
APART = {"flat-kept": "flat_kept_lem", "records-kept": "records_kept_lem"}
# definitions that get the name of the function they are about: that name stands in paths of the function's proof alone
AS_FUNCTIONS = {"word-at", "withBit", "lineLength", "is-width"}


def files(root, ending, below=("crates",)):
    for top in below:
        for folder, dirs, names in os.walk(os.path.join(root, top)):
            dirs[:] = sorted(d for d in dirs if d not in ("out", "target", ".git"))
            for n in sorted(names):
                if n.endswith(ending):
                    yield os.path.join(folder, n)


def respelled(name):
    """The spelling that a name of ours gets."""
    if name in APART:
        return APART[name]
    if name[0].isupper():
        return "".join(part[:1].upper() + part[1:] for part in name.split("-"))
    name = re.sub(r"([a-z0-9])([A-Z])", lambda m: m.group(1) + "_" + m.group(2).lower(), name)
    return name.replace("-", "_").lower()


def declared(root):
    """What specs/ and proofs/ declare, with the files; answers to goals are not among them."""
    out = collections.defaultdict(set)
    for p in files(root, ".antt"):
        for line in open(p, encoding="utf-8"):
            m = DECLARED.match(line.rstrip("\n"))
            if not m or line.lstrip().startswith("--"):
                continue
            name, type_ = m.group(2), m.group(4)
            if name in NOT_NAMES or type_.startswith("goal.") or type_.startswith("need."):
                continue
            out[name].add(os.path.relpath(p, root))
    return out


def called(text):
    """What the imports of a file call names of ours by."""
    imports = "\n".join(re.findall(r"\buse Rattle\.(?!std\b)[^;\n]*", text))
    return {name for name in re.findall(r" as (" + WORD + r")", imports) if "-" in name}


def library(root):
    """Names that files take from the library, with the files."""
    out = collections.defaultdict(set)
    for p in list(files(root, ".antt")) + list(files(root, ".rt")):
        text = open(p, encoding="utf-8").read()
        for m in re.finditer(r"use (Rattle\.std|native|lib|borrow|mathlib|Prim)([\w.+'-]*)\.\{([^}]*)\}", text):
            for n in m.group(3).split(","):
                out[n.split(" as ")[-1].strip()].add(os.path.relpath(p, root))
    return out


def outside_comments(text, comment, change):
    """The text with what stands outside comments and strings changed."""
    parts = re.split(r'(' + comment + r'[^\n]*|"(?:[^"\\\n]|\\.)*")', text)
    return "".join(part if i % 2 else change(part) for i, part in enumerate(parts))


def ghost_parts(text, change):
    """A Rust text with its ghost lines and the braces of its clauses changed."""
    out, i = [], 0
    start = re.compile(r"ghost use [^;]*;|\b(?:requires|ensures|ghost)\b\*?[^{;\n]*\{")
    while True:
        m = start.search(text, i)
        if not m:
            return "".join(out) + text[i:]
        out.append(text[i:m.start()])
        end = m.end()
        if not m.group(0).endswith(";"):
            depth = 1
            while depth and end < len(text):
                depth += {"{": 1, "}": -1}.get(text[end], 0)
                end += 1
        out.append(change(text[m.start():end]))
        i = end


def rename_crates(root):
    """Folders, lines of crates.txt, imports and paths."""
    listed = os.path.join(root, "crates.txt")
    for old, new in CRATES.items():
        if not os.path.isdir(os.path.join(root, "crates", old)):
            continue
        os.rename(os.path.join(root, "crates", old), os.path.join(root, "crates", new))
        write(listed, lambda t: "".join(re.sub(rf"(?<![\w-]){old}(?![\w-])", new, line) if not line.startswith("#") else line for line in t.splitlines(True)))
        for p in list(files(root, ".antt")) + list(files(root, ".rt")) + list(files(root, ".edit")):
            write(p, lambda t: re.sub(rf"\bRattle\.{old}\.", f"Rattle.{new}.", re.sub(rf"\buse {old}::", f"use {new}::", t)))


def main():
    words = [w for w in sys.argv[1:] if w != "--dry"]
    root = words[0] if words else "."
    names, taken = declared(root), library(root)
    turned = {n: respelled(n) for n in names if respelled(n) != n}
    tokens = collections.defaultdict(set)
    for p in list(files(root, ".antt")) + list(files(root, ".rt")):
        text = open(p, encoding="utf-8").read()
        for word in TOKEN.findall(re.sub(r"--[^\n]*|//[^\n]*", "", text)):
            tokens[word].add(os.path.relpath(p, root))
    clash = []
    back = collections.defaultdict(list)
    for old, new in turned.items():
        back[new].append(old)
        if old in taken:
            clash.append(f"{old}: also a name of the library, in {sorted(taken[old])[:3]}")
        both = tokens[new] & tokens[old]
        if both and old not in AS_FUNCTIONS:
            clash.append(f"{old}: {new} stands beside it in {sorted(both)[:3]}")
        if new in names and old not in AS_FUNCTIONS:
            clash.append(f"{old}: {new} is declared in {sorted(names[new])[:3]}")
    for new, olds in back.items():
        if len(olds) > 1:
            clash.append(f"{olds}: all become {new}")
    print(f"{len(turned)} names turn; {len(clash)} fall together")
    for c in clash:
        print("  " + c)
    if clash or "--dry" in sys.argv:
        return 1 if clash else 0
    rename_crates(root)
    change = lambda t, also=(): TOKEN.sub(lambda m: respelled(m.group(1)) if m.group(1) in also else turned.get(m.group(1), m.group(1)), t)
    ticked = lambda t: re.sub(r"`[^`\n]*`", lambda m: change(m.group(0)), t)
    for p in files(root, ".antt"):
        write(p, lambda t: outside_comments(t, "--", lambda part: change(part, called(t))))
    for p in files(root, ".rt"):
        write(p, lambda t: ghost_parts(t, lambda g: outside_comments(g, "//", lambda part: change(part, called(t)))))
    for p in files(root, ".edit"):
        write(p, lambda t: ghost_parts(t, change))
    for p in [os.path.join(root, "README.md")] + list(files(root, ".md", ("docs",))):
        write(p, ticked)
    return 0


def write(path, change):
    old = open(path, encoding="utf-8").read()
    new = change(old)
    if new != old:
        open(path, "w", encoding="utf-8").write(new)


sys.exit(main())
