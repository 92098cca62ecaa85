#!/usr/bin/env python3
"""Rows of docs/PLANTED.md: each must-fail edit, and what refused it, from what `rt ci` wrote.

usage: python3 tools/refusals.py LOG..    the outputs of runs of `rt ci`, the newest last
"""
import glob
import os
import re
import sys

TOP = os.path.join(os.path.dirname(os.path.abspath(__file__)), "..", "crates")
LINE = re.compile(r"rt: must-fail (\w+)/(\w+)\.edit: refused, as it must be(.*)")


def cell(text):
    return "`" + text.strip().replace("|", "\\|") + "`" if text.strip() else "(dropped)"


def main():
    said = {}
    for log in sys.argv[1:]:
        for line in open(log, encoding="utf-8", errors="replace"):
            m = LINE.match(line)
            if m:
                said[m.group(1), m.group(2)] = m.group(3)
    for path in sorted(glob.glob(os.path.join(TOP, "*", "must-fail", "*.edit"))):
        crate, name = path.split(os.sep)[-3], os.path.basename(path)[:-5]
        text = open(path, encoding="utf-8").read()
        file = re.search(r"^file: (.*)$", text, re.M).group(1)
        pairs = re.findall(r"^old: ?(.*)\nnew: ?(.*)$", text, re.M)
        old, new = ("; ".join(cell(pair[i]) for pair in pairs) for i in (0, 1))
        why = said.get((crate, name))
        if why is None:
            goal = "not seen"
        else:
            named = re.search(r"\(`([\w+.'-]+)(?:`\)|`?$)|error: `([\w+.'-]+)`", why)
            goal = "`" + (named.group(1) or named.group(2)) + "`" if named else "?" + why[:80]
            where = re.search(r"\./proofs/([\w/+'-]+)/Answers\.antt", why)
            if where:
                goal += " of `" + crate + "::" + where.group(1).replace("+", "").replace("/", "::") + "`"
            else:
                place = re.search(r"(src/[\w/]+\.rt):(\d+)", why)
                goal += " of `" + function_at(os.path.join(TOP, crate, place.group(1)), int(place.group(2))) + "`" if place else ""
        print(f"| {crate} | {name} | {file} | {old} | {new} | {goal} |")


def function_at(path, line):
    """The function whose head or body has this line."""
    lines = open(path, encoding="utf-8").read().splitlines()
    while line <= len(lines) and re.match(r"\s*(//|#\[)", lines[line - 1]):
        line += 1
    around = [m.group(1) for m in (re.match(r"\s*(?:pub(?:\(\w+\))? )?(?:const )?fn (\w+)", x) for x in lines[:line]) if m]
    return around[-1] if around else os.path.basename(path)


main()
