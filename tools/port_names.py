#!/usr/bin/env python3
"""Brings the names of this repository's definitions and lemmas to today's spelling: words in snake case.

usage: python3 tools/port_names.py [FOLDER]     at the top of the repository (or in FOLDER), once, right after the kit's port.py

Renamed are: what .antt files define (definitions, lemmas, fields, constructors) and their bound names, where a lower camel or a dashed
name stands; constants such as FP-CTRL become FP_CTRL. Names of src/, generated names (behind a dot) and texts keep their spelling.
Clauses, ghost uses and comments of .rt files, .antt files and must-fail edits are rewritten in place. A name that would fall together
with another one gets `_of` after it, and is printed.
"""

import collections
import glob
import os
import re
import sys

WORD = r"[A-Za-z_][A-Za-z0-9_']*(?:-[A-Za-z0-9_']+)*"


def own(path):
    return "/out/" not in path


def snake(name):
    name = name.replace("-", "_")
    if re.match(r"[A-Z0-9_']+$", name):
        return name
    name = re.sub(r"(?<=[a-z0-9])([A-Z])", lambda m: "_" + m.group(1).lower(), name)
    return name


def wanted(name):
    if not re.match(WORD + "$", name):
        return False
    if re.match(r"[A-Z0-9]+(-[A-Z0-9]+)+$", name):
        return True
    if not name[0].islower():
        return False
    return "-" in name or bool(re.search(r"[a-z0-9][A-Z]", name))


def defined(texts):
    """Names that .antt files define: at the left margin, and indented ones of records, data and local functions."""
    top, inner = collections.Counter(), collections.Counter()
    for text in texts.values():
        for line in text.split("\n"):
            m = re.match(r"(?:abbrev |unfoldable )?(?:pub )?(?:ruleset )?(" + WORD + r") ?(?::|=)(?: |$)", line)
            if m:
                top[m.group(1)] += 1
            m = re.match(r"\s+(?:pub )?(" + WORD + r") : ", line)
            if m:
                inner[m.group(1)] += 1
    return top, inner


def camel(texts):
    found = set()
    for text in texts.values():
        for m in re.finditer(WORD, re.sub(r"--.*", "", text)):
            w = m.group(0)
            if re.match(r"[a-z][a-z0-9']*[A-Z][A-Za-z0-9']*$", w) and not re.match(r"x[0-9A-F]+$", w):
                found.add(w)
    return found


def renaming(antt):
    top, inner = defined(antt)
    names = {n for n in list(top) + list(inner) if wanted(n)} | camel(antt)
    plain = {n for n in list(top) + list(inner) if not wanted(n)}
    new = {}
    taken = collections.defaultdict(list)
    for n in sorted(names):
        taken[snake(n)].append(n)
    for s, olds in sorted(taken.items()):
        for o in olds:
            new[o] = s
        if len(olds) > 1:
            for o in olds:
                if "-" in o:
                    new[o] = s + "_lem"
        elif s in plain:
            new[olds[0]] = s + ("_lem" if "-" in olds[0] else "_of")
        if len(olds) > 1 or s in plain:
            print("falls together: " + ", ".join("%s is %s" % (o, new[o]) for o in olds) + (", beside %s" % s if s in plain else ""))
    return new, top, inner


def turn(text, new):
    def one(m):
        w = m.group(0)
        if w not in new:
            return w
        before = text[: m.start()]
        if "-" in w and before.endswith(".") and not re.match(r"[A-Z0-9-]+$", w):
            return w
        return new[w]

    return re.sub(r"(?<![A-Za-z0-9_'◌])" + WORD, one, text)


def turn_rt(text, new):
    """Clauses, ghost uses and comments alone."""
    out = []
    inside = 0
    for line in text.split("\n"):
        s = line.lstrip()
        begins = re.match(r"(ensures|requires)\b|ghost |#\[tactic", s)
        if inside or begins:
            turned = turn(line, new)
            code = line
            inside += code.count("{") - code.count("}")
            inside = max(inside, 0)
            if not (begins or inside):
                inside = 0
            out.append(turned)
        elif s.startswith("//"):
            out.append(turn(line, {k: v for k, v in new.items() if "-" not in k}))
        else:
            out.append(line)
    return "\n".join(out)


def turn_edit(text, new):
    """An edit's texts, of an .antt file or of a clause as a whole, of other code the names with no dash."""
    whole, lines = False, []
    plain = {k: v for k, v in new.items() if "-" not in k}
    for line in text.split("\n"):
        if line.startswith("file:"):
            whole = line.strip().endswith(".antt")
        elif line.startswith(("old:", "new:")):
            line = turn(line, new if whole or re.search(r"ensures|requires|ghost", line) else plain)
        lines.append(line)
    return "\n".join(lines)


def look(path, text, new):
    """Names of this file that would be hidden by, or hide, one that the file has already."""
    tokens = set(re.findall(WORD, re.sub(r"--.*|//.*", "", text)))
    for w in sorted(tokens):
        if w in new and new[w] in tokens:
            print("look: %s: %s is %s, which the file has already" % (path, w, new[w]))


def main():
    root = sys.argv[1] if len(sys.argv) > 1 else "."
    os.chdir(root)
    paths = [p for p in glob.glob("crates/**/*.antt", recursive=True) if own(p)]
    antt = {p: open(p, encoding="utf-8").read() for p in sorted(paths)}
    new = renaming(antt)[0]
    for p, text in antt.items():
        look(p, text, new)
        t = turn(text, new)
        if t != text:
            open(p, "w", encoding="utf-8").write(t)
    for p in sorted(q for q in glob.glob("crates/**/*.rt", recursive=True) if own(q)):
        text = open(p, encoding="utf-8").read()
        look(p, text, new)
        t = turn_rt(text, new)
        if t != text:
            open(p, "w", encoding="utf-8").write(t)
    for p in sorted(glob.glob("crates/*/must-fail/*.edit")):
        text = open(p, encoding="utf-8").read()
        t = turn_edit(text, new)
        if t != text:
            open(p, "w", encoding="utf-8").write(t)
    print("%d names" % len(new))


main()
