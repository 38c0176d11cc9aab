#!/usr/bin/env python3
"""Counts the places in crates/*/src that docs/DESIGN-PASS.md speaks of, point by point, in the working tree or at a commit.

Usage: tools/places.py [--list POINT] [COMMIT]     (POINT: a word of the left column; prints FILE:LINE of each place)
"""
import collections
import os
import re
import subprocess
import sys

KEYWORDS = set("""as bool break char const continue crate else enum extern false fn for if impl in let loop match mod move mut
pub ref return self Self static str struct super trait true type u8 u16 u32 u64 usize unsafe use where while""".split())


def sources(commit):
    """Path and text of each source, without the lines of contracts."""
    if commit:
        names = subprocess.run(["git", "ls-tree", "-r", "--name-only", commit, "crates"], capture_output=True, text=True, check=True)
        for name in names.stdout.split("\n"):
            if "/src/" in name and name.endswith(".rt"):
                text = subprocess.run(["git", "show", f"{commit}:{name}"], capture_output=True, text=True, check=True).stdout
                yield name, text
        return
    for folder, _, names in sorted(os.walk("crates")):
        if folder.endswith("/src") and "/out" not in folder:
            for name in sorted(names):
                if name.endswith(".rt"):
                    path = os.path.join(folder, name)
                    yield path, open(path).read()


def bare(text):
    """The text with comments blanked, line for line."""
    return re.sub(r"//[^\n]*", "", text)


def blocks(text, opening):
    """Line and text of each item that `opening` begins, up to its closing brace in the same column."""
    lines = text.split("\n")
    for i, line in enumerate(lines):
        if re.match(opening, line):
            indent = re.match(r" *", line).group(0)
            for j in range(i, len(lines)):
                if lines[j].startswith(indent + "}") and (j > i or "{" in line):
                    break
            yield i + 1, "\n".join(lines[i : j + 1])


def functions(text):
    return blocks(text, r" *(pub )?(pub\(crate\) )?(const )?(extern \"C\" )?fn ")


def variants(item):
    body = item[item.index("{") + 1 : item.rindex("}")]
    depth, out, word = 0, [], ""
    for ch in body:
        depth += ch in "({<"
        depth -= ch in ")}>"
        if ch == "," and depth == 0:
            out.append(word.strip())
            word = ""
        else:
            word += ch
    return [v for v in out + [word.strip()] if v]


def shape(function):
    """A function's code with names and numbers blanked; contracts left out."""
    code = re.sub(r"\n *(ensures|requires|decreases)\b.*?\}(?=\n *(ensures|requires|decreases)\b|\n *\{)", "", function, flags=re.S)
    tokens = re.findall(r"[A-Za-z_]\w*|\d\w*|b?'[^']*'|b?\"[^\"]*\"|[^\s\w]", code)
    return tuple(t if t in KEYWORDS and t[0] != "u" or not re.match(r"\w|b?['\"]", t) else "n" if t[0].isdigit() else "x" for t in tokens)


def places(commit):
    found = collections.defaultdict(list)
    shapes = collections.defaultdict(list)
    for path, text in sources(commit):
        text = bare(text)
        for n, item in blocks(text, r" *(pub )?enum "):
            vs = variants(item)
            loaded = [v for v in vs if "(" in v or "{" in v]
            if len(vs) == 2 and loaded or any(v.startswith("Good") for v in vs):
                found["1a enums like Option or Result"].append(f"{path}:{n}")
        for n, item in functions(text):
            head = item.split("{")[0].split("\n    ensures")[0].split("\n    requires")[0]
            literals = re.findall(r"^ *(?:0x\w+|\d+)(?: ?(?:\||\.\.=) ?\w+)* =>", item, flags=re.M)
            numbers = re.findall(r"^ *[A-Z]\w*(?:::\w+)?(?:\([^)]*\)|\s*\{[^}]*\})? => \d+,", item, flags=re.M)
            if len(literals) > 1 or len(numbers) > 1:
                found["1b kinds as numbers"].append(f"{path}:{n}")
            key = shape(item)
            if len(key) > 24:
                shapes[key].append(f"{path}:{n}")
            if re.search(r"return (true|false);\s*\}\s*(true|false)\s*\}\s*$", item):
                found["4c tests as branches"].append(f"{path}:{n}")
            if re.search(r"\bt: &(mut )?\[u32; 7\],\s*m: &(mut )?\[u32; 12\]", head):
                found["5a words of a transfer and of an operation"].append(f"{path}:{n}")
            if re.search(r"\broom: &mut \[u32; 192\],\s*(words: |list: |buf: )", head):
                found["5b room, words, buffer"].append(f"{path}:{n}")
            if re.search(r"\bout: &mut \[u8(; 65536)?\],\s*at: usize", head):
                found["5c text and the place behind it"].append(f"{path}:{n}")
            if re.search(r"&(mut )?\[(u32; 13|u64; 62)\]", head):
                found["6a records as arrays of numbers"].append(f"{path}:{n}")
        for n, line in enumerate(text.split("\n"), 1):
            if re.match(r" *while ", line):
                found["3 loops that count by hand"].append(f"{path}:{n}")
            if re.match(
                r" *(pub )?fn (wide|wide_half|least|smaller|minus|minus_words|less|left_after|made_of|behind|words_below|tar_run|poke|put|place_word|"
                r"word_at|byte_at|at|byte|half|word|word_of|get_word|get_last|put_word|put_last|le_bytes|word_bytes|big_endian|is_nothing|"
                r"error_told|error_at|outcome_told|outcome_at|raw_outcome|pattern_no|pattern_at|refusal_number|decimal|digit|digit_of)\(",
                line,
            ):
                found["4a what the library has"].append(f"{path}:{n}")
            if re.search(r"\b(\w+): \1,?( |$)", line) or re.search(r"\w: _[,} ]", line):
                found["4b fields written twice, or as _"].append(f"{path}:{n}")
            if re.match(r" *(pub )?const [A-Z_]+: (u8|u32|usize) = (\d{1,2}|b'.'|0x[1-7]0000);", line):
                found["1c constants that number kinds or places"].append(f"{path}:{n}")
            if re.search(r"match \(?(number|group|mode|kind|step|phase|n|byte\(r, 0\)|number_of\(r\))\)? \{", line):
                found["7 switches on a number of what to do"].append(f"{path}:{n}")
    for members in shapes.values():
        if len(members) > 1:
            found["2 functions of one shape"] += members
    return found


def main():
    args = sys.argv[1:]
    wanted = None
    if args[:1] == ["--list"]:
        wanted, args = args[1], args[2:]
    found = places(args[0] if args else None)
    for point in sorted(found):
        if wanted is None:
            print(f"{len(found[point]):4}  {point}")
        elif point.startswith(wanted):
            print("\n".join(found[point]))


main()
