#!/usr/bin/env python3
"""Brings the definitions, lemmas, fields and locals of this repository's own .antt files to today's spelling: words in snake case,
types in camel case. Run once, at the top, after the kit's port.py. Functions, strings, comments, inputs and outputs keep their names.

usage: python3 tools/respell.py [--list]     --list prints the names, old and new, and writes nothing
"""

import os
import re
import sys

WORD = r"[^\W\d][\w'≤≡≢]*(?:-[\w'≤≡≢]+)+"
TOKEN = re.compile(r"(?<![\w'\-≤≡≢])(" + WORD + r")(?![\w'\-])")
DECLARES = re.compile(r"^(\s*)(?:(?:pub|abbrev|unfoldable|data|record)\s+)*(" + WORD + r")\s*(?:\([^)]*\)\s*|\{[^}]*\}\s*)*:(?!:)\s*(.*)")
# Words that a proof gives to what it brings in, binds or matches on.
LOCAL = ["high-alone", "low-alone", "sided-facts", "terms-are", "curve-is", "no-reading", "no-curve"]


def files(ending):
    for folder, dirs, names in os.walk("crates"):
        dirs[:] = sorted(d for d in dirs if d != "out")
        for name in sorted(names):
            if name.endswith(ending):
                yield os.path.join(folder, name)


def blank(text, comment):
    """The text with comments, strings and characters blanked, of the same length."""
    pattern = comment + r"""[^\n]*|b?"(?:\\.|[^"\\])*"|b?'(?:\\x[0-9a-f]{2}|\\.|[^'\\\n])'""" if comment == "//" else comment + r"[^\n]*"
    return re.sub(pattern, lambda m: " " * len(m[0]), text)


def respelled(name):
    parts = name.split("-")
    if name[0].isupper():
        return "".join(p[0].upper() + p[1:] for p in parts)
    return "_".join(p.lower() if len(p) == 1 else p for p in parts)


def declared():
    words, fields = set(LOCAL), set()
    for path in files(".antt"):
        for line in blank(open(path, encoding="utf-8").read(), "--").split("\n"):
            m = DECLARES.match(line)
            if m and not m[3].startswith("goal."):
                words.add(m[2])
                if m[1]:
                    fields.add(m[2])
    return words, fields


def main():
    words, fields = declared()
    if "--list" in sys.argv:
        for w in sorted(words):
            print(w, respelled(w))
        return 0
    for ending, comment in ((".antt", "--"), (".rt", "//")):
        for path in files(ending):
            text = open(path, encoding="utf-8").read()
            seen = blank(text, comment)
            out, at = [], 0
            for m in TOKEN.finditer(seen):
                name, dotted = m[1], m.start() > 0 and seen[m.start() - 1] == "."
                if name in words and (not dotted or name in fields or name[0].isupper() or seen[: m.start()].endswith("sided-facts.")):
                    out += [text[at : m.start()], respelled(name)]
                    at = m.end()
            new = "".join(out) + text[at:]
            if new != text:
                open(path, "w", encoding="utf-8").write(new)
    return 0


raise SystemExit(main())
