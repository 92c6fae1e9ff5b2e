#!/usr/bin/env python3
"""Respells the repository's own words as today's Rattle spells them: a definition, a lemma or a variable in camel case goes to snake case.

usage: python3 tools/respell.py            at the top of the repository, once, right after the kit's port.py

It goes over crates/*/{src,specs,proofs,must-fail}. The code's own names are in snake case already, and types and modules begin with a capital, so it touches neither.
"""

import os
import re

WORD = re.compile(r"(?<![A-Za-z0-9_'])[a-z][a-z0-9_']*[A-Z][A-Za-z0-9_']*")


def snake(word):
    return re.sub(r"([a-z0-9])([A-Z])", lambda m: m.group(1) + "_" + m.group(2).lower(), word)


def main():
    words = set()
    for folder, dirs, files in os.walk("crates"):
        dirs[:] = sorted(d for d in dirs if d != "out")
        for name in sorted(files):
            if not name.endswith((".rt", ".antt", ".edit")):
                continue
            path = os.path.join(folder, name)
            with open(path, encoding="utf-8") as f:
                old = f.read()
            words |= {w for w in WORD.findall(old) if snake(w) != w}
            new = WORD.sub(lambda m: snake(m.group(0)), old)
            if new != old:
                with open(path, "w", encoding="utf-8") as f:
                    f.write(new)
    for word in sorted(words):
        print(word, snake(word))


main()
