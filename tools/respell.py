#!/usr/bin/env python3
"""Brings the names of this repository's definitions and lemmas to the spelling that the language now has.

usage: python3 tools/respell.py [--list]      at the top, once, right after the toolchain's script for older repositories

Words are in snake case; types, records and facts are in camel case. Only names that an .antt file of the repository declares
or binds are turned, in .antt files, in the code's clauses and in must-fail edits. A name that a file takes from a library, or
that the check makes from the code, stays. Names that would fall together are told and nothing is written. --list prints each
name with its new one, and changes nothing.
"""

import collections
import os
import re
import sys

WORD = r"[A-Za-z_][\w']*(?:-[\w']+)+"
TOKEN = re.compile(r"(?<![\w'-])" + WORD + r"(?![\w'-])")
ANSWERS = ("Answers.antt", "Invariants.antt", "Choices.antt", "Proof.antt")


def files(*endings):
    for folder, inner, names in os.walk("crates"):
        inner[:] = sorted(d for d in inner if d != "out")
        for name in sorted(names):
            if name.endswith(endings):
                yield os.path.join(folder, name)


def new_name(word):
    parts = word.split("-")
    if word[0].isupper():
        return "".join(p[:1].upper() + p[1:] for p in parts)
    return "_".join(parts).replace("getD", "get_or")


def imported(text):
    """The names that the file takes from the toolchain's libraries, or from what the check makes of the code."""
    out = set()
    for path, names in re.findall(r"(?m)^\s*(?:ghost )?use ([\w.'·-]+?)\.\{([^}]*)\}", text):
        if not re.match(r"Rattle\.(?!std)\w+\.(specs|proofs)\.", path) or re.search(r"\.(Goals|Given)$", path):
            out |= set(TOKEN.findall(names))
    return out


def declared(text, answers):
    """The names that an .antt file declares or binds; in answers, those of goals are the check's."""
    out = set()
    code = re.sub(r"(?m)--.*$", "", text)
    for word in re.findall(r"(?m)^\s*(?:abbrev |pub |unfoldable |data |record |module )*(" + WORD + r")\s*(?:[({][^=\n]*[)}]\s*)?:", code):
        if not (answers and re.search(r"(?:goal|given)\." + re.escape(word) + r"(?![\w'-])", code)):
            out.add(word)
    out |= set(re.findall(r"\blet (" + WORD + r")\b", code))
    for names in re.findall(r"λ ([^.()]*)\.", code) + re.findall(r"[({]([\w' -]+) :", code):
        out |= set(TOKEN.findall(names))
    return out


def turned(path, text, new):
    stay = imported(text)
    turn = lambda m: m[0] if m[0] in stay else new.get(m[0], m[0])
    if path.endswith(".rt"):
        return "\n".join(l if l.lstrip().startswith("//") else TOKEN.sub(turn, l) for l in text.split("\n"))
    return TOKEN.sub(turn, text)


def main():
    texts = {p: open(p, encoding="utf-8").read() for p in files(".antt", ".rt", ".edit")}
    names = set()
    for path, text in texts.items():
        if path.endswith(".antt"):
            names |= declared(text, "/proofs/" in path and os.path.basename(path) in ANSWERS)
    new = {w: new_name(w) for w in names}
    together = collections.defaultdict(set)
    for word, name in new.items():
        together[name].add(word)
    bad = {n: ws for n, ws in together.items() if len(ws) > 1}
    for name, words in sorted(bad.items()):
        print("falls together:", name, "from", *sorted(words), file=sys.stderr)
    if bad:
        return 1
    if "--list" in sys.argv:
        print("\n".join(f"{w} {new[w]}" for w in sorted(new)))
        return 0
    for path, text in texts.items():
        out = turned(path, text, new)
        if out != text:
            with open(path, "w", encoding="utf-8") as f:
                f.write(out)
    return 0


if __name__ == "__main__":
    raise SystemExit(main())
