#!/usr/bin/env python3
"""Writes the repository's own definitions and lemmas in the spelling of the Rattle that it was brought to: camel case of a word becomes snake case.

usage: tools/respell.py [--list]        at the top of the repository

A name is respelled where a file of specs/ or proofs/ declares it (or it is a part, between dashes, of a name declared there), in .antt and .rt files, must-fail
edits and pages. Functions of src/, C names, strings, inputs and outputs have none of these forms. --list prints the names, and which of them fall together with
a name that was there. Run once, right after port.py.
"""

import os
import re
import subprocess
import sys

CAMEL = re.compile(r"(?<![A-Za-z0-9_])[a-z][a-z0-9]*(?:[A-Z][A-Za-z0-9]*)+(?![A-Za-z0-9_])")
DECLARED = re.compile(r"^\s*(?:(?:abbrev|unfoldable|pub|record|data|constructor|ruleset|syntax)\s+)*([^\s(){}:.;,]+(?:\s+[^\s(){}:.;,=]+)*)\s*(?::|=|where\b)", re.M)


# A lemma of the name that a definition gets: by file, the lemma and its new name.
LEMMAS = {
    "crates/reading/proofs/Stops.antt": ("last_step", "last_step_lem"),
    "crates/reader/proofs/Good.antt": ("last_word", "last_word_lem"),
    "crates/codec/proofs/Numbers.antt": ("read_number", "read_number_lem"),
    "crates/machine/proofs/Numbers.antt": ("read_number", "read_number_lem"),
}


def files():
    got = subprocess.run(["git", "ls-files", "-co", "--exclude-standard"], capture_output=True, text=True, check=True).stdout.split("\n")
    for p in got:
        if p.startswith(("reference/", "examples/", "bench/", "include/")):
            continue
        if p.endswith((".antt", ".rt", ".edit")) or (p.startswith(("docs/", "README")) and p.endswith(".md")):
            yield p


def snake(word):
    return re.sub(r"(?<=[a-z0-9])([A-Z])", r"_\1", word).lower()


def main():
    texts = {}
    for p in files():
        with open(p, encoding="utf-8", newline="") as f:
            texts[p] = f.read()
    own = set()
    for p, t in texts.items():
        if p.endswith(".antt"):
            for m in DECLARED.finditer(t):
                for name in m.group(1).split():
                    own.update(CAMEL.findall(name))
    words = set()
    for p, t in texts.items():
        if p.endswith((".antt", ".rt")):
            words.update(re.findall(r"[A-Za-z_][A-Za-z0-9_]*", t))
    new = {w: snake(w) for w in own}
    if "--list" in sys.argv:
        for w in sorted(new):
            print(w, new[w], "STOOD" if new[w] in words else "")
        seen = {}
        for w, n in new.items():
            seen.setdefault(n, []).append(w)
        for n, ws in seen.items():
            if len(ws) > 1:
                print("TOGETHER", n, ws)
        return
    for p, t in texts.items():
        to = t
        if p in LEMMAS:
            to = re.sub(r"(?<![A-Za-z0-9_-])%s(?![A-Za-z0-9_-])" % LEMMAS[p][0], LEMMAS[p][1], to)
        to = CAMEL.sub(lambda m: new.get(m.group(0), m.group(0)), to)
        if to != t:
            with open(p, "w", encoding="utf-8", newline="") as f:
                f.write(to)


main()
