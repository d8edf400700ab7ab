#!/usr/bin/env python3
"""Brings the names of this repository's own definitions and lemmas to the spelling of today's Rattle.

usage: python3 tools/respell_words.py [FOLDER]

Words are in snake case; types, modules and facts keep their capital; a dash joins two names. So each part of a name
between dashes that is written as inOneWord becomes in_one_word, in the .rt and .antt files below FOLDER/crates. Where
that would give two things of one file the same name, the other one, a lemma or a local name, is renamed first (APART).
The must-fail edits follow by hand, with the wrong meaning that they have. Run once, after the kit's own port script.
"""

import os
import re
import sys

# A name's characters, as the proofs use them.
NAME = re.compile(r"[A-Za-z0-9_'′₀-₉α-ω-]+")
CAMEL = re.compile(r"[a-z][a-z0-9]*(?:[A-Z][A-Za-z0-9]*)+['′]*")

# crates/FOLDER, a name there, what it is called first: it would fall together with a respelled word.
APART = [
    ("monomial/proofs", "from_key", "from_key_lem"),
    ("merge_areas/proofs", "at_front", "at_front_lem"),
    ("merge_areas/proofs", "at_back", "at_back_lem"),
    ("space/proofs", "laid_out", "laid_out_lem"),
    ("call/proofs", "laid_out", "laid_out_lem"),
    ("runs/proofs/OutcomeLaws.antt", "held_in", "held_in-counted"),
    ("division/proofs/StepsAlong.antt", "too_large", "large_tail"),
    ("reducer/proofs", "goes_on", "goes_on_lem"),
]


def part(p):
    return re.sub(r"([a-z0-9])([A-Z])", r"\1_\2", p).lower() if CAMEL.fullmatch(p) else p


def respelled(name):
    return "-".join(part(p) for p in name.split("-"))


def turned(path, text):
    for folder, name, to in APART:
        if f"crates/{folder}" in path:
            text = re.sub(rf"(?<![\w.'-]){re.escape(name)}(?![\w'-])", to, text)
    return NAME.sub(lambda m: respelled(m.group()), text)


def main():
    root = sys.argv[1] if len(sys.argv) > 1 else "."
    for folder, dirs, files in os.walk(os.path.join(root, "crates")):
        dirs[:] = sorted(d for d in dirs if d not in ("out", "must-fail"))
        for f in sorted(files):
            if not f.endswith((".rt", ".antt")):
                continue
            path = os.path.join(folder, f)
            with open(path, encoding="utf-8") as stream:
                text = stream.read()
            new = turned(path, text)
            if new != text:
                with open(path, "w", encoding="utf-8") as stream:
                    stream.write(new)


if __name__ == "__main__":
    main()
