#!/usr/bin/env python3
"""Brings this repository's own definitions and lemmas to the spelling of today's Rattle.

usage: python3 tools/respell.py        at the top of the repository, once, after port.py and before any edit by hand

Words are in snake case: a definition named likeThis is named like_this, wherever it is cited, and so is a definition of specs/ that
had dashes between its words. A lemma keeps the dashes between the names that it joins. Functions of src/, exported names,
strings, inputs and outputs keep their names. Where two names of one file would fall together, the lemma gets its dash back,
which it had before (BACK).
A file of BACK that is not there is left out, so that the script runs on an older commit too.
"""

import collections
import glob
import os
import re

DECLARED = re.compile(
    r"^[ \t]*(?:abbrev +|unfoldable +)?(?:pub +)?(?:(?:record|data) +)?([^\s:(){}]+) *(?:\([^)]*\) *|\{[^}]*\} *)*:(?!\s*=)", re.M
)
CAMEL = re.compile(r"[a-z][a-z0-9]*(?:[A-Z][A-Za-z0-9]*)+")
WORD = re.compile(r"[A-Za-z][A-Za-z0-9_']*(?:-[A-Za-z0-9_']+)*")

# Lemmas that would have the name of a definition: the files in which they stand or are cited.
BACK = {
    "by_code": ["crates/demands/proofs/Says.antt", "crates/demands/proofs/Book.antt"],
    "count_at": ["crates/tally/proofs/Tallies.antt", "crates/tally_bytes/proofs/Tells.antt"],
    "from_first": ["crates/tally_sort/proofs/Merging.antt"],
    "given_back": ["crates/van/proofs/Back.antt"],
    "in_blocks": ["crates/tally_sort/proofs/Blocks.antt", "crates/tally_sort/proofs/inner/sort_both/Proof.antt"],
    "in_field": ["crates/csv_back/proofs/Texts.antt", "crates/csv_back/proofs/Entries.antt"],
    "in_place": ["crates/file/specs/Accepted.antt", "crates/file/proofs/Accepted.antt"],
    "place_kept": ["crates/book/proofs/Again.antt", "crates/book/proofs/Listed.antt"],
    "refers_to": ["crates/build_exact/proofs/Keys.antt", "crates/build_exact/proofs/Rows.antt"],
    "text_at": ["crates/pack_carries/proofs/Rows.antt", "crates/pack_carries/proofs/Exactly.antt"],
}


def snake(name):
    return re.sub(r"(?<=[a-z0-9])([A-Z])", lambda m: "_" + m.group(1).lower(), name).lower()


def files(*kinds):
    return sorted(f for k in kinds for f in glob.glob(f"crates/*/{k}", recursive=True))


def text_of(path):
    with open(path, encoding="utf-8") as it:
        return it.read()


def declared(paths):
    found = collections.defaultdict(set)
    for path in paths:
        for name in DECLARED.findall(text_of(path)):
            found[name].add(path)
    return found


def renamed(paths):
    """The words that are respelled: camel words of any declared name, and dashed names of specs/."""
    names = declared(paths)
    words = {w for n in names for w in (p.rstrip("'") for p in n.split("-")) if CAMEL.fullmatch(w)}
    dashed = {n for n, at in names.items() if "-" in n and any("/specs/" in f for f in at) and WORD.fullmatch(n)}
    return words, dashed


def respelled(text, words, dashed):
    def word(m):
        name = m.group(0)
        if name in dashed:
            name = name.replace("-", "_")
        return "-".join(snake(p) if p.rstrip("'") in words else p for p in name.split("-"))

    return WORD.sub(word, text)


def main():
    proofs = files("specs/**/*.antt", "proofs/**/*.antt")
    words, dashed = renamed(proofs)
    for name, paths in BACK.items():
        for path in (it for it in paths if os.path.exists(it)):
            turned = re.sub(rf"(?<![\w'-]){name}(?![\w'-])", name.replace("_", "-"), text_of(path))
            with open(path, "w", encoding="utf-8") as it:
                it.write(turned)
    for path in proofs + files("src/**/*.rt", "must-fail/*.edit"):
        before = text_of(path)
        after = respelled(before, words, dashed - {n.replace("_", "-") for n in BACK})
        if after != before:
            with open(path, "w", encoding="utf-8") as it:
                it.write(after)
    print(f"respelled: {len(words)} words, {len(dashed)} dashed names")


main()
