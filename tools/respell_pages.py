#!/usr/bin/env python3
"""Brings the pages and the headers to the names that definitions, lemmas and crates have today.

usage: python3 tools/respell_pages.py COMMIT        at the top of the repository

COMMIT is the one before the port, whose names the pages have. A name counts as the same where a module of that name declares
it in both trees and the two differ in case, dashes and underscores alone. Only what stands between backticks is changed, and of
a word with no module before it only one that no crate has any more. It may run again, when more names have changed; what it
prints is what the pages name by a module, what COMMIT had, and what no crate has now.
"""

import collections
import glob
import re
import subprocess
import sys

# Crates that have another name.
CRATES = {"csv": "csv_paf"}
HOW = {"abbrev", "unfoldable", "pub", "record", "data"}
PATH = re.compile(r"crates/([^/]+)/(?:specs|proofs)/(?:.*/)?([^/]+)\.antt$")


def declared(texts):
    """Returns each name that the modules declare, by (crate, module)."""
    found = collections.defaultdict(set)
    for path, text in texts:
        at = PATH.match(path)
        for line in text.split("\n"):
            words = [it for it in line.split() if it not in HOW]
            # (what is indented is a field, a case, or a definition of a module with parameters, where a colon follows)
            is_inner = line.startswith(" ") and words[1:2] == [":"]
            if at and words and (is_inner or not line.startswith((" ", "--", "use ", "pub use ", "module ", "mod ", "pub mod "))):
                found[CRATES.get(at[1], at[1]), at[2]].add(words[0].split("{")[0])
    return found


def of_commit(commit):
    names = subprocess.run(["git", "ls-tree", "-r", "--name-only", commit, "crates"], capture_output=True, text=True, check=True).stdout.split("\n")
    for path in filter(PATH.match, names):
        yield path, subprocess.run(["git", "show", f"{commit}:{path}"], capture_output=True, text=True, check=True).stdout


def of_tree():
    for path in glob.glob("crates/*/*/**/*.antt", recursive=True):
        with open(path, encoding="utf-8") as it:
            yield path, it.read()


def bare(name):
    return re.sub(r"[-_'′]", "", name).lower()


def changes(old, new):
    """Returns what to write for a name behind its module, and for one that stands alone; each only where that is one thing."""
    behind, alone = collections.defaultdict(set), collections.defaultdict(set)
    today = {name for names in new.values() for name in names}
    by_module = collections.defaultdict(set)
    for (_, module), names in new.items():
        by_module[module] |= names
    for (crate, module), names in old.items():
        for name in names:
            # (in its own crate, or in another one that the module went to)
            for place in (new.get((crate, module), set()), by_module[module]):
                same = {it for it in place if bare(it) == bare(name)}
                # (a lemma keeps its dashes beside a definition of the same words)
                same = {it for it in same if ("-" in it) == ("-" in name)} or same
                if same:
                    behind[module, name] |= same
                    alone[name] |= same
                    break
    behind = {at: min(names) for at, names in behind.items() if len(names) == 1}
    alone = {name: min(names) for name, names in alone.items() if len(names) == 1 and name not in today}
    return behind, alone


def respelled(text, behind, alone):
    def word(m):
        module, name = m.group(1), m.group(2)
        if module:
            return f"{module}.{behind.get((module, name), name)}"
        return alone.get(name, name)

    def quoted(m):
        inside = re.sub(r"(?<![\w.·/-])(?:([A-Z]\w*)\.)?([A-Za-z][\w'′]*(?:-[\w'′]+)*)(?![\w/-])", word, m.group(0))
        for was, now in CRATES.items():
            inside = re.sub(rf"(?<![\w/:]){was}(?=::|/(?:specs|proofs|src)/)", now, inside)
        return inside

    return "\n".join(re.sub(r"`[^`]*`", quoted, line) for line in text.split("\n"))


def main(commit):
    old, new = declared(of_commit(commit)), declared(of_tree())
    behind, alone = changes(old, new)
    pages = ["README.md", "CHANGELOG.md", *sorted(glob.glob("docs/**/*.md", recursive=True)), *glob.glob("include/*.h")]
    had = {f"{module}.{name}" for (_, module), names in old.items() for name in names}
    has = {f"{module}.{name}" for (_, module), names in new.items() for name in names}
    for page in pages:
        with open(page, encoding="utf-8") as it:
            before = it.read()
        after = respelled(before, behind, alone)
        if after != before:
            with open(page, "w", encoding="utf-8") as it:
                it.write(after)
        for name in sorted({it for inside in re.findall(r"`([^`\n]*)`", after) for it in inside.split()[:1]}):
            if name in had and name not in has:
                print(f"{page}: the crates have no `{name}`")


main(*sys.argv[1:])
