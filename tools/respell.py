#!/usr/bin/env python3
"""Brings this repository's own names of specs and proofs to snake case, after port.py: isFor becomes is_for.

usage: python3 tools/respell.py [--names]

It reads every .antt and .rt file under crates/, and turns each word that begins with a small letter and holds a capital
behind a small one; a dash stays, since it joins two names. A word that a `use` line takes from the kit stays, and so do
text between quotes and types, facts and modules, which begin with a capital. --names writes nothing and prints each old
name beside its new one, and the new ones that the files held already.
"""

import glob
import re
import sys

WORD = re.compile(r"[^\s(){}.;,@\"«»\x60\[\]|/:\\]+")
CAMEL = re.compile(r"[a-z][A-Z]")
KIT = ("Rattle.std", "Rattle.core", "borrow.", "Prim", "native.", "mathlib.", "lib.")
WORDS = {"getD": "get_or"}
# Names that would fall together: a lemma of a file that also names the word beside it.
APART = {"toTake": ("to_take", "to_take-left")}


def snake(word):
    if not word[0].islower() or not CAMEL.search(word):
        return word
    parts = []
    for part in word.split("-"):
        if part in WORDS:
            part = WORDS[part]
        elif part[:1].islower():
            part = re.sub(r"(?<=[a-z0-9])[A-Z]", lambda m: "_" + m.group(0).lower(), part)
        parts.append(part)
    return "-".join(parts)


def from_kit(text):
    """The words that the file takes from the kit."""
    taken = set()
    for module, names in re.findall(r"use ([^\s{]+)\.\{([^}]*)\}", text):
        if module.startswith(KIT):
            taken |= {it.strip().split(" as ")[0] for it in names.split(",")}
    return taken


def turned(text, kept):
    apart = dict(pair for word, pair in APART.items() if re.search(rf"\b{word}\b", text))

    def one(m):
        word = m.group(0)
        return word if word in kept else apart.get(word, snake(word))

    # text between quotes stays as it is
    parts = re.split(r'("(?:\\.|[^"\\\n])*")', text)
    return "".join(it if it.startswith('"') else WORD.sub(one, it) for it in parts)


def main():
    only_names = "--names" in sys.argv[1:]
    files = sorted(
        glob.glob("crates/*/specs/**/*.antt", recursive=True)
        + glob.glob("crates/*/proofs/**/*.antt", recursive=True)
        + glob.glob("crates/*/src/**/*.rt", recursive=True)
    )
    names, words, changed = {}, set(), 0
    for path in files:
        with open(path, encoding="utf-8") as it:
            text = it.read()
        kept = from_kit(text)
        for word in WORD.findall(text):
            words.add(word)
            if word not in kept and snake(word) != word:
                names[word] = snake(word)
        new = turned(text, kept)
        if new != text and not only_names:
            with open(path, "w", encoding="utf-8") as it:
                it.write(new)
            changed += 1
    if only_names:
        for old, new in sorted(names.items()):
            print(f"{old}\t{new}")
        news = list(names.values())
        for new in sorted(set(it for it in news if news.count(it) > 1 or it in words)):
            print(f"there already: {new}")
    else:
        print(f"{len(names)} names turned in {changed} files")


main()
