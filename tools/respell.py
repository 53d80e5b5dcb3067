#!/usr/bin/env python3
"""Respells the repository's own definitions and lemmas: words in snake case, a dash only where it joins two names.

usage: python3 tools/respell.py          in the repository, once, right after port/port.py of the kit
       python3 tools/respell.py --list   says which names would change, and which would fall together

Types, modules, names of the library and the names of goals stay; so do functions of src/, which are in snake case already.
"""
import collections
import os
import re
import sys

TOKEN = re.compile(r"(?<![A-Za-z0-9_'\-\\#])(?!b'.')[A-Za-z_][A-Za-z0-9_'₀-₉ₐ-ₜ]*(?:-[A-Za-z0-9_'₀-₉ₐ-ₜ]+)*")
SIGNATURE = re.compile(r"^\s*(?:\| )?(?:abbrev |unfoldable )?(?:pub )?([A-Za-z_][A-Za-z0-9_'\-₀-₉]*) :", re.M)
CAMEL = re.compile(r"(?<=[a-z0-9'])([A-Z])")
ESCAPE = re.compile(r"x[0-9A-F]{2}$")
# Words of the library that stand in names of lemmas.
LIBRARY = {"length", "get_or", "set", "take", "drop", "map", "replicate", "append", "min", "max", "cond", "eqb", "leb", "not", "bit_or", "bit_and", "suc", "pow", "mod", "div"}
# A definition that would fall together with a field, and what stands for it. A lemma that would gets `_lem`.
APART = {"inScope": "held_loans"}
# Names that port.py wrote in snake case and that would fall together with a definition of another spelling, in lemma files.
WRITTEN = {"entry_in": "entry_in_lem", "live_table": "live_table_lem", "row_words": "row_words_lem", "same_row": "same_row_lem", "fields_fit": "fields-fit", "all_in": "all_in_lem"}


def files(top):
    for folder, dirs, names in os.walk(os.path.join(top, "crates")):
        dirs[:] = sorted(d for d in dirs if d != "out")
        for name in sorted(names):
            if name.endswith((".antt", ".rt", ".edit")):
                yield os.path.join(folder, name)


def is_answers(path):
    return os.path.basename(path) in ("Proof.antt", "Answers.antt", "Invariants.antt")


def snake(word):
    """A part of a name in snake case; a part that begins with a capital is a type and stays."""
    if not word[0].islower() or ESCAPE.match(word) or re.search(r"_[A-Z]", word):
        return word
    word = "get_or" if word == "getD" else word
    return CAMEL.sub(lambda m: "_" + m.group(1).lower(), word)


def defined(texts):
    """The names that the definitions, lemmas and records of specs/ and proofs/ have, and those of specs/ alone."""
    every, specs = set(), set()
    for path, text in texts.items():
        if path.endswith(".antt") and not is_answers(path):
            names = set(SIGNATURE.findall(text))
            every |= names
            if "/specs/" in path:
                specs |= names
    return every, specs


def goals(texts):
    """The names that a proof of a function gives to its goals."""
    found = set()
    for path, text in texts.items():
        if is_answers(path):
            for m in re.finditer(r"^(?:abbrev )?(?:pub )?([A-Za-z_μ][A-Za-z0-9_'\-]*) : (?:tie|goal|facts)\.", text, re.M):
                found.add(m.group(1))
    return found


def renaming(texts):
    every, specs = defined(texts)
    kept = goals(texts)
    tokens = collections.Counter()
    for text in texts.values():
        tokens.update(TOKEN.findall(text))
    taken = {snake(w) for w in every if "-" not in w}
    nouns = {snake(w) for w in specs if "-" not in w} | LIBRARY
    new = {}
    for word in tokens:
        if word in kept:
            continue
        parts = [snake(p) for p in word.split("-")]
        if word in every and len(parts) > 1:
            joined = parts[0]
            for left, right in zip(parts, parts[1:]):
                names = (left in nouns or left[0].isupper()) and (right in nouns or right[0].isupper())
                joined += ("-" if names else "_") + right
            if joined in taken:
                joined += "_lem"
        elif len(parts) > 1 and not any(CAMEL.search(p) and p[0].islower() for p in word.split("-")):
            continue
        else:
            joined = "-".join(parts)
        joined = APART.get(word, joined)
        if joined != word:
            new[word] = joined
    return new, tokens, every


def turned(path, text, new):
    def replace(m):
        word = m.group()
        if "-" in word and not path.endswith(".antt"):
            # in code a dash is a minus, and in a comment it may join two English words
            line = text[text.rfind("\n", 0, m.start()) + 1 : m.start()]
            if not line.startswith("ghost use"):
                return word
        return new.get(word, word)

    if not path.endswith(".antt"):
        return TOKEN.sub(replace, text)
    out = []
    for line in text.split("\n"):
        code, dashes, comment = line.partition("-- ")
        if dashes:
            comment = TOKEN.sub(lambda m: m.group() if "-" in m.group() else new.get(m.group(), m.group()), comment)
        out.append(TOKEN.sub(lambda m: new.get(m.group(), m.group()), code) + dashes + comment)
    return "\n".join(out)


def main(argv):
    top = os.getcwd()
    texts = {}
    for path in files(top):
        with open(path, encoding="utf-8") as f:
            texts[path] = f.read()
    new, tokens, every = renaming(texts)
    back = collections.defaultdict(set)
    for word, to in new.items():
        back[to].add(word)
    for to, words in sorted(back.items()):
        if len(words) > 1 or to in tokens:
            where = sorted({os.path.relpath(p, top) for p, t in texts.items() if to in TOKEN.findall(t)})
            print(f"together: {' '.join(sorted(words))} -> {to}: {' '.join(where[:6])}")
    if argv == ["--list"]:
        for word, to in sorted(new.items()):
            print(f"{word} -> {to}")
        return 0
    changed = 0
    for path, text in texts.items():
        if path.endswith(".antt") and "/proofs/" in path and not is_answers(path):
            text = TOKEN.sub(lambda m: WRITTEN.get(m.group(), m.group()), text)
        to = turned(path, text, new)
        if to != text:
            changed += 1
            with open(path, "w", encoding="utf-8") as f:
                f.write(to)
    print(f"respell: {len(new)} names, {changed} files")
    return 0


if __name__ == "__main__":
    raise SystemExit(main(sys.argv[1:]))
