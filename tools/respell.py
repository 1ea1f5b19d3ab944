#!/usr/bin/env python3
"""respell.py: brings the repository's own words, those that begin small and have a capital inside, to snake case: `recordWords` to `record_words`.

It ran once, after port.py of the kit, over crates/ (specs, proofs, clauses and edits), README.md and docs/. Words that begin with a capital (types, modules, the
errors' names) and words of the kit stay. It prints each new word that already stood somewhere, with the files where both stood: there the two fell together.
"""

import collections
import pathlib
import re

ROOT = pathlib.Path(__file__).resolve().parent.parent
TOKEN = re.compile(r"[A-Za-z][A-Za-z0-9_']*")
CAMEL = re.compile(r"[a-z][a-z0-9]*([A-Z][A-Za-z0-9']*)+$")
KIT = {"getD": "get_or"}
# Lemmas, fields and names within a proof that would fall together with one of these words: each of those moves, in the crates named.
FELL = {
    "ended_at": ("ended_at_lem", ("script",)),
    "level_in": ("level_in_lem", ("levels",)),
    "record_of": ("record_of_lem", ("laws", "table")),
    "made_at": ("made_at_is", ("calls",)),
    "in_use": ("is_in_use", ("promises",)),
}


def snake(word):
    if word in KIT:
        return KIT[word]
    return re.sub(r"(?<=[a-z0-9])([A-Z])", lambda at: "_" + at[1].lower(), word).lower() if CAMEL.fullmatch(word) else word


def files():
    for pattern in ("crates/*/specs/**/*.antt", "crates/*/proofs/**/*.antt", "crates/*/src/**/*.rt", "crates/*/edits/*.edit"):
        yield from sorted(ROOT.glob(pattern))
    yield ROOT / "README.md"
    yield from sorted(ROOT.glob("docs/**/*.md"))


def main():
    stood, turned = collections.defaultdict(set), collections.defaultdict(set)
    for file in files():
        text = file.read_text()
        for word, (moved, crates) in FELL.items():
            if file.suffix == ".antt" and file.relative_to(ROOT).parts[1] in crates:
                text = re.sub(rf"(?<![\w'-]){word}(?![\w'-])", moved, text)
        parts = re.split(r'("(?:[^"\\\n]|\\.)*")', text) if file.suffix == ".rt" else [text]
        for place, part in enumerate(parts):
            if place % 2 == 0:
                for word in TOKEN.findall(part):
                    (stood if snake(word) == word else turned)[snake(word)].add(file.relative_to(ROOT))
                parts[place] = TOKEN.sub(lambda at: snake(at[0]), part)
        if "".join(parts) != file.read_text():
            file.write_text("".join(parts))
    for word in sorted(turned):
        if both := sorted(map(str, turned[word] & stood[word])):
            print(f"{word} stood already in {len(stood[word])} files, and beside the old word in: {' '.join(both)}")
    print(f"respell: {len(turned)} words")


main()
