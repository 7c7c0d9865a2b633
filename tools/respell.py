#!/usr/bin/env python3
"""Brings the project's own definitions and lemmas to the kit's spelling: words in snake case, as key_bytes for keyBytes.

usage: tools/respell.py [FOLDER]     FOLDER holds crates/; without it, the folder above this script's

Types keep their capitals, and so do the names that the documents give (K1, P1). It rewrites .rt, .antt and .edit files in place: run
it once, after the kit's port.py. Names of Rust's side are in snake case already, so only clauses and comments change in .rt files. Where the
new name of a definition is that of a lemma beside it, the lemma gets the name in LEMMAS.
"""

import os
import re
import sys

TOKEN = re.compile(r"[A-Za-z_][A-Za-z0-9_'\u2080-\u2089]*")
CAMEL = re.compile(r"[a-z][A-Za-z0-9_]*[A-Z]")

# In these files: a lemma that would have the name of a definition, and the name that it gets.
LEMMAS = {
    "soundness/proofs/Whole.antt": {"list_length": "length_read"},
    "demands/proofs/Register.antt": {"not_own": "misses_own"},
    "walks/proofs/Counting.antt": {"keys_from": "keys_from_lem"},
    "walks/proofs/KeyRows.antt": {"keys_from": "keys_from_lem"},
    "walks/proofs/ListForm.antt": {"keys_from": "keys_from_lem"},
    "walks/proofs/WalkDecides.antt": {"keys_from": "keys_from_lem"},
    "walks/proofs/WalkTrue.antt": {"keys_from": "keys_from_lem"},
    "walks/proofs/TrueWalk.antt": {"head_rows": "head_rows_lem"},
    "tied/proofs/ReadBack.antt": {"read_back": "read_back_lem"},
}


def snake(word):
    word = re.sub(r"([a-z])([0-9])", r"\1_\2", word) if re.search(r"[0-9][A-Z]", word) else word
    word = re.sub(r"([a-z0-9])([A-Z])", r"\1_\2", word)
    return word.lower()


def respelled(path, text):
    lemmas = next((it for end, it in LEMMAS.items() if path.endswith(end)), {})
    return TOKEN.sub(lambda it: snake(it[0]) if CAMEL.match(it[0]) else lemmas.get(it[0], it[0]), text)


def lines_of_edit(path, text):
    """In an edit the file's name stays, and so does the comment."""
    out = []
    for line in text.split("\n"):
        kept = line.startswith(("file:", "#"))
        out.append(line if kept else respelled(path, line))
    return "\n".join(out)


def main():
    above = os.path.dirname(os.path.dirname(os.path.abspath(__file__)))
    root = os.path.join(sys.argv[1] if len(sys.argv) > 1 else above, "crates")
    for folder, folders, files in os.walk(root):
        folders[:] = sorted(it for it in folders if it != "out")
        for name in sorted(files):
            path = os.path.join(folder, name)
            if not name.endswith((".rt", ".antt", ".edit")):
                continue
            with open(path, encoding="utf-8", newline="") as it:
                old = it.read()
            new = lines_of_edit(path, old) if name.endswith(".edit") else respelled(path, old)
            if new != old:
                with open(path, "w", encoding="utf-8", newline="") as it:
                    it.write(new)


main()
