#!/usr/bin/env python3
"""Brings the repository's own antt names to today's spelling: run once, at the top, right after the kit's port.py.

port.py respells the names that std has too. This turns the rest, in specs/, proofs/, the clauses of src/ and the must-fail edits:
- a definition, lemma, field or variable in camel case is in snake case, as `putPart` is `put_part`; a `-` still joins two names;
- a part `getD` of a lemma's name is `get_or`, the word that it speaks of;
- what port.py took for a name of std's, or made one of two, has a name of its own again.
Functions, types, constants, strings and exported names keep their names. It stops, and writes nothing, if two names would fall
together. With --list it prints the names that it would turn.
"""
import collections
import os
import re
import sys

IDENT = re.compile(r"(?<![\w'])[^\W\d][\w'-]*", re.U)
CAMEL = re.compile(r"(?:^|(?<=[-_]))[a-z]+[a-z0-9]*(?:[A-Z][a-z0-9]*)+", re.U)

# By a part of the path: what port.py turned as if it were std's.
MENDED = [
    ("", "get_d_part", "get_or-part"),
    ("", "length_part", "length-part"),
    ("", "rows_of_lem", "rows-of"),
    ("", "code_of_lem", "code_of"),
    ("", "is_held_lem", "is_held"),
    ("neighbor/proofs", "passed_over", "passed-over"),
    ("policy/proofs", "one_cell", "one-cell"),
]
# Words that stand in the edits' text alone, as port.py turned them elsewhere.
EDITED = {"getD": "get_or"}


def files():
    for root, _, names in sorted(os.walk("crates")):
        if "/out" in root:
            continue
        for name in sorted(names):
            if name.endswith((".antt", ".rt", ".edit")):
                yield os.path.join(root, name)


def snake(word):
    def turn(found):
        return re.sub(r"[A-Z]+", lambda up: "_" + up[0].lower(), found[0])

    return CAMEL.sub(turn, word.replace("getD", "get_or") if word != "getD" else word)


def mended(path, word):
    for part, old, new in MENDED:
        if word == old and part in path:
            return new
    if path.endswith(".edit"):
        return EDITED.get(word, word)
    return word


def main():
    texts = {path: open(path, encoding="utf-8").read() for path in files()}
    turned, words = {}, collections.defaultdict(set)
    for path, text in texts.items():
        code = re.sub(r"(--|//).*", "", text)
        for name in IDENT.findall(code):
            name = mended(path, name)
            words[name].add(path)
            if snake(name) != name:
                turned[name] = snake(name)
    made = collections.defaultdict(set)
    for old, new in turned.items():
        made[new].add(old)
    clash = False
    for new, olds in sorted(made.items()):
        antt = lambda name: {path for path in words.get(name, ()) if path.endswith(".antt") and "/Proof.antt" not in path}
        both = antt(new) & set().union(*(antt(old) for old in olds))
        if len(olds) > 1 or both:
            print(f"two: {', '.join(sorted(olds))} -> {new} {' '.join(sorted(both))}")
            clash = True
    if "--list" in sys.argv:
        for old in sorted(turned):
            print(old, turned[old])
        return 0
    if clash:
        return 1
    for path, text in texts.items():
        new = IDENT.sub(lambda found: snake(mended(path, found[0])), text)
        if new != text:
            open(path, "w", encoding="utf-8").write(new)
    print(f"turned: {len(turned)} names")
    return 0


sys.exit(main())
