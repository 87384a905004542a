#!/usr/bin/env python3
"""Brings the repository's own names in crates/ to one spelling: definitions, lemmas, fields and rule sets in snake case, types in
camel case, a dash only where it joins two names that are defined themselves.

usage: python3 tools/spelling.py [--list]     at the top of the repository; --list prints old and new names and writes nothing

What is renamed is what specs/ and the shared files of proofs/ declare. Functions of src/, exported names, strings, and the names that
the prover makes for a function's goals keep their spelling.
"""

import os
import re
import sys

NAME = r"""[^\s(){}\[\].,;"`λ«»:]+"""
DECLARES = re.compile(r"^\s*(?:(?:abbrev|unfoldable|pub|private)\s+)*(" + NAME + r"(?:\s+" + NAME + r")*)\s+:(?:\s|$)")
HEADS = re.compile(r"^\s*(?:(?:abbrev|unfoldable|pub|private)\s+)*(?:record|data|ruleset)\s+(" + NAME + r")")
RESERVED = {"use", "mod", "module", "let", "where", "--", "elim", "in", "open", "unfolding", "as", "_", "λ", "infix", "infixl", "infixr"}
PLAIN = re.compile(r"^[a-z0-9_'?]+$")

# Functions of the library that lemmas here are named after.
LIBRARY = {"length", "take", "drop", "get_or", "map", "pos", "neg", "abs", "sum", "filter", "replicate", "set", "cond", "append"}

# Names that would fall together with another, or whose dash joins no two names.
CHOSEN = {
    "at-minute": "at_the_minute",
    "gap-line": "gap_line_lem",
    "header_of": "header_is_sound",
    "high-velocity": "high_velocity_lem",
    "low-velocity": "low_velocity_lem",
    "hull-on-in-range": "hull_kept_in_range",
    "isOne": "next_is_one",
    "leaves_in": "leaves_in_lem",
    "nodes-in": "nodes_in_lem",
    "many-stay": "many_stay_lem",
    "getD-firstOf": "get_or_first_of",
    "getD-put-above": "get_or_put_above",
    "getD-put-below": "get_or_put_below",
    "get_d_part": "get_or_part",
    "no_cell": "no_cell_left",
    "of-sheet": "of_the_sheet",
    "onX": "interval_on_x",
    "report-number": "report_number_lem",
    "sameNumber": "same_number_test",
    "workedOut": "worked_out_bounds",
    "lent-is-node": "lent_is_node",
    "never-on-x": "never_on_x",
    "others-at-last": "others_at_last",
    "rest-at-last": "rest_at_last",
    "rowAt-part": "row_at_part",
}

# What src/ has functions of, under the same name: there it is the function.
FUNCTIONS = {"no_cell"}


def files(root, *endings):
    for folder, dirs, names in os.walk(os.path.join(root, "crates")):
        dirs[:] = sorted(d for d in dirs if d not in ("out", ".git"))
        for name in sorted(names):
            if name.endswith(endings):
                yield os.path.join(folder, name)


def of_a_function(path):
    """A file of one function's proof: what it declares are goals."""
    return path.endswith(("/Proof.antt", "/Answers.antt", "/Invariants.antt"))


def declared(path):
    with open(path, encoding="utf-8") as text:
        for line in text:
            if line.lstrip().startswith("--"):
                continue
            head = HEADS.match(line)
            if head:
                yield head.group(1), True
                continue
            found = DECLARES.match(line)
            if found:
                for name in found.group(1).split():
                    if name in RESERVED or "◌" in name:
                        break
                    yield name, False


def snake(part):
    """camelCase as snake_case; what begins with a capital is a type or a fact, and keeps it."""
    if not re.match(r"[a-z]", part):
        return part
    return re.sub(r"(?<=[a-z0-9?'A-Z])([A-Z])", lambda m: "_" + m.group(1).lower(), part)


def spelled(name, defined):
    name = name.replace("′", "'").replace("·", "-")
    parts = [snake(p) for p in re.split(r"(?<=.)-(?=.)", name)]
    if len(parts) == 1:
        return parts[0]
    joined = parts[0]
    for k in range(1, len(parts)):
        left, right = "_".join(parts[:k]), "_".join(parts[k:])
        joined += ("-" if joins(left, right, defined) else "_") + parts[k]
    return joined


def joins(left, right, defined):
    plain_left, plain_right = PLAIN.match(left), PLAIN.match(right)
    if not plain_left and not plain_right:
        return True
    return (not plain_left or left in defined) and (not plain_right or right in defined) and (right not in ENDINGS)


# Words that end a lemma's name and are no name that it speaks of, even where something is called so.
ENDINGS = {"in", "is", "none", "one", "same", "tail", "head", "next", "first", "last", "at", "all", "kept", "held", "low", "high", "span",
           "word", "record", "more", "two", "free", "sound", "live", "found", "given", "left", "back", "of", "by", "up", "dn", "stays", "goes",
           "leaf", "inner", "root", "clock", "count", "total", "edges", "rows", "cells", "entries", "bounds", "keys", "ids", "line", "digits"}


def renamings(root):
    # Functions by which lemmas are named: what is declared with 'abbrev' or 'unfoldable'.
    defined = set(LIBRARY)
    names = []
    for path in files(root, ".antt"):
        if of_a_function(path):
            continue
        with open(path, encoding="utf-8") as text:
            for line in text:
                found = re.match(r"^\s*(?:abbrev |unfoldable )(?:pub )?(" + NAME + r")\s+:", line)
                if found:
                    defined.add(snake(found.group(1)))
        names += [n for n, _ in declared(path)]
    to = {}
    for name in names:
        new = CHOSEN.get(name) or spelled(name, defined)
        if new != name:
            to[name] = new
    return to, set(names)


def respell(text, to):
    return re.sub(NAME, lambda m: to.get(m.group(0), m.group(0)), text)


def in_clauses(text, to):
    """A source: names in clauses and comments, not in strings, and no function."""
    to = {old: new for old, new in to.items() if old not in FUNCTIONS}
    parts = re.split(r'(b?"(?:[^"\\]|\\.)*")', text)
    return "".join(p if k % 2 else respell(p, to) for k, p in enumerate(parts))


def main(argv):
    root = os.getcwd()
    to, names = renamings(root)
    fallen = {}
    for old, new in to.items():
        fallen.setdefault(new, set()).add(old)
    for new, olds in sorted(fallen.items()):
        if len(olds) > 1 or (new in names and new not in to):
            print(f"falls together: {', '.join(sorted(olds))}{' and ' + new if new in names else ''} -> {new}")
    if "--list" in argv:
        for old in sorted(to):
            print(f"{old} {to[old]}")
        return 0
    changed = 0
    for path in files(root, ".antt", ".rt", ".edit"):
        with open(path, encoding="utf-8") as it:
            text = it.read()
        new = respell(text, to) if path.endswith(".antt") else in_clauses(text, to)
        if new != text:
            with open(path, "w", encoding="utf-8") as it:
                it.write(new)
            changed += 1
    print(f"{len(to)} names, {changed} files")
    return 0


if __name__ == "__main__":
    raise SystemExit(main(sys.argv[1:]))
