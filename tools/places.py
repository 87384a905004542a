#!/usr/bin/env python3
"""Counts the places in crates/*/src that a point of docs/DESIGN-PASS.md speaks of, and the answers in crates/*/proofs.

    python3 tools/places.py COMMIT     of a commit
    python3 tools/places.py            of the checkout
    python3 tools/places.py -v ..      with each place
"""
import collections
import itertools
import os
import re
import subprocess
import sys

WORD = r"[A-Za-z_][A-Za-z0-9_]*"
KEYWORDS = set("as break const continue else enum fn for if impl in let loop match mut pub return self struct true false use while".split())


def files(commit, folder, ending):
    """Each file of that folder of each crate, with its text."""
    if commit:
        names = subprocess.run(["git", "ls-tree", "-r", "--name-only", commit], capture_output=True, text=True, check=True).stdout
        names = names.split("\n")
    else:
        names = [os.path.join(at, f) for at, dirs, fs in os.walk("crates") if "out" not in at.split(os.sep) for f in fs]
    for name in sorted(names):
        if re.fullmatch(rf"crates/{WORD}/{folder}/.*{ending}", name):
            if commit:
                text = subprocess.run(["git", "show", f"{commit}:{name}"], capture_output=True, text=True, check=True).stdout
            else:
                text = open(name, encoding="utf-8").read()
            yield name, text


def bare(text):
    return "\n".join("" if line.strip().startswith("//") else line for line in text.split("\n"))


def opening(text, at):
    """The next brace, or the end of a declaration; the length in an array's type ends none."""
    depth = 0
    while at < len(text) and (depth or text[at] not in ";{"):
        depth += (text[at] == "[") - (text[at] == "]")
        at += 1
    return at


class Function:
    def __init__(self, place, name, parameters, clauses, body):
        self.place, self.name, self.clauses, self.body = place, name, clauses, body
        self.parameters = [tuple(x.strip() for x in p.split(":", 1)) for p in split(parameters) if ":" in p]


def split(text):
    """At commas that no bracket holds."""
    parts, depth, start = [], 0, 0
    for i, c in enumerate(text):
        depth += (c in "([{<") - (c in ")]}>")
        if c == "," and depth == 0:
            parts.append(text[start:i])
            start = i + 1
    return parts + [text[start:]]


def closing(text, at):
    depth = 0
    for i in range(at, len(text)):
        depth += (text[i] in "({") - (text[i] in ")}")
        if depth == 0:
            return i
    return len(text)


def functions(name, text):
    text = bare(text)
    for m in re.finditer(rf"\bfn ({WORD})(<[^(]*>)?\(", text):
        end = closing(text, m.end() - 1)
        at = opening(text, end)
        # a clause's braces stand behind its word
        while at < len(text) and re.search(rf"(requires|ensures|ghost)( {WORD})?:? ?$", text[end:at].rstrip(" ")):
            at = opening(text, closing(text, at) + 1)
        if at >= len(text) or text[at] == ";":
            continue
        last = closing(text, at)
        line = text.count("\n", 0, m.start()) + 1
        yield Function(f"{name}:{line}", m.group(1), text[m.end():end], text[end:at], text[at:last + 1])


def shape(f):
    """The function with its names numbered in order and its numbers left out: twins have one shape."""
    names = {}
    out = []
    for t in re.findall(rf"{WORD}|\d[\d_]*|\S", f.body):
        if re.match(r"\d", t):
            out.append("0")
        elif re.match(r"[A-Za-z_]", t) and t not in KEYWORDS:
            out.append(f"n{names.setdefault(t, len(names))}")
        else:
            out.append(t)
    return len(out), " ".join(out)


def facts(f):
    for clause in re.findall(r"requires(?: \w+)? \{(.*?)\}\n", f.clauses + "\n", re.S):
        for fact in re.split(r" × (?![^(]*\))", clause.strip()):
            fact = fact.strip()
            while fact.startswith("(") and closing(fact, 0) == len(fact) - 1:
                fact = fact[1:-1].strip()
            yield re.sub(r"\s+", " ", fact.replace(".now", "").replace(".old", ""))


def main():
    arguments = [a for a in sys.argv[1:] if a != "-v"]
    verbose = "-v" in sys.argv
    commit = arguments[0] if arguments else None
    sources = list(files(commit, "src", r"\.rt"))
    every = [f for name, text in sources for f in functions(name, text)]

    def told(what, places):
        places = list(places)
        print(f"{len(places):5}  {what}")
        if verbose:
            for p in places:
                print(f"         {p}")

    def lines(pattern):
        for name, text in sources:
            for i, line in enumerate(bare(text).split("\n"), 1):
                if re.search(pattern, line):
                    yield f"{name}:{i}: {line.strip()}"

    print("1 enums, flags and numbers")
    told("enums", lines(r"^(pub )?enum "))
    told("numbers and places handed out through a reference", lines(r": &mut (i32|usize|u32|u64|isize)\b"))
    told("fields and parameters that are a refusal's number, a kind or an order by number", lines(r"\b(number|order|axis|column|kind): (i32|usize|isize)\b"))
    told("results of isize", lines(r"-> isize|: isize"))

    print("2 twins")
    groups = collections.defaultdict(list)
    for f in every:
        size, s = shape(f)
        if size >= 9:
            groups[s].append(f)
    told("groups of functions of one shape", (", ".join(f"{f.name} ({f.place})" for f in g) for g in groups.values() if len(g) > 1))

    print("3 loops")
    told("while, and loop", lines(r"^\s*(while|loop)\b"))
    told("places raised or lowered by hand", lines(r"^\s*\w+ [+-]= 1;"))
    told("recursions that raise a place", (f"{f.place} {f.name}" for f in every if re.search(rf"\b{f.name}\([^;]*\b\w+ \+ 1\b", f.body)))

    print("4 by hand")
    told("functions that compare, order, copy, convert or print", (f"{f.place} {f.name}" for f in every if re.fullmatch(
        r"same_\w+|less_than|lesser|greater|later|outer|held|starts|is_digit|digit_\w+|wide|narrow\w*|signed|unsigned|word_of|place|swap|copy_within"
        r"|put_run|put_text|within|print_\w+|\w+_of_numbers|report_of|drop_of|window_of|moving_of|no_cell|next_cell|track_cell|is_given|is_one", f.name)))

    print("5 facts and parameters together")
    per_fact = collections.defaultdict(list)
    for f in every:
        for fact in set(facts(f)):
            per_fact[fact].append(f.name)
    told("facts in the requires of three or more functions", (f"{k}: {', '.join(v)}" for k, v in sorted(per_fact.items()) if len(v) >= 3))
    together = collections.defaultdict(set)
    for f in every:
        if "extern" in f.clauses or f.place.startswith("crates/calls") or f.place.startswith("crates/viewer"):
            continue
        for group in itertools.combinations(sorted(f.parameters), 3):
            together[group].add(f"{f.place} {f.name}")
    sets = {}
    for group, where in together.items():
        if len(where) >= 3:
            sets.setdefault(frozenset(where), set()).update(group)
    told("three or more parameters that go together through three or more functions", (
        ", ".join(f"{n}: {t}" for n, t in sorted(ps)) + "  in " + ", ".join(w.split()[-1] for w in sorted(where)) for where, ps in sets.items()))

    print("6 buffers, arrays, lists")
    told("a slice with its count or its end beside it", (f"{f.place} {f.name}" for f in every if any("[" in t and "&" in t for _, t in f.parameters)
         and any(n in ("n", "m", "count", "held", "hits", "len") and t == "usize" for n, t in f.parameters)))

    print("7 steps and tables")
    told("function pointers, dyn, steps by number", lines(r"\bdyn\b|: fn\(|\bstep: "))

    print("8 proofs")
    proofs = [text for _, text in files(commit, "proofs", r"\.antt")]
    answers = [a for text in proofs for a in re.findall(r"^pub [^ ]+ : goal\.", text, re.M)]
    print(f"{len(proofs):5}  files")
    print(f"{sum(text.count(chr(10)) for text in proofs):5}  lines")
    print(f"{len(answers):5}  answers to goals")


main()
