#!/usr/bin/env python3
"""Brings the repository's own definitions, lemmas and record fields to the spelling of the library: words in snake case.

usage: python3 tools/snake_names.py [--list]      at the top of the repository

It goes by text, over the .antt files of specs/ and proofs/, the clauses of the .rt files and the must-fail edits. A name is the repository's
own where a file declares it: an `abbrev`, an `unfoldable`, a signature, a field of a record. Names that Rattle makes from the source
(goals, steps) and names of the library stay, also where one of ours is spelled alike: those are listed and kept by hand.
"""
import collections
import glob
import re
import sys

TOKEN = r"[^\s(){}\[\],;.λ\"`]+"
DECL = re.compile(r"^(\s*)((?:abbrev|unfoldable|opaque|transparent|inline|pub|let|where|record|data)\s+)*(" + TOKEN + r") :(?=\s)")


def snake(name):
    """own-name, ownName -> own_name; a capital at the start is a type's and stays"""
    parts = name.split("-")
    out = []
    for p in parts:
        if p[:1].isupper():
            out.append(p)
        else:
            p = re.sub(r"(?<=[a-z0-9])([A-Z])(?=[A-Z]*(?:[^a-zA-Z]|$))", lambda m: "_" + m.group(1).lower(), p)
            p = re.sub(r"(?<=[a-z0-9])([A-Z])", lambda m: "_" + m.group(1).lower(), p)
            out.append(p)
    return "_".join(out)


# Names that would fall together with another of ours in snake case, and what they are called instead.
APART = {"bit-xor": "bit_of_xor", "after-all": "after_all_lem", "drawn-bits": "drawn_bits_lem"}
# Fields of `Lawful` that are spelled like lemmas of the library: a field is one behind a dot, in its declaration, or in a record.
FIELDS = {"add-zero": "add_zero", "mul-one": "mul_one", "mul-zero": "mul_zero", "pow-suc": "pow_suc"}
# Spelled like a lemma of the library, and ours in this file alone.
HERE = {"crates/coding_theory/proofs/Algebra.antt": {"add-mul": "add_mul"}}


def files(pattern):
    return sorted(glob.glob(pattern, recursive=True))


def strip(line):
    return re.sub(r"(^|\s)--.*", r"\1", line)


specs = files("crates/*/specs/*.antt")
lemmas = files("crates/*/proofs/*.antt")
walked = [p for p in files("crates/*/proofs/*/**/*.antt")]
sources = files("crates/*/src/**/*.rt")
edits = files("crates/*/must-fail/*.edit")

own = collections.defaultdict(set)
goals = set()
for p in specs + lemmas + walked:
    for line in open(p, encoding="utf-8"):
        line = strip(line)
        m = DECL.match(line)
        if not m:
            continue
        if re.search(r": (goal|given|rules)\b", line) and p in walked:
            goals.add(m.group(3))
        else:
            own[m.group(3)].add(p)

library = set()
made = set()
for p in specs + lemmas + walked + sources:
    text = "\n".join(strip(l) for l in open(p, encoding="utf-8")) if p.endswith(".antt") else open(p, encoding="utf-8").read()
    for m in re.finditer(r"use (Rattle\.[^\s{]*|\w[\w.]*)\.\{([^}]*)\}", text):
        names = {n.split(" as ")[0].strip() for n in m.group(2).split(",")}
        if m.group(1).endswith((".Goals", ".Given")):
            made |= names
        elif not any(m.group(1).startswith("Rattle." + c + ".") for c in {s.split("/")[1] for s in specs + sources}):
            library |= names

renames = {n: APART.get(n, snake(n)) for n in own if snake(n) != n}
bad = sorted(n for n in renames if n in library or n in made or n in goals)
clash = collections.defaultdict(list)
every = set(own) | library | made
for n, s in renames.items():
    clash[s].append(n)
    if s in every:
        clash[s].append(s)
together = {s: ns for s, ns in clash.items() if len(set(ns)) > 1}
if "--list" in sys.argv:
    for n in sorted(renames):
        print(n, "->", renames[n], len(own[n]))
print("also a name of the library or one that Rattle makes:", bad)
print("fall together:", together)
if "--list" in sys.argv:
    sys.exit()
for n in bad:
    del renames[n]


def turned(text, here={}):
    def one(m):
        w = m.group(0)
        if w in FIELDS:
            field = text[: m.start()].endswith(".") or re.search(r"(?m)^\s+(pub )?$", text[: m.start()]) and re.match(r" [:=] ", text[m.end() :])
            return FIELDS[w] if field else w
        return here.get(w) or renames.get(w, w)

    return re.sub(TOKEN, one, text)


def turned_line(line, here):
    code = strip(line)
    return turned(code, here) + (line[len(code) :] if line.startswith(code) else "")


changed = 0
for p in specs + lemmas + walked:
    old = open(p, encoding="utf-8").read()
    new = "\n".join(turned_line(l, HERE.get(p, {})) for l in old.split("\n"))
    if new != old:
        open(p, "w", encoding="utf-8").write(new)
        changed += 1


def clauses(text):
    """The source with the names turned inside clauses, ghost items and ghost fields alone."""
    out, i = [], 0
    for m in re.finditer(r"(?m)^[ \t]*(ghost use [^;]*;|(?:requires|ensures|ghost|decreases|invariant|prove)\b[^\n]*\{)", text):
        if m.start() < i:
            continue
        end = m.end()
        if not m.group(1).startswith("ghost use"):
            depth = m.group(0).count("{") - m.group(0).count("}")
            while depth > 0 and end < len(text):
                depth += {"{": 1, "}": -1}.get(text[end], 0)
                end += 1
        out.append(text[i:m.start()])
        out.append(turned(text[m.start():end]))
        i = end
    out.append(text[i:])
    return "".join(out)


for p in sources:
    old = open(p, encoding="utf-8").read()
    new = clauses(old)
    if new != old:
        open(p, "w", encoding="utf-8").write(new)
        changed += 1
print("files changed:", changed)
