#!/usr/bin/env python3
"""Brings the repository's own names to the spelling of today's Rattle: definitions, fields, constructors and lemmas in snake case.

usage: tools/respell.py        at the top, once, after /opt/rattle/port/port.py

Types, modules and facts keep their capitals. A lemma whose two halves are names of functions keeps the dash between them, as
`bytes-enc`. Every struct and enum of src/ holds plain values and was copied: it derives Copy. A lemma that would fall together with another name gets `_lem`. What is renamed is printed, old and new.
"""
import collections, os, re, sys

IDENT = r"[^\s(){}\[\];,.:\"|«»◌`=λ→]+"
TOKEN = re.compile(IDENT)
HEAD = re.compile(r"^(\s*)((?:(?:abbrev|unfoldable|pub|axiom)\s+)*)(" + IDENT + r")((?:\s+\{[^{}]*\})?)\s*:\s")
# names that would fall together with another one
CHOSEN = {f"{x}-of": f"{x}_from" for x in "position reference identity intent prepared closure lease permit receipt context faults".split()}
CHOSEN |= {f"{x}Parts": f"{x}_parts_of" for x in "permit acquired renewed prepared published".split()}
CHOSEN |= {"outcome-bytes": "outcome_is_bytes", "overLimit": "contents_over_limit", "policyFor": "policy_for_window",
    "readableFor": "readable_for_window", "rootText": "root_text_of", "rows_at": "lease_rows_at", "scalarsOf": "scalars_opened",
    "tablesAt": "tables_place", "option-at": "option_place"}
STD = set("length take drop append cons get_or set map any all filter reverse sum min max suc zero insert remove lookup".split())


def files(ends):
    for top in ("crates",):
        for folder, dirs, names in os.walk(top):
            dirs[:] = sorted(d for d in dirs if d != "out")
            for f in sorted(names):
                if f.endswith(ends):
                    yield os.path.join(folder, f)


def snake(name):
    name = re.sub(r"([a-z0-9])([A-Z])", r"\1_\2", name)
    name = re.sub(r"([A-Z]+)([A-Z][a-z])", r"\1_\2", name)
    return name.lower() if name[0].islower() else name


def flat(name):
    return snake(name).replace("-", "_")


def walked(path):
    return path.endswith("/Proof.antt")


def main():
    words, lemmas = set(), set()
    kinds = collections.defaultdict(set)
    for p in files(".antt"):
        if walked(p):
            continue
        block = None
        for line in open(p, encoding="utf-8"):
            if re.match(r"^(pub )?(record|data)\s", line) or re.match(r"^pub (record|data)\s", line):
                block = True
            elif re.match(r"^\S", line):
                block = None
            m = HEAD.match(line)
            if not m:
                continue
            indent, marks, name = m.group(1), m.group(2), m.group(3)
            if not re.match(r"[a-z]", name):
                continue
            if "abbrev" in marks or "unfoldable" in marks or (block and indent):
                words.add(name)
            else:
                lemmas.add(name)
            kinds[name].add(p)
    lemmas -= words
    new = {}
    known = STD | {flat(w) for w in words} | {w for w in words}
    for w in words:
        new[w] = CHOSEN.get(w, flat(w))
    taken = collections.defaultdict(set)
    for w, t in new.items():
        taken[t].add(w)
    for n in sorted(lemmas):
        t = CHOSEN.get(n, flat(n))
        parts = [] if n in CHOSEN else n.split("-")
        for k in range(1, len(parts)):
            a, b = flat("-".join(parts[:k])), flat("-".join(parts[k:]))
            if a in known and b in known:
                t = a + "-" + b
                break
        if taken[t] - {n}:
            t = t + "_lem"
        taken[t].add(n)
        new[n] = t
    for t, olds in sorted(taken.items()):
        if len(olds) > 1:
            print("together:", t, sorted(olds), sorted({p for o in olds for p in kinds[o]})[:4])
    change = {a: b for a, b in new.items() if a != b}
    if "--dry" in sys.argv:
        return 0

    def turn(text):
        return TOKEN.sub(lambda m: change.get(m.group(0), m.group(0)), text)

    for p in files((".antt", ".rt")):
        old = open(p, encoding="utf-8").read()
        text = turn(old)
        if p.endswith(".rt"):
            text = text.replace("#[derive(Drop)]", "#[derive(Clone, Copy)]")
        if text != old:
            open(p, "w", encoding="utf-8").write(text)
    for p in files((".antt", ".rt")):
        seen = collections.Counter()
        for line in open(p, encoding="utf-8"):
            m = re.match(r"(?:ghost )?(?:pub )?use (\S+)\.\{(.*)\};?$", line.strip())
            if m:
                for it in m.group(2).split(","):
                    seen[it.split(" as ")[-1].strip()] += 1
            m = HEAD.match(line)
            if m and p.endswith(".antt") and not m.group(1) and not walked(p):
                seen[m.group(3)] += 1
        for a, k in seen.items():
            if k > 1:
                print("twice:", p, a)
    with open("tools/respelled.txt", "w", encoding="utf-8") as f:
        for a, b in sorted(change.items()):
            f.write(f"{a} {b}\n")
    print(len(change), "names")
    return 0


sys.exit(main())
