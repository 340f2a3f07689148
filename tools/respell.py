#!/usr/bin/env python3
"""Respells this repository's own ghost names: definitions, fields, constructors and lemmas of crates/*/specs and crates/*/proofs.

    python3 tools/respell.py            at the top of the repository, once, with everything committed
    python3 tools/respell.py --list     prints OLD NEW for each name, and changes nothing

Functions, fields and constructors in camel case become snake case. In the name of a lemma a dash stays where it joins two
names, and becomes _ where it adds a plain word. Facts, types and modules keep their capitals, names from Rattle source and
names that the check makes keep their spelling. It stops where two names would fall together.
"""
import os, re, sys, glob

NAME = re.compile(r"[^\s(){}\[\];,.«»\"@:λ]+")
HEAD = re.compile(r"^\s*((?:(?:unfoldable|abbrev|pub|data|record)\s+)*)([^\s(){}\[\];,.«»\"@:λ]+)\s*(?:\([^:]*:.*\)|\{[^:]*:.*\))?\s*:\s")
MADE = re.compile(r"^(returns|loop|invariant|decreases|overflow|slice_bounds|slice-bounds|bounds|index|range|ghost|init|preserved|div|cast|shift|unreachable)(-|$)|-(requires|init|preserved|smaller)(-\d+)?$|-in-loop-")
# words that lemmas of the library join by a dash: names of functions and operators
WORDS = set("append length take drop map filter fold sum ++ + * ^ - ∷ [] zero suc cond parity remainder".split())
# words that some lemma happens to have as its whole name, and that add only a plain word to others
PLAIN = set("none more some first same".split())
# lemmas that would fall together with the definition that they speak of: named by what they say
CHOSEN = {"bits-of": "Bits-bits_of", "fields-of": "fields_of_user", "in-force": "in_force_example", "in-range": "in_range_ok"}

def files():
    for f in sorted(glob.glob("crates/*/**/*", recursive=True)):
        if "/out/" not in f and f.endswith((".rt", ".antt", ".edit")):
            yield f

def uncommented(line):
    return line.split("-- ")[0] if not line.lstrip().startswith("--") else ""

def own():
    """Name: whether some file defines it as a definition, field or constructor rather than as a lemma or answer."""
    found, made = {}, set()
    for f in files():
        if not f.endswith(".antt"):
            continue
        answers = os.path.basename(f) in ("Answers.antt", "Invariants.antt", "Proof.antt", "Choices.antt")
        for line in open(f, encoding="utf-8"):
            m = HEAD.match(uncommented(line))
            if not m or m.group(2) in ("use", "module", "let", "in", "where", "open", "elim"):
                continue
            name = m.group(2)
            if answers and MADE.search(name):
                made.add(name)
            else:
                found.setdefault(name, set()).add("/specs/" in f or bool(re.search(r"abbrev|unfoldable|data|record", m.group(1))))
    return {n: any(k) for n, k in found.items() if n not in made}

def snake(word):
    word = re.sub(r"([a-z0-9])([A-Z])", r"\1_\2", word)
    return word.lower()

def respelled(name, names):
    parts = re.split(r"(?<=[\w'])-(?=[^\W\d]|\+\+)", name)
    if len(parts) == 1:
        return snake(name) if re.match(r"[a-z]", name) and re.search(r"[A-Z]", name) else name
    done = [snake(p) if re.match(r"[a-z]", p) else p for p in parts]
    out, known = done[0], lambda p, d: p not in PLAIN and (p in WORDS or d in WORDS or p in names or d in names)
    for (p, d), (q, e) in zip(zip(parts, done), list(zip(parts, done))[1:]):
        out += ("-" if known(p, d) and known(q, e) else "_") + e
    return out

def main():
    names = own()
    definitions = {n for n, d in names.items() if d and "-" not in n}
    table = {n: CHOSEN.get(n) or respelled(n, definitions) for n in names}
    taken = {table[n] for n in definitions}
    for n, t in table.items():  # a lemma that would have its function's name
        if n not in definitions and n != t and (t in taken or t in names):
            table[n] = t + "_lem"
    table = {n: t for n, t in table.items() if n != t}
    seen = {}
    for n in sorted(names):
        seen.setdefault(table.get(n, n), []).append(n)
    clash = {t: ns for t, ns in seen.items() if len(ns) > 1}
    if "--list" in sys.argv:
        for n, t in sorted(table.items()):
            print(n, t)
    if clash:
        for t, ns in clash.items():
            print(f"respell: {', '.join(ns)} would all be {t}", file=sys.stderr)
        sys.exit(2)
    if "--list" in sys.argv:
        return
    changed = 0
    for f in files():
        old = open(f, encoding="utf-8").read()
        new = NAME.sub(lambda m: table.get(m.group(0), m.group(0)), old)
        if new != old:
            open(f, "w", encoding="utf-8").write(new)
            changed += 1
    print(f"respell: {len(table)} names, {changed} files")

main()
