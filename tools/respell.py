#!/usr/bin/env python3
"""Spells the repository's own definitions and lemmas in snake case.

usage: python3 tools/respell.py            at the top: rewrites crates/ in place
       python3 tools/respell.py --list     prints each old and new name, and the names that would fall together

A name is turned where a .antt file of specs/ or proofs/ declares it: dashes and inner capitals become underscores. A word
that begins with a capital (a type, a fact) keeps it. Names of types and modules, of functions of src/, and goals of proofs
(what is typed by `tie.` or `goal.`) stay. A lemma of LEMMAS gets `_lem`, since its turned name would be that of a definition.
"""
import glob
import os
import re
import sys

NAME = r"[^\s(){}.;,@\"«»:]+"
DECLARED = re.compile(
    r"(?m)^ *(?:(?:pub|abbrev|unfoldable|private|opaque) )*(" + NAME + r")(?: *\{[^{}\n]*\}| *\([^()\n]*\))* *: *(.*)$"
)
BLOCK = re.compile(r"(?m)^( *)(?:pub )?(?:abbrev )?(?:record|data|type) (" + NAME + r")")
USE = re.compile(r"\buse (Rattle\.std|core|lib|mathlib|native|Prim|borrow|Rattle\.core)\b[^\s;{]*\.?(?:\{([^}]*)\})?", re.M)
GOAL = re.compile(r"returns-\d+|.*-requires(-\d+)?")
TOKEN = re.compile(r"[^\s(){}.;,@\"«»]+")

# Lemmas whose turned name would be that of a definition: they end in `_lem`.
LEMMAS = """
any-kind block-word clause-at clause-tokens clause-word clauses-end clauses-read closed_at closing-step empty-after
entry-count entry-word entry-words field_found first-empty formula-read in-range in-text is-existential is-plain
known-positions later-entries literal-step long-distance-positions number-at number-found put_first quantifier-number
quantifier-word read_at reading-from refused-line signed_word signed-words slot-at slot-of steps-read tokens-in
two-lines universal-asked variable-bound variable-word word_at word-is at-end
""".split()


def snake(name):
    words = re.sub(r"(?<=[a-z0-9])([A-Z])(?=[a-z0-9_]|$)", lambda m: "_" + m[1].lower(), name) if not name[:1].isupper() else name
    return words.replace("-", "_")


def files():
    for kind in ("specs", "proofs"):
        for p in sorted(glob.glob(f"crates/*/{kind}/**/*.antt", recursive=True)):
            yield p


def declared():
    names = {}
    for p in files():
        text = open(p, encoding="utf-8").read()
        text = re.sub(r"--.*", "", text)
        for m in DECLARED.finditer(text):
            name, kind = m[1], m[2]
            if kind.startswith(("tie.", "goal.")) or "/proofs/+" in p or "/+" in p:
                continue
            if p.endswith("/Proof.antt") and GOAL.fullmatch(name):
                continue
            names.setdefault(name, set()).add(p)
    return names


def functions():
    found = set()
    for p in glob.glob("crates/*/src/**/*.rt", recursive=True):
        found |= set(re.findall(r"\bfn (\w+)", open(p, encoding="utf-8").read()))
    return found


def library():
    """Names that some file takes from the library."""
    found = set()
    for p in list(files()) + glob.glob("crates/*/src/**/*.rt", recursive=True):
        for m in USE.finditer(open(p, encoding="utf-8").read()):
            for n in (m[2] or "").split(","):
                n = n.strip()
                if n:
                    found.add(n.split(" as ")[-1])
    return found


def table():
    names = declared()
    turned = {}
    for n in names:
        new = snake(n) + ("_lem" if n in LEMMAS else "")
        if new != n:
            turned[n] = new
    return names, turned


def imported(text):
    """What the file takes from a library, by the names it has here."""
    found = set()
    for m in USE.finditer(text):
        for n in (m[2] or "").split(","):
            n = n.strip()
            if n:
                found.add(n.split(" as ")[-1])
    return found


def turn_antt(text, turned):
    out = []
    kept = imported(text)
    for line in text.split("\n"):
        if re.match(r"\s*(pub )?use (Rattle\.std|core|lib|mathlib|native|Prim|borrow)\b", line):
            out.append(line)
            continue

        def one(m):
            n = m[0]
            before = line[: m.start()]
            after = line[m.end():]
            if n not in turned or n in kept and not before.endswith("."):
                return n
            if re.search(r"(tie|goal)\.$", before):
                return n
            return turned[n]

        out.append(TOKEN.sub(one, line))
    return "\n".join(out)


def turn_rt(text, turned):
    kept = imported(text)
    pattern = re.compile(r"(?<![\w'\-])([^\s(){}\[\].;,@\"«»<>&*!:]+)(?![\w'\-])")

    def one(m):
        n = m[1]
        if n in turned and n not in kept and ("-" in n or re.search("[a-z0-9][A-Z]", n)):
            return turned[n]
        return n

    return pattern.sub(one, text)


def main():
    names, turned = table()
    if "--list" in sys.argv:
        back = {}
        for n in names:
            back.setdefault(turned.get(n, n), []).append(n)
        fns, lib = functions(), library()
        for new, olds in sorted(back.items()):
            if len(olds) > 1:
                print("together:", new, "<-", *olds, [sorted(names[o])[0] for o in olds])
            elif olds[0] != new and new in fns:
                print("function:", new, "<-", olds[0], sorted(names[olds[0]])[:2])
            elif olds[0] != new and new in lib:
                print("library:", new, "<-", olds[0], sorted(names[olds[0]])[:2])
        low = {}
        for n in names:
            low.setdefault(turned.get(n, n).lower(), set()).add(turned.get(n, n))
        for k, v in sorted(low.items()):
            if len(v) > 1:
                print("case:", *sorted(v))
        print(len(turned), "names")
        return
    for p in files():
        text = open(p, encoding="utf-8").read()
        new = turn_antt(text, turned)
        if new != text:
            open(p, "w", encoding="utf-8").write(new)
    for p in glob.glob("crates/*/src/**/*.rt", recursive=True) + glob.glob("crates/*/must-fail/*.edit"):
        text = open(p, encoding="utf-8").read()
        new = turn_rt(text, turned)
        if new != text:
            open(p, "w", encoding="utf-8").write(new)


if __name__ == "__main__":
    main()
