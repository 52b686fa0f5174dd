#!/usr/bin/env python3
"""Respells the definitions and lemmas of this repository, and the edits of must-fail/, after the toolchain's port.py: functions, lemmas, fields
and constructors in snake case, types and facts in upper camel case. Run once, at the top: python3 tools/respell.py

Names of the toolchain's library, of functions in src/ and of what Rattle makes from those (proofs/F/) keep their spelling.
"""
import collections
import glob
import re
import sys

WORD = re.compile(r"[^\s(){}\[\];,.:@\"|`'/*]+'*")
# facts whose names began with a small letter
FACTS = {"allInTable": "AllInTable"}
# a name that would fall together with another one
OTHERS = {"openRow": "is_open_row", "lowFactor": "low_factor_of", "worksOut": "worked_out"}


def code(text):
    """The text without antt's comments."""
    return re.sub(r"(?m)(^|\s)--(?=\s|$)[^\n]*", r"\1", text)


def snake(name):
    parts = []
    for part in name.split("-"):
        if part[:1].isupper():
            parts.append(part)
        else:
            parts.append(re.sub(r"(?<=[a-z0-9])([A-Z])(?![A-Z])", lambda m: "_" + m.group(1).lower(), part))
    return "_".join(p for p in parts if p) if all(parts) else name


def names_of(path, text):
    """The names that a file of definitions or lemmas declares, those under `where` and the fields of records too."""
    out = set()
    for m in re.finditer(r"(?m)^\s*(?:let )?(?:(?:abbrev|unfoldable) )?(?:pub )?((?:[^\s:{}()=,;]+ )*[^\s:{}()=,;]+)(?: \{ℓ\})?\s+:\s", text):
        out.update(m.group(1).split())
    return out - {"where", "let", "in", "pub", "λ", "→", "use"}


def main():
    shared = sorted(glob.glob("crates/*/specs/*.antt") + glob.glob("crates/*/proofs/*.antt"))
    every = sorted(glob.glob("crates/*/specs/**/*.antt", recursive=True) + glob.glob("crates/*/proofs/**/*.antt", recursive=True))
    sources = sorted(glob.glob("crates/*/src/**/*.rt", recursive=True))
    texts = {p: open(p, encoding="utf-8").read() for p in every + sources}
    own = collections.defaultdict(set)
    for p in shared:
        for n in names_of(p, code(texts[p])):
            own[n].add(p)
    imported = collections.defaultdict(set)
    crates = {p.split("/")[1] for p in every + sources}
    for p, t in texts.items():
        for m in re.finditer(r"(?m)^\s*(?:pub )?(?:ghost )?use ([\w.+-]+)(?:\.\{([^}]*)\})?", t):
            root = m.group(1).split(".")
            if not (root[0] == "Rattle" and len(root) > 1 and root[1] in crates):
                for n in re.split(r"[,\s]+", m.group(2) or ""):
                    imported[n].add(p)
    turn = {}
    functions = set(re.findall(r"\bfn (\w+)", " ".join(texts[p] for p in sources)))
    plain = {OTHERS.get(n) or snake(n) for n in own if "-" not in n}
    for n in sorted(own):
        if n[:1].isupper() and "-" not in n:
            continue
        new = OTHERS.get(n) or FACTS.get(n) or snake(n)
        # a lemma that would have the name of a function or of its definition gets `_lem`
        if "-" in n and (new in functions or new in own or new in plain):
            new += "_lem"
        if new != n:
            turn[n] = new
    # names in proofs/F/ that no shared file declares: camel case alone
    for p in every:
        for w in WORD.findall(code(texts[p])):
            if w not in turn and w not in imported and re.match(r"^[a-z][a-z0-9_]*[A-Z]", w) and "-" not in w:
                new = FACTS.get(w) or snake(w)
                if new != w:
                    turn[w] = new
    words = collections.Counter()
    where = collections.defaultdict(set)
    for p, t in texts.items():
        for w in set(WORD.findall(code(t))):
            words[w] += 1
            where[w].add(p)
    back = collections.defaultdict(set)
    for a, b in turn.items():
        back[b].add(a)
    for b, a in sorted(back.items()):
        if len(a) > 1 or b in words:
            both = [p for p in where.get(b, ()) if any(p in where[x] for x in a)]
            print("falls together:", b, sorted(a), len(where.get(b, ())), both[:6])
    if "--dry" in sys.argv:
        print(len(turn), "names")
        return
    for p in sorted(glob.glob("crates/*/must-fail/*.edit")):
        texts[p] = open(p, encoding="utf-8").read()
    for p, t in texts.items():
        keep = {n for n in turn if p in imported.get(n, ())}

        def put(m):
            w = m.group(0)
            return w if w in keep else turn.get(w, w)

        new = WORD.sub(put, t)
        if new != t:
            open(p, "w", encoding="utf-8").write(new)
    print(len(turn), "names")


main()
