#!/usr/bin/env python3
"""Counts, in crates/*/src (and, for point 8, in proofs/), the places that docs/DESIGN-PASS.md speaks of, point by point, and lists them.

    python3 tools/forms.py             the counts
    python3 tools/forms.py POINT       the places of a point, 1 to 8
    python3 tools/forms.py --at FOLDER ..   the same of another checkout

A place that carries a line `// Stays: ` above it is listed with an `s`. The count is by shape: it lists more than what a reader would change.
"""
import difflib
import glob
import os
import re
import sys

FN = re.compile(r"^(\s*)(?:pub(?:\([a-z]+\))? )?(?:extern \"C\" )?fn (\w+)")


class Source:
    def __init__(self, path):
        self.path = path
        self.lines = open(path, encoding="utf-8").read().split("\n")

    def functions(self):
        """(name, first line, signature and clauses, body) of each function."""
        i = 0
        while i < len(self.lines):
            m = FN.match(self.lines[i])
            if not m:
                i += 1
                continue
            indent = m.group(1)
            j = i
            while j < len(self.lines) and not re.match(rf"^{indent}\}}\s*$|^{indent}(?!\s).*;\s*$|^{indent}(?!\s).*\{{ .* \}}$", self.lines[j]):
                j += 1
            text = self.lines[i : j + 1]
            head = []
            for k, line in enumerate(text):
                if line.rstrip() == indent + "{" or (line.rstrip().endswith(" {") and k == 0) or line.rstrip() == indent + ") {" \
                        or re.match(rf"^{indent}\) -> .* \{{$", line):
                    head = text[: k + 1]
                    body = text[k + 1 :]
                    break
            else:
                head, body = text, []
            yield m.group(2), i, head, body
            i = j + 1

    def stays(self, at):
        """Whether a line that gives a reason stands in the comment above."""
        k = at - 1
        while k >= 0 and (self.lines[k].strip().startswith("//") or self.lines[k].strip().startswith("#[")):
            if "// Stays: " in self.lines[k]:
                return True
            k -= 1
        return False


def sources():
    return [Source(p) for p in sorted(glob.glob("crates/*/src/**/*.rt", recursive=True))]


def lines_like(pattern):
    """Lines of code, no comments, that hold the pattern."""
    for s in sources():
        for i, line in enumerate(s.lines):
            code = line.split("//")[0]
            if code.strip().startswith(("ghost", "requires", "ensures", "#")):
                continue
            if re.search(pattern, code):
                yield s, i, line.strip()


def parameters(head):
    text = " ".join(line.strip() for line in head)
    m = re.search(r"\bfn \w+(?:<[^(]*>)?\((.*?)\)(?: ->| *(?:requires|ensures|where|\{)|$)", text)
    if not m:
        return []
    parts = [p.strip() for p in re.split(r",(?![^<(\[]*[>)\]])", m.group(1)) if p.strip()]
    return parts


def clauses(head):
    text = " ".join(line.strip() for line in head)
    for m in re.finditer(r"requires \w*\s*\{(.*?)\}(?= requires| ensures| \{|$)", text):
        depth, last, inner = 0, 0, m.group(1)
        for i, c in enumerate(inner):
            if c in "([{":
                depth += 1
            elif c in ")]}":
                depth -= 1
            elif c == "×" and depth == 0:
                yield inner[last:i].strip(" ()")
                last = i + 1
        yield inner[last:].strip(" ()")


def point1():
    yield from (("own enum", *x) for x in lines_like(r"^\s*(pub )?enum \w+"))
    yield from (("flag in a struct", *x) for x in lines_like(r"^\s+(pub )?\w+: bool,$"))
    yield from (("number for a kind or refusal", *x) for x in lines_like(
        r"\b(kind|refusal|due|which|over|under|component|pattern|number): (u8|u16|u64|usize)\b"))
    yield from (("refusal as a number", *x) for x in lines_like(r"\bfn (due|refusal|first)\w*\(.*-> u8|Refused\(\d+\)|, \d+, d\)"))


def tokens(body):
    text = " ".join(line.split("//")[0] for line in body)
    return ["0" if t[0].isdigit() else "i" if re.match(r"[A-Za-z_]", t) else t
            for t in re.findall(r"[A-Za-z_]\w*|\d\w*|[^\s\w]", text)]


def point2():
    every = []
    for s in sources():
        crate = s.path.split("/")[1]
        for name, at, head, body in s.functions():
            t = tokens(body)
            if len(t) >= 18:
                every.append((crate, s, name, at, t))
    for i, (c, s, n, at, t) in enumerate(every):
        for c2, s2, n2, at2, t2 in every[i + 1 :]:
            if c.startswith("recheck") != c2.startswith("recheck"):
                continue
            if abs(len(t) - len(t2)) * 6 > max(len(t), len(t2)):
                continue
            m = difflib.SequenceMatcher(None, t, t2, autojunk=False)
            if m.quick_ratio() >= 0.88 and m.ratio() >= 0.88:
                yield "twin", s, at, f"{n} ~ {s2.path}:{at2 + 1} {n2}"


def point3():
    yield from (("loop", *x) for x in lines_like(r"^\s*(while |loop \{)"))
    yield from (("loop that only counts its turns", *x) for x in lines_like(r"^\s*for _\w* in 0\.\."))


def point4():
    yield from (("cast", *x) for x in lines_like(r"\bas (u8|u16|u32|u64|usize|i16|i32|i64)\b"))
    yield from (("order by hand", *x) for x in lines_like(r"if [\w.]+ <=? [\w.]+ \{ [\w.]+ \} else \{ [\w.]+ \}|if [\w.]+ < 0 \{"))
    yield from (("library call by its type", *x) for x in lines_like(r"\b(u64::trailing_zeros|wrapping_\w+_\w+)\("))


def point5():
    facts = {}
    groups = {}
    for s in sources():
        for name, at, head, body in s.functions():
            for c in clauses(head):
                word = re.sub(r"\.(now|old|new)\b", "", c)
                if re.match(r"^(In|.*Range|.*≡)", word) or word.split(" ")[0][:1].isupper():
                    key = word.split(" ")[0] if word.split(" ")[0][:1].isupper() else word
                    facts.setdefault((s.path.split("/")[1].startswith("recheck"), key), []).append((s, at, name))
            ps = [p for p in parameters(head) if "self" not in p]
            for i in range(len(ps)):
                for j in range(i + 1, len(ps)):
                    for k in range(j + 1, len(ps)):
                        groups.setdefault((ps[i], ps[j], ps[k]), []).append((s, at, name))
    for key, places in sorted(facts.items(), key=lambda x: -len(x[1])):
        if len(places) >= 3:
            yield "fact", places[0][0], places[0][1], f"{key[1]} in {len(places)} contracts: " + ", ".join(p[2] for p in places)
    together = {}
    for key, places in groups.items():
        if len(places) >= 3:
            shared = together.setdefault(tuple((p[0].path, p[1]) for p in places), [places, []])
            shared[1] += [p for p in key if p not in shared[1]]
    for places, ps in sorted(together.values(), key=lambda x: -len(x[0])):
        yield "parameters", places[0][0], places[0][1], f"{'; '.join(ps)} in {len(places)}: " + ", ".join(p[2] for p in places)


def point6():
    yield from (("place in a buffer", *x) for x in lines_like(r"\b(at|to|from|start|end|held|count|len|written|consumed): usize,?"))
    yield from (("arithmetic in an index", *x) for x in lines_like(r"\[[^\]]*\w+ [*] \w+|let (at|from|first|start|place)\w* = .* [*] "))
    yield from (("parallel arrays", *x) for x in lines_like(r"\b(s0|s1|s2|s3|first|second|third|fourth|lengths): "))


def point7():
    for s in sources():
        for name, at, head, body in s.functions():
            for p in parameters(head):
                if re.search(r": bool$", p):
                    yield "switch", s, at, f"{name}({p})"


def point8():
    """Answers to goals, and lemmas whose name stands nowhere but at their own head and, in a `using`, nowhere either."""
    files = {p: open(p, encoding="utf-8").read() for p in glob.glob("crates/*/**/*.antt", recursive=True) if "/out/" not in p}
    words = {}
    for p, text in files.items():
        for w in re.findall(r"[^\s(){}\[\];,.:@\"|`'/*]+'*", "\n".join(re.sub(r"--.*", "", line) for line in text.split("\n"))):
            words[w] = words.get(w, 0) + 1
    for s in sources():
        for w in re.findall(r"\w+", "\n".join(line.split("//")[0] for line in s.lines)):
            words[w] = words.get(w, 0) + 1
    for p, text in sorted(files.items()):
        s = Source(p)
        for i, line in enumerate(s.lines):
            if p.endswith("/Answers.antt") and re.match(r"(pub )?[\w-]+ : goal\.", line):
                yield "answer", s, i, line
            m = re.match(r"(?:abbrev )?(?:pub )?([\w-]+'*) : ", line)
            if m and "/proofs/" in p and not re.search(r"/proofs/.*/", p[p.index("/proofs/") + 1 :]) and words.get(m.group(1), 0) <= 2:
                yield "lemma with no user", s, i, m.group(1)


POINTS = [point1, point2, point3, point4, point5, point6, point7, point8]


def main():
    args = sys.argv[1:]
    if args[:1] == ["--at"]:
        os.chdir(args[1])
        args = args[2:]
    for n, point in enumerate(POINTS, 1):
        if args and str(n) not in args:
            continue
        counts = {}
        for what, s, at, text in point():
            counts.setdefault(what, [0, 0])
            counts[what][0] += 1
            stays = s.stays(at)
            counts[what][1] += stays
            if args:
                print(f"{'s' if stays else ' '} {s.path}:{at + 1}: {what}: {text}")
        print(f"{n}: " + (", ".join(f"{k} {a}" + (f" ({b} stay)" if b else "") for k, (a, b) in counts.items()) or "none"))


main()
