#!/usr/bin/env python3
"""Brings the repository's own names in specs/, proofs/ and clauses to one spelling: words in snake case, a dash only between two names.

usage: python3 tools/respell.py [--check]      at the top of the repository, once, after port.py

--check prints what would be renamed (old, new) and names that fall together, and writes nothing.
What is named in src/ (functions, types, fields, parameters, constants), strings, paths and the library's names keep their spelling.
"""

import os
import re
import sys

ROOT = "crates"
# Words of the library that stand in names of lemmas: a dash joins them to another name.
LIBRARY = set(
    "length take drop set append map reverse replicate get_or paste zero suc add mul sub pow div mod le lt eq ne min max not cond true false mem "
    "none some cons nil sum pred fst snd ap elim intro".split()
)
# Lemmas that would fall together with a definition in the new spelling: they get _lem.
LEMMAS = set(
    "after-es ask-reply ask-told assignment-line bit-and first-misfit in-block leads-on mark-at of-until pattern-count question-files reach-reply reach-told serving-rows set-of walk-on".split()
)
WORD = re.compile(r"[A-Za-zμ-ωℕ_][A-Za-z0-9_'′₀-₉⁻¹ᴰ]*(?:-[A-Za-z0-9_'′₀-₉⁻¹ᴰ]+)*")
CAMEL = re.compile(r"^[a-z][a-z0-9]*(?:[A-Z][A-Za-z0-9]*)+$")
DECLARED = re.compile(r"^\s*(?:(?:abbrev|unfoldable|opaque|pub)\s+)*([a-z][^\s(){}\[\],;.]*) :(?:\s+(tie\.)?|$)", re.M)
RECORD = re.compile(r"^(\s*)(?:pub )?record ")
FIELD = re.compile(r"^(\s*)(?:pub )?([a-z][^\s(){}\[\],;.]*) :")
USE = re.compile(r"^\s*(?:pub )?use (?!Rattle\.(?:CRATES)\b)(\S+)\.\{([^}]*)\}", re.M)


def files(kind):
    for folder, dirs, names in os.walk(ROOT):
        dirs[:] = sorted(d for d in dirs if d not in ("out", "data", "must-fail"))
        for n in sorted(names):
            if n.endswith(kind):
                yield os.path.join(folder, n)


def read(path):
    with open(path, encoding="utf-8") as f:
        return f.read()


def snake(word):
    """aB to a_b, in each part that is a word in camel case and begins small."""
    parts = re.split(r"([-_])", word)
    for i, p in enumerate(parts):
        if p == "getD":
            parts[i] = "get_or"
        elif CAMEL.match(p.rstrip("'′")):
            parts[i] = re.sub(r"(?<=[a-z0-9])([A-Z])", r"_\1", p).lower()
    return "".join(parts)


def dashes(word, names):
    """A dash stays where a name stands on both sides of it."""
    parts = word.split("-")
    out = parts[0]
    left = parts[0]
    for p in parts[1:]:
        both = left.rstrip("'′") in names and p.rstrip("'′") in names
        out += ("-" if both else "_") + p
        left = p if both else left + "_" + p
    return out


def fields(text):
    """The names of the fields of records that a file declares."""
    inside = None
    for line in text.split("\n"):
        r, f = RECORD.match(line), FIELD.match(line)
        if r:
            inside = len(r.group(1))
        elif f and inside is not None and len(f.group(1)) > inside:
            yield f.group(2)
        elif line.strip() and len(line) - len(line.lstrip()) <= inside if inside is not None else False:
            inside = None


def plan():
    antt = {p: read(p) for p in files(".antt")}
    rt = {p: read(p) for p in files(".rt")}
    own = set(os.listdir(ROOT))
    use = re.compile(USE.pattern.replace("CRATES", "|".join(sorted(own))), re.M)
    library = set()
    for t in list(antt.values()) + list(rt.values()):
        for m in use.finditer(t):
            library |= {w.split(" as ")[0].strip() for w in m.group(2).split(",")}
    declared, defined, kept, answers = set(), set(), set(), set()
    for p, t in antt.items():
        for m in DECLARED.finditer(t):
            if m.group(2):
                answers.add(m.group(1))  # the name of a goal, which is Rattle's
                continue
            declared.add(m.group(1))
            if "/proofs/" in p:
                kept.add(m.group(1))
            if "/specs/" in p:
                defined.add(snake(m.group(1)))
    names = {n for n in defined if "-" not in n} | LIBRARY
    new = {}
    for t in list(antt.values()) + list(rt.values()):
        for m in WORD.finditer(t):
            w = m.group(0)
            if w in new or w in library:
                continue
            s = snake(w)
            if w in declared and "-" in s:
                if s.endswith("-spec"):
                    s = s.replace("-", "_")  # the proof of a function
                elif w not in answers:
                    s = dashes(s, names)
            if s != w:
                new[w] = w.replace("-", "_") + "_lem" if w in LEMMAS else s
    held = {f for t in antt.values() for f in fields(t)}
    # A lemma of proofs/ that has the name that a definition gets.
    lemmas = {s for w, s in new.items() if "-" not in w and s in kept}
    return antt, rt, new, held, lemmas


def strings_aside(text):
    """The text of a .rt file in pieces: (is it a string or a path, piece)."""
    return [(i % 2 == 1, p) for i, p in enumerate(re.split(r'("(?:[^"\\\n]|\\.)*")', text))]


def turn(text, new, held, lemmas):
    def one(m):
        w = m.group(0)
        before = text[m.start() - 1 : m.start()]
        # behind a point a dash is one of Rattle's own steps, but for fields of ours
        if before == "." and ("-" in w and w not in held or w in lemmas):
            return w
        return w + "_lem" if w in lemmas else new.get(w, w)

    return WORD.sub(one, text)


def main(argv):
    antt, rt, new, held, lemmas = plan()
    if "--check" in argv:
        taken = {m.group(0) for t in list(antt.values()) + list(rt.values()) for m in WORD.finditer(t)}
        by_new = {}
        for w, s in sorted(new.items()):
            print(w, s)
            by_new.setdefault(s, []).append(w)
        for s, ws in sorted(by_new.items()):
            if len(ws) > 1:
                print("together:", s, *ws)
            if s in taken:
                print("taken:", s, *ws, "lemma" if s in lemmas else "")
        return 0
    for p, t in antt.items():
        here = {s for s in lemmas if re.search(r"(?m)^\s*(?:(?:abbrev|unfoldable|opaque|pub)\s+)*" + re.escape(s) + r" :(?:\s|$)", t) and "/proofs/" in p}
        for m in re.finditer(r"^\s*(?:pub )?use \S+\.proofs\.\S*\{([^}]*)\}", t, re.M):
            here |= lemmas & {w.strip() for w in m.group(1).split(",")}
        u = turn(t, new, held, here)
        if u != t:
            with open(p, "w", encoding="utf-8") as f:
                f.write(u)
    for p, t in rt.items():
        u = "".join(x if quoted else turn(x, new, held, ()) for quoted, x in strings_aside(t))
        if u != t:
            with open(p, "w", encoding="utf-8") as f:
                f.write(u)
    print(len(new), "names respelled,", len(lemmas), "lemmas with _lem")
    return 0


if __name__ == "__main__":
    sys.exit(main(sys.argv[1:]))
