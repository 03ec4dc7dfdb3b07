#!/usr/bin/env python3
"""Counts, in a checkout (the argument, or this one), the places in crates/*/src and proofs/ that docs/DESIGN-PASS.md speaks of, point by point, and with
-v lists them. It reads text: what it finds is a candidate, and the page says what became of each."""
import os
import re
import sys
from collections import defaultdict

args = [a for a in sys.argv[1:] if a != "-v"]
verbose = "-v" in sys.argv
root = args[0] if args else os.path.dirname(os.path.dirname(os.path.abspath(__file__)))
# enums that are kinds of their own: a sheet, a notation, uses, operands, operations, rules, glyphs
KINDS = {"Sheet", "Notation", "Use", "Operand", "Operation", "Rule", "Glyph"}


def sources():
    for folder, _, names in sorted(os.walk(os.path.join(root, "crates"))):
        if os.sep + "src" in folder and os.sep + "out" not in folder:
            for name in sorted(names):
                if name.endswith(".rt"):
                    path = os.path.join(folder, name)
                    yield os.path.relpath(path, os.path.join(root, "crates")), open(path, encoding="utf8").read()


def functions(text):
    """Name, parameters, result, clauses and body of each function."""
    out = []
    for m in re.finditer(r"(?m)^( *)(?:pub(?:\([a-z]+\))? )?(?:extern \"C\" )?fn (\w+)(<[^>]*>)?\(", text):
        i, depth = m.end(), 1
        while depth and i < len(text):
            depth += {"(": 1, ")": -1}.get(text[i], 0)
            i += 1
        params = re.sub(r"\s+", " ", text[m.end():i - 1]).strip(", ")
        body = re.search(r"(?m)^" + m.group(1) + r"\{$|\{$", text[i:])
        if not body:
            continue
        start = i + body.end()
        end = re.search(r"(?m)^" + m.group(1) + r"\}", text[start:])
        head = text[i:i + body.start()]
        result = re.match(r"\s*->\s*([^\n{]+)", head)
        out.append((m.group(2), params, result.group(1).strip() if result else "", head, text[start:start + (end.start() if end else 0)]))
    return out


found = defaultdict(list)
twins, bodies, facts, pairs = defaultdict(list), defaultdict(list), defaultdict(list), defaultdict(list)
for path, text in sources():
    crate = path.split(os.sep)[0]
    code = re.sub(r"(?m)^ *//.*$", "", text)
    for m in re.finditer(r"(?m)^ *(?:pub )?enum (\w+)", code):
        if m.group(1) not in KINDS:
            found["1 enums that are no kinds"].append(f"{crate}::{m.group(1)}")
    for m in re.finditer(r"(?m)^ *(?:pub )?struct (\w+)[^{;]*\{(.*?)^ *\}", code, re.S):
        if re.search(r"\b(found|refused|bad|last|all): bool", m.group(2)):
            found["1 flags with a value beside"].append(f"{crate}::{m.group(1)}")
        if re.search(r"\b(count|sets): u\w+", m.group(2)) and "; " in m.group(2):
            found["6 arrays with a count beside"].append(f"{crate}::{m.group(1)}")
    for name, params, result, head, body in functions(code):
        where = f"{crate}::{name}"
        if result in ("u8", "u32") and re.match(r"(judge|misfit|prefix|middle|side|sign|named|kind)", name):
            found["1 numbers for kinds or refusals"].append(where)
        base = re.sub(r"(8|16|32|_small|_middle|_large|_few|_many)$", "", name)
        twins[(crate, base)].append(name)
        flat = re.sub(r"\s+", " ", body).strip()
        bodies[(re.sub(r"\w+: ", "", params), result, re.sub(r"\b[a-z]\b", "_", flat))].append(where)
        for w in re.finditer(r"while ([a-z]\w*) *(?:\+ 1 )?(?:<|<=) *[^{]+\{|while 0 < (\w+) \{", body):
            v = w.group(1) or w.group(2)
            if re.search(r"\b" + v + r" (\+|-)= \d+;", body[w.start():]):
                found["3 loops that count an index"].append(where)
        if re.fullmatch(r"\w+ as \w+", flat) or re.fullmatch(r"if (\w+) < (\w+) \{ (return )?\w+;? \} (else \{ )?\w+( \})?", flat):
            found["4 conversions and orders by hand"].append(where)
        for clause in re.findall(r"requires \w* *\{(.*?)\}\s*(?=ensures|requires|$)", head, re.S):
            for fact in re.split(r" × ", re.sub(r"\s+", " ", clause)):
                facts[fact.strip(" ()")].append(where)
        n = len([p for p in params.split(",") if ":" in p])
        if n >= 8:
            found["5 functions of eight parameters and more"].append(f"{where} ({n})")
        if re.search(r"\b(until|notation|two|less): (bool|Notation)", params):
            found["7 switches on which step to run"].append(where)
for (crate, base), names in sorted(twins.items()):
    if len(set(names)) > 1:
        found["2 functions whose names differ in a size"].append(f"{crate}: {' '.join(names)}")
for key, names in bodies.items():
    if len(names) > 1 and "\n" not in key and len(key[2]) > 0:
        found["2 functions with the same text"].append(" ".join(names))
for fact, names in sorted(facts.items(), key=lambda x: -len(x[1])):
    if len(names) >= 3 and not re.fullmatch(r"[\w.]+ (≤|<) [\w.]+", fact):
        found["5 facts in the requires of three functions and more"].append(f"{len(names)} × {fact}")
hand = answers = trivial = lines = 0
for folder, _, names in os.walk(os.path.join(root, "crates")):
    if os.sep + "proofs" + os.sep in folder and os.sep + "out" not in folder:
        for name in names:
            if name.endswith(".antt"):
                text = open(os.path.join(folder, name), encoding="utf8").read()
                hand += name == "Proof.antt"
                answers += name == "Answers.antt"
                lines += text.count("\n")
                trivial += len(re.findall(r"(?m)^ *\(λ c( κs)?\. search rules\)\)?$|= search rules$", text))
for point in sorted(found):
    print(f"{len(found[point]):4}  {point}")
    if verbose:
        for place in found[point]:
            print("        " + place)
print(f"{hand:4}  8 proofs that walk the code by hand (Proof.antt), beside {answers} with answers alone; {lines} lines")
print(f"{trivial:4}  8 answers that say only `search rules`")
