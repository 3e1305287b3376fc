#!/usr/bin/env python3
"""Respells this repository's own definitions and lemmas: words in snake case, types and statements in camel case.

usage: python3 tools/respell.py [--dry]     at the top of the repository, right after the kit's port.py

It changes crates/*/specs, crates/*/proofs and, in crates/*/src, whatever is spelled as only a clause spells a name
(a dash or a capital inside). Names that Rattle makes (a goal, a step, a field of a step) and names of the kit stay.
It stops, and writes nothing, where two names would fall together.
"""
import collections
import os
import re
import sys

WORD = re.compile(r"(?<![\w'.·-])[A-Za-z][\w']*(?:-[\w'₀-₉]+)*(?![\w'-])|(?<=\.)[A-Za-z][\w']*(?:-[\w'₀-₉]+)*(?![\w'-])")
STRING = re.compile(r'"(?:[^"\\]|\\.)*"')
KIT = ("Rattle.std", "borrow", "denote", "mathlib", "Prim", "native", "lib")

# lemmas that begin with the letter of a pass or of a variable
LEMMAS = {n: n[0].lower() + n[1:].replace("-", "_") for n in (
    "C-le", "C-strict", "C-truths", "F-le", "F-strict", "R-le", "R-strict", "U-le", "U-strict", "U-truths",
    "E-back", "E-below", "M-back", "M-below", "T-below", "Q-over")}
# where the plain rule would take a name that is in use
CHOSEN = {"sign-of": "sign_by", "bool-byte": "bool_byte_truth"}
# lemmas that hold the plain name of a definition now
TAKEN = {n: n + "_lem" for n in ("all_said", "same_sign", "size_fits")}
# what Rattle made: a step of a proof, or a goal
MADE = re.compile(r"(?<![\w'-])[clwgt](?:\.[\w'₀-₉-]+)*\.$")


def files(root):
    for folder, dirs, names in os.walk(os.path.join(root, "crates")):
        dirs[:] = sorted(d for d in dirs if d != "out")
        for n in sorted(names):
            if n.endswith((".antt", ".rt")):
                yield os.path.join(folder, n)


def plain(text, antt):
    """The text without comments and strings, of the same length."""
    blank = lambda m: " " * len(m.group(0))
    if antt:
        return re.sub(r"(?m)(^|(?<=\s))--(?=\s).*$", blank, text)
    return STRING.sub(blank, re.sub(r"(?m)//.*$", blank, text))


def imports(text):
    for m in re.finditer(r"\buse\s+([\w.'+-]+?)\.\{([^}]*)\}", text):
        for item in m.group(2).split(","):
            parts = item.split(" as ")
            yield m.group(1), parts[0].strip(), parts[-1].strip()


def respelled(name):
    if name in CHOSEN:
        return CHOSEN[name]
    if name in LEMMAS:
        return LEMMAS[name]
    if name[0].isupper():
        return "".join(w[0].upper() + w[1:] for w in name.split("-"))
    out = name.replace("getD", "get_or").replace("-", "_")
    out = re.sub(r"(?<=[a-z0-9'])([A-Z])", lambda m: "_" + m.group(1).lower(), out)
    out = re.sub(r"_([A-Z])(?=_|$)", lambda m: "_" + m.group(1).lower(), out)
    return out[0] + re.sub(r"[A-Z]", lambda m: m.group(0).lower(), out[1:])


def main(argv):
    root = os.getcwd()
    texts = {p: open(p, encoding="utf-8").read() for p in files(root)}
    bare = {p: plain(t, p.endswith(".antt")) for p, t in texts.items()}
    kit, goals, words, declared = set(), set(), collections.Counter(), set()
    for p, t in bare.items():
        for module, name, alias in imports(t):
            if module.startswith(KIT):
                kit.add(name)
                if alias == name:
                    kit.add(alias)
        goals |= set(re.findall(r"\bgoal\.([\w'-]+)", t))
        for m in WORD.finditer(t):
            words[m.group(0)] += 1
        if p.endswith(".antt"):
            for m in re.finditer(r"(?m)^\s*(?:(?:pub|abbrev|unfoldable|let|ruleset|data|record|mutual)\s+)*([^\s(){}:=]+(?: [^\s(){}:=]+)*) :(?!=)", t):
                declared |= set(m.group(1).split())
            for m in re.finditer(r"(?m)^\s*(?:pub\s+)?(?:data|record|abbrev pub|abbrev|unfoldable pub)\s+(?:pub\s+)?([\w'-]+)", t):
                declared.add(m.group(1))
            for m in re.finditer(r"\blet ([\w'-]+) [:=]", t):
                declared.add(m.group(1))
        for _, name, alias in imports(t):
            if alias != name:
                declared.add(alias)
    table = {}
    for name in words:
        camel = name[0].islower() and re.search(r"[A-Z]", name)
        dashed = "-" in name and (name in declared)
        statement = name[0].isupper() and "-" in name and name not in kit
        if name in kit or name in goals or not (camel or dashed or statement):
            continue
        if camel and "-" in name and name not in declared:
            continue
        if re.fullmatch(r"x[0-9A-F]+", name):
            continue
        table[name] = respelled(name)
    definitions = {n: respelled(n) for n in table if "-" not in n}
    for name, new in table.items():
        if "-" in name and new in definitions.values():
            table[name] = new + "_lem"
    came = collections.defaultdict(list)
    for old, new in sorted(table.items()):
        came[new].append(old)
    bad = False
    for new, olds in sorted(came.items()):
        if len(olds) > 1:
            bad = True
            print("fall together:", ", ".join(olds), "->", new)
        elif words[new]:
            where = sorted({os.path.relpath(p, root) for p, t in bare.items() if any(m.group(0) == new for m in WORD.finditer(t))})
            both = [w for w in where if any(m.group(0) == olds[0] for m in WORD.finditer(bare[os.path.join(root, w)]))]
            print("look:", olds[0], "->", new, "is a word already, in", len(where), "files;", "in one with the old:" if both else "apart:", ", ".join((both or where)[:4]))
    print(len(table), "names")
    if "--dry" in argv:
        for old, new in sorted(table.items()):
            print(old, "->", new)
        return 0
    if bad:
        return 1
    for p, t in texts.items():
        b, out, last = bare[p], [], 0
        own = {n for m, n, a in imports(b) if m.startswith(KIT)}
        paths = [m.span(1) for m in re.finditer(r"\buse\s+([\w.'+-]+?)(?=\.\{|\s|;|$)", b)]
        now = table | TAKEN if p.endswith(".antt") else table
        for m in WORD.finditer(b):
            w = m.group(0)
            if w not in now or w in own or any(i <= m.start() < j for i, j in paths) or MADE.search(b, max(0, m.start() - 200), m.start()):
                continue
            out += [t[last:m.start()], now[w]]
            last = m.end()
        new = "".join(out) + t[last:]
        if new != t:
            with open(p, "w", encoding="utf-8") as f:
                f.write(new)
    return 0


if __name__ == "__main__":
    sys.exit(main(sys.argv[1:]))
