#!/usr/bin/env python3
"""Point 6: buffers with a length beside, parallel arrays, searches by hand, arenas of indices.   python3 point6.py [-q]   at the top"""
from sources import *

r = Report(
    "point 6",
    "a record with an array or a slice and how much of it counts",
    "b array of a record whose length another record has",
    "c arrays side by side: of one record, of one length",
    "d parameters: a slice or an array, and how much of it counts or where in it to begin",
    "e front of an array taken by the count beside it",
    "f array into which another array points",
    "g linear search or count by hand",
    "h lookup by a search through a first-come list",
    "i enum with a case for each number of parts",
    "-j buffer of fixed size of its own",
    "-k loop that goes through two arrays or more at one index",
)
alltypes = all_types()
by = {t.name: t for t in reversed(alltypes)}

for t in alltypes:
    if t.kind == "enum":
        if [c.split("(")[0] for c in t.fields][:3] == ["Zero", "One", "Two"]:
            r.put("i", t.file, t.line, "enum %s { %s }" % (t.name, ", ".join(t.fields)))
        continue
    arrays = [(x.split(": ")[0], re.search(r"\[(.*?)(?:; (\w+))?\]", x.split(": ", 1)[1])) for x in t.fields if "[" in x]
    whole = [x for x in t.fields if x.split(": ")[-1] in by and any("[" in y for y in by[x.split(": ")[-1]].fields)]
    if not arrays and any(re.match(r"count: ", x) for x in t.fields) and whole:
        r.put("a", t.file, t.line, "%s: %s" % (t.name, ", ".join(t.fields)))
    if not arrays:
        continue
    shown = {n: "%s: [%s%s]" % (n, m.group(1), "; " + m.group(2) if m.group(2) else "") for n, m in arrays}
    counts = [x for x in t.fields if re.match(r"(count|len|number|arity|bits): (u8|u16|u32|usize)$", x)]
    if counts:
        r.put("a", t.file, t.line, "%s: %s; %s" % (t.name, ", ".join(counts), ", ".join(shown.values())))
    else:
        own = [n for n, m in arrays if m.group(2) and m.group(2) not in ("3", "32") or n in ("sorts", "quantified")]
        if own and t.name not in ("Blocks",):
            r.put("b", t.file, t.line, "%s: %s" % (t.name, ", ".join(shown[n] for n in own)))
    sizes = collections.defaultdict(list)
    for n, m in arrays:
        if m.group(2):
            sizes[m.group(2)].append(n)
    for size, ns in sizes.items():
        if len(ns) > 1:
            r.put("c", t.file, t.line, "%s: %s" % (t.name, ", ".join(shown[n] for n in ns)))
    for n, m in arrays:
        if n in ("ranks",) and m.group(1) == "u8" or n in ("values",) and m.group(2) == "16384" or n == "bodies":
            r.put("f", t.file, t.line, "%s: %s" % (t.name, shown[n]))
for t in alltypes:
    if "offset: usize" in t.fields:
        r.put("f", t.file, t.line, "%s: offset into the values of all" % t.name)

for file in files():
    text = code(open(file).read())
    fns = functions(file)

    put = r.putter(file, text, fns)

    for f in fns:
        slices = [p for p in f.params if re.search(r": &(?:'\w+ )?(?:mut )?\[", p)]
        many = [p for p in f.params if re.match(r"(len|count|n|arity|offset|room|variables): (u8|u16|u32|usize)$", p)]
        used = [p for p in many if p.split(":")[0] in ("len", "offset") or f.name in ("deliver", "read_name", "read_body", "read_entry", "number_among")]
        if slices and used and f.body:
            r.put("d", file, f.line, "%s(%s)" % (said(f), ", ".join(f.params)))
        loop = re.search(r"\bfor (\w+) in ", f.body)
        if loop and re.search(r"\bif [^{]*\{\s*return (?:Some\(%s\)|true|false|\"_*\")" % loop.group(1), f.body) and not re.search(r"\?;", f.body):
            r.put("g", file, f.line, said(f))
        if re.search(r"\bfor [^{]*\{\s*if [^{]*\{\s*count \+= 1;", f.body) and "[" in f.body:
            r.put("g", file, f.line, said(f) + " (counts)")
    for m in re.finditer(r"\bfor (\w+) in [^{]*\.\.[^{]*\{", text):
        body = text[m.end():close(text, m.end() - 1)]
        at = {re.sub(r"\s+", "", a) for a in re.findall(r"([\w.]+)\[%s(?: as usize)?\]" % m.group(1), body)}
        if len(at) > 1:
            put("k", m.start(), re.sub(r"\s+", " ", m.group()[:-1]) + "at " + ", ".join(sorted(at)))
    for m in re.finditer(r"&(?:self\.)?([\w.]+)\[0\.\.([\w.]+?)(?: as usize)?\]", text):
        if m.group(2) != "0":
            put("e", m.start(), m.group())
    for m in re.finditer(r"\blist\s*\.find\(", text):
        put("h", m.start(), re.sub(r"\s+", " ", text[m.start():m.start() + 40]).split("{")[0])
    for m in re.finditer(r"\blet mut (\w+) = \[(?!in)([^\]\n]*); (\w+)\];|\blet (\w+) = \[([^\]\n]*); (\w+)\];", text):
        put("j", m.start(), m.group())
r.show()
