#!/usr/bin/env python3
"""Point 4: equality, order, copying, conversion and printing by hand.   python3 point4.py [-q]   at the repository's top"""
from sources import *

r = Report(
    "point 4",
    "a impl of a trait that a derive could make",
    "b function that compares two cases of one enum by a match",
    "c eq called as a function",
    "d loop that copies or fills a slice element by element",
    "e function that only copies to a front",
    "f number or bit turned into an enum by hand: From or TryFrom",
    "g enum turned into a number or a flag by hand: From",
    "h enum turned into a text by hand: Display",
    "i fault turned into another by a method of its own: From",
    "j record rebuilt field by field from one record: From",
    "k number cut down by a mask: TryFrom",
    "l bytes printed digit by digit, or by a text for each",
    "m refusal printed from its parts: Display",
    "n least of two, division rounded up, step that stops, by an if: min, div_ceil, saturating_add, saturating_sub",
    "o front of a slice by an if",
    "p record copied out of another and back to be changed or asked",
    "q value of nothing written out, or a constructor of it: derive Default or a constant",
    "r number put together from bytes: from_be_bytes",
    "-x as (casts that are proved to lose nothing)",
)
types_of = {t.name: t for t in all_types()}
plain_enums = [t.name for t in types_of.values() if t.kind == "enum" and not any("(" in c or "{" in c for c in t.fields)]
faults = [n for n in types_of if n.endswith("Fault")]

for file in files():
    raw = open(file).read()
    text = code(raw)
    fns = functions(file)

    put = r.putter(file, text, fns)

    for m in re.finditer(r"\bimpl(?:<[^>]*>)? (PartialEq|Eq|PartialOrd|Ord|Clone|Copy|Debug|Default|Hash) for (\w+)", text):
        put("a", m.start(), m.group())
    for m in re.finditer(r"\.eq\(", text):
        put("c", m.start(), text[text.rfind("\n", 0, m.start()) + 1:text.find("\n", m.start())])
    for f in fns:
        ins = [p.split(": ", 1)[1] if ": " in p else p for p in f.params]
        body = f.body
        of = f.owner.split(" for ")[-1].replace("impl ", "").strip()
        given = [of if p == "self" else p for p in ins]
        two = [t for t in plain_enums if sum(p in (t, "Option<%s>" % t) for p in given) == 2]
        if two and f.result == "bool":
            r.put("b", file, f.line, "%s(%s) -> bool" % (said(f), ", ".join(f.params)))
        if f.result in plain_enums and len(ins) == 1 and re.fullmatch(r"u\d+|usize|char", ins[0]):
            r.put("f", file, f.line, "%s(%s) -> %s" % (said(f), f.params[0], f.result))
        if len(given) == 1 and given[0] in plain_enums and re.fullmatch(r"u\d+|usize|bool|char", f.result):
            r.put("g", file, f.line, "%s(%s) -> %s" % (said(f), f.params[0], f.result))
        if len(given) == 1 and given[0] in plain_enums and "str" in f.result:
            r.put("h", file, f.line, "%s(%s) -> %s" % (said(f), f.params[0], f.result))
        if len(given) == 1 and given[0] in faults and f.result in types_of and f.name != "from":
            r.put("i", file, f.line, "%s -> %s" % (said(f), f.result))
        if re.search(r"\bfault\.reason\b|\.number\(\)", body):
            r.put("m", file, f.line, said(f))
        if f.result in types_of and not f.params and re.fullmatch(r"\{\s*(let none = [^;]*;\s*)?%s \{[^{}]*\}\s*\}" % f.result, body):
            r.put("q", file, f.line, "%s() -> %s" % (said(f), f.result))
        if re.search(r"copy_from_slice", body) and len(TOKENS.findall(body)) < 30 and len(f.params) == 2:
            r.put("e", file, f.line, "%s(%s)" % (said(f), ", ".join(f.params)))
    for at, subject, arms in matches(text):
        if len(arms) == 2 and all(re.fullmatch(r"\w+::\w+", p) and re.fullmatch(r"\d+", v) for p, v in arms):
            put("g", at, "match %s { %s }" % (subject, ", ".join("%s => %s" % a for a in arms)))
    for m in re.finditer(r"\bfor (\w+) in [^{]*\.\.[^{]*\{", text):
        body = re.sub(r"\s+", " ", text[m.end():close(text, m.end() - 1)]).strip()
        i = m.group(1)
        inner = re.sub(r"^if [^{]*\{ (.*) \}$", r"\1", body)
        if re.fullmatch(r"[\w.\[\] ]*\[%s(?: as usize)?\] = [^;]*;" % i, inner) and "(" not in inner.split("=", 1)[1].replace("(numbers", "").replace("Some(", ""):
            put("d", m.start(), "%s{ %s }" % (re.sub(r"\s+", " ", text[m.start():m.end() - 1]), body))
    # records rebuilt: a struct literal most of whose fields come from one other record
    for m in re.finditer(r"(?<![\w:])(?:\w+::)?([A-Z]\w+)(?:::\w+)? \{(?=[^{}]*\b\w+\b[^{}]*\})", text):
        if m.group(1) not in types_of or re.search(r"\b(struct|enum|impl|for|trait|use|let|if|match) *(?:\w+::)?$", text[:m.start()]) or re.match(r"\s*=", text[close(text, m.end() - 1) + 1:]) \
                or re.match(r"\s*=>", text[close(text, m.end() - 1) + 1:]):
            continue
        fields = split_top(text[m.end():close(text, m.end() - 1)])
        if len(fields) < 2:
            continue
        fn = function_at(fns, m.start())
        if m.group(1) in ("Fault", "View"):
            continue
        alias = {}
        if fn:
            for a, b in re.findall(r"\blet (\w+) = (\w+)\.\w+;", fn.body):
                alias[a] = b
            for a, b in re.findall(r"\blet (\w+) = (\w+)\.\w+\.\w+;", fn.body):
                alias[a] = b
        sources = collections.Counter()
        for x in fields:
            v = x.split(": ", 1)[1] if ": " in x else x
            s = re.match(r"(\w+)\.\w+(?: as \w+)?$", v)
            name = s.group(1) if s else alias.get(v)
            if name and name != "reader":
                sources[name] += 1
        if sources and (sources.most_common(1)[0][1] >= 2 or len(fields) == 2 and sum(sources.values()) == 2):
            put("j", m.start(), "%s { %s }" % (m.group(1), ", ".join(fields)))
    for m in re.finditer(r"\[(\w+)\[0\]\.\w+, \1\[1\]\.[^\]]*\]\.\w+\]", text):
        put("j", m.start(), m.group())
    for at, subject, arms in matches(text):
        same = [p for p, v in arms for c in [re.match(r"\w+::(\w+)", p)] if c and re.search(r"\b(?!%s)\w+::%s\b" % (p.split("::")[0], c.group(1)), v)]
        if len(same) > 2:
            put("j", at, "match %s: %d cases of the same name" % (subject, len(same)))
    for m in re.finditer(r"\blet (?:mut )?(\w+) = (desk|self)\.(bench|table|counting);|\bdesk\.(?:bench|table) = [a-z]\w*;", text):
        put("p", m.start(), m.group())
    for m in re.finditer(r"\(([\w.\[\] +*]+) & 0x\w+\) as u\d+", text):
        put("k", m.start(), m.group())
    for m in re.finditer(r"line\.push\(digits[^;]*;|:02X", raw):
        put("l", m.start(), m.group())
    for m in re.finditer(r"\bif ([^{};]*?) \{\s*([^{};]*?)\s*\} else \{\s*([^{};]*?)\s*\}", text):
        c, a, b = (re.sub(r"\s+", " ", x) for x in m.groups())
        words = "if %s { %s } else { %s }" % (c, a, b)
        if "%s < %s" % (a, b) == c or "%s > %s" % (a, b) == c or "%s / 8" % "bits" == a \
                or re.fullmatch(r"Some\((\w+|0)\)", a) and re.fullmatch(r"Some\(\w+ [+-] 1\)", b):
            put("n", m.start(), words)
        if re.match(r"&\w+\[0\.\.\w+\]$", a):
            put("o", m.start(), words)
    for m in re.finditer(r"\bif [^{};]* < 255 \{\s*\w+ \+= 1;", text):
        put("n", m.start(), re.sub(r"\s+", " ", m.group()))
    for m in re.finditer(r"\blet none = (\w+) \{|\bconst \w+: (\w+) = \w+ \{|\[(?:in heap; )?(\w+) \{[^{}\[\]]*(?:\[[^{}\[\]]*\])?[^{}]*\}\s*; ?\d+\]|\blet quantified = \[(\w+) \{|\blet mut quantified = \[(\w+) \{|\blet mut table = \[(\w+) \{|\bequations: \[(\w+) \{", text):
        name = next(x for x in m.groups() if x)
        if name in types_of:
            put("q", m.start(), name + " { .. }")
    for m in re.finditer(r"\b256 \* \w+\[0\][^;]*", text):
        put("r", m.start(), m.group())
    for m in re.finditer(r"\bas (?:u\d+|usize|char)\b", text):
        r.put("x", file, line_of(text, m.start()), "%d" % m.start())
r.show()
