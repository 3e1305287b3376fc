#!/usr/bin/env python3
"""Point 1: own enums of the shape of Option or Result, flags with a value beside them, numbers for kinds or refusals, dummy results,
and let .. else, if and match that `?` or a method of Option and Result would say.   python3 point1.py [-q]   at the repository's top"""
from sources import *

r = Report(
    "point 1",
    "a own enum of the shape of Option or Result",
    "b struct or tuple with a flag beside what it guards",
    "c flag that a function takes to choose what it does",
    "d flag or Result inside an Option",
    "e match on numbers that stand for kinds",
    "f kind compared or passed as a number",
    "g enum of two cases turned into a number or a flag by a match",
    "h number turned into an enum or a flag by an if",
    "i if that makes 1 or 0",
    "j known truth compared as the number 0 or 1",
    "k kind written as a number into a file",
    "l letter that stands for a pass",
    "m number or blank that stands for none",
    "n dummy result: -> u8 { 0 }",
    "o -> Option<()>",
    "p let .. else { return None }",
    "q let .. else { return Err(Full {}) }: none becomes an error by hand",
    "r let .. else { return Err(.. EndsInField ..) }: the same for a field that is not there",
    "s let .. else { return Err(..) }: the same for another reason",
    "t let .. else { return false }: a refusal becomes a flag",
    "u match with an arm that only passes on, drops or replaces: map_err, ok, unwrap_or, is_none_or",
    "v Option made by if .. else { None }",
    "y answer dropped by let _ =",
    "aa flag that becomes a refusal: if !f(..) { return Err(..) }",
    "-w if .. { return Err(..) }",
    "-x let .. else with a result of its own",
    "-z match on an Option or Result of which each arm does its own",
)

for t in all_types():
    if t.kind == "enum" and len(t.fields) == 2 and len([c for c in t.fields if "(" not in c and "{" not in c]) == 1:
        r.put("a", t.file, t.line, "enum %s { %s }" % (t.name, ", ".join(t.fields)))
    flags = [x for x in t.fields if re.search(r": (?:bool$|\[bool; )", x) and not x.startswith("truth:")]
    if t.kind == "struct" and len(t.fields) > 1 and flags:
        others = ", ".join(x for x in t.fields if x not in flags)
        r.put("b", t.file, t.line, "struct %s: %s beside %s" % (t.name, ", ".join(flags), others or "each other"))
    for x in t.fields:
        if x.startswith("letter: "):
            r.put("l", t.file, t.line, "struct %s: %s" % (t.name, x))

for file in files():
    raw = open(file).read()
    text = code(raw)
    inside = functions(file)

    put = r.putter(file, text, inside)

    for fn in inside:
        for x in fn.params:
            if re.search(r": bool$", x) and x.split(":")[0] not in ("truth", "part", "x", "y", "to"):
                r.put("c", file, fn.line, "%s(%s)" % (said(fn), x))
            if x.startswith("letter: "):
                r.put("l", file, fn.line, "%s(%s)" % (said(fn), x))
        answer = "%s -> %s" % (said(fn), fn.result)
        if re.search(r"\(.*\bbool\b.*\)", fn.result):
            r.put("b", file, fn.line, answer)
        if re.search(r"Option<(bool|Result<)", fn.result):
            r.put("d", file, fn.line, answer)
        if "Option<()>" in fn.result:
            r.put("o", file, fn.line, answer)
        if re.fullmatch(r"\{\s*0\s*\}", fn.body):
            r.put("n", file, fn.line, answer)

    for at, subject, arms in matches(text):
        heads = [p for p, _ in arms]
        shown = "match %s { %s }" % (subject, ", ".join(heads))
        if any(re.fullmatch(r"\d+(?: \| \d+)*", p) for p in heads):
            put("e", at, shown)
        if len(arms) == 2 and all(re.fullmatch(r"\w+::\w+", p) and re.fullmatch(r"\d+|true|false", v) for p, v in arms):
            put("g", at, "match %s { %s }" % (subject, ", ".join("%s => %s" % a for a in arms)))
        if any(re.match(r"Some\([01]\)|\(Some\([01]\)", p) for p in heads):
            put("j", at, shown)
        if heads.count("'_'") > 1:
            put("l", at, "match %s on %d letters" % (subject, heads.count("'_'")))
        if len(arms) == 2 and all(re.match(r"(Some|None|Ok|Err)\b", p) for p in heads) and not any(re.match(r"Some\([01]\)", p) for p in heads):
            plainly = any(re.fullmatch(r"true|false|None", v) or re.sub(r"\W", "", v) and v in (p, re.sub(r"^\w+\((\w+)\)$", r"\1", p))
                          for p, v in arms)
            if any(v == "0" for _, v in arms):
                put("m", at, "match %s { .. None => 0 }" % subject)
            else:
                put("u" if plainly else "z", at, shown)

    for m in re.finditer(r"\b(?:kind|bit|which|op % 4|token) (==|!=) \d+", text):
        put("h" if m.group().startswith("bit ") else "f", m.start(), m.group())
    for m in re.finditer(r"\bif (count == \d+) \{\s*return Some\(", text):
        put("f", m.start(), m.group(1))
    for m in re.finditer(r"\w+\([^()]*\bop % 4\b[^()]*\)", text):
        put("f", m.start(), m.group())
    for m in re.finditer(r"\bif let Some\(0\) = [^{]*\{\s*(true|Ok\(\(\)\))\s*\} else", text):
        put("h", m.start(), "if let Some(0) = .. { %s } else { .. }" % m.group(1))
    ones = []
    for m in re.finditer(r"\bif ([^{};]*?) \{\s*([^{};]*?)\s*\} else \{\s*([^{};]*?)\s*\}", text):
        if m.group(2, 3) in (("1", "0"), ("0", "1"), ("'_'", "'_'")):
            ones.append((m.start(), m.end()))
            put("i", m.start(), raw[m.start():m.end()])
        if m.group(3) == "None":
            put("v", m.start(), "if %s { %s } else { None }" % m.group(1, 2))
    for m in re.finditer(r"(?<![\w.])\*?(?:value|truth|value_at\([^=]*?\)) (==|!=) [01]\b", text):
        if not any(a <= m.start() <= b for a, b in ones):
            put("j", m.start(), m.group())
    for m in re.finditer(r"unwrap_or\((?:0|'_')\)|\branks: \[32; 32\]|\bOk\(65537\)", text):
        put("m", m.start(), raw[m.start():m.end()])
    for m in re.finditer(r"\b(?:writer|draft)\.put\((?:(\d+), [13]|token, \d+|sign, \d+|quantifier, \d+)\)", text):
        put("k", m.start(), m.group())
    for m in re.finditer(r"\brun_\w+\([^()]*'_'[^()]*\)", text):
        put("l", m.start(), raw[m.start():m.end()])
    for m in re.finditer(r"\blet _ = [^;]*;", text):
        put("y", m.start(), m.group())
    for m in re.finditer(r"\blet ((?:Some|Ok)\([^=]*?\)) = ", text):
        e = re.compile(r"\belse \{").search(text, m.end())
        semi = text.find(";", m.end())
        if re.search(r"\bif\s+$", text[:m.start()]) or not e or -1 < semi < e.start():
            continue
        other = re.sub(r"\s+", " ", text[e.end() - 1:close(text, e.end() - 1) + 1])
        letter = ("p" if "return None" in other else "q" if "Err(Full {})" in other else "r" if "EndsInField" in other else
                  "s" if "return Err(" in other else "t" if "return false" in other else "x")
        put(letter, m.start(), "let %s = %s else %s" % (m.group(1), re.sub(r"\s+", " ", text[m.end():e.start()])[:50].strip(), other[:70]))
    for m in re.finditer(r"\bif ([^{};]*?) \{\s*return (Err\((?:[^{};]|\{[^{}]*\})*\));", text):
        put("aa" if re.match(r"!\w+\(", m.group(1)) else "w", m.start(), "if %s { %s }" % (m.group(1), m.group(2)))
r.show()
