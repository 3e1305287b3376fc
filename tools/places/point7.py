#!/usr/bin/env python3
"""Point 7: switches on which step to run, tables of functions, the same steps written out again.   python3 point7.py [-q]   at the top

A match is listed where three arms or more call functions or build what differs only in a name or a number; then runs of one call with
another letter or number each, and functions that read, plan and write alike."""
from sources import *

r = Report(
    "point 7",
    "a match on a letter or a word whose arms call alike functions",
    "b match on a number whose arms call alike functions",
    "c match on an enum whose arms run alike steps",
    "d one call after the other with another constant each",
    "e read, plan, write",
    "f flag that decides which of two steps is run",
    "-g match on an enum or a number whose arms only name a value",
)
for file in files():
    raw = open(file).read()
    text = code(raw)
    fns = functions(file)

    def at_fn(at):
        return function_at(fns, at)

    def put(letter, at, words):
        fn = at_fn(at)
        r.put(letter, file, line_of(text, at), (said(fn) + ": " if fn else "") + words)

    for at, subject, arms in matches(text):
        rest = text[text.index(subject.split(" ")[0], at):]
        calls = [(p, re.search(r"(?<![\w.])(?!Some|Ok|Err\b)(?:[a-z]\w*(?:::|\.))*([a-z]\w*)\(", v) or re.search(r"\w+ \{\}\.(\w+)\(", v)) for p, v in arms]
        named = [(p, c) for p, c in calls if c and p != "_"]
        first = arms[0][0] if arms else ""
        words = "match %s { %s }" % (subject, ", ".join(p for p, _ in arms))
        if re.match(r"['\"]", first):
            start = text.index("{", at)
            seen = re.findall(r"^\s*(['\"][^'\"]*['\"]) =>", raw[start:close(text, start)], re.M)
            put("a", at, "match %s { %s }" % (subject, ", ".join(seen)))
        elif re.match(r"\d", first):
            put("b" if len(named) > 2 or re.search(r"Opening|sum\(", text[at:close(text, text.index("{", at))]) or any("read_" in v for _, v in arms) else "g", at, words)
        elif all(re.match(r"\w+::\w+", p) for p, _ in arms) and len(arms) > 2:
            put("c" if len(named) > 1 or any("Some(" in v for _, v in arms) else "g", at, words)
    for f in fns:
        calls = re.findall(r"^\s*(?:return )?(\w+)\(([^;]*)\)[?;]*$", f.body, re.M)
        same = collections.Counter(n for n, _ in calls)
        for n, k in same.items():
            if k > 2 and n not in ("Some", "Ok", "Err") and len({re.sub(r"'_'|\d+", "#", re.sub(r"\s+", " ", a)) for m, a in calls if m == n}) == 1:
                r.put("d", file, f.line, "%s: %s(..), %d times" % (said(f), n, k))
        if re.search(r"\bread\(alg, file\)\?;\s*let plan = \w+\(alg, &outline, file\);\s*write_planned", f.body):
            r.put("e", file, f.line, "%s: read, %s, write_planned" % (said(f), re.search(r"let plan = (\w+)", f.body).group(1)))
        elif re.search(r"\bread\(alg, file\)\?;.*\bdraft\w*\(.*\bcopy\(", f.body, re.S):
            r.put("e", file, f.line, "%s: read, draft, copy" % said(f))
    for m in re.finditer(r"\bif (!?(?:any|bare|[\w.\[\]]+\.(?:bare|fold|kept))) \{", text):
        put("f", m.start(), "if %s" % m.group(1))
r.show()
