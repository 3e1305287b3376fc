#!/usr/bin/env python3
"""Point 3: loops that count an index by hand.   python3 point3.py [-q]   at the repository's top

Every while, loop and for is listed once. A `for i in a..b` counts an index where its body has i (or a name made of i by a let) inside
square brackets or in get(i), where its range is a length, or where it hands i to a function of the same file that uses it so; a
`for (i, x) in ..enumerate()` where its body has i inside square brackets."""
from sources import *

r = Report(
    "point 3",
    "a while with a counter",
    "b for i in a..b that indexes an array or slice, or asks get(i)",
    "c for i in a..b over a length, that does not index",
    "d for i in a..b that hands i to a function which indexes with it",
    "i for x in a slice that all, any or position would say",
    "j for (i, x) in an enumeration that indexes another array by i",
    "-e for i in a..b whose i is a number and no index",
    "-f for _ in a..b that only repeats",
    "-g for x in a slice or an iterator",
    "-h while or loop without a counter",
)


def indexes(body, i):
    """Whether the text has the name inside square brackets, directly or by another name, or asks get of it."""
    names = {i}
    for m in re.finditer(r"\blet (?:mut )?(\w+)(?:: \w+)? = ([^;{}]*);", body):
        if any(re.search(r"\b%s\b" % n, m.group(2)) for n in names) and re.fullmatch(r"[\w\s\-+*/%().]*", m.group(2)) and "(" not in m.group(2):
            names.add(m.group(1))
    for m in re.finditer(r"\[", body):
        part = body[m.start():close(body, m.start()) + 1]
        if any(re.search(r"(?<![\w.])%s\b" % n, part) for n in names):
            return True
    return any(re.search(r"\.get(?:_mut)?\(%s\)" % n, body) for n in names)


for file in files():
    text = code(open(file).read())
    fns = functions(file)
    for m in re.finditer(r"\b(while|loop|for)\b", text):
        fn = function_at(fns, m.start())
        if not fn:
            continue
        depth, i = 0, m.end()
        while text[i] != "{" or depth:
            depth += (text[i] in "([") - (text[i] in ")]")
            i += 1
        head = re.sub(r"\s+", " ", text[m.start():i]).strip()
        body = text[i:close(text, i) + 1]
        words = "%s: %s" % (said(fn), head)
        at = line_of(text, m.start())
        if m.group(1) == "loop":
            r.put("h", file, at, words)
        elif m.group(1) == "while":
            counter = re.match(r"while (\w+) [<>!]=? ", head)
            r.put("a" if counter and re.search(r"\b%s [+-]= " % counter.group(1), body) else "h", file, at, words)
        else:
            f = re.match(r"for (.+?) in (.+)$", head)
            pair = re.match(r"\((\w+), ", f.group(1))
            if pair and "enumerate()" in f.group(2) and indexes(body, pair.group(1)):
                r.put("j", file, at, words)
            elif ".." not in f.group(2):
                r.put("i" if re.search(r"return (true|false);\s*\}\s*\}$", body) else "g", file, at, words)
            elif f.group(1).startswith("_"):
                r.put("f", file, at, words)
            elif indexes(body, f.group(1)):
                r.put("b", file, at, words)
            elif ".len()" in f.group(2):
                r.put("c", file, at, words)
            else:
                handed = []
                for g in fns:
                    for c in re.finditer(r"\b%s\(" % g.name, body):
                        args = split_top(body[c.end():close(body, c.end() - 1)])
                        own = [p for p in g.params if "self" not in p.split(":")[0]]
                        for a, p in zip(args, own):
                            if re.search(r"(?<![\w.])%s\b" % f.group(1), a) and indexes(g.body, p.split(":")[0]):
                                handed.append(g.name)
                if handed:
                    words += " { .. %s(%s) .. }" % (handed[0], f.group(1))
                r.put("d" if handed else "e", file, at, words)
r.show()
