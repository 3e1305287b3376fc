#!/usr/bin/env python3
"""Point 5: facts that stand in the contracts of three or more functions, and parameters that travel together through three or more.
python3 point5.py [-q]   at the repository's top"""
from sources import *

fns = all_functions()
quiet = "-q" in sys.argv
total = [0, 0]


def table(title, rows, counted=True):
    rows = [(w, list({(f.file, f.line): f for f in fs}.values())) for w, fs in rows]
    rows = [r for r in rows if len(r[1]) > 2]
    n = sum(len(fs) for _, fs in rows)
    print("\n[%s] %d rows, %d places%s" % (title, len(rows), n, "" if counted else ", left out"))
    if counted:
        total[0] += len(rows)
        total[1] += n
    for words, fs in sorted(rows, key=lambda r: (-len(r[1]), r[0])):
        print("  %3d  %s" % (len(fs), words))
        if not quiet:
            print("         " + "; ".join("%s:%d %s" % (f.file, f.line, said(f)) for f in sorted(fs, key=lambda f: (f.file, f.line))))


def bare(f, body):
    """The clause without the names of the parameters and of their moments."""
    for p in f.params:
        n = re.sub(r"^(?:&|mut )*", "", p.split(":")[0]).strip("&' ")
        body = re.sub(r"(?<![\w.])%s(\.(?:now|old|new|entry))*(?![\w])" % re.escape(n), "_", body)
    return body


facts = collections.defaultdict(list)
for f in fns:
    for kind, _, body in f.clauses:
        facts["%s { %s }" % (kind, bare(f, body))].append(f)
table("A facts: clauses that are equal once their label and the names of the parameters are taken out", facts.items())

ghosts = collections.defaultdict(list)
for file in files():
    text = open(file).read()
    for m in re.finditer(r"^    ghost (\w+): \{ (.*) \},", text, re.M):
        ghosts[m.group(2)].append(Fn(file, line_of(text, m.start()), m.group(1), "", "", [], "", "", 0, 0, [], False))
table("B facts that three records or more keep", ghosts.items())

# each parameter of a function is in one set at most; the set that saves most parameters is taken first
left = {}
for f in fns:
    if " for " not in f.owner:
        left[(f.file, f.line)] = (f, frozenset(re.sub(r"<'\w+>|'\w+ ", "", p) for p in f.params if not re.match(r"&?(mut )?self$", p)))
rows = []
while True:
    sets = {own for _, own in left.values() if len(own) > 1}
    every, new = set(sets), set(sets)
    while new:
        new = {a & b for a in new for b in sets if len(a & b) > 1} - every
        every |= new
    best, hit = None, []
    for a in sorted(every, key=sorted):
        at = [k for k, (_, own) in left.items() if a <= own]
        if len(at) > 2 and (best is None or (len(a) - 1) * len(at) > (len(best) - 1) * len(hit)):
            best, hit = a, at
    if best is None:
        break
    rows.append((", ".join(sorted(best)), [left[k][0] for k in hit]))
    for k in hit:
        left[k] = (left[k][0], left[k][1] - best)
table("C parameters that travel together", rows)
print("\nall: %d rows, %d places" % tuple(total))

bounds = collections.defaultdict(list)
for f in fns:
    for kind, _, body in f.clauses:
        for m in re.finditer(r"(?:≤|<|≡) \d{2,}\b", body):
            bounds[m.group()].append(f)
table("D bounds by their number, wherever they stand in a contract", bounds.items(), False)
for name in ("BitReader", "BitWriter", "View", "Environment"):
    found = []
    for file in files():
        text = code(open(file).read())
        for m in re.finditer(r"(?<!struct )(?<!for )\b%s(?:<'a>)? \{(?=\s*\w+[:,])" % name, text):
            found.append("%s:%d" % (file, line_of(text, m.start())))
    print("\n[E %s { .. } made on the spot] %d places, left out%s" % (name, len(found), "" if quiet else "\n         " + "; ".join(found)))
