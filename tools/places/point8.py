#!/usr/bin/env python3
"""Point 8: proofs by crate, lemma names in more than one crate, lemmas and answers with the same text in two files.
python3 point8.py [-q]   at the repository's top"""
import collections
import glob
import os
import re
import signal
import sys

signal.signal(signal.SIGPIPE, signal.SIG_DFL)

quiet = "-q" in sys.argv


def antt(crate, folder):
    return sorted(glob.glob("crates/%s/%s/**/*.antt" % (crate, folder), recursive=True))


def lines(file):
    return open(file).read().count("\n")


Item = collections.namedtuple("Item", "file line name statement body")
START = re.compile(r"(?:pub )?([^\s:(){}]+) :(?= |$)")


def items(file):
    """The lemmas of a file: name, statement, and the text of the proof, each without the name and with single blanks."""
    out, cur = [], None
    for n, l in enumerate(open(file).read().split("\n"), 1):
        l = re.sub(r"(^|\s)--( .*)?$", "", l)
        m = START.match(l)
        if l[:1] not in ("", " ") and not (cur and l.startswith(cur[1] + " ") and not m):
            cur = None
            if m and not re.match(r"(pub )?(data|abbrev|def|record|use)\b", l):
                cur = [n, m.group(1), l[m.end():], []]
                out.append(cur)
        elif cur:
            if l.startswith(cur[1] + " ") or cur[3]:
                cur[3].append(l)
            else:
                cur[2] += " " + l
    own = lambda name, t: re.sub(r"\s+", " ", re.sub(r"(?<![\w.'-])%s(?![\w'-])" % re.escape(name), "_", t)).strip()
    return [Item(file, n, name, own(name, s), own(name, "\n".join(b))) for n, name, s, b in out]


crates = [os.path.basename(c) for c in sorted(glob.glob("crates/*")) if os.path.isdir(c)]
print("%-12s %7s %7s %7s %7s %8s %10s %7s" % ("crate", "proofs", "lines", "specs", "lines", "Answers", "Invariants", "lemmas"))
total = [0] * 7
lemmas, answers = [], []
for c in crates:
    ps, ss = antt(c, "proofs"), antt(c, "specs")
    named = lambda n: [f for f in ps if os.path.basename(f) == n]
    free = [f for f in ps if os.path.basename(f) not in ("Answers.antt", "Invariants.antt")]
    own = [i for f in free for i in items(f)]
    lemmas += own
    answers += [i for f in named("Answers.antt") for i in items(f)]
    row = [len(ps), sum(map(lines, ps)), len(ss), sum(map(lines, ss)), len(named("Answers.antt")), len(named("Invariants.antt")), len(own)]
    total = [a + b for a, b in zip(total, row)]
    print("%-12s %7d %7d %7d %7d %8d %10d %7d" % ((c,) + tuple(row)))
print("%-12s %7d %7d %7d %7d %8d %10d %7d" % (("all",) + tuple(total)))
print("answers in Answers.antt: %d" % len(answers))


def where(i):
    return "%s:%d %s" % (i.file, i.line, i.name)


def show(title, groups, words):
    groups = list(groups)
    print("\n[%s] %d groups, %d places" % (title, len(groups), sum(len(g) for _, g in groups)))
    if not quiet:
        for k, g in sorted(groups, key=lambda x: (-len(x[1]), x[0])):
            print("  %s%s" % (words(k), "; ".join(where(i) for i in g)))


crate_of = lambda i: i.file.split("/")[1]
names = collections.defaultdict(list)
for i in lemmas:
    names[i.name].append(i)
show("A lemma names in the proofs of more than one crate", ((k, g) for k, g in names.items() if len({crate_of(i) for i in g}) > 1), lambda k: "")
texts = collections.defaultdict(list)
for i in lemmas:
    if len(i.body) > 40:
        texts[i.body].append(i)
show("B lemmas with the same proof text in two files or more", ((k, g) for k, g in texts.items() if len({i.file for i in g}) > 1), lambda k: "")
same = collections.defaultdict(list)
for i in lemmas:
    same[i.statement].append(i)
show("C lemmas with the same statement in two files or more", ((k, g) for k, g in same.items() if len({i.file for i in g}) > 1 and len(k) > 10), lambda k: "")
texts = collections.defaultdict(list)
for i in answers:
    if len(i.body) > 40:
        texts[i.body].append(i)
show("D answers with the same text in two files or more", ((k, g) for k, g in texts.items() if len({i.file for i in g}) > 1), lambda k: "")
