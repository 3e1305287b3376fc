"""Reads the sources of a Rattle repository; every pointN.py beside this file uses it. Run those at the repository's top."""
import collections
import glob
import re
import signal
import sys

signal.signal(signal.SIGPIPE, signal.SIG_DFL)

CLAUSE = re.compile(r"^[ \t]*(requires|ensures|ghost)\b[ \t]*(\w*)[^\n{;]*", re.M)
TOKENS = re.compile(r"[A-Za-z_]\w*|\d[\w.]*|'(?:\\.|[^'\\])'|\"[^\"]*\"|->|=>|::|&&|\|\||[<>=!+\-*/%]=|\.\.|[^\s]")
KEYWORDS = set("as break const continue crate else enum false fn for if impl in let loop match mod mut pub ref return self Self "
               "static struct super trait true type use where while Some None Ok Err".split())

Fn = collections.namedtuple("Fn", "file line name owner generics params result body start end clauses public")
Type = collections.namedtuple("Type", "file line kind name fields start end")


def files():
    return sorted(glob.glob("crates/*/src/**/*.rt", recursive=True))


def blank(m):
    return re.sub(r"[^\n]", " ", m)


def plain(text):
    """The text without comments and without what strings and chars hold, of the same length."""
    out, i = [], 0
    while i < len(text):
        m = re.compile(r'//[^\n]*|"(?:[^"\\]|\\.)*"|\'(?:\\.|[^\'\\])\'', re.S).match(text, i)
        if m:
            s = m.group()
            out.append(blank(s) if s.startswith("//") else s[0] + re.sub(r"[^\n]", "_", s[1:-1]) + s[-1])
            i = m.end()
        else:
            out.append(text[i])
            i += 1
    return "".join(out)


def clauses(text):
    """The contracts and ghost lines of a text: (begin, end, kind, label, what stands between the braces)."""
    at = 0
    while True:
        m = CLAUSE.search(text, at)
        if not m:
            return
        end = m.end()
        if text[end:end + 1] == "{":
            stop = close(text, end)
            yield m.start(), stop + 1, m.group(1), m.group(2), re.sub(r"\s+", " ", text[end + 1:stop]).strip()
            end = stop + 1
        else:
            yield m.start(), end, m.group(1), m.group(2), ""
        at = end
        # a ghost field or line ends with a comma or a semicolon, which goes with it
        if text[at:at + 1] == "," and m.group(1) == "ghost":
            at += 1


def code(text):
    """The text without comments, string contents, contracts and ghost lines, of the same length."""
    text = plain(text)
    out, at = [], 0
    for begin, end, kind, _, _ in clauses(text):
        if kind == "ghost" and text[end:end + 1] == ",":
            end += 1
        out += [text[at:begin], blank(text[begin:end])]
        at = end
    return "".join(out + [text[at:]])


def line_of(text, at):
    return text.count("\n", 0, at) + 1


def close(text, at):
    """The place of the bracket that closes the one at the place."""
    pairs = {"(": ")", "[": "]", "{": "}"}
    a, b, depth = text[at], pairs[text[at]], 0
    for i in range(at, len(text)):
        if text[i] == a:
            depth += 1
        elif text[i] == b:
            depth -= 1
            if depth == 0:
                return i
    raise ValueError("no closing bracket")


def split_top(text, sep=","):
    """The parts of a list at commas that stand in no bracket."""
    parts, depth, cur = [], 0, ""
    for i, c in enumerate(text):
        if c in "([{<":
            depth += 1
        elif c in ")]}" or (c == ">" and text[i - 1] != "-" and text[i - 1] != "="):
            depth -= 1
        if c == sep and depth == 0:
            parts.append(cur)
            cur = ""
        else:
            cur += c
    parts.append(cur)
    return [re.sub(r"\s+", " ", p).strip() for p in parts if p.strip()]


def owners(text):
    """Spans of impl and trait blocks with what they are of."""
    found = []
    for m in re.finditer(r"^(?:pub )?(impl|trait)\b([^{]*)\{", text, re.M):
        found.append((m.start(), close(text, m.end() - 1), re.sub(r"\s+", " ", m.group(1) + m.group(2)).strip()))
    return found


def functions(file, raw=None):
    raw = open(file).read() if raw is None else raw
    text = code(raw)
    told = [c for c in clauses(plain(raw)) if c[2] != "ghost"]
    spans = owners(text)
    out = []
    for m in re.finditer(r"(?:\bpub(?:\([a-z]+\))? )?\bfn (\w+)", text):
        at = m.end()
        generics = ""
        if text[at] == "<":
            depth, i = 0, at
            while True:
                if text[i] == "<":
                    depth += 1
                elif text[i] == ">" and text[i - 1] != "-":
                    depth -= 1
                    if depth == 0:
                        break
                i += 1
            generics, at = text[at:i + 1], i + 1
        p = text.index("(", at)
        q = close(text, p)
        params = split_top(text[p + 1:q])
        i, depth = q + 1, 0
        while True:
            if text[i] in "([":
                depth += 1
            elif text[i] in ")]":
                depth -= 1
            elif depth == 0 and text[i] in "{;":
                break
            i += 1
        head = re.sub(r"\s+", " ", text[q + 1:i]).strip()
        result = head[2:].strip() if head.startswith("->") else ""
        end = close(text, i) if text[i] == "{" else i
        body = text[i:end + 1] if text[i] == "{" else ""
        said_here = [(k, n, c) for a, b, k, n, c in told if q < a < i]
        owner = next((o for a, b, o in spans if a < m.start() < b), "")
        out.append(Fn(file, line_of(text, m.start()), m.group(1), owner, generics, params, result, body, i, end,
                      said_here, m.group().startswith("pub")))
    return out


def types(file):
    raw = open(file).read()
    text = code(raw)
    out = []
    for m in re.finditer(r"\b(struct|enum) (\w+)[^{;(]*([{;(])", text):
        if m.group(3) != "{":
            out.append(Type(file, line_of(text, m.start()), m.group(1), m.group(2), [], m.start(), m.end()))
            continue
        end = close(text, m.end() - 1)
        fields = [re.sub(r"^pub(\([a-z]+\))? ", "", f) for f in split_top(text[m.end():end])]
        out.append(Type(file, line_of(text, m.start()), m.group(1), m.group(2), fields, m.start(), end))
    return out


def matches(text):
    """The matches of a code text: (place, subject, arms), an arm being its pattern and its value."""
    for m in re.finditer(r"\bmatch ", text):
        depth, i = 0, m.end()
        while text[i] != "{" or depth:
            depth += (text[i] in "([") - (text[i] in ")]")
            i += 1
        end, arms, j = close(text, i), [], i + 1
        while True:
            k = text.find("=>", j, end)
            if k == -1:
                break
            pattern = re.sub(r"\s+", " ", text[j:k]).strip()
            j = k + 2
            while text[j].isspace():
                j += 1
            if text[j] == "{":
                stop = close(text, j) + 1
                value, j = text[j:stop], stop + (text[stop:stop + 1] == ",")
            else:
                a, depth = j, 0
                while j < end and (text[j] != "," or depth):
                    depth += (text[j] in "([{") - (text[j] in ")]}")
                    j += 1
                value, j = text[a:j], j + 1
            arms.append((pattern, re.sub(r"\s+", " ", value).strip()))
        yield m.start(), re.sub(r"\s+", " ", text[m.end():i]).strip(), arms


def all_functions():
    return [f for file in files() for f in functions(file)]


def all_types():
    return [t for file in files() for t in types(file)]


def said(fn):
    of = re.sub(r"^(impl|trait)\s*(<[^>]*>)?\s*", "", fn.owner.split(" for ")[-1]).split("<")[0].split(":")[0].strip()
    return (of + "::" if of else "") + fn.name


def function_at(fns, at):
    return next((f for f in fns if f.body and f.start <= at <= f.end), None)


class Report:
    """Prints places kind by kind, with a count for each, and the count of all. A kind that begins with `-` is left out of it."""

    def __init__(self, title, *kinds):
        self.title, self.kinds = title, collections.OrderedDict((k, []) for k in kinds)

    def named(self, letter):
        return next(k for k in self.kinds if k.lstrip("- ").split(" ")[0] == letter)

    def put(self, letter, file, line, words):
        self.add(self.named(letter), file, line, words)

    def putter(self, file, text, fns):
        """Puts a place of the file by its offset, with the function that it stands in."""
        def put(letter, at, words):
            fn = function_at(fns, at)
            self.put(letter, file, line_of(text, at), (said(fn) + ": " if fn else "") + words)
        return put

    def add(self, name, file, line, words):
        self.kinds.setdefault(name, []).append((file, line, re.sub(r"\s+", " ", words).strip()))

    def show(self):
        print(self.title)
        total = 0
        for name, places in self.kinds.items():
            places = sorted(set(places))
            total += 0 if name.startswith("-") else len(places)
            print("\n[%s] %d%s" % (name.lstrip("- "), len(places), ", left out" if name.startswith("-") else ""))
            if "-q" not in sys.argv:
                for f, l, w in places:
                    print("  %s:%d  %s" % (f, l, w))
        print("\nall %d" % total)
