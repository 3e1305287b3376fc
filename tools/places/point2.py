#!/usr/bin/env python3
"""Point 2: twins, functions or types that differ only in a type, a size or a constant.   python3 point2.py   at the repository's top

First the groups, found by reading every file: of each, the members that are still there (a group of fewer than two is gone). Then what
a comparison of the texts finds, so that nothing is missed: types with the same fields, functions with the same text once names and
numbers are taken out or nearly so (85 of 100 words in the same order), one name for several functions. `!` marks what no group has,
`+` what stands in several groups."""
import difflib
from sources import *

A = "crates/algebra/src/"
B, E, P, S, T, V = ("crates/%s/src/" % x for x in ("boolean", "expansion", "passes", "system", "terms", "vectors"))
TYPES = [
    ("a reason and its bit place", "TableFault ReadFault SolveFault"),
    ("a reading fault or a reason", "PassFault ExpandFault"),
    ("a record around one other", "SettleFault Halt"),
    ("bytes and a bit place in them", "BitReader BitWriter View"),
    ("the kinds of a term, without and with its parts", "Kind Term"),
    ("two cases that one bit tells", "Sign Quantifier"),
    ("bodies, start and end of a system", "Outline Rest"),
    ("numbers as records for a first-come list", "Parameter EquationNumber"),
    ("a pass without content", "Constants Fold Redundant Unreachable"),
]
FUNCTIONS = [
    ("the innermost fault", "faults:innermost"),
    ("a reading fault inside another", "faults:PassFault::from faults:ExpandFault::from"),
    ("copies bytes or truths to a front", "bench:copy expansion:copy passes:copy vectors:copy_to algebra:front boolean:deliver"),
    ("only zero padding follows", "algebra:ended boolean:ends system:check_ending"),
    ("reads a whole file: length, content, ending", "algebra:read_table boolean:read_boolean system:reading.rt:read"),
    ("the name of a layer", "possumgold:layer_name vectors:layer_name"),
    ("the line of a refusal", "possumgold:print_refused vectors:refused solver:answer"),
    ("reads the input and answers it", "possumgold:main solver:main vectors:main"),
    ("a case that one bit tells", "boolean:sign_of system:sign_of system:quantifier_of"),
    ("an operation at so many known arguments", "terms:apply_one terms:apply_two terms:apply_three"),
    ("all or any of two", "terms:both terms:value.rt:either terms:occur.rt:either boolean:joined"),
    ("reads, plans and writes", "Constants::apply Fold::apply Redundant::apply Unreachable::apply"),
    ("what is known of a truth", "constants.rt:known_false folding.rt:known_false passes:clause_goes expansion:value_at"),
    ("reads one field and compares it with a limit",
     "algebra:read_size algebra:read_sizes algebra:read_sort algebra:read_value boolean:read_name system:read_target system:read_value system:headers.rt:read_sort "
     "system:check_parameter system:check_variable system:check_value system:check_operation"),
    ("reads so many of a kind into an array",
     "algebra:read_more_sizes algebra:read_sorts algebra:read_values algebra:read_operations boolean:read_entries system:headers.rt:read_sorts "
     "system:read_quantifieds system:read_headers system:check_bodies system:read_values system:arguments_at"),
    ("checks so many of a kind, for the end alone", "system:check_arguments system:check_occurrences system:check_clauses"),
    ("a term, a count, and that many", "system:check_clause system:check_body"),
    ("opens a term and a count behind it", "system:open_body system:open_clause"),
    ("walks through the clauses of a body or the occurrences of a clause",
     "passes:follow_clause passes:follow_equation passes:marked_come passes:pointing_come passes:targets_come passes:write_clause "
     "passes:write_clauses expansion:write_clause expansion:write_inside system:end_of_clause"),
    ("counts the clauses that stay or hold", "passes:count_clauses expansion:count_holding"),
    ("counts what stays before a number", "passes:number_among passes:renumbered"),
    ("values of an instance, each known", "passes:learn_start expansion:environment_of"),
    ("a value for each argument", "passes:argument_values expansion:meant"),
    ("a plan from what came", "passes:plan_needed passes:plan_reachable"),
    ("drafts into a buffer of its own and delivers", "passes:write_planned expansion:lib.rt:expand"),
    ("a draft and its length", "passes:draft expansion:draft_file"),
    ("of the parameters those that stay", "passes:write_header passes:write_occurrence passes:write_start"),
    ("one step up or down in a sort", "algebra:up algebra:down algebra:counting/calls.rt:next"),
    ("the entry of a table of pairs", "algebra:sum algebra:distance"),
    ("the member with a number, or none",
     "algebra:counts_in algebra:Table::operation algebra:Table::size algebra:Counting::size algebra:Table::arg_sort FirstCome::get system:sort_at terms:entry"),
    ("an answer of the operation with a number", "Table::arity Table::result_sort Table::value Counting::value"),
    ("an answer about an operation by its kind", "Counting::arity Counting::result_sort Counting::arg_sort"),
    ("a field byte by byte", "bits:reader.rt:number bits:put_number"),
    ("a field at the place, refused where it does not fit", "BitReader::next BitWriter::put"),
    ("the bits inside one byte", "bits:part bits:put_part"),
    ("a method and the same with another receiver", "bench:Bench::load bench:load_inner firstcome:FirstCome::find firstcome:find_in"),
    ("suits what is known, or nothing is", "boolean:suits system:suits"),
    ("a term by recursion on its parts, And, Or and Equal alike", "passes:write_term terms:occurs_at terms:known_at terms:read_term terms:open_term"),
    ("a call on the desk's bench, told", "vectors:load vectors:run vectors:settle"),
    ("an expansion, told", "vectors:expand vectors:draw"),
    ("an algebra filled and chosen", "vectors:fill_counting vectors:fill_table"),
    ("fields from the words of a line", "vectors:put_fields vectors:put_hex vectors:put_again"),
    ("bytes in hexadecimal", "possumgold:print_settled vectors:shown"),
    ("each shorter beginning", "vectors:cut vectors:cut_table"),
    ("a result in a buffer of a length, told", "vectors:apply vectors:acts.rt:solve"),
    ("numbers of a line, cut to a size", "vectors:sizes_of vectors:arguments_of"),
]
WORDS = set("as break const else enum false fn for if impl in let loop match mut pub ref return self Self struct true while Some None "
            "Ok Err u8 u16 u32 usize bool str".split())


def frame(body):
    """The words of a text, every name x and every number 0."""
    out = []
    for w in TOKENS.findall(body):
        if w != ",":
            out.append("0" if w[0].isdigit() else "x" if re.match(r"[A-Za-z_]", w) and w not in WORDS else "'" if w[0] in "'\"" else w)
    return out


fns = [f for f in all_functions() if f.body and not re.fullmatch(r"\{\s*0\s*\}", f.body)]
kinds = all_types()


def where(x):
    return "%s:%d %s" % (x.file, x.line, x.name if isinstance(x, Type) else said(x))


def find(word):
    parts = [p for p in re.split(r"(?<!:):(?!:)", word)]
    name = parts[-1]
    return [f for f in fns if (said(f) if "::" in name else f.name) == name
            and all(("/%s" % p in f.file if "." in p else f.file.startswith("crates/%s/" % p)) for p in parts[:-1])]


def show(title, groups):
    print("\n[%s] %d groups, %d places" % (title, len(groups), sum(len(g) for _, g in groups)))
    for words, g in groups:
        print("  %s (%d): %s" % (words, len(g), "; ".join(where(x) for x in g)))


behind = [t for t in kinds if t.kind == "struct" and any(re.match(r"(next|end): usize$", f) for f in t.fields)]
types_of = [("a value and the place behind it", behind)] + [(w, [t for n in ns.split() for t in kinds if t.name == n and "/tests/" not in t.file]) for w, ns in TYPES]
types_of = [(w, g) for w, g in types_of if len(g) > 1]
functions_of = [(w, [f for n in ns.split() for f in find(n)]) for w, ns in FUNCTIONS]
functions_of = [(w, g) for w, g in functions_of if len(g) > 1]
fillers = collections.defaultdict(list)
consts = collections.defaultdict(list)
for file in files():
    text = code(open(file).read())
    for m in re.finditer(r"\[(?:in heap; |in \w+\.alloc\(\); )?\s*(\w+) \{[^{}]*\}\s*; ?\d+\]|\blet none = (\w+) \{|\bconst \w+: (\w+) = \w+ \{", text):
        name = next(x for x in m.groups() if x)
        fillers[name].append(Type(file, line_of(text, m.start()), "filler", name, [], 0, 0))
    for m in re.finditer(r"\bconst (\w+): \w+ = (\d+);", text):
        consts[m.group(2)].append(Type(file, line_of(text, m.start()), "const", m.group(1), [], 0, 0))
others = [("what an array of %s is filled with" % k, g) for k, g in sorted(fillers.items()) if len(g) > 1]
others += [("constants that are %s" % k, g) for k, g in sorted(consts.items()) if len(g) > 1]
show("types", types_of)
show("functions", functions_of)
show("fillers and constants", others)
every = types_of + functions_of + others
print("\nall: %d groups, %d places" % (len(every), sum(len(g) for _, g in every)))

grouped = collections.defaultdict(set)
for n, (_, g) in enumerate(every):
    for x in g:
        grouped[(x.file, x.line)].add(n)


def compare(title, groups):
    print("\n[%s] %d groups, %d places" % (title, len(groups), sum(len(g) for g in groups)))
    for g in sorted(groups, key=lambda g: (g[0].file, g[0].line)):
        common = set.intersection(*[grouped[(x.file, x.line)] for x in g])
        some = all(grouped[(x.file, x.line)] for x in g)
        print("  %s %s" % (" " if common else "+" if some else "!", "; ".join(where(x) for x in g)))


same = collections.defaultdict(list)
for t in kinds:
    if t.fields and not (t.kind == "enum" and not any("(" in c or "{" in c for c in t.fields)):
        same[(t.kind,) + tuple(re.sub(r"'\w+ |&|mut |^\w+(?=\()", "", f) for f in t.fields)].append(t)
compare("types with the same fields", [g for g in same.values() if len(g) > 1])
frames = collections.defaultdict(list)
for f in fns:
    words = frame(f.body)
    if len(words) >= 8:
        frames[tuple(words)].append(f)
exact = [g for g in frames.values() if len(g) > 1]
compare("functions with the same text but for names and numbers", exact)
together = {(id(a), id(b)) for g in exact for a in g for b in g}
long = [(f, w) for f, w in ((f, frame(f.body)) for f in fns) if len(w) >= 25]
pool = []
for i, (f, a) in enumerate(long):
    for g, b in long[i + 1:]:
        if (id(f), id(g)) in together or not 0.7 < len(a) / len(b) < 1.43:
            continue
        m = difflib.SequenceMatcher(None, a, b, autojunk=False)
        if m.quick_ratio() >= 0.85 and m.ratio() >= 0.85:
            meet = [q for q in pool if f in q or g in q]
            pool = [q for q in pool if q not in meet] + [sorted({id(x): x for x in sum(meet, [f, g])}.values(), key=lambda x: (x.file, x.line))]
compare("functions nearly the same", pool)
names = collections.defaultdict(list)
for f in fns:
    if "Algebra for" not in f.owner and "From<" not in f.owner and f.name != "new":
        names[f.name].append(f)
compare("one name for several functions", [g for g in names.values() if len(g) > 1])
