"""Boolean files for the program `solver`: families for timing, random small ones, and their truths by the definition."""
import random


def bits(width, value):
    return [(value >> (width - 1 - i)) & 1 for i in range(width)]


def body_bits(body):
    kind, what = body
    if kind == 'known':
        return bits(3, what)
    if kind == 'var':
        return bits(3, 4) + bits(12, what)
    parts = [b for part in what for b in body_bits(part)]
    return bits(3, 2 if kind == 'all' else 3) + bits(8, len(what) - 1) + parts


def packed(variables):
    """The file of a list of (sign, rank, body); sign 0 is least."""
    out = bits(12, len(variables) - 1)
    for sign, rank, body in variables:
        out += [sign] + bits(5, rank) + body_bits(body)
    out += [0] * (-len(out) % 8)
    return bytes(int(''.join(map(str, out[i:i + 8])), 2) for i in range(0, len(out), 8))


def family(shape, n, ranks, seed, one_sign=False):
    """random: bodies of two to six variables, ranks in the order of the numbers; mixed: the same with random ranks; up and
    down: each variable waits for the one before, or behind; ladder: chains that also need the next rank's chain."""
    r = random.Random(seed)
    size = n // ranks
    variables = []
    for i in range(n):
        rank = r.randrange(ranks) if shape == 'mixed' else i * ranks // n
        sign = 0 if one_sign else rank % 2
        end = ('known', 1 - sign)
        if shape in ('random', 'mixed'):
            kind = r.choice(['all', 'any'])
            body = (kind, [('var', r.randrange(n)) for _ in range(r.randint(2, 6))])
            if r.random() < 0.02:
                body = ('known', r.randrange(2))
        elif shape == 'up':
            body = ('var', i - 1) if i else end
        elif shape == 'down':
            body = ('var', i + 1) if i + 1 < n else end
        else:
            body = ('var', i - 1) if i % size else end
            if i + size < n:
                body = ('any' if sign else 'all', [body, ('var', i + size)])
        variables.append((sign, rank, body))
    return variables


def small(r):
    """A random system of a few variables with nested bodies."""
    n, ranks = r.randint(1, 9), r.randint(1, 6)
    signs = [r.randrange(2) for _ in range(ranks)]

    def body(depth):
        x = r.random()
        if depth == 1 or x < 0.5:
            return ('var', r.randrange(n)) if r.random() < 0.9 else ('known', r.randrange(2))
        return (r.choice(['all', 'any']), [body(depth - 1) for _ in range(r.randint(1, 3))])

    variables = []
    for _ in range(n):
        rank = r.randrange(ranks)
        variables.append((signs[rank], rank, body(r.randint(1, 5))))
    return variables


def says(body, truths):
    kind, what = body
    if kind == 'known':
        return bool(what)
    if kind == 'var':
        return truths[what]
    return (all if kind == 'all' else any)(says(part, truths) for part in what)


def truths(variables):
    """The nested solution, rank by rank, the lowest rank outermost: no blocks, and nothing in place."""
    ranks = sorted({rank for _, rank, _ in variables})

    def solved(left, held):
        if not left:
            return held
        mine = [i for i, v in enumerate(variables) if v[1] == left[0]]
        now = dict(held)
        for i in mine:
            now[i] = variables[i][0] == 1
        while True:
            inner = solved(left[1:], now)
            after = dict(now)
            for i in mine:
                after[i] = says(variables[i][2], inner)
            if after == now:
                return inner
            now = after

    found = solved(ranks, {i: False for i in range(len(variables))})
    return ''.join('1' if found[i] else '0' for i in range(len(variables)))
