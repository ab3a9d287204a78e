#!/usr/bin/env python3
"""Pairs of accesses with the answer of the dependence test, found by search.

It prints the loops that stand in crates/nona_forms_cases/src/pairs.rt, from their bounds on: first those whose written and read
access are told apart, then those of which nothing is known. Each is of a row

    kind low high inner_low inner_high c p k d q l

of numbers:

    for i in low..high { for j in inner_low..inner_high { a[c*i + p*j + k] = a[d*i + q*j + l]; } }

kind 0 has these bounds; kind 1 has a variable for high, and kind 2 one for inner_high, so that those bounds aren't constant. The
answer is 1 where the accesses are told apart, else 0.

Nothing here is taken from the product: each rule is decided by trying all numbers, and where all bounds are constant each
answer 1 is tried against every two different iterations and all inner indices.
"""

import itertools
import random

ROWS = 200


def divisor(numbers):
    """The greatest number that divides all of these, which aren't all 0."""
    return max(g for g in range(1, max(map(abs, numbers)) + 1) if all(n % g == 0 for n in numbers))


def answer(row):
    """The answer of the rules in order, and the name of the rule that gave it."""
    kind, low, high, inner_low, inner_high, c, p, k, d, q, l = row
    outer = None if kind == 1 else range(low, high)
    inner = None if kind == 2 else range(inner_low, inner_high)
    rest = l - k
    if (outer is not None and len(outer) == 0) or (inner is not None and len(inner) == 0):
        return 1, "empty"
    if c == d == p == q == 0:
        return (1 if rest != 0 else 0), "constants"
    if rest % divisor([c, d, p, q]) != 0:
        return 1, "divisor"
    known = inner is not None or p == q == 0
    js = inner if inner is not None else range(1)
    if c == d and c != 0 and known:
        made = [q * y - p * x + rest for x, y in itertools.product(js, js)]
        far = max(map(abs, made)) + 1
        if outer is not None:
            far = min(far, len(outer) - 1)
        if not any(t != 0 and min(made) <= c * t <= max(made) for t in range(-far, far + 1)):
            return 1, "distance"
    if c != d and known and outer is not None:
        made = [c * x - d * y for x, y in itertools.product(outer, outer)]
        parts = [p * x - q * y for x, y in itertools.product(js, js)]
        if not min(made) + min(parts) <= rest <= max(made) + max(parts):
            return 1, "bounds"
    return 0, "none"


def meets(row):
    """Whether both accesses name one cell in two different iterations."""
    kind, low, high, inner_low, inner_high, c, p, k, d, q, l = row
    outer, inner = range(low, high), range(inner_low, inner_high)
    return any(
        i != n and c * i + p * j + k == d * n + q * m + l
        for i, n in itertools.product(outer, outer)
        for j, m in itertools.product(inner, inner)
    )


def candidate(random_):
    low, inner_low = random_.randint(-4, 4), random_.randint(-2, 2)
    c = random_.randint(-4, 4)
    return (
        random_.choice([0, 0, 0, 1, 2]),
        low,
        low + random_.randint(-1, 6),
        inner_low,
        inner_low + random_.choice([0, 1, 1, 2, 3]),
        c,
        random_.choice([0, 0, 1, -1, 2, 6]),
        random_.randint(-9, 9),
        random_.choice([c, c, random_.randint(-4, 4)]),
        random_.choice([0, 0, 1, -1, 2, 6]),
        random_.randint(-9, 9),
    )


def text(row):
    """The text of a row's loop, from its bounds on."""
    kind, low, high, inner_low, inner_high, c, p, k, d, q, l = row
    last, inner_last = "n" if kind == 1 else high, "n" if kind == 2 else inner_high
    loops = f"{low}..{last} {{ for j in {inner_low}..{inner_last} {{"
    return f"{loops} a[({c})*i + ({p})*j + ({k})] = a[({d})*i + ({q})*j + ({l})]; }} }}"


def main():
    random_ = random.Random(17)
    share = {"empty": 20, "constants": 20, "divisor": 40, "distance": 40, "bounds": 30, "none": 50}
    assert sum(share.values()) == ROWS
    rows = []
    while any(share.values()):
        row = candidate(random_)
        told, rule = answer(row)
        if share[rule] == 0 or row in [r[:11] for r in rows]:
            continue
        if told and row[0] == 0:
            assert not meets(row), row
        share[rule] -= 1
        rows.append(row + (told,))
    for wanted, name in [(1, "told apart"), (0, "unknown")]:
        print(f"# {name}")
        for row in rows:
            if row[11] == wanted:
                print(text(row[:11]))


if __name__ == "__main__":
    main()
