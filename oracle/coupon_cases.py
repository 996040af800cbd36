"""The table of coupons: writes the cases, and what the model says of each, beside the program that runs them.

usage: coupon_cases.py [--check | --c | --c-answers]
with --check it only compares, and fails where the files are not the model's;
with --c it prints cases for the C calls, with --c-answers what the model says of just these
"""
import itertools
import math
import pathlib
import random
import string
import sys

from coupons import (
    CALLS, DAYS, FACTOR_LIMIT, LEGS, MILLIONS, NPV, OBSERVED_DAYS, ONE, OVERNIGHT, RATE, THOUSANDS, TRM,
    YEAR_OF_MILLS, answer, compounded, factors, rounded, worked,
)

HOME = pathlib.Path(__file__).resolve().parent.parent / "crates" / "coupon_cases"
LEAST, MOST = -(2**63), 2**63 - 1
EXTREMES = (LEAST, LEAST + 1, -(2**32) + 1, 2**32 + 1, MOST - 1, MOST)
GIVEN = [("I", "F"), ("I", "V"), ("O", "F"), ("C", "U")]


def around(limits):
    """Both limits, one inside and one past each."""
    low, high = limits
    return (low - 1, low, low + 1, high - 1, high, high + 1)


def some(rng, limits):
    """A figure inside its limits, small as often as not."""
    low, high = limits
    if rng.random() < 0.5:
        return rng.randint(low, high)
    size = rng.randint(0, 10 ** rng.randrange(len(str(high))))
    return min(high, max(low, rng.choice((-1, 1)) * size if low < 0 else size))


def halving(rng, multiplier, below, limits):
    """A figure whose product with the multiplier, over below, ends in just a half; None where there is none."""
    common = math.gcd(multiplier, below)
    if multiplier == 0 or (below // 2) % common:
        return None
    step = below // common
    least = below // 2 // common * pow(multiplier // common, -1, step) % step
    low, high = limits
    if low < 0 and rng.random() < 0.5:
        high = -1
    first = low + (least - low) % step
    return rng.randrange(first, high + 1, step) if first <= high else None


def tried(make):
    """The first outcome that is one."""
    while True:
        found = make()
        if found is not None:
            return found


def half_pesos(rng):
    n, days = some(rng, MILLIONS), some(rng, DAYS)
    rate = halving(rng, n * days, 360, RATE)
    return None if rate is None else (n, rate, days)


def half_cents(rng):
    k, days = some(rng, THOUSANDS), some(rng, DAYS)
    rate = halving(rng, k * days, 360_000, RATE)
    return None if rate is None else (k, rate, days, rng.randint(*TRM))


def half_centavos(rng):
    k, rate, days = some(rng, THOUSANDS), some(rng, RATE), some(rng, DAYS)
    trm = halving(rng, rounded(k * rate * days, 360_000), 100, TRM)
    return None if trm is None else (k, rate, days, trm)


def half_alignment(rng):
    rate, days = some(rng, OVERNIGHT), some(rng, OBSERVED_DAYS)
    npv = halving(rng, rate * days, YEAR_OF_MILLS, NPV)
    return None if npv is None else (npv, rate, days)


HALVES = [
    ("fixed", half_pesos), ("variable", half_pesos),
    ("dollars", half_cents), ("dollars", half_centavos), ("alignment", half_alignment),
]


def observed(rng, count, days=OBSERVED_DAYS):
    return [(rng.randint(*OVERNIGHT), rng.randint(*days)) for _ in range(count)]


def last_factor(observations):
    return list(factors(observations))[-1]


def half_factor(rng):
    """Observations whose last factor ends in a half that shows in the compounded rate."""
    before = observed(rng, rng.randint(1, 3), (1, 2))
    factor = last_factor(before)
    days = rng.randint(1, 2)
    rate = halving(rng, factor * days, YEAR_OF_MILLS, OVERNIGHT)
    if rate is None:
        return None
    listed = before + [(rate, days)]
    factor, total = last_factor(listed), sum(days for _, days in listed)
    return listed if compounded(factor, total) != compounded(factor - 1, total) else None


def half_compounded(rng):
    """Observations whose compounded rate ends in a half."""
    listed = observed(rng, rng.randint(1, 2), (1, 3))
    above, below = (last_factor(listed) - ONE) * 9, 25 * sum(days for _, days in listed)
    return listed if 2 * (above % below) == below else None


def half_overnight(rng):
    """N and observations whose coupon ends in a half."""
    listed = observed(rng, rng.randint(1, 4))
    total = sum(days for _, days in listed)
    n = halving(rng, compounded(last_factor(listed), total) * total, 360, MILLIONS)
    return None if n is None else (n, listed)


def reaching(target):
    """Observations of which the last takes the factor to just the target."""
    for early in range(50_000, 49_000, -1):
        front = [(50_000, 10)] * 27 + [(early, 10)]
        start = last_factor(front)
        for late in range(50_000, 25_000, -1):
            factor = rounded(start * (YEAR_OF_MILLS + late * 10), YEAR_OF_MILLS)
            last = rounded((target - factor) * YEAR_OF_MILLS, factor * 10)
            if last <= OVERNIGHT[1] and rounded(factor * (YEAR_OF_MILLS + last * 10), YEAR_OF_MILLS) == target:
                return front + [(late, 10), (last, 10)]
    raise AssertionError("no observations reach the target")


def line(kind, n, k, trm, letter, a, b, observations=()):
    words = [kind, n, k if kind == "C" else 0, trm, letter, a, b]
    return " ".join(["line", *map(str, words), *(f"{rate}:{days}" for rate, days in observations)])


def call(name, figures):
    return " ".join([name, *map(str, figures)])


def given_lines(rng):
    """Legs whose rate and days are given: limits, extremes, halves and the worked figures."""
    for rate, days in ((1, 180), (1, 179), (-1, 180), (-1, 179)):
        for kind, letter in GIVEN[:3]:
            yield line(kind, 1, 0, 391_245, letter, rate, days)
    yield line("C", 1, 1_000, 391_245, "U", 5_000_000, 90)
    for kind, letter in GIVEN:
        for rate in (*around(RATE), *EXTREMES, -1, 0, 1):
            yield line(kind, 77, 913, 401_237, letter, rate, 91)
        for days in (*around(DAYS), *EXTREMES, -1):
            yield line(kind, 77, 913, 401_237, letter, 7_654_321, days)
        for nominal, rate, days in itertools.product(MILLIONS, RATE, DAYS):
            yield line(kind, nominal, nominal, TRM[1], letter, rate, days)
        yield line(kind, 1, 1, 1, letter, MOST, LEAST)
        for _ in range(12):
            yield line(kind, some(rng, MILLIONS), some(rng, THOUSANDS), some(rng, TRM), letter, some(rng, RATE), some(rng, DAYS))
    for kind, letter in GIVEN[:3]:
        for _ in range(6):
            n, rate, days = tried(lambda: half_pesos(rng))
            yield line(kind, n, 0, 400_000, letter, rate, days)
    for half in (half_cents, half_centavos):
        for _ in range(8):
            k, rate, days, trm = tried(lambda: half(rng))
            yield line("C", 1, k, trm, "U", rate, days)


def letter_lines(rng):
    """Each kind with each letter; a wrong leg is refused before its figures are looked at."""
    for kind in LEGS:
        for letter in string.ascii_uppercase:
            yield line(kind, 100_000, 99_999, 2_000_000, letter, 1, 2, observed(rng, 3))
        for letter in sorted(set("FVUOX") - set(LEGS[kind])):
            yield line(kind, 5, 6, 7, letter, LEAST, MOST)
            yield line(kind, 5, 6, 7, letter, 0, 1, [(-1, 11)])
            yield line(kind, 5, 6, 7, letter, 0, 31, [(50_000, 10)] * 31)


def window_lines(rng):
    """Where a line's observations lie in their list."""
    five = observed(rng, 5)
    places = [
        (0, 1), (0, 5), (0, 6), (1, 4), (1, 5), (2, 3), (2, 4), (4, 1), (4, 2), (5, 1), (6, 1), (0, 0), (2, 0), (5, 0), (0, -1),
        (5, -1), (-1, 1), (-1, 2), (-1, 6), (-5, 5), (0, 366), (0, 367), (-366, 366), (5, -5), (10, -5),
    ]
    places += [(first, count) for first in EXTREMES for count in (-1, 0, 1, 5, 366, 367)]
    places += [(first, count) for first in (-1, 0, 1, 5) for count in EXTREMES]
    places += [(first, count) for first in (LEAST, MOST) for count in (LEAST, MOST)]
    places += [(MOST - 365, 366), (MOST - 4, 5), (2**62, 2**62), (MOST - 366, 366), (LEAST + 5, MOST), (2**32, 1), (0, 2**32)]
    for first, count in places:
        yield line("O", 33_333, 0, 400_000, "O", first, count, five)
    for first, count in ((0, 5), (1, 3), (4, 1), (4, 2), (-1, 1), (0, 0), (MOST, 1), (1, MOST)):
        yield line("C", 33_333, 21, 400_000, "O", first, count, five)
    for first, count in ((0, 0), (0, 1), (-1, 1), (-1, 2), (MOST, MOST)):
        yield line("O", 33_333, 0, 400_000, "O", first, count)
    ones = [(rate // 4, days) for rate, days in observed(rng, 368, (1, 1))]
    for first, count, length in ((0, 366, 366), (0, 366, 365), (1, 366, 367), (2, 366, 367), (0, 367, 368), (2, 366, 368)):
        yield line("O", 100_000, 0, 400_000, "O", first, count, ones[:length])


def figure_lines(rng):
    """An observation's limits; those outside the line count for nothing; the first bad one is told."""
    before, after = observed(rng, 2)
    for kind in "OC":
        for rate in (*around(OVERNIGHT), *EXTREMES):
            yield line(kind, 4_321, 5, 400_000, "O", 0, 3, [before, (rate, 3), after])
        for days in (*around(OBSERVED_DAYS), *EXTREMES, -1):
            yield line(kind, 4_321, 5, 400_000, "O", 0, 3, [before, (9_000, days), after])
    for bad in ((-1, 1), (0, 0), (50_001, 11), (MOST, LEAST)):
        listed = [bad, before, after, bad]
        for first, count in ((1, 2), (1, 1), (2, 1), (0, 1), (0, 2), (1, 3), (2, 2), (3, 1), (0, 4), (0, 5)):
            yield line("O", 4_321, 0, 400_000, "O", first, count, listed)
    for pair in itertools.permutations([(-1, 5), (5, 0), (5, MOST), (MOST, 5), (LEAST, LEAST)], 2):
        yield line("O", 4_321, 0, 400_000, "O", 0, 4, [before, pair[0], after, pair[1]])
    for n in MILLIONS:
        for one in ((0, 1), (0, 10), (1, 1), (50_000, 1), (50_000, 10)):
            yield line("O", n, 0, 400_000, "O", 0, 1, [one])


def sum_lines(rng):
    """The days of a line add up to at most 366."""
    tens = [(rate // 2, 10) for rate, _ in observed(rng, 36)]
    for days in (5, 6, 7, 10, 11):
        yield line("O", 100_000, 0, 400_000, "O", 0, 37, tens + [(4_000, days)])
    yield line("C", 100_000, 8, 400_000, "O", 0, 37, tens + [(4_000, 6)])
    yield line("C", 100_000, 8, 400_000, "O", 0, 37, tens + [(4_000, 7)])
    yield line("O", 1, 0, 400_000, "O", 1, 36, tens + [(4_000, 10)])
    yield line("O", 1, 0, 400_000, "O", 0, 38, tens + [(4_000, 6), (0, 1)])
    yield line("O", 1, 0, 400_000, "O", 0, 39, tens + [(4_000, 7), (-1, 1), (1, 1)])
    yield line("O", 1, 0, 400_000, "O", 0, 39, tens + [(4_000, 5), (-1, 1), (1, 10)])
    yield line("O", 1, 0, 400_000, "O", 0, 366, [(100, 10)] * 366)
    yield line("O", 1, 0, 400_000, "O", 0, 366, [(100, 1)] * 365 + [(100, 2)])
    yield line("O", 1, 0, 400_000, "O", 0, 365, [(100, 1)] * 364 + [(100, 2)])
    yield line("O", 1, 0, 400_000, "O", 0, 4, [(1, MOST), (1, MOST), (1, 2), (1, 1)])
    yield line("O", 1, 0, 400_000, "O", 0, 3, [(1, 1), (1, MOST), (1, 1)])


def factor_lines(rng):
    """The limit of the factor, met only when all the figures are good."""
    tens = [(50_000, 10)] * 36
    ones = [(50_000, 1)] * 366
    for n in MILLIONS:
        for count in (28, 29, 30, 31, 36):
            yield line("O", n, 0, 400_000, "O", 0, count, tens)
    for count in (292, 293, 366):
        yield line("C", 100_000, 1, 400_000, "O", 0, count, ones[:count])
    yield line("O", 100_000, 0, 400_000, "O", 3, 30, tens)
    at_limit, past = reaching(FACTOR_LIMIT), reaching(FACTOR_LIMIT + 1)
    for n in (1, 12_345, 100_000):
        yield line("O", n, 0, 400_000, "O", 0, len(at_limit), at_limit)
        yield line("O", n, 0, 400_000, "O", 0, len(past), past)
    for more in ([(0, 1)], [(0, 10)] * 3, [(0, 1), (1, 1)], [(1, 1), (0, 1)]):
        yield line("O", 777, 0, 400_000, "O", 0, len(at_limit + more), at_limit + more)
        yield line("O", 777, 0, 400_000, "O", 0, len(past + more), past + more)
    for bad in ((-1, 1), (50_001, 1), (1, 0), (1, 11), (MOST, MOST), (LEAST, LEAST)):
        yield line("O", 9, 0, 400_000, "O", 0, 31, tens[:30] + [bad])
        yield line("O", 9, 0, 400_000, "O", 0, 30, tens[:30] + [bad])
        yield line("C", 9, 9, 400_000, "O", 2, 35, tens + [bad])
    yield line("O", 9, 0, 400_000, "O", 0, 37, tens + [(50_000, 6)])
    yield line("O", 9, 0, 400_000, "O", 0, 37, tens + [(50_000, 7)])
    yield line("O", 9, 0, 400_000, "O", 0, 366, ones[:365] + [(50_000, 2)])


def overnight_lines(rng):
    """The worked figures, halves of each rounding, and lines at random."""
    for kind in "OC":
        yield line(kind, 10_000, 1, 391_245, "O", 0, 2, [(9_000, 1), (9_000, 3)])
        for half in (half_factor, half_compounded):
            for _ in range(6):
                found = tried(lambda: half(rng))
                yield line(kind, 100_000, 1, 400_000, "O", 0, len(found), found)
        for _ in range(6):
            n, found = tried(lambda: half_overnight(rng))
            yield line(kind, n, 1, 400_000, "O", 0, len(found), found)
    for _ in range(80):
        listed = observed(rng, rng.randint(1, 60), rng.choice(((1, 3), (1, 10))))
        if rng.random() < 0.2:
            listed[rng.randrange(len(listed))] = rng.choice(((-1, 1), (50_001, 1), (7, 0), (7, 11)))
        first = rng.randrange(len(listed))
        count = rng.randint(1, len(listed) - first + (rng.random() < 0.1))
        yield line(rng.choice("OC"), some(rng, MILLIONS), 1, 400_000, "O", first, count, listed)


def formulas(rng):
    """The four formulas: each limit by itself, extremes, halves and the worked figures."""
    yield from ("fixed 1 1 180", "fixed 1 1 179", "fixed 1 -1 180", "variable 1 1 180", "variable 1 -1 180")
    yield from ("variable 10000 9001688 4", "dollars 1000 5000000 90 391245", "alignment 10000000000 9000 3")
    for name, (_, limits) in CALLS.items():
        inner = [some(rng, both) for both in limits]
        for at, both in enumerate(limits):
            for figure in (*around(both), *EXTREMES):
                yield call(name, inner[:at] + [figure] + inner[at + 1 :])
        for ends in itertools.product(*limits):
            yield call(name, ends)
        yield call(name, [LEAST] * len(limits))
        yield call(name, [MOST] * len(limits))
    for name, half in HALVES:
        for _ in range(6):
            yield call(name, tried(lambda: half(rng)))


def c_cases():
    """Limits against limits, halves, and figures at random, for the C calls."""
    rng = random.Random(20261119)
    yield from formulas(rng)
    for name, (_, limits) in CALLS.items():
        ends = [(*around(both), some(rng, both), LEAST, MOST) for both in limits]
        yield from (call(name, figures) for figures in itertools.product(*ends))
    for name, half in HALVES:
        for _ in range(600):
            figures = tried(lambda: half(rng))
            yield call(name, figures)
            yield call(name, (figures[0], figures[1] + rng.choice((-1, 1)), *figures[2:]))
    for name, (_, limits) in CALLS.items():
        for _ in range(3_000):
            figures = [some(rng, both) for both in limits]
            if rng.random() < 0.1:
                figures[rng.randrange(len(figures))] = rng.randint(LEAST, MOST) >> rng.randrange(64)
            yield call(name, figures)


def cases():
    rng = random.Random(20261118)
    for group in (given_lines, letter_lines, window_lines, figure_lines, sum_lines, factor_lines, overnight_lines, formulas):
        yield from group(rng)


def joined(rows):
    return "".join(row + "\n" for row in rows)


def main():
    worked()
    asked = sys.argv[1:]
    if asked == ["--c"]:
        sys.stdout.write(joined(c_cases()))
        return
    if asked == ["--c-answers"]:
        sys.stdout.write(joined(map(answer, c_cases())))
        return
    if asked not in ([], ["--check"]):
        sys.exit(__doc__)
    listed = list(cases())
    files = {HOME / "stdin": joined(listed), HOME / "stdout": joined(map(answer, listed))}
    if asked:
        stale = [path.name for path, wanted in files.items() if not path.exists() or path.read_text() != wanted]
        if stale:
            sys.exit(f"coupon cases: not what the model says: {', '.join(stale)}")
        print(f"coupon cases: {len(listed)} as the model says")
        return
    for path, wanted in files.items():
        path.write_text(wanted)
    print(f"coupon cases: {len(listed)} written")


main()
