"""The coupons and the price alignment, modelled apart from the engine: formulas, limits and refusals."""
import sys

MARKET_FIGURE = 7
LEG = 8
FACTOR = 9
LIST_LENGTH = 10

MILLIONS = (1, 100_000)
THOUSANDS = (1, 100_000)
RATE = (-10_000_000, 100_000_000)
DAYS = (1, 366)
TRM = (1, 2_000_000)
NPV = (-(10**13), 10**13)
OVERNIGHT = (0, 50_000)
OBSERVED_DAYS = (1, 10)
COUNT = (1, 366)
LINE_DAYS = 366
ONE = 10**11
FACTOR_LIMIT = 3 * ONE // 2
YEAR_OF_MILLS = 36_000_000
C_REFUSED = -(2**63)

LEGS = {"I": "FV", "O": "FO", "C": "UO"}
PAYS = "FU"


class Refused(Exception):
    def __init__(self, number, observation=0):
        super().__init__(number, observation)
        self.number = number
        self.observation = observation


def rounded(above, below):
    """above / below to the nearest whole number, halves away from zero."""
    size = (2 * abs(above) + below) // (2 * below)
    return -size if above < 0 else size


def inside(figure, limits):
    return limits[0] <= figure <= limits[1]


def fixed(millions, rate, days):
    """The coupon of a peso leg at a given rate, fixed or variable."""
    return rounded(millions * rate * days, 360)


def dollars(thousands, rate, days, trm):
    """Whole cents first, then centavos."""
    cents = rounded(thousands * rate * days, 360_000)
    return rounded(cents * trm, 100)


def factors(observations):
    """The factor after each observation."""
    factor = ONE
    for rate, days in observations:
        factor = rounded(factor * (YEAR_OF_MILLS + rate * days), YEAR_OF_MILLS)
        yield factor


def compounded(factor, days):
    """The rate in points of a factor over so many days."""
    return rounded((factor - ONE) * 9, 25 * days)


def overnight(millions, observations):
    """The coupon of the overnight leg; the first pass is the figures', the second the factor's."""
    total = 0
    for at, (rate, days) in enumerate(observations, 1):
        total += days
        if not inside(rate, OVERNIGHT) or not inside(days, OBSERVED_DAYS) or total > LINE_DAYS:
            raise Refused(MARKET_FIGURE, at)
    for at, factor in enumerate(factors(observations), 1):
        if factor > FACTOR_LIMIT:
            raise Refused(FACTOR, at)
    return fixed(millions, compounded(factor, total), total)


def alignment(npv, rate, days):
    return rounded(-npv * rate * days, YEAR_OF_MILLS)


def coupon_line(kind, N, K, trm, letter, a, b, observations):
    """The line's coupon, signed for the long side. a and b are rate and days, or first and count for leg O."""
    if letter not in LEGS[kind]:
        raise Refused(LEG)
    if letter == "O":
        if not inside(b, COUNT) or a < 0 or a + b > len(observations):
            raise Refused(LIST_LENGTH)
        coupon = overnight(N, observations[a : a + b])
    else:
        if not inside(a, RATE) or not inside(b, DAYS):
            raise Refused(MARKET_FIGURE)
        coupon = dollars(K, a, b, trm) if letter == "U" else fixed(N, a, b)
    return -coupon if letter in PAYS else coupon


CALLS = {
    "fixed": (fixed, (MILLIONS, RATE, DAYS)),
    "variable": (fixed, (MILLIONS, RATE, DAYS)),
    "dollars": (dollars, (THOUSANDS, RATE, DAYS, TRM)),
    "alignment": (alignment, (NPV, OVERNIGHT, OBSERVED_DAYS)),
}


def c_call(name, figures):
    """What the C call of that name answers."""
    formula, limits = CALLS[name]
    if len(figures) != len(limits):
        raise ValueError(f"{name} takes {len(limits)} figures")
    return formula(*figures) if all(map(inside, figures, limits)) else C_REFUSED


def answer(case):
    """What the table says of a case, one line of words."""
    name, *words = case.split()
    if name != "line":
        return str(c_call(name, [int(word) for word in words]))
    kind, n, k, trm, letter, a, b, *pairs = words
    observations = [tuple(map(int, pair.split(":"))) for pair in pairs]
    try:
        return f"coupon={coupon_line(kind, int(n), int(k), int(trm), letter, int(a), int(b), observations)}"
    except Refused as fault:
        return f"fault={fault.number} observation={fault.observation}"


def worked():
    """The figures worked by hand."""
    assert fixed(1, 1, 180) == 1
    assert fixed(1, 1, 179) == 0
    assert fixed(1, -1, 180) == -1
    pair = [(9000, 1), (9000, 3)]
    assert list(factors(pair))[-1] == 100_100_018_750
    assert compounded(100_100_018_750, 4) == 9_001_688
    assert overnight(10_000, pair) == 1_000_187_556
    assert dollars(1_000, 5_000_000, 90, 391_245) == 4_890_562_500
    assert alignment(10**10, 9_000, 3) == -7_500_000
    try:
        overnight(1, [(50_000, 1)] * 366)
    except Refused as fault:
        assert fault.number == FACTOR
    else:
        raise AssertionError("a factor above its limit was let through")


if __name__ == "__main__":
    for case in sys.stdin:
        print(answer(case))
