"""The table of ledger calls: writes the calls, and what the model says of each, beside the program that runs them.

usage: ledger_cases.py [--check]    with --check it only compares, and fails where the files are not the model's
"""
import pathlib
import random
import sys

from ledger import AMOUNTS, FUNDS, MEMBERS, answered

HOME = pathlib.Path(__file__).resolve().parent.parent / "crates" / "ledger_cases"
TOP = FUNDS[1]
MOST = AMOUNTS[1]
LEAST_FEED, MOST_FEED = -(2**63), 2**63 - 1
MOST_U64 = 2**64 - 1
MOVES = ("charge", "credit", "top_up")


def opening(house, *funds):
    return " ".join(map(str, ("open", house, *funds)))


def openings():
    """Openings that are granted and refused: the length first, then the first bad fund, then the house's."""
    yield opening(0)
    yield "funds"
    yield opening(7, 1, 2, 3)
    for funds in ([5] * 31, [5] * 32):
        yield opening(TOP, *funds)
        yield "funds"
    yield opening(0, *[5] * 33)
    yield opening(-1, *[-1] * 33)
    yield opening(TOP + 1, *[TOP + 1] * 40)
    for bad in (-1, TOP + 1, LEAST_FEED, MOST_FEED, -TOP):
        yield opening(bad)
        yield opening(bad, 1, TOP)
        yield opening(0, bad)
        yield opening(0, 0, TOP, bad)
        yield opening(bad, 1, bad, -1)
        yield opening(0, *[0] * 31, bad)
    yield "house"
    yield opening(TOP, TOP, 0, TOP)
    yield "funds"
    yield "house"


def figures():
    """Members and amounts at their limits and one past each; extremes."""
    half = TOP // 2
    for member in (0, 31, 32, 2**32, MOST_U64):
        yield opening(half, *[half] * MEMBERS)
        for amount in (0, 1, MOST, MOST + 1):
            for move in MOVES:
                yield f"{move} {member} {amount}"
        yield f"fund {member}"
    for amount in (TOP, 2**63, MOST_U64):
        for move in MOVES:
            yield f"{move} 5 {amount}"
    yield "funds"


def edges():
    """A fund that has just the amount, one less or more; a ceiling that is just reached, and one off."""
    for amount in (1, 1000, MOST):
        for off in (-1, 0, 1):
            short, full = amount + off, min(TOP, TOP - amount + off)
            for move, house, fund in (
                ("charge", 0, short), ("charge", full, TOP), ("credit", short, 0), ("credit", TOP, full), ("top_up", TOP, full),
            ):
                yield opening(house, 1, fund, 2)
                yield f"{move} 1 {amount}"
        yield "funds"


def below_zero():
    """A member that pays in more than it had, and draws it again."""
    yield opening(10, 100)
    for call in ("credit 0 10", "top_up 0 90", "fund 0", "charge 0 201", "charge 0 200", "charge 0 1", "fund 0", "house"):
        yield call
    yield opening(0, TOP)
    for _ in range(3):
        yield f"charge 0 {MOST}"
    yield f"credit 0 {MOST}"
    yield f"top_up 0 {MOST}"
    yield f"top_up 0 {MOST}"
    yield "top_up 0 1"
    yield "funds"


def wandering(rng):
    """Calls at random, most of them small, some of them at a limit."""
    for _ in range(4):
        funds = [rng.choice((0, rng.randint(0, 1000), rng.randint(0, TOP), TOP)) for _ in range(rng.randint(0, MEMBERS))]
        yield opening(rng.choice((0, 500, TOP)), *funds)
        for _ in range(24):
            member = rng.choice((0, 1, 2, 31, rng.randrange(MEMBERS), 32))
            amount = rng.choice((1, rng.randint(1, 600), rng.randint(1, 600), rng.randint(1, MOST), MOST, MOST + 1))
            yield f"{rng.choice(MOVES)} {member} {amount}"
        yield "funds"
        yield "house"


def calls():
    for group in (openings(), figures(), edges(), below_zero(), wandering(random.Random(20261118))):
        yield from group


def main():
    asked = sys.argv[1:]
    if asked not in ([], ["--check"]):
        sys.exit(__doc__)
    listed = list(calls())
    told = "".join(f"deposit {answer}\nline {answer}\n" for answer in answered(listed))
    files = {HOME / "stdin": "".join(call + "\n" for call in listed), HOME / "stdout": told}
    if asked:
        stale = [path.name for path, wanted in files.items() if not path.exists() or path.read_text() != wanted]
        if stale:
            sys.exit(f"ledger cases: not what the model says: {', '.join(stale)}")
        print(f"ledger cases: {len(listed)} as the model says")
        return
    for path, wanted in files.items():
        path.write_text(wanted)
    print(f"ledger cases: {len(listed)} written")


main()
