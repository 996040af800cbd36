"""The script of the house: writes its calls, and what the model says of each, beside the program that makes them.

usage: house_cases.py [--check]
with --check it only compares, and fails where the files are not the model's
"""
import itertools
import pathlib
import random
import string
import sys

from book import CENTAVOS, House, told, worked

HOME = pathlib.Path(__file__).resolve().parent.parent / "crates" / "house_cases"
LEAST, MOST = -(2**63), 2**63 - 1
EXTREMES = (LEAST, -(2**32) + 1, 2**32, 2**32 + 1, MOST)
QUESTIONS = ("session", "live", "swap 1", "swap 3", "diary 3")
OFFER = {"long": 0, "short": 1, "kind": "I", "millions": 5, "thousands": 0, "npv": 0, "maturity": 9}
REQUEST = {"number": 1, "account": 0, "payment": 0, "session": 5}
REPLY = {"number": 1, "account": 1, "agrees": "yes"}


def opening(members, accounts):
    return " ".join(["open", str(members), *map(str, accounts)])


def call(name, usual, **changed):
    """A call with its usual figures, but for those that are changed."""
    figures = {**usual, **changed}
    assert list(figures) == list(usual)
    return " ".join([name, *map(str, figures.values())])


def offer(**changed):
    return call("accept", OFFER, **changed)


def request(**changed):
    return call("ask", REQUEST, **changed)


def reply(**changed):
    return call("answer", REPLY, **changed)


def never_opened():
    """A house that was made and not opened: what names an account or a swap is refused."""
    yield from QUESTIONS
    yield from ("diary 0", "diary 64", "swap 0", offer(), offer(long=-1), offer(long=0, short=0), offer(kind="X"))
    yield from (request(), reply(), reply(agrees="no"), request(number=0), reply(number=0))
    for members, accounts in ((0, [0]), (2, []), (2, [0, 2])):
        yield opening(members, accounts)
    yield from (offer(), *QUESTIONS)


def worked_day():
    """One swap of each kind, ask, no, ask, yes, and the diary. The asks come in the session of registration, too early."""
    yield "open 2 0 1 1"
    yield "accept 0 1 I 5 0 -250000 9"
    yield "accept 2 0 O 100 0 0 4"
    yield "accept 1 0 C 40 10 7 9"
    yield from ("session", "live", "swap 1", "swap 2", "swap 3", "swap 4")
    yield from ("ask 1 0 500 5", "answer 1 1 no", "swap 1", "ask 1 0 500 5", "answer 1 1 yes", "swap 1", "diary 5")


def refused_openings():
    """Each way to be refused, after which the house is what it was."""
    for members in (0, 33, -1, *EXTREMES):
        yield opening(members, [0])
    for count in (0, 65, 66, 300):
        yield opening(2, [0] * count)
    for member in (2, -1, 31, 32, *EXTREMES):
        yield opening(2, [0, 1, member, 1, 0])
    for at in (0, 1, 30, 62, 63):
        yield opening(32, [31] * at + [32] + [31] * (63 - at))
    yield opening(2, [2])
    yield opening(1, [0, 0, 0, 1])
    yield from QUESTIONS
    # the order of the checks: the counts, then the accounts from the first on
    yield from (opening(0, []), opening(33, [5] * 65), opening(0, [0, 9]), opening(2, [9] * 65), opening(2, [0] * 64 + [9]))
    yield from (opening(3, [0, 3, 1, -1]), opening(3, [0, -1, 1, 3]), opening(MOST, [LEAST]), opening(1, [MOST, LEAST]))
    yield from QUESTIONS
    yield from ("swap 2", offer(), "live")


def granted_openings():
    """The limits of both counts; each makes the house new."""
    for members, accounts in ((1, [0]), (32, [31]), (1, [0] * 64), (32, [*range(32)] * 2), (2, [1, 0, 1])):
        last = len(accounts) - 1
        yield opening(members, accounts)
        yield from (*QUESTIONS, offer(), offer(long=last, short=0), offer(long=last + 1), offer(short=last + 1))
        yield from (request(account=last), request(account=last + 1), reply(account=last), reply(account=last + 1), "live")


def limits_of_offers():
    """Each figure at its limits and one past them, extremes, and every letter."""
    yield "open 3 0 1 2 0"
    for account in (-1, 0, 1, 3, 4, 63, 64, *EXTREMES):
        yield offer(long=account)
        yield offer(short=account, long=2)
    for account in (2, 3):
        yield offer(long=account, short=account)
    yield opening(3, [0, 1, 2, 0])
    for kind, thousands in (("I", 0), ("O", 0), ("C", 21)):
        for millions in (-1, 0, 1, 100_000, 100_001, *EXTREMES[-2:]):
            yield offer(kind=kind, thousands=thousands, millions=millions)
        for thousands in (-1, 0, 1, 100_000, 100_001, *EXTREMES):
            yield offer(kind=kind, thousands=thousands)
    low, high = CENTAVOS
    for npv in (low - 1, low, low + 1, -1, 1, high - 1, high, high + 1, *EXTREMES):
        yield offer(npv=npv)
    for maturity in (-1, 0, 1, 2, 99_999, 100_000, 100_001, *EXTREMES):
        yield offer(maturity=maturity)
    for letter in string.ascii_uppercase + "iocxyz019.-_|éÑ中😀":
        yield offer(kind=letter, thousands=3 if letter == "C" else 0)
    yield from ("live", "swap 1", "swap 7", "swap 20", "diary 64")


OFFER_FAULTS = (
    {"long": 4}, {"long": -1, "short": -1}, {"short": MOST}, {"long": 1}, {"kind": "X"}, {"millions": 0}, {"thousands": 1},
    {"npv": LEAST}, {"maturity": 0},
)
REQUEST_FAULTS = (
    {"number": 9}, {"account": 4}, {"payment": CENTAVOS[1] + 1}, {"session": 2}, {"session": 9}, {"account": 2}, {},
)
REPLY_FAULTS = ({"number": 9}, {"account": 4}, {"account": 2}, {})


def pairs(form, faults):
    """Each fault alone, and each with each later one: the first check answers."""
    for fault in faults:
        yield form(**fault)
    for one, other in itertools.combinations(faults, 2):
        # the earlier fault stands where both change one figure
        yield form(**{**other, **one})


def orders_of_checks():
    yield "open 3 0 1 2 0"
    yield offer()
    yield from pairs(offer, OFFER_FAULTS)
    yield offer(kind="C", thousands=0, millions=0, npv=MOST, maturity=0)
    yield offer(long=LEAST, short=LEAST, kind="?", millions=LEAST, thousands=LEAST, npv=LEAST, maturity=LEAST)
    yield offer(long=1, kind="?", millions=LEAST, thousands=LEAST, npv=LEAST, maturity=LEAST)
    yield from ("live", "swap 1")
    yield from pairs(request, REQUEST_FAULTS)
    yield from pairs(reply, REPLY_FAULTS)
    yield from pairs(lambda **changed: reply(**{"agrees": "no", **changed}), REPLY_FAULTS)
    yield request(number=MOST, account=MOST, payment=MOST, session=MOST)
    yield request(account=LEAST, payment=LEAST, session=LEAST)
    yield request(payment=LEAST, session=LEAST, account=2)
    yield from ("live", "swap 1", "diary 2")


def limits_of_requests():
    """Each figure of a request and of an answer at its limits, over swaps of short and long life."""
    yield "open 3 0 1 2 0"
    for maturity in (1, 2, 3, 4, 5, 100_000):
        yield offer(maturity=maturity)
    for number in (-1, 0, 1, 6, 7, 256, 1_000_000, 1_000_001, 2**32 + 6, *EXTREMES):
        yield request(number=number, session=3)
        yield reply(number=number)
        yield f"swap {number}"
    for number, session in itertools.product((1, 2, 3, 4, 5, 6), (0, 1, 2, 3, 4, 5)):
        yield request(number=number, session=session)
    for session in (-1, 99_998, 99_999, 100_000, 100_001, *EXTREMES):
        yield request(number=6, session=session)
    for account in (-1, 0, 1, 2, 3, 4, *EXTREMES):
        yield request(number=6, account=account)
        yield reply(number=6, account=account, agrees="no")
        yield reply(number=6, account=account)
    low, high = CENTAVOS
    for payment in (low - 1, low, -1, 1, high, high + 1, *EXTREMES):
        yield request(number=6, payment=payment)
    yield from ("live", "session", *(f"swap {number}" for number in range(8)), "diary 7")


def full_book(rng):
    """256 live swaps and no more; the checks before that of the place; the diary; and the house opened again."""
    yield "open 32 " + " ".join(map(str, range(32)))
    for number in range(1, 257):
        long, short = rng.sample(range(32), 2)
        kind = rng.choice("IOC")
        yield offer(
            long=long, short=short, kind=kind, millions=rng.randint(1, 100_000),
            thousands=rng.randint(1, 100_000) if kind == "C" else 0, npv=rng.randint(*CENTAVOS),
            maturity=rng.choice((1, 7, 7, 30, 100_000, rng.randint(1, 100_000))),
        )
        if number in (255, 256):
            yield "live"
    yield offer()
    yield from (offer(**{"long": 32} if fault == {"long": 4} else fault) for fault in OFFER_FAULTS)
    yield from (offer(), "live", "swap 1", "swap 128", "swap 256", "swap 257")
    yield from (f"diary {places}" for places in (0, 1, 5, 64))
    yield from (request(number=256), reply(number=256), request(number=257), reply(number=257))
    yield from (opening(33, [0]), "live", offer(), opening(2, [0, 1]), *QUESTIONS)
    yield from (offer(), offer(maturity=3), "live", *QUESTIONS, "swap 2", "swap 256")


def sometimes(rng, good, *bad):
    """A good figure, and one time in twelve a bad one."""
    return rng.choice(bad + EXTREMES) if rng.random() < 1 / 12 else good


def random_offer(rng, accounts):
    kind = rng.choice("IOC") if rng.random() < 0.95 else rng.choice("FVUic")
    long, short = rng.sample(range(accounts), 2)
    return offer(
        long=sometimes(rng, long, short, -1, accounts),
        short=sometimes(rng, short, long, -1, accounts),
        kind=kind,
        millions=sometimes(rng, rng.randint(1, 100_000), 0, 100_001),
        thousands=sometimes(rng, rng.randint(1, 100_000) if kind == "C" else 0, 0, 1, 100_001),
        npv=sometimes(rng, rng.randint(*CENTAVOS), CENTAVOS[0] - 1, CENTAVOS[1] + 1),
        maturity=sometimes(rng, rng.choice((1, 4, 5, 6, 12, rng.randint(1, 100_000))), 0, 100_001),
    )


def random_call(rng, accounts):
    number = sometimes(rng, rng.randint(1, 16), 0, 1_000_001)
    account = sometimes(rng, rng.randrange(accounts), -1, accounts)
    sort = rng.random()
    if sort < 0.45:
        return random_offer(rng, accounts)
    if sort < 0.65:
        payment = sometimes(rng, rng.randint(*CENTAVOS), CENTAVOS[0] - 1, CENTAVOS[1] + 1)
        return request(number=number, account=account, payment=payment, session=sometimes(rng, rng.randint(2, 12), 100_000))
    if sort < 0.8:
        return reply(number=number, account=account, agrees=rng.choice(("yes", "no")))
    return rng.choice((f"swap {number}", f"swap {number}", f"diary {rng.randint(0, 12)}", "live", "session"))


def random_calls(rng):
    for _ in range(5):
        members, accounts = rng.randint(1, 32), rng.randint(2, 6)
        yield opening(members, [rng.randrange(members) for _ in range(accounts)])
        for _ in range(60):
            yield random_call(rng, accounts)
        yield opening(members, [rng.randrange(members) for _ in range(accounts)] + [members])
        yield "diary 64"


def cases():
    rng = random.Random(6)
    yield from never_opened()
    yield from worked_day()
    yield from refused_openings()
    yield from granted_openings()
    yield from limits_of_offers()
    yield from orders_of_checks()
    yield from limits_of_requests()
    yield from full_book(rng)
    yield from random_calls(rng)


def joined(rows):
    return "".join(row + "\n" for row in rows)


def main():
    worked()
    asked = sys.argv[1:]
    if asked not in ([], ["--check"]):
        sys.exit(__doc__)
    house = House()
    listed = list(cases())
    files = {HOME / "stdin": joined(listed), HOME / "stdout": joined(told(house, line) for line in listed)}
    if asked:
        stale = [path.name for path, wanted in files.items() if not path.exists() or path.read_text("utf-8") != wanted]
        if stale:
            sys.exit(f"house cases: not what the model says: {', '.join(stale)}")
        print(f"house cases: {len(listed)} as the model says")
        return
    for path, wanted in files.items():
        path.write_text(wanted, "utf-8")
    print(f"house cases: {len(listed)} written")


main()
