"""The house and its book, modelled apart from the engine: opening, acceptance, ask and answer, the diary, questions."""
from coupons import inside
from keeper import first_of

OUT_OF_RANGE = 1
SAME_ACCOUNT = 2
UNKNOWN_KIND = 3
NOMINAL = 4
AMOUNT = 5
SESSION = 6
SETTLEMENT_UNDER_WAY = 20
BOOK_FULL = 21
NO_SUCH_SWAP = 22
NOT_PARTY = 23
JUST_REGISTERED = 24
NOT_PLAIN = 25
NOTHING_ASKED = 26
NUMBERS_USED_UP = 30

MEMBERS = (1, 32)
ACCOUNTS = (1, 64)
MILLIONS = (1, 100_000)
THOUSANDS = {"I": (0, 0), "O": (0, 0), "C": (1, 100_000)}
CENTAVOS = (-(10**13), 10**13)
LAST_SESSION = 100_000
LAST_NUMBER = 1_000_000
PLACES = 256


class Refused(Exception):
    def __init__(self, number, line=0):
        super().__init__(number, line)
        self.number = number
        self.line = line


def demand(holds, number, line=0):
    if not holds:
        raise Refused(number, line)


class Swap:
    """A live swap; its state is ("plain",), ("asked", by, payment, session) or ("agreed", payment, session)."""

    def __init__(self, number, long, short, kind, millions, thousands, npv, registered, maturity):
        self.number = number
        self.long, self.short = long, short
        self.kind, self.millions, self.thousands = kind, millions, thousands
        self.npv, self.registered, self.maturity = npv, registered, maturity
        self.state = ("plain",)

    def has_party(self, account):
        return account in (self.long, self.short)

    def end(self):
        """Session, number and mark of its end: an asked swap is still due at maturity."""
        if self.state[0] == "agreed":
            return self.state[2], self.number, "T"
        return self.maturity, self.number, "M"


class House:
    def __init__(self):
        """Made and never opened: it has no members and no accounts."""
        self.renew(0, [])

    def renew(self, members, accounts):
        self.members, self.accounts = members, list(accounts)
        self.swaps = {}
        self.orders = {}
        self.closed, self.given = 0, 0

    @property
    def current(self):
        return self.closed + 1

    @property
    def live(self):
        return len(self.swaps)

    def open(self, members, accounts):
        demand(inside(members, MEMBERS), OUT_OF_RANGE)
        demand(inside(len(accounts), ACCOUNTS), OUT_OF_RANGE)
        for item, member in enumerate(accounts, 1):
            demand(0 <= member < members, OUT_OF_RANGE, item)
        self.renew(members, accounts)

    def check_settled(self):
        demand(not self.orders, SETTLEMENT_UNDER_WAY)

    def check_account(self, account):
        demand(0 <= account < len(self.accounts), OUT_OF_RANGE)

    def accept(self, long, short, kind, millions, thousands, npv, maturity):
        """The number that the swap gets."""
        self.check_settled()
        demand(self.given < LAST_NUMBER, NUMBERS_USED_UP)
        self.check_account(long)
        self.check_account(short)
        demand(long != short, SAME_ACCOUNT)
        demand(kind in THOUSANDS, UNKNOWN_KIND)
        demand(inside(millions, MILLIONS), NOMINAL)
        demand(inside(thousands, THOUSANDS[kind]), NOMINAL)
        demand(inside(npv, CENTAVOS), AMOUNT)
        demand(inside(maturity, (self.current, LAST_SESSION)), SESSION)
        demand(len(self.swaps) < PLACES, BOOK_FULL)
        self.given += 1
        self.swaps[self.given] = Swap(self.given, long, short, kind, millions, thousands, npv, self.current, maturity)
        return self.given

    def live_swap(self, number):
        demand(number in self.swaps, NO_SUCH_SWAP)
        return self.swaps[number]

    def ask(self, number, account, payment, session):
        self.check_settled()
        swap = self.live_swap(number)
        self.check_account(account)
        demand(inside(payment, CENTAVOS), AMOUNT)
        demand(self.current + 2 <= session < swap.maturity, SESSION)
        demand(swap.has_party(account), NOT_PARTY)
        demand(swap.registered != self.current, JUST_REGISTERED)
        demand(swap.state[0] == "plain", NOT_PLAIN)
        swap.state = ("asked", account, payment, session)

    def answer(self, number, account, agrees):
        self.check_settled()
        swap = self.live_swap(number)
        self.check_account(account)
        demand(swap.has_party(account), NOT_PARTY)
        asked = swap.state[0] == "asked"
        demand(not asked or swap.state[1] != account, NOT_PARTY)
        demand(asked, NOTHING_ASKED)
        swap.state = ("agreed", *swap.state[2:]) if agrees else ("plain",)

    def diary(self, places):
        """How many places are filled, and the ends in them."""
        return first_of(places, [swap.end() for swap in self.swaps.values()], key=lambda end: end[:2])

    def swap(self, number):
        return self.swaps.get(number)


def granted(call, *figures):
    """A call's result as its line of the table: what it gives, or that it is granted, or its refusal."""
    try:
        number = call(*figures)
    except Refused as fault:
        return f"fault={fault.number} line={fault.line}"
    return "granted" if number is None else f"number={number}"


def shown(swap):
    if swap is None:
        return "none"
    figures = (
        swap.long, swap.short, swap.kind, swap.millions, swap.thousands, swap.npv, swap.registered, swap.maturity, *swap.state,
    )
    return " ".join(map(str, figures))


def told(house, call):
    """What the house answers to a line of the script."""
    name, *words = call.split(" ")
    if name == "session":
        return str(house.current)
    if name == "live":
        return str(house.live)
    if name == "accept":
        long, short, kind, *figures = words
        return granted(house.accept, int(long), int(short), kind, *map(int, figures))
    if name == "answer":
        number, account, word = words
        return granted(house.answer, int(number), int(account), {"yes": True, "no": False}[word])
    figures = [int(word) for word in words]
    if name == "open":
        return granted(house.open, figures[0], figures[1:])
    if name == "ask":
        return granted(house.ask, *figures)
    if name == "swap":
        return shown(house.swap(*figures))
    if name == "diary":
        filled, ends = house.diary(*figures)
        places = [f"{session}:{number}:{mark}" for session, number, mark in ends] + ["-"] * (figures[0] - filled)
        return " ".join([f"filled={filled}", *places])
    raise ValueError(f"no such call: {name}")


def worked():
    """A request and its answers in a later session, worked by hand."""
    house = House()

    def says(call, answer):
        assert told(house, call) == answer, (call, told(house, call), answer)

    says("accept 0 1 I 5 0 0 9", "fault=1 line=0")
    says("open 2 0 1 1", "granted")
    says("accept 0 1 I 5 0 -700 9", "number=1")
    says("accept 1 2 C 5 8 0 5", "number=2")
    says("ask 1 0 250 4", "fault=24 line=0")
    house.closed = 1
    says("session", "2")
    says("accept 2 0 O 1 0 0 1", "fault=6 line=0")
    says("accept 2 0 O 1 0 0 2", "number=3")
    says("ask 1 0 250 3", "fault=6 line=0")
    says("ask 1 0 250 9", "fault=6 line=0")
    says("ask 1 2 250 4", "fault=23 line=0")
    says("ask 1 0 250 4", "granted")
    says("ask 1 1 250 4", "fault=25 line=0")
    says("swap 1", "0 1 I 5 0 -700 1 9 asked 0 250 4")
    says("diary 4", "filled=3 2:3:M 5:2:M 9:1:M -")
    says("answer 1 0 no", "fault=23 line=0")
    says("answer 1 2 no", "fault=23 line=0")
    says("answer 1 1 no", "granted")
    says("swap 1", "0 1 I 5 0 -700 1 9 plain")
    says("answer 1 0 yes", "fault=26 line=0")
    says("ask 1 1 -40 5", "granted")
    says("answer 1 0 yes", "granted")
    says("swap 1", "0 1 I 5 0 -700 1 9 agreed -40 5")
    says("answer 1 0 yes", "fault=26 line=0")
    says("ask 1 0 250 4", "fault=25 line=0")
    says("diary 2", "filled=2 2:3:M 5:1:T")
    says("diary 4", "filled=3 2:3:M 5:1:T 5:2:M -")
    house.orders[0] = -1
    for call in ("accept 9 9 X 0 0 0 0", "ask 9 9 9 9", "answer 9 9 no"):
        says(call, "fault=20 line=0")
    del house.orders[0]
    house.given = LAST_NUMBER
    says("accept 9 9 X 0 0 0 0", "fault=30 line=0")
