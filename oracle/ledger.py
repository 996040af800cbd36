"""A ledger, modelled apart from the engine: the funds of 32 members and of the house, and what moves them."""
AMOUNT = 5
LIST_LENGTH = 10

MEMBERS = 32
AMOUNTS = (1, 2 * 10**17)
FUNDS = (0, 4 * 10**18)


class Refused(Exception):
    def __init__(self, number, line=0):
        super().__init__(number, line)
        self.number = number
        self.line = line


def inside(figure, limits):
    return limits[0] <= figure <= limits[1]


class Ledger:
    def __init__(self, funds=(), house=0):
        if len(funds) > MEMBERS:
            raise Refused(LIST_LENGTH)
        for item, fund in enumerate(funds, 1):
            if not inside(fund, FUNDS):
                raise Refused(AMOUNT, item)
        if not inside(house, FUNDS):
            raise Refused(AMOUNT)
        self.funds = list(funds) + [0] * (MEMBERS - len(funds))
        self.house = house

    def fund(self, member):
        return self.funds[member] if member < MEMBERS else 0

    def moved(self, member, amount, to_member, to_house):
        """Whether the amount moved; a fund that would leave its limits stops it."""
        if member >= MEMBERS or not inside(amount, AMOUNTS):
            return False
        fund, house = self.funds[member] + to_member * amount, self.house + to_house * amount
        if not (inside(fund, FUNDS) and inside(house, FUNDS)):
            return False
        self.funds[member], self.house = fund, house
        return True

    def charge(self, member, amount):
        return self.moved(member, amount, -1, 1)

    def credit(self, member, amount):
        return self.moved(member, amount, 1, -1)

    def top_up(self, member, amount):
        return self.moved(member, amount, 1, 0)


def answered(calls):
    """What the calls of a table are answered, each by a book that keeps to the rules."""
    ledger = Ledger()
    for call in calls:
        name, *words = call.split(" ")
        figures = [int(word) for word in words]
        if name == "open":
            try:
                ledger = Ledger(figures[1:], figures[0])
                yield "opened"
            except Refused as refused:
                yield f"fault={refused.number} line={refused.line}"
        elif name == "house":
            yield str(ledger.house)
        elif name == "fund":
            yield str(ledger.fund(figures[0]))
        elif name == "funds":
            yield "".join(f" {fund}" for fund in ledger.funds)
        else:
            decision = "approved" if getattr(ledger, name)(*figures) else "rejected"
            yield f"{decision} fund={ledger.fund(figures[0])} house={ledger.house}"
