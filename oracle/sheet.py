"""The cash sheet, modelled apart from the engine: text, writer, reader and report."""
import re
import sys

if hasattr(sys, "set_int_max_str_digits"):
    sys.set_int_max_str_digits(0)

MEMBERS = 32
SESSIONS = 100_000
CENTAVOS = 2 * 10**17
BAD_SHEET = 13
LIST_LENGTH = 10


class Refused(Exception):
    def __init__(self, number, line):
        super().__init__(number, line)
        self.number = number
        self.line = line


def text(session, nets):
    """The sheet of a session and of one signed net for each member from 0 on."""
    rows = [f"session={session}"]
    count = 0
    for member, net in enumerate(nets):
        if net == 0:
            continue
        count += 1
        side = "charge" if net < 0 else "credit"
        rows += [f"member={member}", f"order={side}", f"centavos={abs(net)}"]
    rows.append(f"end={count}")
    return "".join(row + "\n" for row in rows).encode()


def write(session, nets, room):
    """The bytes that the writer puts at the front of a buffer of so much room."""
    held = (
        1 <= len(nets) <= MEMBERS
        and 1 <= session <= SESSIONS
        and all(abs(net) <= CENTAVOS for net in nets)
        and sum(nets) == 0
    )
    if not held:
        raise Refused(BAD_SHEET, 0)
    sheet = text(session, nets)
    if len(sheet) > room:
        raise Refused(LIST_LENGTH, 0)
    return sheet


def numeral(line, key, low, high):
    """The number of a line of that key, or None where the line is no such line."""
    found = re.fullmatch(key + rb"=(0|[1-9][0-9]*)", line, re.DOTALL)
    if found is None:
        return None
    number = int(found.group(1))
    return number if low <= number <= high else None


def read(data):
    """The session and the nets of a sheet by member; refused at its first bad line."""
    pieces = data.split(b"\n")
    whole, tail = pieces[:-1], pieces[-1]
    at = 0

    def bad():
        raise Refused(BAD_SHEET, at + 1)

    def take(key, low, high):
        nonlocal at
        number = numeral(whole[at], key, low, high) if at < len(whole) else None
        if number is None:
            bad()
        at += 1
        return number

    session = take(b"session", 1, SESSIONS)
    nets = {}
    lowest = 0
    while at < len(whole) and numeral(whole[at], b"member", lowest, MEMBERS - 1) is not None:
        member = take(b"member", lowest, MEMBERS - 1)
        if at >= len(whole) or whole[at] not in (b"order=charge", b"order=credit"):
            bad()
        sign = -1 if whole[at] == b"order=charge" else 1
        at += 1
        nets[member] = sign * take(b"centavos", 1, CENTAVOS)
        lowest = member + 1
    if sum(nets.values()) != 0:
        bad()
    take(b"end", len(nets), len(nets))
    if at < len(whole) or tail:
        bad()
    return session, nets


def report(data):
    """What `cashcheck` prints."""
    try:
        _, nets = read(data)
    except Refused as fault:
        return f"fault={fault.number}\nline={fault.line}\n"
    charges = -sum(net for net in nets.values() if net < 0)
    return f"orders={len(nets)}\ncharges={charges}\n"


if __name__ == "__main__":
    sys.stdout.write(report(sys.stdin.buffer.read()))
