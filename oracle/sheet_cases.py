"""The table of sheets: writes the cases, and what the model says of each, beside the program that runs them.

usage: sheet_cases.py [--check]    with --check it only compares, and fails where the files are not the model's
"""
import pathlib
import random
import sys

from sheet import CENTAVOS, Refused, report, text, write

HOME = pathlib.Path(__file__).resolve().parent.parent / "crates" / "sheet_cases"
LF = b"\n"


def full(rng):
    """Orders of all 32 members, which add up to zero."""
    nets = [rng.choice([-1, 1]) * rng.randint(1, CENTAVOS // 64) for _ in range(31)]
    return nets + [-sum(nets)]


def damaged(sheet):
    """Each line dropped, doubled, swapped, cut, without its LF, with CR LF."""
    lines = sheet.split(LF)[:-1]
    join = lambda parts: b"".join(part + LF for part in parts)
    for i, line in enumerate(lines):
        yield join(lines[:i] + lines[i + 1 :])
        yield join(lines[:i] + [line, line] + lines[i + 1 :])
        if i + 1 < len(lines):
            yield join(lines[:i] + [lines[i + 1], line] + lines[i + 2 :])
        yield join(lines[:i] + [line[:-1]] + lines[i + 1 :])
        yield join(lines[:i] + [line[: len(line) // 2]] + lines[i + 1 :])
        yield join(lines[:i]) + line + join(lines[i + 1 :])
        yield join(lines[:i]) + line + b"\r" + LF + join(lines[i + 1 :])
        yield join(lines[:i] + [b""] + lines[i:])
        yield join(lines[:i] + [line + b"\xff"] + lines[i + 1 :])
        yield join(lines[:i] + [line.replace(b"=", b"=0")] + lines[i + 1 :])
        yield join(lines[:i] + [line.replace(b"=", b"=+")] + lines[i + 1 :])
        yield join(lines[:i] + [line.replace(b"=", b"= ")] + lines[i + 1 :])
        yield join(lines[:i] + [line.upper()] + lines[i + 1 :])
        yield join(lines[:i])
    for end in (b"\n", b"\x00", b"end=2\n", b" ", b"\xc3\xa9", b"x" * 5000):
        yield sheet + end


def sheet_of(session, orders, end=None):
    rows = [f"session={session}"]
    for member, side, centavos in orders:
        rows += [f"member={member}", f"order={side}", f"centavos={centavos}"]
    rows.append(f"end={len(orders) if end is None else end}")
    return "".join(row + "\n" for row in rows).encode()


def limits():
    """Each limit, and one past it."""
    pair = lambda a, b, c=1: [(a, "charge", c), (b, "credit", c)]
    for session in ("0", "1", "100000", "100001", "00", "01", "-1", "", "9" * 40, "1" + "0" * 40):
        yield sheet_of(session, [])
    for members in ((0, 31), (0, 32), (31, 32), (5, 5), (5, 4), (30, 31), (0, "01"), (0, "9" * 40), (0, "")):
        yield sheet_of(1, pair(*members))
    for centavos in (0, 1, CENTAVOS, CENTAVOS + 1, 2**63, 2**64, 2**64 + 1, 10**40, "0" * 40, "0" * 39 + "1", "1.0", "1e3"):
        yield sheet_of(1, pair(0, 1, centavos))
    for end in (0, 1, 2, 3, "02", "", 33, 10**40):
        yield sheet_of(1, pair(0, 1, 7), end)
    for side in ("charge", "credit", "Charge", "charges", "", "charge "):
        yield sheet_of(1, [(0, side, 3), (1, "credit", 3)])
    yield sheet_of(1, [(0, "charge", 3), (1, "credit", 2)])
    yield sheet_of(1, [(0, "charge", 3), (1, "credit", 2), (2, "credit", 1)])
    yield sheet_of(1, [(m, "charge" if m % 2 else "credit", CENTAVOS) for m in range(32)])
    yield sheet_of(1, [(m, "charge", CENTAVOS) for m in range(32)])


def odd():
    """Inputs that are no sheet at all, and long ones."""
    yield from (b"", LF, LF * 3, b"session=1", b"session=1\n", b"=\n", b"end=0\n", b"\x00\x01\x02", bytes(range(256)))
    yield b"session=" + b"1" * 5000
    yield b"session=" + b"1" * 5000 + LF
    yield b"x" * 4000
    yield b"session=1\nend=0\n" * 300
    yield b"session=1\n" + b"member=0\n" * 500
    yield b"session=1\nmember=0\norder=charge\ncentavos=" + b"9" * 3000 + b"\nend=1\n"


def reads(rng):
    bases = [text(1, [300, -300]), text(7, [0]), text(100_000, full(rng)), text(12, [0, -5, 0, 2, 3] + [0] * 27)]
    for base in bases[:2]:
        yield base
        yield from damaged(base)
    yield from bases[2:]
    yield from rng.sample(list(damaged(bases[3])), 40)
    yield from rng.sample(list(damaged(bases[2])), 30)
    yield from (bases[2][:n] for n in rng.sample(range(len(bases[2])), 15))
    yield bases[2] + b"x" * 3000
    yield from limits()
    yield from odd()
    for _ in range(40):
        data = bytearray(rng.choice(bases))
        for _ in range(rng.randint(1, 2)):
            data[rng.randrange(len(data))] = rng.randrange(256)
        yield bytes(data)


def writes(rng):
    pair = [300, -300]
    size = len(text(1, pair))
    for room in (size, size - 1, size + 1, 0, 2000):
        yield room, 1, pair
    for session in (0, 1, -1, 100_000, 100_001, 2**63 - 1, -(2**63), 10**9):
        yield 200, session, pair
    for nets in ([], [0], [0] * 32, [0] * 33, [1], [1, 1], [CENTAVOS, -CENTAVOS], [CENTAVOS + 1, -CENTAVOS - 1]):
        yield 2000, 5, nets
    yield 2000, 5, [2**63 - 1, -(2**63), 1]
    yield 2000, 5, [-(2**63), -(2**63)]
    yield 2000, 5, [2**62, 2**62, -(2**63)]
    yield 2000, 5, [CENTAVOS, -CENTAVOS] * 16
    yield 1654, 100_000, [CENTAVOS, -CENTAVOS] * 16
    yield 1643, 100_000, [CENTAVOS, -CENTAVOS] * 16
    yield 1644, 100_000, [CENTAVOS, -CENTAVOS] * 16
    for _ in range(25):
        nets = full(rng)
        for member in rng.sample(range(31), rng.randint(0, 31)):
            nets[31] += nets[member]
            nets[member] = 0
        yield rng.choice([400, 1000, 1800]), rng.randint(1, 100_000), nets[: rng.choice([32, 32, 32, 20])]


def answer_write(room, session, nets):
    buffer = b"\xaa" * room
    try:
        sheet = write(session, nets, room)
    except Refused as fault:
        return f"fault={fault.number}\nline={fault.line}\nbuffer={buffer.hex()}\n"
    return f"bytes={len(sheet)}\nbuffer={(sheet + buffer[len(sheet):]).hex()}\n"


def table():
    rng = random.Random(20261117)
    cases, answers = [], []
    for data in reads(rng):
        cases.append(f"read {data.hex()}\n")
        answers.append(report(data))
    for room, session, nets in writes(rng):
        cases.append(" ".join(["write", str(room), str(session), *map(str, nets)]) + "\n")
        answers.append(answer_write(room, session, nets))
    return "".join(cases), "".join(answers), len(cases)


def main():
    cases, answers, count = table()
    files = {HOME / "stdin": cases, HOME / "stdout": answers}
    if "--check" in sys.argv[1:]:
        stale = [path.name for path, wanted in files.items() if path.read_text() != wanted]
        if stale:
            sys.exit(f"sheet cases: not what the model says: {', '.join(stale)}")
        print(f"sheet cases: {count} as the model says")
        return
    for path, wanted in files.items():
        path.write_text(wanted)
    print(f"sheet cases: {count} written")


main()
