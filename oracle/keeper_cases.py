"""The table of keepers: writes the cases, and what the model says of each, beside the program that runs them.

usage: keeper_cases.py [--check]
with --check it only compares, and fails where the files are not the model's
"""
import itertools
import pathlib
import random
import sys

from keeper import first_of

HOME = pathlib.Path(__file__).resolve().parent.parent / "crates" / "keeper_cases"
LEAST, MOST = -(2**63), 2**63 - 1


def numbered(times):
    """Runners with these times; the bib says when each was put."""
    return [(time, bib) for bib, time in enumerate(times, 1)]


def cases():
    # all lists of up to four over three times: every permutation, with every sort of tie
    for size in range(5):
        for times in itertools.product((1, 2, 3), repeat=size):
            for places in range(size + 2):
                yield places, numbered(times)
    # all permutations of five, with the bib staying with its time
    for runners in itertools.permutations(numbered((10, 20, 20, 30, 40))):
        yield 3, list(runners)
    rng = random.Random(4)
    extremes = (LEAST, LEAST + 1, -1, 0, 1, MOST - 1, MOST)
    for _ in range(60):
        size = rng.randint(0, 40)
        yield rng.randint(0, 16), numbered(rng.choice(extremes + (rng.randint(-9, 9),)) for _ in range(size))
    yield 12, numbered(range(300, 0, -1))
    yield 12, numbered(range(300))
    yield 255, numbered((7,) * 200)


def told(places, runners):
    filled, held = first_of(places, runners, key=lambda runner: runner[0])
    return " ".join([str(filled)] + [f"{time}:{bib}" for time, bib in held] + ["-"] * (places - filled))


def tables():
    table = list(cases())
    stdin = "".join(" ".join([str(k)] + [f"{time}:{bib}" for time, bib in runners]) + "\n" for k, runners in table)
    return stdin, "".join(told(k, runners) + "\n" for k, runners in table)


def main():
    for name, text in zip(("stdin", "stdout"), tables()):
        path = HOME / name
        if sys.argv[1:] == ["--check"]:
            if path.read_text() != text:
                sys.exit(f"{path} is not what the model says")
        else:
            path.write_text(text)
    print(f"keeper: {len(list(cases()))} cases")


main()
