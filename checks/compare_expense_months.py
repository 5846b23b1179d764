"""Compares the program with the second one over random months.

Usage: python3 checks/compare_expense_months.py [MONTHS [SEED]]
The program must have been built (./expense-bill builds it). A disagreement is shown with its month.
"""
import pathlib
import random
import subprocess
import sys

from second_expense_bill import answer

PROGRAM = pathlib.Path(__file__).resolve().parent.parent / "crates" / "expense_bill" / "out" / "expense_bill"
LIMIT = 2_000_000_000


def figure(rng, style):
    """One figure of a participant."""
    if style == "zero":
        return 0
    if style == "small":
        return rng.randrange(0, 20)
    if style == "negative":
        return rng.randrange(-5, 20)
    if style == "wide":
        return rng.choice([-999_999_999, 9_999_999_999, LIMIT, LIMIT + 1, rng.randrange(-10**9 + 1, 10**10)])
    return rng.randrange(0, 1_000_000)


def expense(rng):
    return rng.choice(
        [0, 1, 2, 3, 4_000_000_000, 3_999_999_999, 4_000_000_001, -1, -2, 999_999_999_999, -99_999_999_999]
        + [rng.randrange(0, 4_000_000_001) for _ in range(12)]
        + [rng.randrange(0, 1000) for _ in range(4)]
    )


def participants(rng):
    """The four figures of each participant."""
    count = rng.choice([0, 1, 1, 2, 2, 3, 3, 4, 5, 8, 13, 64, 65, 66])
    style = rng.choice(["usual", "usual", "usual", "small", "small", "zero", "negative", "wide"])
    people = [[figure(rng, style) for _ in range(4)] for _ in range(count)]
    if people and rng.random() < 0.15:
        # the sum of a line's weights at its limit, or one past it
        column = rng.choice([0, 2])
        for person in people:
            person[0], person[1], person[2], person[3] = 1, 0, 1, 0
        people[-1][column] += LIMIT - len(people) + rng.choice([0, 1])
    return people


def month(rng):
    lines = [f"EX{expense(rng):>12}"]
    for at, four in enumerate(participants(rng), start=1):
        lines.append(f"PA{at:>4}" + "".join(f"{x:>10}" for x in four))
    return "".join(line + "\n" for line in lines).encode()


def damaged(rng, data):
    """The month with something wrong, or as it is."""
    how = rng.randrange(16)
    if how == 0 and data:
        at = rng.randrange(len(data))
        return data[:at] + bytes([rng.randrange(256)]) + data[at + 1 :]
    if how == 1:
        return data[: rng.randrange(len(data) + 1)]
    if how == 2:
        at = rng.randrange(len(data) + 1)
        return data[:at] + rng.choice([b"\n", b" ", b"0", b"-", b"\r", b"\0"]) + data[at:]
    if how == 3 and rng.random() < 0.2:
        longest = 65_536 + rng.choice([-1, 0, 1, 2])
        return (data + b"PA" * 40_000)[:longest]
    if how == 4:
        lines = data.splitlines(keepends=True)
        rng.shuffle(lines)
        return b"".join(lines)
    if how == 5:
        return data.replace(b" 0", rng.choice([b"-0", b"00", b" 0"]), 1)
    if how == 6:
        return data + rng.choice([b"\n", b" ", b"EX           1\n", b"PA"])
    return data


def main():
    months = int(sys.argv[1]) if len(sys.argv) > 1 else 2_000
    seed = int(sys.argv[2]) if len(sys.argv) > 2 else 1
    rng = random.Random(seed)
    kinds = {}
    for at in range(months):
        data = damaged(rng, month(rng))
        ours = subprocess.run([PROGRAM], input=data, capture_output=True, check=True).stdout
        theirs = answer(data)
        if ours != theirs:
            print(f"month {at} of seed {seed}: the two programs disagree")
            print("file:", data[:4_000])
            print("program:", ours.decode(errors="replace"))
            print("second program:", theirs.decode(errors="replace"))
            return 1
        kind = " ".join(ours.decode().split()[::2][1:]) if ours.startswith(b"ERR") else "bill"
        kinds[kind] = kinds.get(kind, 0) + 1
    print(f"{months} months agree: " + ", ".join(f"{n} {kind}" for kind, n in sorted(kinds.items())))
    return 0


if __name__ == "__main__":
    sys.exit(main())
