"""The bill of a month's expense, written a second time after docs/expense.md.

Reads a month's file from standard input and prints its bill or its refusal.
"""
import re
import sys

LONGEST_FILE = 65_536
NUMBER = re.compile(rb" *(0|-?[1-9][0-9]*)")


class Refusal(Exception):
    """A refusal: the text line that it names, its number and its layer."""

    def __init__(self, line, number, layer):
        super().__init__(line, number, layer)
        self.line, self.number, self.layer = line, number, layer


def number_in(columns):
    """The number that stands right-justified in the columns, or None."""
    return int(columns) if NUMBER.fullmatch(columns) else None


def read_month(data):
    """The expense in cents, and each participant's (volume, peak)."""
    if len(data) > LONGEST_FILE:
        raise Refusal(0, 2, "TEXT")
    lines = data.split(b"\n")
    unended = lines.pop()
    if unended or not lines:
        lines.append(None)
    first = lines[0]
    if first is None or len(first) != 14 or first[:2] != b"EX":
        raise Refusal(1, 2, "TEXT")
    expense = number_in(first[2:])
    if expense is None:
        raise Refusal(1, 2, "TEXT")
    weights = []
    for at, line in enumerate(lines[1:], start=1):
        if line is None or len(line) != 46 or line[:2] != b"PA":
            raise Refusal(at + 1, 2, "TEXT")
        cuts = [2, 6, 16, 26, 36, 46]
        fields = [number_in(line[a:b]) for a, b in zip(cuts, cuts[1:])]
        if None in fields or fields[0] != at:
            raise Refusal(at + 1, 2, "TEXT")
        weights.append((fields[1] + fields[2], fields[3] + fields[4]))
    return expense, weights


def check(pool, weights):
    """Raises the refusal of a pool that cannot be shared by these weights."""
    if not 1 <= len(weights) <= 64:
        raise Refusal(1, 13, "SHARE")
    for place, weight in enumerate(weights, start=1):
        if weight < 0:
            raise Refusal(place + 1, 13, "SHARE")
    total = sum(weights)
    if not 1 <= total <= 2_000_000_000 or abs(pool) * total > 9 * 10**18:
        raise Refusal(1, 13, "SHARE")


def largest_remainder(pool, weights):
    """The shares of a pool that is not negative."""
    total = sum(weights)
    shares = [pool * weight // total for weight in weights]
    by_remainder = sorted(range(len(weights)), key=lambda i: (-(pool * weights[i] % total), i))
    for i in by_remainder[: pool - sum(shares)]:
        shares[i] += 1
    return shares


def dollars(cents):
    sign = "-" if cents < 0 else ""
    return f"{sign}{abs(cents) // 100}.{abs(cents) % 100:02}"


def bill(data):
    expense, weights = read_month(data)
    half = expense // 2
    volumes = [volume for volume, _ in weights]
    peaks = [peak for _, peak in weights]
    check(expense - half, volumes)
    check(half, peaks)
    if not 0 <= expense <= 4_000_000_000:
        raise Refusal(1, 14, "SHARE")
    by_volume = largest_remainder(expense - half, volumes)
    by_peak = largest_remainder(half, peaks)
    rows = ["PART  LINE         AMOUNT"]
    for at, amounts in enumerate(zip(by_volume, by_peak), start=1):
        for line, amount in zip((21, 22), amounts):
            rows.append(f"{at:>4}{line:>6}{dollars(amount):>15}")
    rows.append(f"SUM {21:>6}{dollars(sum(by_volume)):>15}")
    rows.append(f"SUM {22:>6}{dollars(sum(by_peak)):>15}")
    rows.append(f"SUM {'':>6}{dollars(sum(by_volume) + sum(by_peak)):>15}")
    return "".join(row + "\n" for row in rows).encode()


def answer(data):
    try:
        return bill(data)
    except Refusal as refusal:
        return f"ERR {refusal.line:>6}{refusal.number:>15}{refusal.layer:>15}\n".encode()


if __name__ == "__main__":
    sys.stdout.buffer.write(answer(sys.stdin.buffer.read()))
