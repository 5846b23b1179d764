"""A second description of an hour, after docs/postings-and-phases.md and docs/positions-and-lines.md.

It shares nothing with the definitions in crates/. An hour takes calls as tuples and answers tuples:
  ("record", kind, participant, code, kwh)          -> ("numbered", n)
  ("bilateral", kind, buyer, seller, code, kwh)     -> ("numbered", n)
  ("revise_record", number, kwh)                    -> ("done",)
  ("revise_bilateral", number, kwh)                 -> ("done",)
  ("close",), ("reopen",)                           -> ("done",)
  ("settle", terms)                                 -> ("fund_adjusted", cents)
or ("refused", number, place).
Terms are (rows, rounding, sharing): rows maps a code to its two prices, (day-ahead, real-time), of three components.
"""
import re

DAY_AHEAD, REAL_TIME = 0, 1

# kind: market, +1 for generation and -1 for load
RECORDS = {
    "DB": (DAY_AHEAD, -1), "DC": (DAY_AHEAD, -1), "SO": (DAY_AHEAD, 1), "IN": (DAY_AHEAD, 1), "XP": (DAY_AHEAD, 1),
    "ML": (REAL_TIME, -1), "XS": (REAL_TIME, -1), "MG": (REAL_TIME, 1), "XR": (REAL_TIME, 1),
}
BILATERALS = {"BD": DAY_AHEAD, "BR": REAL_TIME, "BL": REAL_TIME}


def with_sign(number, size):
    return -size if number < 0 else size


def half_away(x):
    return with_sign(x, (abs(x) + 500) // 1000)


def half_even(x):
    whole, rest = divmod(abs(x), 1000)
    if rest > 500 or (rest == 500 and whole % 2 == 1):
        whole += 1
    return with_sign(x, whole)


def toward_zero(x):
    return with_sign(x, abs(x) // 1000)


def largest_remainder(pool, weights):
    total, size = sum(weights), abs(pool)
    shares = [size * w // total for w in weights]
    order = sorted(range(len(weights)), key=lambda i: (-(size * weights[i] % total), i))
    for i in order[: size - sum(shares)]:
        shares[i] += 1
    return [with_sign(pool, s) for s in shares]


def running(pool, weights):
    total, size, before, shares = sum(weights), abs(pool), 0, []
    for w in weights:
        shares.append(with_sign(pool, size * (before + w) // total - size * before // total))
        before += w
    return shares


ROUNDING = {"half_away": half_away, "half_even": half_even, "toward_zero": toward_zero}
SHARING = {"largest_remainder": largest_remainder, "running": running}


def well_formed(code):
    return len(code) == 8 and re.fullmatch(r"[A-Z0-9.\-]+ *", code) is not None


class Hour:
    def __init__(self, participants, rows, record_places, bilateral_places):
        self.void = not (1 <= participants <= 64 and participants <= rows)
        self.count = 0 if self.void else participants
        self.phase = "void" if self.void else "day-ahead"
        self.rooms = {"record": min(1024, record_places), "bilateral": min(256, bilateral_places)}
        # kind, parties, code, kwh
        self.lists = {"record": [], "bilateral": []}
        self.amounts = {p: [0] * 8 for p in range(1, self.count + 1)}
        self.adjustments = {p: [0] * 8 for p in range(1, self.count + 1)}
        self.fund = self.fund_adjustment = 0

    # ---- positions
    def position(self, name, p, code):
        records = [r for r in self.lists["record"] if r[1] == [p] and r[2] == code]
        bilaterals = [b for b in self.lists["bilateral"] if b[2] == code]

        def net(market):
            return sum(RECORDS[kind][1] * kwh for kind, _, _, kwh in records if RECORDS[kind][0] == market)

        def traded(kind):
            """Bought less sold."""
            return sum(b[3] * ((b[1][0] == p) - (b[1][1] == p)) for b in bilaterals if b[0] == kind)

        if name == "load":
            return sum(kwh for kind, _, _, kwh in records if kind in ("ML", "XS")) - traded("BL")
        if name == "day-ahead":
            return net(DAY_AHEAD) + traded("BD")
        if name == "real-time":
            generation = sum(kwh for kind, _, _, kwh in records if kind in ("MG", "XR"))
            return generation - self.position("load", p, code) + traded("BR")
        return self.position("real-time", p, code) - self.position("day-ahead", p, code)

    # ---- settling
    def settled(self, terms):
        rows, rounding, sharing = terms
        codes = {r[2] for r in self.lists["record"]} | {b[2] for b in self.lists["bilateral"]}
        everybody = range(1, self.count + 1)
        lines = {}
        for p in everybody:
            lines[p] = []
            for market, name in ((DAY_AHEAD, "day-ahead"), (REAL_TIME, "deviation")):
                for component in range(3):
                    exact = -sum(self.position(name, p, c) * rows[c][market][component] for c in codes)
                    lines[p].append(ROUNDING[rounding](exact))
        fund = sum(lines[p][1] + lines[p][4] for p in everybody)
        weights = [max(0, sum(self.position("load", p, c) for c in codes)) for p in everybody]
        for first, third in ((0, 2), (3, 5)):
            rest = sum(lines[p][first] + lines[p][third] for p in everybody)
            if sum(weights) > 0:
                shares = SHARING[sharing](-rest, weights)
            else:
                shares = [0] * self.count
                fund += rest
            for p in everybody:
                lines[p].append(shares[p - 1])
        return lines, fund

    # ---- calls
    def total(self, sort, market, items):
        markets = {k: v[0] for k, v in RECORDS.items()} if sort == "record" else BILATERALS
        return sum(item[3] for item in items if markets[item[0]] == market)

    def market(self, sort, kind):
        return RECORDS[kind][0] if sort == "record" else BILATERALS[kind]

    def open_for(self, market):
        return self.phase == ("day-ahead" if market == DAY_AHEAD else "real-time")

    def refusal(self, call):
        """Number and place, or nothing."""
        if self.void:
            return 25, 0
        name = call[0]
        if name in ("record", "bilateral"):
            kind, parties, code, kwh = call[1], list(call[2:-2]), call[-2], call[-1]
            if not all(1 <= p <= self.count for p in parties):
                return 1, 0
            if not 0 <= kwh <= 10_000_000:
                return 3, 0
            if not well_formed(code):
                return 4, 0
            if len(parties) == 2 and parties[0] == parties[1]:
                return 5, 0
            market = self.market(name, kind)
            if not self.open_for(market):
                return 21, 0
            items = self.lists[name]
            if len(items) >= self.rooms[name]:
                return 22, 0
            return self.past_limit(name, market, items + [(kind, parties, code, kwh)])
        if name.startswith("revise_"):
            sort, number, kwh = name[len("revise_"):], call[1], call[2]
            if not 0 <= kwh <= 10_000_000:
                return 3, 0
            items = self.lists[sort]
            if not 1 <= number <= len(items):
                return 6, 0
            market = self.market(sort, items[number - 1][0])
            if not self.open_for(market):
                return 21, 0
            return self.past_limit(sort, market, self.revised(items, number, kwh))
        if name == "settle":
            rows = call[1][0]
            for start, sort in ((1, "record"), (1025, "bilateral")):
                for i, item in enumerate(self.lists[sort]):
                    if item[2] not in rows:
                        return 7, start + i
        wanted = {"close": "day-ahead", "settle": "real-time", "reopen": "settled"}[name]
        return None if self.phase == wanted else (21, 0)

    def past_limit(self, sort, market, items):
        limit = 100_000_000 if sort == "record" else 50_000_000
        return (23, 0) if self.total(sort, market, items) > limit else None

    @staticmethod
    def revised(items, number, kwh):
        kind, parties, code, _ = items[number - 1]
        return items[: number - 1] + [(kind, parties, code, kwh)] + items[number:]

    def take(self, call):
        refused = self.refusal(call)
        if refused:
            return ("refused",) + refused
        name = call[0]
        if name in ("record", "bilateral"):
            self.lists[name].append((call[1], list(call[2:-2]), call[-2], call[-1]))
            return "numbered", len(self.lists[name])
        if name.startswith("revise_"):
            sort = name[len("revise_"):]
            self.lists[sort] = self.revised(self.lists[sort], call[1], call[2])
            return ("done",)
        if name == "settle":
            lines, fund = self.settled(call[1])
            for p, amounts in lines.items():
                self.adjustments[p] = [new - old for new, old in zip(amounts, self.amounts[p])]
            self.amounts, self.fund_adjustment, self.fund = lines, fund - self.fund, fund
            self.phase = "settled"
            return "fund_adjusted", self.fund_adjustment
        self.phase = "real-time"
        return ("done",)
