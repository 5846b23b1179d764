"""Compares the definitions of an hour with the second description over random histories.

Usage: python3 checks/compare_hour_definitions.py [HISTORIES [SEED]]
A copy of the repository gets one crate more, in which each history's answers, amounts, adjustments and fund, as
second_hour.py works them out, are theorems that the checker proves by computing the definitions. A history that
disagrees is shown.
"""
import pathlib
import random
import re
import shutil
import subprocess
import sys
import tempfile

from second_hour import BILATERALS, RECORDS, ROUNDING, SHARING, Hour

ROOT = pathlib.Path(__file__).resolve().parent.parent
CODES = ["NODE.A  ", "NODE.B  ", "HUB-1   ", "ABCDEFG8"]
MALFORMED = ["node.a  ", "        ", " NODE.A ", "NODE A  "]
KINDS = {
    "DB": "DemandBid", "DC": "DecrementBid", "SO": "SupplyOffer", "IN": "IncrementOffer", "XP": "DayAheadPurchase",
    "ML": "MeteredLoad", "XS": "ExternalSale", "MG": "MeteredGeneration", "XR": "RealTimePurchase",
    "BD": "DayAheadEnergy", "BR": "RealTimeEnergy", "BL": "RealTimeLoad",
}
CAUSES = {
    1: "UnknownParticipant", 3: "QuantityOutOfRange", 4: "MalformedCode", 5: "BuyerIsSeller", 6: "UnknownPosting",
    7: "PostingWithoutPrice", 21: "WrongPhase", 22: "ListFull", 23: "MarketLimit", 25: "VoidHour",
}


# ---- random histories
def terms(rng, codes):
    energies = [rng.randrange(-100_000, 100_001) for _ in range(2)]
    scale = rng.choice([3, 100, 100_000])
    rows = {c: tuple((e, rng.randrange(-scale, scale + 1), rng.randrange(-scale, scale + 1)) for e in energies) for c in codes}
    return rows, rng.choice(sorted(ROUNDING)), rng.choice(sorted(SHARING))


def quantity(rng, style):
    if style == "full":
        return rng.choice([10_000_000] * 9 + [rng.randrange(0, 3)])
    if style == "heavy":
        return rng.choice([10_000_000, 10_000_000, 10_000_000, 9_999_999, 0, 10_000_001])
    return rng.choice([rng.randrange(0, 5), rng.randrange(0, 20_000), rng.randrange(0, 2_000_000), 10_000_000, 0, 0] + [-1] * (rng.random() < 0.2))


def history(rng):
    participants = rng.choice([1, 2, 2, 3, 3, 3, 4, 5, 7] + ([0, -1, 65] if rng.random() < 0.3 else []))
    small = rng.random() < 0.2
    opening = (participants, rng.choice([64, max(participants, 0), 70] + [max(participants - 1, 0)] * (rng.random() < 0.2)),
               rng.randrange(0, 4) if small else rng.choice([9, 1024, 2000]), rng.randrange(0, 3) if small else rng.choice([9, 256, 300]))
    codes = rng.sample(CODES, rng.randrange(1, 4))
    style = rng.choice(["plain", "plain", "plain", "heavy", "full", "full"])
    markets = {kind: market for kind, (market, _) in RECORDS.items()} | BILATERALS
    hour, calls = Hour(*opening), []
    # a full hour is filled first: records of one market, or bilaterals
    sort = rng.choice([RECORDS, BILATERALS])
    filling = (rng.randrange(9, 13) if sort is RECORDS else rng.randrange(4, 8)) if style == "full" else 0
    if filling and rng.random() < 0.5:
        calls.append((("close",), hour.take(("close",))))
    for turn in range(filling + rng.randrange(6, 20)):
        # mostly what the phase takes, sometimes anything
        kinds = sorted(markets)
        if rng.random() < 0.85:
            now = {"day-ahead": 0, "real-time": 1}.get(hour.phase)
            kinds = [k for k in kinds if markets[k] == now and (turn >= filling or k in sort)] or kinds
        who = lambda: rng.randrange(1, max(hour.count, 1) + 1) if rng.random() < 0.95 else rng.randrange(-1, 70)
        code = rng.choice(codes) if rng.random() < 0.95 else rng.choice(MALFORMED + CODES)
        what = 0 if turn < filling else rng.random()
        if hour.phase == "settled" and what < 0.6:
            call = ("reopen",)
        elif what < 0.62:
            kind = rng.choice(kinds)
            call = ("record", kind, who(), code, quantity(rng, style)) if kind in RECORDS else ("bilateral", kind, who(), who(), code, quantity(rng, style))
        elif what < 0.76:
            which = rng.choice(["record", "bilateral"])
            call = ("revise_" + which, rng.randrange(0, len(hour.lists[which]) + 2), quantity(rng, style))
        elif what < 0.86 and hour.phase == "day-ahead":
            call = ("close",)
        else:
            call = rng.choice([("settle", terms(rng, codes if rng.random() < 0.9 else codes[1:])), ("settle", terms(rng, codes)), ("close",), ("reopen",)])
        calls.append((call, hour.take(call)))
    if hour.phase == "real-time":
        call = ("settle", terms(rng, CODES))
        calls.append((call, hour.take(call)))
    return opening, calls, hour


# ---- as theorems
def number(z):
    return f"(pos {z})" if z >= 0 else f"(negsuc {-z - 1})"


def listed(items):
    return "(" + "".join(f"{i} ∷ " for i in items) + "[])"


def location(code):
    return f'(code (codes "{code}"))'


def row(code, prices):
    parts = " ".join(f"{m} = components {' '.join(map(number, p))};" for m, p in zip(("day_ahead", "real_time"), prices))
    return f"record {{ code = {location(code)}; {parts[:-1]} }}"


def call_text(call):
    name = call[0]
    if name == "record":
        return f"record_call {KINDS[call[1]]} {number(call[2])} {location(call[3])} {number(call[4])}"
    if name == "bilateral":
        return f"bilateral_call {KINDS[call[1]]} {number(call[2])} {number(call[3])} {location(call[4])} {number(call[5])}"
    if name.startswith("revise_"):
        return f"{name} {number(call[1])} (kwh {number(call[2])})"
    if name == "settle":
        rows, rounding, sharing = call[1]
        return f"settle (terms {listed(row(c, p) for c, p in sorted(rows.items()))} {rounding} {sharing})"
    return name


def answer_text(answer):
    if answer[0] == "numbered":
        return f"numbered {answer[1]}"
    if answer[0] == "fund_adjusted":
        return f"fund_adjusted {number(answer[1])}"
    if answer[0] == "refused":
        place = f"(Some {answer[2]})" if answer[2] else "None"
        return f"refusal {CAUSES[answer[1]]} {place}"
    return "done"


HEAD = """-- Random histories.
use Rattle.std.specs.Prelude.{◌≡◌, ℕ, true, false, List, [], ◌∷◌, ◌++◌, map, reverse, length, codes, ℤ, pos, negsuc, neg_ℤ, ◌*ℤ◌, is_some, Some, None, refl}
use Rattle.measures.specs.Codes.{well_formed}
use Rattle.measures.specs.declared.code.LocationCode.{LocationCode}
use Rattle.measures.specs.declared.fault.Cause.TheVariants.{UnknownParticipant, QuantityOutOfRange, MalformedCode, BuyerIsSeller, UnknownPosting, PostingWithoutPrice, WrongPhase, ListFull, MarketLimit, VoidHour}
use Rattle.prices.specs.Priced.{price_of}
use Rattle.prices.specs.Quotes.{Quote}
use Rattle.prices.specs.Rows.{rows_quote}
use Rattle.prices.specs.declared.price.Market.{Market}
use Rattle.prices.specs.declared.price.Market.TheVariants.{DayAhead, RealTime}
use Rattle.prices.specs.declared.price.Price.{Price}
use Rattle.prices.specs.declared.row.PriceRow.{PriceRow}
use Rattle.rules.specs.Rounding.{Near, half_away, half_even, toward_zero}
use Rattle.rules.specs.Sharing.{Fair, shareable, largest_remainder, running}
use Rattle.postings.specs.declared.bilateral.BilateralKind.TheVariants.{DayAheadEnergy, RealTimeEnergy, RealTimeLoad}
use Rattle.postings.specs.declared.opening.Opening.{Opening}
use Rattle.postings.specs.declared.record.RecordKind.TheVariants.{DemandBid, DecrementBid, SupplyOffer, IncrementOffer, DayAheadPurchase, MeteredLoad, ExternalSale, MeteredGeneration, RealTimePurchase}
use Rattle.postings.specs.Openings.{participant_count}
use Rattle.obligations.specs.Charges.{participants}
use Rattle.obligations.specs.Terms.{Terms}
use Rattle.histories.specs.Calls.{Call, revise_record, revise_bilateral, close, settle, reopen, Answer, numbered, done, fund_adjusted}
use Rattle.histories.specs.Examples.{code, kwh, record_call, bilateral_call, components, refusal, lines_after, adjustments_after}
use Rattle.histories.specs.Told.{told, accepted, answers}

abbrev rows_after : Opening → List Call → List (List ℤ)
rows_after o calls = map (λ p. lines_after o calls p ++ adjustments_after o calls p) (participants (participant_count o))

abbrev funds_after : Opening → List Call → List ℤ
funds_after o calls = (told o (accepted o (reverse calls))).fund_amount ∷ (told o (accepted o (reverse calls))).fund_adjustment ∷ []

-- computing needs no proof of the laws: they are taken as given
module _
    (malformed : (q : Quote) (c : LocationCode) (m : Market) → well_formed c ≡ false → q c m ≡ None)
    (both : (q : Quote) (c : LocationCode) → is_some (q c DayAhead) ≡ is_some (q c RealTime))
    (alike : (q : Quote) (c d : LocationCode) (m : Market) (p r : Price) → q c m ≡ Some p → q d m ≡ Some r → p.components.energy ≡ r.components.energy)
    (near : (f : ℤ → ℤ) (x : ℤ) → Near 1000 (pos 1000 *ℤ f x) x)
    (odd : (f : ℤ → ℤ) (x : ℤ) → f (neg_ℤ x) ≡ neg_ℤ (f x))
    (fair : (f : ℤ → List ℤ → List ℤ) (pool : ℤ) (ws : List ℤ) → shareable pool ws (length ws) ≡ true → Fair pool ws (f pool ws)) where
  abbrev terms : List PriceRow → (ℤ → ℤ) → (ℤ → List ℤ → List ℤ) → Terms
  terms rows rounds shares = record {
      quote = rows_quote rows; rounds = rounds; shares = shares; malformed = malformed (rows_quote rows); both = both (rows_quote rows); alike = alike (rows_quote rows);
      near = near rounds; odd = odd rounds; fair = fair shares }
"""


def theorems(i, opening, calls, hour):
    o = f"opening_{i}"
    rows = [hour.amounts[p] + hour.adjustments[p] for p in sorted(hour.amounts)]
    facts = {
        "answers": (f"reverse (answers {o} (reverse calls_{i}))", listed(answer_text(a) for _, a in calls)),
        "rows": (f"rows_after {o} calls_{i}", listed(listed(map(number, r)) for r in rows)),
        "funds": (f"funds_after {o} calls_{i}", listed(map(number, (hour.fund, hour.fund_adjustment)))),
    }
    text = f"""
  abbrev {o} : Opening
  {o} = record {{ participants = {number(opening[0])}; rows = {opening[1]}; record_places = {opening[2]}; bilateral_places = {opening[3]} }}

  abbrev calls_{i} : List Call
  calls_{i} = {listed(call_text(c) for c, _ in calls)}
"""
    for name, (found, expected) in facts.items():
        text += f"""
  {name}_{i} : {found} ≡ {expected}
  unfolding price_of
  {name}_{i} = refl
"""
    return text


# the layers that the definitions of an hour stand on
LAYERS = ["measures", "rules", "prices", "runs", "postings", "obligations", "histories"]


def copy_layers(copy):
    """The layers into an empty repository."""
    for layer in LAYERS:
        shutil.copytree(ROOT / "crates" / layer, copy / "crates" / layer, ignore=shutil.ignore_patterns("must-fail", "out"))
    lines = (ROOT / "crates.txt").read_text().splitlines()
    (copy / "crates.txt").write_text("".join(line + "\n" for line in lines if line.split(":")[0] in LAYERS))


def main():
    count = int(sys.argv[1]) if len(sys.argv) > 1 else 100
    seed = int(sys.argv[2]) if len(sys.argv) > 2 else 1
    rng = random.Random(seed)
    histories = [history(rng) for _ in range(count)]
    with tempfile.TemporaryDirectory() as folder:
        copy = pathlib.Path(folder) / "repository"
        copy_layers(copy)
        crate = copy / "crates" / "random_hours"
        for part in ("src", "specs", "proofs"):
            (crate / part).mkdir(parents=True)
        (crate / "src" / "lib.rt").write_text("// Random histories of an hour.\n#![tactic(auto)]\n")
        (crate / "specs" / "Lib.antt").write_text("")
        (crate / "proofs" / "Lib.antt").write_text("mod Histories\n")
        (crate / "proofs" / "Histories.antt").write_text(HEAD + "".join(theorems(i, *h) for i, h in enumerate(histories)))
        with open(copy / "crates.txt", "a") as listing:
            listing.write("random_hours: measures rules prices postings obligations histories\n")
        run = subprocess.run(["rt", "check"], cwd=crate, stdout=subprocess.PIPE, stderr=subprocess.STDOUT, text=True)
    wrong = sorted({int(n) for n in re.findall(r"error: `\w+_(\d+)`", run.stdout)})
    for i in wrong[:5]:
        opening, calls, hour = histories[i]
        print(f"history {i} of seed {seed} disagrees: opened with {opening}")
        for call, answer in calls:
            print("  ", call, "->", answer)
        print("   rows", hour.amounts, hour.adjustments, "fund", hour.fund, hour.fund_adjustment)
    if run.returncode != 0:
        if not wrong:
            print(run.stdout[-3000:])
        sys.exit(f"{len(wrong)} of {count} histories disagree")
    met = sorted({a[1] for _, calls, _ in histories for _, a in calls if a[0] == "refused"})
    settled = sum(a[0] == "fund_adjusted" for _, calls, _ in histories for _, a in calls)
    print(f"{count} histories agree: {sum(len(c) for _, c, _ in histories)} calls, {settled} settlings, refusals {met}")


if __name__ == "__main__":
    main()
