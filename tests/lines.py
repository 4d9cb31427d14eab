"""Writes the books of the program plain_lines: contracts followed day by day, and one book for each way in which money was lost, with the lines that are expected, worked out by
hand; behind them books made up at random, with the lines of the model. Prints standard input, or with `out` what the program must print."""

import sys

import model

# name; texts of deals as (holder, other, first day, text), all in the first morning; rates of rate 0 day by day; choices day by day; lines
BOOKS = [
    ("on 2: pays 100 0", [(0, 1, 0, "on 2: pays 100 0")], [0, 0, 0], {}, ["day 2 from 1 to 0 currency 0 amount 100"]),
    ("rate 0 of pays 100 0", [(0, 1, 0, "rate 0 of pays 100 0")], [1250000], {}, ["day 0 from 1 to 0 currency 0 amount 125"]),
    ("by 2: pays 50 0, chosen on day 1", [(0, 1, 0, "by 2: pays 50 0")], [0, 0, 0, 0], {1: [(0, ())]}, ["day 1 from 1 to 0 currency 0 amount 50"]),
    ("by 2: pays 50 0, chosen on day 3", [(0, 1, 0, "by 2: pays 50 0")], [0, 0, 0, 0], {3: [(0, ())]}, []),
    (
        "when (1000000 < rate 0): both(pays 7 0, turned(on 3: pays 7 1))",
        [(0, 1, 0, "when (1000000 < rate 0): both(pays 7 0, turned(on 3: pays 7 1))")],
        [900000, 1100000, 0, 0],
        {},
        ["day 1 from 1 to 0 currency 0 amount 7", "day 3 from 0 to 1 currency 1 amount 7"],
    ),
    (
        "choice(nothing, (rate 0 - 1000000) of pays -101 0), chosen",
        [(0, 1, 0, "choice(nothing, (rate 0 - 1000000) of pays -101 0)")],
        [1500000],
        {0: [(0, ())]},
        ["day 0 from 0 to 1 currency 0 amount 51"],
    ),
    ("-500000 of pays 3 0", [(0, 1, 0, "-500000 of pays 3 0")], [0], {}, ["day 0 from 0 to 1 currency 0 amount 2"]),
    (
        "if rate 0 1 then pays 1 0 else pays 2 0, from day 1",
        [(0, 1, 1, "if rate 0 1 then pays 1 0 else pays 2 0")],
        [5, 0, 0],
        {},
        ["day 1 from 1 to 0 currency 0 amount 1"],
    ),
    # ways in which money was lost
    (
        "rounded down each, not towards 0, and not once more when added up: -1, -1 and 0",
        [(0, 1, 0, "500000 of pays -1 0"), (0, 1, 0, "both(500000 of pays -1 0, 500000 of pays 1 0)")],
        [0],
        {},
        ["day 0 from 0 to 1 currency 0 amount 2"],
    ),
    (
        "a part that waits within a part that has begun is not begun again",
        [(0, 1, 0, "when (0 < rate 0): both(pays 3 0, when (1 < rate 0): pays 5 0)")],
        [1, 1, 2, 2],
        {},
        ["day 0 from 1 to 0 currency 0 amount 3", "day 2 from 1 to 0 currency 0 amount 5"],
    ),
    (
        "the rate of the day on which it began, not of the day of payment",
        [(0, 1, 0, "rate 0 of on 2: pays 100 0")],
        [2000000, 3000000, 5000000],
        {},
        ["day 2 from 1 to 0 currency 0 amount 200"],
    ),
    ("a last day that is over", [(0, 1, 1, "both(on 0: pays 9 0, by 1: pays 4 0)")], [0, 0, 0], {2: [(0, (1,))]}, []),
    (
        "a choice for a part that hadn't begun yet",
        [(0, 1, 0, "on 1: choice(pays 1 0, pays 2 0)")],
        [0, 0],
        {0: [(0, (0,))]},
        ["day 1 from 1 to 0 currency 0 amount 1"],
    ),
    (
        "turned within scaled is rounded down behind the turn, and scaled within turned before it",
        [(0, 1, 0, "500000 of turned(pays 3 0)"), (0, 1, 0, "turned(500000 of pays 3 1)")],
        [0],
        {},
        ["day 0 from 0 to 1 currency 0 amount 2", "day 0 from 0 to 1 currency 1 amount 1"],
    ),
    (
        "a rate of days before, also of a deal that comes late",
        [(0, 1, 5, "rate 0 5 of pays 1 0")],
        [4000000, 0, 0, 0, 0, 0],
        {},
        ["day 5 from 1 to 0 currency 0 amount 4"],
    ),
]


def main():
    lines, out = [], []

    def book(name, start, mornings, want):
        lines.append("# " + name)
        out.append("# " + name)
        lines.append("00" + start.hex())
        lines.extend("01" + m.hex() for m in mornings)
        out.extend(want)
        if model.run(start, mornings) != want:
            sys.exit(f"{name}: the model says {model.run(start, mornings)}")

    for name, deals, rates, choices, want in BOOKS:
        mornings = [model.morning_bytes(deals if t == 0 else [], [r], choices.get(t, [])) for t, r in enumerate(rates)]
        book(name, model.start_bytes(2, 1, 2), mornings, want)
    for seed in range(60):
        start, mornings = model.Maker(seed, seed % 6 == 5).book()
        book(f"seed {seed}", start, mornings, model.run(start, mornings))
    print(*(out if "out" in sys.argv else lines), sep="\n")


main()
