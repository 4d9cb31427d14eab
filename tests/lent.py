"""Writes the books of the program lent_lines: a house over slices that are just long enough, or too short. What each morning is answered stands beside it, by hand; the whole line,
with the bytes of the payments, is worked out from the rules by the model. Prints standard input, or with `out` what the program must print."""

import sys

import model

# lent for each deal, for each rate, and whatever comes: bytes, words and words
DEAL, RATE, WORK, PAYMENT = 16384, 4097, 131072, 13
SLICES = ["deals", "rates", "work", "payments", "sums"]


def wanted(start, deals):
    """How long each slice has to be for some deals: finished ones count, and a pair is the same whoever holds."""
    _, rates, currencies = start
    pairs = len({frozenset(d[:2]) for d in deals})
    return [DEAL * len(deals), RATE * rates, WORK, PAYMENT * pairs * currencies, PAYMENT * pairs * currencies]


def payment_bytes(p):
    return b"".join(v.to_bytes(n, "little") for v, n in zip(p, (2, 2, 1, 8)))


def answers(start, steps):
    """What the house answers to each morning, and how long the slices are meanwhile."""
    start = model.judge_start(start)
    lent, deals, days = [0] * 5, [], []
    for step in steps:
        if isinstance(step, tuple):
            # bytes that are no contract's in the part of a deal: these pay nothing
            deals[step[1]] = deals[step[1]][:3] + (("nothing",),)
            continue
        if not isinstance(step, bytes):
            lent = step
            continue
        try:
            new, rates, choices = model.judge_morning(step, start, len(days), len(deals), True)
        except model.Refused as r:
            yield f"{r}, all as it was"
            continue
        short = [i for i, (n, m) in enumerate(zip(lent, wanted(start, deals + new))) if n < m]
        if short:
            yield f"refused 5 at {short[0]}, all as it was"
            continue
        deals += new
        days.append((rates, choices))
        paid = model.payments(deals, days)
        yield f"{len(paid)} paid {b''.join(map(payment_bytes, paid)).hex()}, the rest as it was"


# how a start and mornings are written here
def begin(houses, rates, currencies):
    return model.start_bytes(houses, rates, currencies)


def morning(*deals, rates=2, day=0):
    return model.morning_bytes([(h, o, day, t) for h, o, t in deals], [1] * rates, [])


def lend(deals=0, rates=2 * RATE, work=WORK, payments=0, sums=None, pattern=0):
    """The lengths of all slices; as many bytes of sums as of payments where nothing is said."""
    return [deals, rates, work, payments, payments if sums is None else sums, pattern]


FOUR = begin(4, 2, 3)
# three deals, of two pairs
THREE = morning((0, 1, "pays 5 0"), (1, 0, "on 1: pays 7 1"), (2, 3, "pays 9 2"))
ENOUGH = lend(3 * DEAL, payments=2 * 3 * PAYMENT)
# of one pair, in both orders
ONE_PAIR = morning((2, 1, "pays 5 0"), (1, 2, "pays 5 0"), (2, 1, "pays 1 2"), (1, 2, "pays 1 1"))
NONE = morning()
# finished at once, and then a deal between others
DONE = morning((0, 1, "pays 5 0"))
NEXT = morning((2, 3, "pays 8 2"), (3, 2, "on 2: pays 1 0"), day=1)
# the widest start: 1,024 houses, 64 currencies
WIDE = begin(1024, 1, 64)
FARTHEST = morning((1023, 0, "pays 1 63"), (0, 1023, "pays 2 0"), (1022, 1023, "both(pays 4 63, pays 3 62)"), rates=1)
TEN_PAIRS = morning(*[(a, b, f"pays {10 * a + b} 0") for a in range(5) for b in range(5) if a < b], (4, 0, "pays 4 0"), (3, 2, "pays 3 0"))
DIRECTORIES = morning(*[(k % 2, 1 - k % 2, f"on {k % 3}: pays {k} 0") for k in range(257)])


def but(lent, **less):
    """The same, but some of them shorter or longer by so much."""
    return [n + less.get(s, 0) for n, s in zip(lent, SLICES)] + lent[5:]


def ruined(deal, day):
    """Bytes in the part of a deal as no contract has them: a row for a day, up to the last place, and nodes of two parts, the second far behind, or before the first."""
    row = day.to_bytes(4, "little") + (0).to_bytes(2, "little") + (256).to_bytes(2, "little") + bytes(8)
    nodes = b"".join(k.to_bytes(2, "little") + bytes(2) + second.to_bytes(2, "little") + bytes(10) for k, second in ((3, 4), (3, 256), (3, 0), (0, 0), (3, 0), (0, 0)))
    return f"{DEAL * deal}@{row.hex()} {DEAL * deal + 1536}@{nodes.hex()}", deal


# name; start; slices and mornings in order; answers in short: a refusal, or how many payments
BOOKS = [
    ("all just long enough", FOUR, [ENOUGH, THREE], ["2"]),
    ("deals a byte too short", FOUR, [but(ENOUGH, deals=-1), THREE], ["5 at 0"]),
    ("rates a word too short", FOUR, [but(ENOUGH, rates=-1), THREE], ["5 at 1"]),
    ("work a word too short", FOUR, [but(ENOUGH, work=-1), THREE], ["5 at 2"]),
    ("payments a byte too short", FOUR, [but(ENOUGH, payments=-1), THREE], ["5 at 3"]),
    ("sums a byte too short", FOUR, [but(ENOUGH, sums=-1), THREE], ["5 at 4"]),
    ("nothing lent", FOUR, [THREE], ["5 at 0"]),
    ("nothing lent but deals", FOUR, [lend(3 * DEAL, 0, 0, 0), THREE], ["5 at 1"]),
    ("deals and sums too short", FOUR, [but(ENOUGH, deals=-1, sums=-1), THREE], ["5 at 0"]),
    ("rates and work too short", FOUR, [but(ENOUGH, rates=-1, work=-1), THREE], ["5 at 1"]),
    ("work and payments too short", FOUR, [but(ENOUGH, work=-1, payments=-1), THREE], ["5 at 2"]),
    ("payments and sums too short", FOUR, [but(ENOUGH, payments=-1, sums=-1), THREE], ["5 at 3"]),
    ("longer than it has to be", FOUR, [but(ENOUGH, deals=5, rates=1, work=3, payments=40, sums=1), THREE], ["2"]),
    ("a payment for each deal and currency", FOUR, [but(ENOUGH, payments=39, sums=39), THREE], ["2"]),
    ("payments long, sums just long enough", FOUR, [but(ENOUGH, payments=1000), THREE], ["2"]),
    ("sums long, payments just long enough", FOUR, [but(ENOUGH, sums=1000), THREE], ["2"]),
    ("sums long, payments too short", FOUR, [but(ENOUGH, payments=-1, sums=1000), THREE], ["5 at 3"]),
    ("payments long, sums too short", FOUR, [but(ENOUGH, payments=1000, sums=-1), THREE], ["5 at 4"]),
    # the bytes' own fault counts first
    ("a byte too many, and nothing lent", FOUR, [THREE + b"\0"], ["3 at 80"]),
    ("no such house, and deals too short", FOUR, [but(ENOUGH, deals=-1), morning((0, 4, "nothing"))], ["3 at 4"]),
    ("a contract that a thin house doesn't take, and sums too short", FOUR, [but(ENOUGH, sums=-1), morning((0, 1, "by 3: nothing"))], ["1 at 12"]),
    ("no contract, and no slice long enough", FOUR, [lend(0, 0, 0, 0), morning((0, 1, "nothung"))], ["1 at 16"]),
    ("out of range, and work too short", FOUR, [but(ENOUGH, work=-1), morning((0, 1, "pays 1 3"))], ["2 at 19"]),
    # which deals and pairs count
    ("one pair four times, in both orders", FOUR, [lend(4 * DEAL, payments=39), ONE_PAIR], ["2"]),
    ("one pair four times, payments a byte too short", FOUR, [lend(4 * DEAL, payments=38), ONE_PAIR], ["5 at 3"]),
    ("ten pairs of twelve deals", begin(5, 2, 1), [lend(12 * DEAL, payments=130), TEN_PAIRS], ["9"]),
    ("ten pairs of twelve deals, sums a byte too short", begin(5, 2, 1), [lend(12 * DEAL, payments=156, sums=129), TEN_PAIRS], ["5 at 4"]),
    ("finished deals count, the morning's too", FOUR, [lend(DEAL, payments=39), DONE, lend(3 * DEAL, payments=78), NEXT, NONE], ["1", "1", "1"]),
    ("a finished deal's bytes are wanted", FOUR, [lend(DEAL, payments=39), DONE, lend(3 * DEAL - 1, payments=78), NEXT], ["1", "5 at 0"]),
    ("a finished deal's pair is wanted", FOUR, [lend(DEAL, payments=39), DONE, lend(3 * DEAL, payments=77), NEXT], ["1", "5 at 3"]),
    ("also on a morning without deals", FOUR, [lend(DEAL, payments=39), DONE, lend(DEAL, payments=38), NONE], ["1", "5 at 3"]),
    # after a refusal
    ("too short after a good morning, then long enough", FOUR, [ENOUGH, THREE, but(ENOUGH, work=-1), NONE, ENOUGH, NONE, NONE], ["2", "5 at 2", "1", "0"]),
    ("too short on the first, then long enough", FOUR, [but(ENOUGH, payments=-1), THREE, ENOUGH, THREE, NONE], ["5 at 3", "2", "1"]),
    ("each slice too short in turn, then long enough", FOUR, [lend(DEAL, payments=39), DONE] + [s for k in SLICES for s in (but(lend(3 * DEAL, payments=78), **{k: -1}), NEXT)] +
        [lend(3 * DEAL, payments=78), NEXT, NONE], ["1", "5 at 0", "5 at 1", "5 at 2", "5 at 3", "5 at 4", "1", "1"]),
    ("another morning in place of one for which there was no room", FOUR, [lend(DEAL, payments=39), THREE, DONE], ["5 at 0", "1"]),
    ("damaged, too short, and then taken", FOUR, [but(ENOUGH, sums=-1), THREE[:-1], THREE, ENOUGH, THREE], ["3 at 79", "5 at 4", "2"]),
    ("deals cut below what is kept", FOUR, [ENOUGH, THREE, but(ENOUGH, deals=-2 * DEAL), NONE, lend(), NONE], ["2", "5 at 0", "5 at 0"]),
    # bytes that are no contract's
    ("parts that would stand in one another", FOUR, [ENOUGH, THREE, ruined(1, 1), NONE, NONE], ["2", "0", "0"]),
    ("anything in the part of a finished deal", FOUR, [ENOUGH, THREE, ruined(0, 1), ruined(2, 1), NONE, NONE], ["2", "1", "0"]),
    # none of something
    ("no rates", begin(4, 0, 3), [lend(DEAL, 0, payments=39), morning((0, 1, "pays 5 0"), rates=0)], ["1"]),
    ("no rates, work too short", begin(4, 0, 3), [lend(DEAL, 0, WORK - 1, 39), morning((0, 1, "pays 5 0"), rates=0)], ["5 at 2"]),
    ("no currencies", begin(4, 2, 0), [lend(DEAL), morning((0, 1, "nothing")), NONE], ["0", "0"]),
    ("no deals", FOUR, [lend(), NONE, NONE], ["0", "0"]),
    ("no deals, rates too short", FOUR, [lend(rates=2 * RATE - 1), NONE], ["5 at 1"]),
    ("no houses, rates nor currencies", begin(0, 0, 0), [lend(0, 0), morning(rates=0)], ["0"]),
    ("no houses, work too short", begin(0, 0, 0), [lend(0, 0, WORK - 1), morning(rates=0)], ["5 at 2"]),
    # whatever stood there before
    ("other garbage", FOUR, [ENOUGH[:5] + [1], THREE, NONE], ["2", "1"]),
    ("other garbage yet", FOUR, [ENOUGH[:5] + [2**64 - 1], THREE, NONE], ["2", "1"]),
    # the widest
    ("houses up to the last", WIDE, [lend(3 * DEAL, RATE, payments=2 * 64 * PAYMENT), FARTHEST], ["4"]),
    ("houses up to the last, payments a byte too short", WIDE, [lend(3 * DEAL, RATE, payments=2 * 64 * PAYMENT - 1), FARTHEST], ["5 at 3"]),
    ("two directories of deals", FOUR, [lend(257 * DEAL, payments=39), DIRECTORIES, NONE, NONE, NONE], ["1", "1", "1", "0"]),
]


def short(line):
    """An answer in short."""
    return line.split(",")[0].removeprefix("refused ").split(" paid")[0]


def random_book(seed):
    """A thin book at random, with slices that are just long enough; now and then one is too short, and the same morning comes again."""
    maker = model.Maker(seed, True, True)
    start, mornings = maker.book()
    steps, deals, day = [], [], 0
    for data in mornings:
        try:
            new = model.judge_morning(data, model.judge_start(start), day, len(deals), True)[0]
        except model.Refused:
            steps.append(data)
            continue
        deals += new
        day += 1
        enough = wanted(model.judge_start(start), deals) + [seed]
        # what is kept must not be cut off
        cut = maker.r.choice(SLICES if new else SLICES[1:])
        if maker.r.random() < 0.3 and enough[SLICES.index(cut)]:
            steps += [but(enough, **{cut: -1}), data]
        steps += [enough, data]
    return start, steps


def main():
    lines, out = [], []

    def book(name, start, steps):
        got = list(answers(start, steps))
        words = [step.hex() if isinstance(step, bytes) else step[0] if isinstance(step, tuple) else ",".join(map(str, step)) for step in steps]
        lines.extend(["# " + name, " ".join([start.hex()] + words)])
        out.extend(["# " + name] + got)
        return got

    for name, start, steps, want in BOOKS:
        got = [short(line) for line in book(name, start, steps)]
        if got != want:
            sys.exit(f"{name}: the rules say {got}")
    for seed in range(12):
        book(f"seed {seed}", *random_book(seed))
    print(*(out if "out" in sys.argv else lines), sep="\n")


main()
