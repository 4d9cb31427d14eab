"""The rules of the house once more, in Python: texts, starts and mornings read or refused, what flows by its meaning over all days, and payments. It shares nothing with
the proved code, and is what the programs are compared with; tests/compare.py does that on books made up at random."""

import random


class Refused(Exception):
    """A refusal, by its number and its place."""

    def __init__(self, number, place):
        super().__init__(f"refused {number} at {place}")
        self.number = number
        self.place = place


# TEXTS

CONTRACT_WORDS = ["nothing", "pays ", "turned(", "both(", "choice(", "if ", "on ", "when ", "by "]
FIGURE_WORDS = ["rate ", "day", "(", "max("]


class Reader:
    """Reads a text; `stop` is raised with the place of the first byte at which no contract goes on so."""

    def __init__(self, text, rates, currencies):
        self.text = text
        self.rates = rates
        self.currencies = currencies
        self.out = []

    def stop(self, at):
        raise Refused(1, at)

    def byte(self, at):
        return chr(self.text[at]) if at < len(self.text) else ""

    def word(self, at, words):
        j = 0
        left = words
        while True:
            left = [w for w in left if j < len(w) and w[j] == self.byte(at + j)]
            if not left:
                self.stop(at + j)
            j += 1
            for w in left:
                if len(w) == j:
                    return w, at + j

    def number(self, at, positive=False):
        c = self.byte(at)
        if c == "0" and not positive:
            return 0, at + 1
        if c == "" or c not in "123456789":
            self.stop(at)
        to = at
        while self.byte(to) != "" and self.byte(to) in "0123456789":
            to += 1
        return int(self.text[at:to].decode()), to

    def amount(self, at):
        if self.byte(at) == "-":
            n, to = self.number(at + 1, True)
            return -n, to
        return self.number(at)

    def figure(self, at, follow):
        c = self.byte(at)
        if c != "" and c in "-0123456789":
            a, to = self.amount(at)
            return ("fixed", a), to
        return self.opened(at, FIGURE_WORDS, follow)

    def opened(self, at, words, follow):
        w, to = self.word(at, words)
        if w == "day":
            return ("day",), to
        if w == "rate ":
            place = to
            k, to = self.number(to)
            n = 0
            if k >= self.rates:
                self.out.append(place)
            if self.byte(to) == " ":
                c = self.byte(to + 1)
                if c != "" and c in "0123456789":
                    place = to + 1
                    n, to = self.number(to + 1)
                    if n > 4096:
                        self.out.append(place)
                elif not follow[0].startswith(" "):
                    self.stop(to + 1)
            return ("rate", k, n), to
        if w == "(":
            e, to = self.figure(to, [" + ", " - ", " * ", " < "])
            op, to = self.word(to, [" + ", " - ", " * ", " < "])
            f, to = self.figure(to, [")"])
            _, to = self.word(to, [")"])
            return ({" + ": "plus", " - ": "minus", " * ": "times", " < ": "less"}[op], e, f), to
        e, to = self.figure(to, [", "])
        _, to = self.word(to, [", "])
        f, to = self.figure(to, [")"])
        _, to = self.word(to, [")"])
        return ("most", e, f), to

    def day_colon(self, at):
        d, to = self.number(at)
        if d >= 65536:
            self.out.append(at)
        _, to = self.word(to, [": "])
        return d, to

    def contract(self, at):
        c = self.byte(at)
        if c != "" and c in "-0123456789":
            e, to = self.figure(at, [" of "])
            return self.scaled(e, to)
        w = self.word(at, CONTRACT_WORDS + FIGURE_WORDS)[0]
        if w in FIGURE_WORDS:
            e, to = self.opened(at, FIGURE_WORDS, [" of "])
            return self.scaled(e, to)
        to = at + len(w)
        if w == "nothing":
            return ("nothing",), to
        if w == "pays ":
            a, to = self.amount(to)
            _, to = self.word(to, [" "])
            place = to
            k, to = self.number(to)
            if k >= self.currencies:
                self.out.append(place)
            return ("pays", k, a), to
        if w == "turned(":
            x, to = self.contract(to)
            _, to = self.word(to, [")"])
            return ("turned", x), to
        if w in ("both(", "choice("):
            x, to = self.contract(to)
            _, to = self.word(to, [", "])
            y, to = self.contract(to)
            _, to = self.word(to, [")"])
            return (w[:-1], x, y), to
        if w == "if ":
            e, to = self.figure(to, [" then "])
            _, to = self.word(to, [" then "])
            x, to = self.contract(to)
            _, to = self.word(to, [" else "])
            y, to = self.contract(to)
            return ("if", e, x, y), to
        if w == "when ":
            e, to = self.figure(to, [": "])
            _, to = self.word(to, [": "])
            x, to = self.contract(to)
            return ("when", e, x), to
        d, to = self.day_colon(to)
        x, to = self.contract(to)
        return ("on" if w == "on " else "by", d, x), to

    def scaled(self, e, to):
        _, to = self.word(to, [" of "])
        x, to = self.contract(to)
        return ("of", e, x), to


def marks(x):
    kind = x[0]
    return 1 + sum(marks(y) for y in x[1:] if isinstance(y, tuple))


def limits(e):
    """The largest a figure can be; raises where it or a part of it passes 2^32."""
    kind = e[0]
    if kind == "fixed":
        most = abs(e[1])
    elif kind == "rate":
        most = 10**9
    elif kind == "day":
        most = 65536
    else:
        a, b = limits(e[1]), limits(e[2])
        most = {"plus": a + b, "minus": a + b, "most": a + b, "less": 1, "times": a * b // 10**6 + 1}[kind]
    if most >= 2**32:
        raise OverflowError
    return most


def moves(x):
    """What a contract can move, and how many pays are in it; raises where it or a part passes 2^40."""
    kind = x[0]
    if kind == "nothing":
        return 0, 0
    if kind == "pays":
        m, n = abs(x[2]), 1
    elif kind in ("turned", "on", "by"):
        m, n = moves(x[-1])
    elif kind == "when":
        limits(x[1])
        m, n = moves(x[2])
    elif kind == "of":
        m, n = moves(x[2])
        m = m * limits(x[1]) // 10**6 + n
    else:
        if kind == "if":
            limits(x[1])
        (a, i), (b, j) = moves(x[-2]), moves(x[-1])
        m, n = a + b, i + j
    if m >= 2**40:
        raise OverflowError
    return m, n


def parts_of(x):
    """The contracts right within a contract, with the step to each."""
    kind = x[0]
    if kind in ("nothing", "pays"):
        return []
    if kind in ("both", "choice", "if"):
        return [(0, x[-2]), (1, x[-1])]
    return [(0, x[-1])]


def is_thin(x):
    """Whether a thin house takes it: nothing, pays, turned, both and on alone."""
    return x[0] in ("nothing", "pays", "turned", "both", "on") and all(is_thin(y) for _, y in parts_of(x))


def deepest(x):
    """The longest way to a choice or a by, or -1."""
    own = 0 if x[0] in ("choice", "by") else -1
    below = [deepest(y) for _, y in parts_of(x)]
    return max([own] + [n + 1 for n in below if n >= 0])


def read_text(text, rates, currencies):
    """A contract, or the refusal of its text with the place in it."""
    if len(text) > 8192:
        raise Refused(2, 0)
    reader = Reader(text, rates, currencies)
    x, to = reader.contract(0)
    if to < len(text):
        raise Refused(1, to)
    try:
        moves(x)
        if marks(x) > 256 or deepest(x) > 64:
            raise OverflowError
    except OverflowError:
        raise Refused(2, 0)
    if reader.out:
        raise Refused(2, min(reader.out))
    return x


def show_figure(e):
    kind = e[0]
    if kind == "fixed":
        return str(e[1])
    if kind == "rate":
        return f"rate {e[1]}" + (f" {e[2]}" if e[2] else "")
    if kind == "day":
        return "day"
    if kind == "most":
        return f"max({show_figure(e[1])}, {show_figure(e[2])})"
    op = {"plus": "+", "minus": "-", "times": "*", "less": "<"}[kind]
    return f"({show_figure(e[1])} {op} {show_figure(e[2])})"


def show(x):
    kind = x[0]
    if kind == "nothing":
        return "nothing"
    if kind == "pays":
        return f"pays {x[2]} {x[1]}"
    if kind == "turned":
        return f"turned({show(x[1])})"
    if kind in ("both", "choice"):
        return f"{kind}({show(x[1])}, {show(x[2])})"
    if kind == "if":
        return f"if {show_figure(x[1])} then {show(x[2])} else {show(x[3])}"
    if kind == "of":
        return f"{show_figure(x[1])} of {show(x[2])}"
    if kind == "when":
        return f"when {show_figure(x[1])}: {show(x[2])}"
    return f"{kind} {x[1]}: {show(x[2])}"


# STARTS AND MORNINGS


class Bytes:
    def __init__(self, data):
        self.data = data
        self.at = 0

    def take(self, n, right=lambda v: True, signed=False):
        if self.at + n > len(self.data):
            raise Refused(3, len(self.data))
        v = int.from_bytes(self.data[self.at : self.at + n], "little", signed=signed)
        if not right(v):
            raise Refused(3, self.at)
        self.at += n
        return v

    def end(self):
        if self.at < len(self.data):
            raise Refused(3, self.at)


def judge_start(data):
    b = Bytes(data)
    houses = b.take(2, lambda v: v <= 1024)
    rates = b.take(2, lambda v: v <= 256)
    currencies = b.take(1, lambda v: v <= 64)
    b.end()
    return houses, rates, currencies


def too_many(b, right):
    at = b.at
    try:
        b.take(2, right)
    except Refused as r:
        if r.place == at:
            raise
    raise Refused(4, at)


def judge_deal(b, start, day, number, thin):
    houses, rates, currencies = start
    if number >= 65536:
        too_many(b, lambda v: v < houses)
    holder = b.take(2, lambda v: v < houses)
    other = b.take(2, lambda v: v < houses and v != holder)
    begins = b.take(4, lambda v: day <= v < 65536)
    n = b.take(2)
    at = b.at
    if n > 8192:
        raise Refused(2, at)
    text = bytes(b.data[at : at + n])
    if len(text) < n:
        try:
            read_text(text, 1 << 70, 1 << 70)
        except Refused as r:
            if r.number == 1 and at + r.place < len(b.data):
                raise Refused(1, at + r.place)
        raise Refused(3, len(b.data))
    try:
        x = read_text(text, rates, currencies)
    except Refused as r:
        raise Refused(r.number, at + r.place)
    if thin and not is_thin(x):
        raise Refused(1, at)
    b.at = at + n
    return holder, other, begins, x


def judge_morning(data, start, day, so_far, thin=False):
    b = Bytes(data)
    if day >= 65536:
        too_many(b, lambda v: True)
    deals = []
    for j in range(b.take(2)):
        deals.append(judge_deal(b, start, day, so_far + j, thin))
    rates = [b.take(8, lambda v: abs(v) <= 10**9, signed=True) for _ in range(start[1])]
    choices = set()
    for _ in range(b.take(2)):
        deal = b.take(4, lambda v: v < 65536)
        n = b.take(1, lambda v: v <= 64)
        choices.add((deal, tuple(b.take(1, lambda v: v <= 1) for _ in range(n))))
    b.end()
    return deals, rates, choices


# THE MEANING


def value(days, t, e):
    kind = e[0]
    if kind == "fixed":
        return e[1]
    if kind == "rate":
        return days[t - e[2]][0][e[1]] if e[2] <= t else 0
    if kind == "day":
        return t
    a, b = value(days, t, e[1]), value(days, t, e[2])
    if kind == "plus":
        return a + b
    if kind == "minus":
        return a - b
    if kind == "times":
        return a * b // 10**6
    if kind == "most":
        return max(a, b)
    return 1 if a < b else 0


def flows(days, c, way, x, t):
    """What flows under part `way` of deal c that begins on day t: day, currency, amount."""
    kind = x[0]
    last = len(days)
    if kind == "nothing":
        return []
    if kind == "pays":
        return [(t, x[1], x[2])] if t < last else []
    if kind == "turned":
        return [(d, k, -a) for d, k, a in flows(days, c, way + (0,), x[1], t)]
    if kind == "both":
        return flows(days, c, way + (0,), x[1], t) + flows(days, c, way + (1,), x[2], t)
    if kind == "on":
        return flows(days, c, way + (0,), x[2], x[1]) if t <= x[1] else []
    if kind in ("when", "by"):
        for u in range(t, last):
            if value(days, u, x[1]) != 0 if kind == "when" else u <= x[1] and (c, way) in days[u][1]:
                return flows(days, c, way + (0,), x[2], u)
        return []
    if t >= last:
        return []
    if kind == "choice":
        step = 1 if (c, way) in days[t][1] else 0
        return flows(days, c, way + (step,), x[1 + step], t)
    v = value(days, t, x[1])
    if kind == "if":
        return flows(days, c, way + (0,), x[2], t) if v != 0 else flows(days, c, way + (1,), x[3], t)
    return [(d, k, a * v // 10**6) for d, k, a in flows(days, c, way + (0,), x[2], t)]


def payments(deals, days):
    """What is paid on the last day: from, to, currency, amount, in order."""
    today = len(days) - 1
    sums = {}
    for c, (holder, other, begins, x) in enumerate(deals):
        low, high = min(holder, other), max(holder, other)
        for d, k, a in flows(days, c, (), x, begins):
            if d == today:
                sums[low, high, k] = sums.get((low, high, k), 0) + (a if other == low else -a)
    lines = []
    for (low, high, k), a in sorted(sums.items()):
        if a > 0:
            lines.append((low, high, k, a))
        elif a < 0:
            lines.append((high, low, k, -a))
    return lines


def run(start, mornings, thin=False):
    """The lines that a program prints for a start and some mornings; a thin house refuses contracts of other forms, though they are in bounds, with 1 at the text's first byte."""
    try:
        begun = judge_start(start)
    except Refused as r:
        return [str(r)]
    lines, deals, days = [], [], []
    for data in mornings:
        try:
            new, rates, choices = judge_morning(data, begun, len(days), len(deals), thin)
        except Refused as r:
            lines.append(str(r))
            continue
        deals += new
        days.append((rates, choices))
        for a, b, k, v in payments(deals, days):
            lines.append(f"day {len(days) - 1} from {a} to {b} currency {k} amount {v}")
    return lines


# BOOKS IN BYTES


def start_bytes(houses, rates, currencies):
    return houses.to_bytes(2, "little") + rates.to_bytes(2, "little") + currencies.to_bytes(1, "little")


def morning_bytes(deals, rates, choices):
    """Deals as (holder, other, day, text)."""
    out = bytearray(len(deals).to_bytes(2, "little"))
    for holder, other, begins, text in deals:
        text = text.encode()
        out += holder.to_bytes(2, "little") + other.to_bytes(2, "little") + begins.to_bytes(4, "little") + len(text).to_bytes(2, "little") + text
    for a in rates:
        out += a.to_bytes(8, "little", signed=True)
    out += len(choices).to_bytes(2, "little")
    for deal, way in choices:
        out += deal.to_bytes(4, "little") + len(way).to_bytes(1, "little") + bytes(way)
    return bytes(out)


# BOOKS AT RANDOM


class Maker:
    def __init__(self, seed, thin=False, long=False):
        self.r = random.Random(seed)
        self.thin = thin
        self.long = long
        self.houses = self.r.randint(2, 4)
        self.rates = self.r.randint(1, 3)
        self.currencies = self.r.randint(1, 3)
        self.last = self.r.randint(3, 30 if long else 9)
        # now and then so many deals that a house keeps them in more than one directory
        self.deals = [0, 12, 24, 48] if long and self.r.random() < 0.1 else [0, 1, 1, 2, 3]

    def figure(self, depth):
        r = self.r
        kind = r.choice(["fixed", "rate", "rate", "day", "plus", "minus", "times", "most", "less"] if depth else ["fixed", "rate", "rate", "day"])
        if kind == "fixed":
            return ("fixed", r.choice([0, 1, -1, 5, 500000, -500000, 1000000, -1000000, 1500000, 333333, -2750001]))
        if kind == "rate":
            return ("rate", r.randrange(self.rates), r.choice([0, 0, 1, 2, 3]))
        if kind == "day":
            return ("day",)
        return (kind, self.figure(depth - 1), self.figure(depth - 1))

    def contract(self, depth):
        r = self.r
        thin = ["turned", "both", "both", "on", "pays"]
        full = thin + ["choice", "if", "of", "of", "when", "by", "by"]
        kind = r.choice(["pays", "pays", "pays", "nothing"]) if depth == 0 else r.choice(thin if self.thin else full)
        if kind == "nothing":
            return ("nothing",)
        if kind == "pays":
            return ("pays", r.randrange(self.currencies), r.choice([0, 1, -1, 2, -3, 7, 50, -101, 100, 12345]))
        if kind == "turned":
            return ("turned", self.contract(depth - 1))
        if kind in ("both", "choice"):
            return (kind, self.contract(depth - 1), self.contract(depth - 1))
        if kind == "if":
            return ("if", self.figure(2), self.contract(depth - 1), self.contract(depth - 1))
        if kind in ("of", "when"):
            return (kind, self.figure(2), self.contract(depth - 1))
        return (kind, r.randint(0, self.last + 1), self.contract(depth - 1))

    def ways(self, x, way=()):
        own = [way] if x[0] in ("choice", "by") else []
        return own + [w for s, y in parts_of(x) for w in self.ways(y, way + (s,))]

    def morning(self, day, known):
        r = self.r
        new = []
        for _ in range(r.choice(self.deals)):
            holder = r.randrange(self.houses)
            other = r.choice([h for h in range(self.houses) if h != holder])
            new.append((holder, other, day + r.choice([0, 0, 0, 1, 2]), self.contract(r.randint(0, 5))))
        ways = [(c, w) for c, d in enumerate(known + new) for w in self.ways(d[3])]
        choices = [w for w in ways if r.random() < 0.3]
        if r.random() < 0.3:
            choices.append((r.randint(0, 9), tuple(r.randint(0, 1) for _ in range(r.randint(0, 4)))))
        if choices and r.random() < 0.2:
            choices.append(r.choice(choices))
        r.shuffle(choices)
        rates = [r.choice([0, 1, -1, 5, 900000, 1000000, 1100000, 1250000, -1500000, 10**9, -(10**9)]) for _ in range(self.rates)]
        return new, rates, choices

    def spoilt(self, data):
        r = self.r
        at = r.randrange(len(data)) if data else 0
        kind = r.randrange(5)
        if kind == 0:
            return data[:at]
        if kind == 1:
            return data + bytes([r.randrange(256)])
        if kind == 2:
            return data[:at] + bytes([r.randrange(256)]) + data[at + 1 :]
        if kind == 3:
            return data[:at] + data[at + 1 :]
        return data[:at] + bytes([r.choice(b" ()0123456789-abcdefnoprtuwy:,+*<")]) + data[at:]

    def book(self, spoil=0.15):
        """A start and mornings, in bytes; some mornings are spoilt, and followed by themselves unspoilt."""
        known, mornings = [], []
        for day in range(self.last):
            new, rates, choices = self.morning(day, known)
            texts = [(h, o, d, show(x)) for h, o, d, x in new]
            data = morning_bytes(texts, rates, choices)
            if self.r.random() < spoil:
                mornings.append(self.spoilt(data))
                try:
                    judge_morning(mornings[-1], (self.houses, self.rates, self.currencies), day, len(known), self.thin and self.long)
                    continue
                except Refused:
                    pass
            mornings.append(data)
            known += new
        return start_bytes(self.houses, self.rates, self.currencies), mornings
