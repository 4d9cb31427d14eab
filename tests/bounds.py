"""Writes three big books, for trial by hand: bounds.py DIR writes DIR/wide, DIR/long and DIR/calm. In each folder are a start, mornings, the file `names`, in which order they come, and
`expected`, the lines that must be printed, worked out by the model deal by deal. A morning that comes often is one file. To run one:

  cd DIR/long && house start $(cat names) | cmp - expected

wide: 65,536 deals between 1,024 houses in 64 currencies, over 30 days, some at their limits.
long: 65,536 days of few deals and a morning too many. So many names of a few bytes fit on a command line: Linux takes about 200,000 of them, with a stack of 8 MiB.
calm: 100 deals over 10,010 days, of which one in 500 pays. What a day costs doesn't grow with the days before it: compare `house --time start $(head -n 10 names)` with the
same of 1,000 and of all, over the days.
"""

import os
import random
import sys

import model


def flow_lines(houses, deals, last):
    """All that is paid on the days before `last`. Deals as (holder, other, first day, contract): of thin contracts, so that no rate nor choice matters."""
    days = [([], set())] * last
    sums = {}
    for c, (holder, other, begins, x) in enumerate(deals):
        low, high = min(holder, other), max(holder, other)
        for d, k, a in model.flows(days, c, (), x, begins):
            key = d, low, high, k
            sums[key] = sums.get(key, 0) + (a if other == low else -a)
    for (d, low, high, k), a in sorted(sums.items()):
        if a > 0:
            yield f"day {d} from {low} to {high} currency {k} amount {a}"
        elif a < 0:
            yield f"day {d} from {high} to {low} currency {k} amount {-a}"


class Book:
    """A book that is written morning by morning, into a folder of its own."""

    def __init__(self, folder, houses, rates, currencies):
        os.makedirs(folder, exist_ok=True)
        self.folder = folder
        self.start = houses, rates, currencies
        self.files = {}
        self.names = []
        self.deals = []
        self.write("start", model.start_bytes(houses, rates, currencies))

    def write(self, name, data):
        with open(os.path.join(self.folder, name), "wb") as f:
            f.write(data)

    def morning(self, deals=()):
        """Deals as (holder, other, first day, contract); all rates are 0, and nothing is chosen."""
        data = model.morning_bytes([(h, o, d, model.show(x)) for h, o, d, x in deals], [0] * self.start[1], [])
        if data not in self.files:
            self.files[data] = f"{len(self.files):x}"
            self.write(self.files[data], data)
        self.names.append(self.files[data])
        self.deals += deals

    def close(self, days, behind=()):
        """What is printed on so many days, and the lines behind that."""
        lines = list(flow_lines(self.start[0], self.deals, days)) + list(behind)
        self.write("names", "".join(n + "\n" for n in self.names).encode())
        self.write("expected", "".join(line + "\n" for line in lines).encode())
        print(f"{self.folder}: {len(self.deals)} deals, {len(self.names)} mornings in {len(self.files)} files, {len(lines)} lines")


def any_contract(r, days, currencies, depth):
    kind = r.choice(["pays", "on", "both", "both", "turned"]) if depth else "pays"
    if kind == "pays":
        return "pays", r.randrange(currencies), r.choice([1, -1, 7, 2**20, -(2**30), r.randint(-(10**6), 10**6)])
    if kind == "on":
        return "on", r.randrange(days + 2), any_contract(r, days, currencies, depth - 1)
    if kind == "turned":
        return "turned", any_contract(r, days, currencies, depth - 1)
    return "both", any_contract(r, days, currencies, depth - 1), any_contract(r, days, currencies, depth - 1)


def widest(days, currencies):
    """As many parts that wait as there may be, on all days and in all currencies: 254 marks, 85 rows."""
    x = ("on", 0, ("pays", 0, 1))
    for k in range(1, 85):
        x = "both", ("on", k % days, ("pays", k % currencies, k + 1)), x
    return x


def deepest():
    """As many parts that are turned as there may be, all marks one within the other."""
    x = "pays", 1, 5
    for _ in range(255):
        x = "turned", x
    return x


def wide(folder):
    """All deals that there may be, between all houses, in all currencies."""
    r = random.Random(1)
    book = Book(folder, 1024, 256, 64)

    def deal(c, day):
        holder = c % 1024
        other = (holder + 1 + c // 1024 * 61 % 1023) % 1024
        if c % 97 == 0:
            return holder, other, day, widest(30, 64)
        if c % 91 == 0:
            return holder, other, day, deepest()
        if c % 89 == 0:
            return holder, other, day, ("on", day, ("pays", 63, 2**40 - 1))
        return holder, other, day, any_contract(r, 30, 64, r.randrange(5))

    many = [40000, 0, 20000, 5000, 535, 1]
    for day in range(30):
        n = many[day] if day < len(many) else 0
        book.morning([deal(len(book.deals) + k, day) for k in range(n)])
    book.close(30)


def long(folder):
    """All days that there may be, and one more. On some days a deal comes, often the same one."""
    r = random.Random(2)
    book = Book(folder, 16, 1, 2)
    for day in range(65536):
        if day % 64 == 0:
            at = day + r.choice([0, 1, 63, 4096, 4097, 30000])
            book.morning([(day // 64 % 16, (day // 64 + 5) % 16, day, ("both", ("pays", 0, 9), ("on", min(at, 65535), ("pays", 1, day + 1))))])
        else:
            book.morning()
    book.morning()
    book.close(65536, ["refused 4 at 0"])


def calm(folder):
    """A hundred deals, each of which pays on some days far apart."""
    book = Book(folder, 16, 1, 2)
    deals = []
    for c in range(100):
        x = ("nothing",)
        for k in range(20):
            x = "both", ("on", 500 * k + 499, ("pays", c % 2, c + k + 1)), x
        deals.append((c % 16, (c + 3) % 16, 0, x))
    book.morning(deals)
    for _ in range(10009):
        book.morning()
    book.close(10010)


def main():
    folder = sys.argv[1]
    wide(os.path.join(folder, "wide"))
    long(os.path.join(folder, "long"))
    calm(os.path.join(folder, "calm"))


main()
