"""What the bytes of a start or a morning are, or the number and place of their refusal: written from the rules, apart from the proved program, and slow.

A text is tried in every way in which it could go on; the furthest byte that any of them reached is where it is refused.
"""

# THE LANGUAGE. A parser gives the set of (end, tree) for each way to read a part from a place on; `far` is the furthest byte that was read on any way.


class Reader:
    def __init__(self, text):
        self.text, self.far, self.memo = text, 0, {}

    def word(self, at, word):
        for b in word.encode():
            if at >= len(self.text) or self.text[at] != b:
                return []
            at += 1
            self.far = max(self.far, at)
        return [at]

    def number(self, at):
        """whole numbers, no leading 0: one for each number of digits"""
        ends, start = [], at
        while at < len(self.text) and 48 <= self.text[at] <= 57:
            if at > start and self.text[start] == 48:
                break
            at += 1
            self.far = max(self.far, at)
            ends.append((at, (int_of(self.text[start:at]), start)))
        return ends

    def amount(self, at):
        found = [(end, n) for end, (n, _) in self.number(at)]
        for after in self.word(at, '-'):
            if after < len(self.text) and self.text[after] == 48:
                continue
            found += [(end, -n) for end, (n, _) in self.number(after)]
        return found

    def chain(self, at, *parts):
        """parts one behind the other: a word, or a parser"""
        ways = [(at, ())]
        for part in parts:
            if isinstance(part, str):
                ways = [(end, got) for here, got in ways for end in self.word(here, part)]
            else:
                ways = [(end, got + (x,)) for here, got in ways for end, x in part(here)]
        return ways

    def remembered(self, name, at, work):
        key = (name, at)
        if key not in self.memo:
            self.memo[key] = work()
        return self.memo[key]

    def figure(self, at):
        def work():
            found = [(end, ('fixed', a)) for end, a in self.amount(at)]
            for end, (k,) in self.chain(at, 'rate ', self.number):
                found.append((end, ('rate', k, None)))
                for last, (n,) in self.chain(end, ' ', self.number):
                    found.append((last, ('rate', k, n)))
            found += [(end, ('day',)) for end in self.word(at, 'day')]
            for here, (e,) in self.chain(at, '(', self.figure):
                for space in self.word(here, ' '):
                    for op, name in ('+', 'plus'), ('-', 'minus'), ('*', 'times'), ('<', 'less'):
                        found += [(end, (name, e, f)) for end, (f,) in self.chain(space, op + ' ', self.figure, ')')]
            found += [(end, ('most', e, f)) for end, (e, f) in self.chain(at, 'max(', self.figure, ', ', self.figure, ')')]
            return found
        return self.remembered('figure', at, work)

    def contract(self, at):
        def work():
            found = [(end, ('nothing',)) for end in self.word(at, 'nothing')]
            found += [(end, ('pays', k, a)) for end, (a, k) in self.chain(at, 'pays ', self.amount, ' ', self.number)]
            found += [(end, ('turned', x)) for end, (x,) in self.chain(at, 'turned(', self.contract, ')')]
            for name in 'both', 'choice':
                found += [(end, (name, x, y)) for end, (x, y) in self.chain(at, name + '(', self.contract, ', ', self.contract, ')')]
            found += [(end, ('if', e, x, y)) for end, (e, x, y) in self.chain(at, 'if ', self.figure, ' then ', self.contract, ' else ', self.contract)]
            found += [(end, ('of', e, x)) for end, (e, x) in self.chain(at, self.figure, ' of ', self.contract)]
            for name in 'on', 'by':
                found += [(end, (name, d, x)) for end, (d, x) in self.chain(at, name + ' ', self.number, ': ', self.contract)]
            found += [(end, ('when', e, x)) for end, (e, x) in self.chain(at, 'when ', self.figure, ': ', self.contract)]
            return found
        return self.remembered('contract', at, work)


def int_of(digits):
    n = 0
    for b in digits:
        n = n * 10 + b - 48
    return n


# LIMITS AND RANGES

FIGURES = {'fixed', 'rate', 'day', 'plus', 'minus', 'times', 'most', 'less'}
MILLION = 1000000


def parts(x):
    """what stands in a contract or a figure right below it"""
    return [p for p in x[1:] if isinstance(p, tuple) and p and isinstance(p[0], str)]


def marks(x):
    return 1 + sum(marks(p) for p in parts(x))


def limit(e):
    kind = e[0]
    if kind == 'fixed':
        return abs(e[1])
    if kind == 'rate':
        return 10**9
    if kind == 'day':
        return 65536
    if kind == 'less':
        return 1
    a, b = limit(e[1]), limit(e[2])
    return a * b // MILLION + 1 if kind == 'times' else a + b


def pays_in(x):
    return 1 if x[0] == 'pays' else sum(pays_in(p) for p in parts(x) if p[0] not in FIGURES)


def moves(x):
    if x[0] == 'pays':
        return abs(x[2])
    if x[0] == 'of':
        return moves(x[2]) * limit(x[1]) // MILLION + pays_in(x[2])
    return sum(moves(p) for p in parts(x) if p[0] not in FIGURES)


def deepest(x, depth=0):
    """how deep the deepest choice or by stands, -1 if there is none"""
    here = depth if x[0] in ('choice', 'by') else -1
    return max([here] + [deepest(p, depth + 1) for p in parts(x) if p[0] not in FIGURES])


def all_parts(x):
    yield x
    for p in parts(x):
        yield from all_parts(p)


def within_limits(x):
    if marks(x) > 256 or deepest(x) > 64:
        return False
    return all(limit(p) < 2**32 if p[0] in FIGURES else moves(p) < 2**40 for p in all_parts(x))


def out_of_range(x, rates, currencies):
    """the place of the first number that is out of range, or None"""
    places = []
    for p in all_parts(x):
        if p[0] == 'pays' and p[1][0] >= currencies:
            places.append(p[1][1])
        if p[0] in ('on', 'by') and p[1][0] >= 65536:
            places.append(p[1][1])
        if p[0] == 'rate':
            if p[1][0] >= rates:
                places.append(p[1][1])
            if p[2] is not None and p[2][0] > 4096:
                places.append(p[2][1])
    return min(places) if places else None


def thin(x):
    return x[0] in ('nothing', 'pays', 'turned', 'both', 'on') and all(thin(p) for p in parts(x))


def text_refusal(text, rates, currencies, stage):
    """None, or the number and the place of a text's refusal"""
    if len(text) > 8192:
        return 2, 0
    reader = Reader(text)
    whole = [x for end, x in reader.contract(0) if end == len(text)]
    if not whole:
        return 1, reader.far
    x = whole[0]
    if not within_limits(x):
        return 2, 0
    place = out_of_range(x, rates, currencies)
    if place is not None:
        return 2, place
    if stage == 'thin' and not thin(x):
        return 1, 0
    return None


def goes_on(text):
    """how many bytes some contract's text begins with"""
    reader = Reader(text)
    reader.contract(0)
    return reader.far


# STARTS AND MORNINGS


class Refused(Exception):
    pass


class Bytes:
    def __init__(self, data):
        self.data, self.at = data, 0

    def take(self, n, signed=False, right=lambda v: True):
        if self.at + n > len(self.data):
            raise Refused(3, len(self.data))
        v = int.from_bytes(self.data[self.at:self.at + n], 'little', signed=signed)
        if not right(v):
            raise Refused(3, self.at)
        self.at += n
        return v

    def end(self):
        if self.at < len(self.data):
            raise Refused(3, self.at)


def start_of(data):
    b = Bytes(data)
    start = b.take(2, right=lambda v: v <= 1024), b.take(2, right=lambda v: v <= 256), b.take(1, right=lambda v: v <= 64)
    b.end()
    return start


def read_text(b, n, start, stage):
    at = b.at
    if n > 8192:
        raise Refused(2, at)
    there = b.data[at:at + n]
    if len(there) < n:
        far = goes_on(there)
        if at + far < len(b.data):
            raise Refused(1, at + far)
        raise Refused(3, len(b.data))
    refusal = text_refusal(there, start[1], start[2], stage)
    if refusal:
        raise Refused(refusal[0], at + refusal[1])
    b.at += n


def read_deal(b, start, day, stage, number):
    houses, at = start[0], b.at
    if number >= 65536:
        if at >= len(b.data):
            raise Refused(3, at)
        if at + 2 <= len(b.data) and int.from_bytes(b.data[at:at + 2], 'little') >= houses:
            raise Refused(3, at)
        raise Refused(4, at)
    holder = b.take(2, right=lambda v: v < houses)
    b.take(2, right=lambda v: v < houses and v != holder)
    b.take(4, right=lambda v: day <= v <= 65535)
    read_text(b, b.take(2), start, stage)


def morning_of(data, start, day, so_far, stage):
    """how many deals and choices a morning has"""
    b = Bytes(data)
    if day >= 65536:
        raise Refused(*((4, 0) if data else (3, 0)))
    deals = b.take(2)
    for k in range(deals):
        read_deal(b, start, day, stage, so_far + k)
    for _ in range(start[1]):
        b.take(8, signed=True, right=lambda v: abs(v) <= 10**9)
    choices = b.take(2)
    for _ in range(choices):
        b.take(4, right=lambda v: v <= 65535)
        for _ in range(b.take(1, right=lambda v: v <= 64)):
            b.take(1, right=lambda v: v <= 1)
    b.end()
    return deals, choices


def verdict(stage, start, day, so_far, data):
    """the line that is printed for a start and a morning"""
    try:
        return 'taken, %d deals, %d choices' % morning_of(data, start_of(start), day, so_far, stage)
    except Refused as e:
        return 'refused %d at %d' % e.args
