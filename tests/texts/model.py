# A second opinion on texts, apart from the program: which are refused, why and where, and what the others are written as.
# Syntax goes by a set of all partial parses, byte by byte; limits and ranges by a tree with numbers of any size.
RATES, CURRENCIES = 256, 64
GRAMMAR = {
    'C': [['nothing'], ['pays ', 'A', ' ', 'N'], ['turned(', 'C', ')'], ['both(', 'C', ', ', 'C', ')'], ['choice(', 'C', ', ', 'C', ')'],
          ['if ', 'F', ' then ', 'C', ' else ', 'C'], ['F', ' of ', 'C'], ['on ', 'N', ': ', 'C'], ['when ', 'F', ': ', 'C'], ['by ', 'N', ': ', 'C']],
    'F': [['A'], ['rate ', 'N'], ['rate ', 'N', ' ', 'N'], ['day'], ['(', 'F', ' + ', 'F', ')'], ['(', 'F', ' - ', 'F', ')'],
          ['(', 'F', ' * ', 'F', ')'], ['(', 'F', ' < ', 'F', ')'], ['max(', 'F', ', ', 'F', ')']],
    'A': [['N'], ['-', 'P']], 'N': [['0'], ['P']], 'P': [['D1'], ['D1', 'M']], 'M': [['D'], ['D', 'M']],
    'D': [[c] for c in '0123456789'], 'D1': [[c] for c in '123456789'],
}

def step(states, ch):
    out, seen, work = set(), set(), list(states)
    while work:
        st = work.pop()
        if st in seen or st is None:
            continue
        seen.add(st)
        sym, rest = st
        if sym in GRAMMAR:
            for production in GRAMMAR[sym]:
                s = rest
                for x in reversed(production):
                    s = (x, s)
                work.append(s)
        elif sym[0] == ch:
            out.add((sym[1:], rest) if len(sym) > 1 else rest)
    return out

def place(text):
    states = {('C', None)}
    for i, ch in enumerate(text):
        states = step(states, ch)
        if not states:
            return i
    return None if any(s is None for s in states) else len(text)

class Parser:
    # of a text that is a contract's; numbers with a limit are noted in order
    def __init__(self, text):
        self.t, self.i, self.numbers = text, 0, []
    def take(self, word):
        if self.t.startswith(word, self.i):
            self.i += len(word)
            return True
        return False
    def number(self, limit=None):
        j = self.i
        if self.t[self.i] == '-':
            self.i += 1
        while self.i < len(self.t) and self.t[self.i].isdigit():
            self.i += 1
        n = int(self.t[j:self.i])
        if limit is not None:
            self.numbers.append((j, limit, n))
        return n
    def figure(self):
        if self.take('day'):
            return ('day',)
        if self.take('rate '):
            k, n = self.number(RATES), 0
            if self.t[self.i] == ' ' and self.t[self.i + 1].isdigit():
                self.i += 1
                n = self.number(4097)
            return ('rate', k, n)
        if self.take('max('):
            e = self.figure(); self.take(', '); f = self.figure(); self.take(')')
            return ('max', e, f)
        if self.take('('):
            e = self.figure(); op = self.t[self.i + 1]; self.i += 3; f = self.figure(); self.take(')')
            return (op, e, f)
        return ('fixed', self.number())
    def contract(self):
        if self.take('nothing'):
            return ('nothing',)
        if self.take('pays '):
            a = self.number(); self.take(' ')
            return ('pays', a, self.number(CURRENCIES))
        if self.take('turned('):
            x = self.contract(); self.take(')')
            return ('turned', x)
        for word in ('both', 'choice'):
            if self.take(word + '('):
                x = self.contract(); self.take(', '); y = self.contract(); self.take(')')
                return (word, x, y)
        if self.take('if '):
            e = self.figure(); self.take(' then '); x = self.contract(); self.take(' else ')
            return ('if', e, x, self.contract())
        for word in ('on', 'by'):
            if self.take(word + ' '):
                d = self.number(65536); self.take(': ')
                return (word, d, self.contract())
        if self.take('when '):
            e = self.figure(); self.take(': ')
            return ('when', e, self.contract())
        e = self.figure(); self.take(' of ')
        return ('of', e, self.contract())

class Passed(Exception):
    pass

def below(n, limit):
    if n >= limit:
        raise Passed()
    return n

def largest(e):
    if e[0] == 'fixed':
        return below(abs(e[1]), 2**32)
    if e[0] == 'rate':
        return 10**9
    if e[0] == 'day':
        return 65536
    x, y = largest(e[1]), largest(e[2])
    return below({'*': x * y // 10**6 + 1, '<': 1}.get(e[0], x + y), 2**32)

def marks(e):
    return 1 if e[0] in ('fixed', 'rate', 'day', 'nothing', 'pays') else 1 + sum(marks(x) for x in e[1:] if isinstance(x, tuple))

def moved(x):
    # what it moves, its payments, and how deep a choice or by stands (-1: none)
    if x[0] == 'nothing':
        return 0, 0, -1
    if x[0] == 'pays':
        return below(abs(x[1]), 2**40), 1, -1
    figured = x[0] in ('if', 'when', 'of')
    scale = largest(x[1]) if figured else 0
    inner = [moved(y) for y in x[2 if figured else 1:] if isinstance(y, tuple)]
    m, p = sum(i[0] for i in inner), sum(i[1] for i in inner)
    if x[0] == 'of':
        m = m * scale // 10**6 + p
    deep = max([-1] + [i[2] + 1 for i in inner if i[2] >= 0] + ([0] if x[0] in ('choice', 'by') else []))
    return below(m, 2**40), p, deep

def shown(x):
    k = x[0]
    if k in ('nothing', 'day'):
        return k
    if k == 'fixed':
        return str(x[1])
    if k == 'rate':
        return 'rate %d' % x[1] + (' %d' % x[2] if x[2] else '')
    if k == 'pays':
        return 'pays %d %d' % x[1:]
    if k == 'turned':
        return 'turned(%s)' % shown(x[1])
    if k in ('both', 'choice', 'max'):
        return '%s(%s, %s)' % (k, shown(x[1]), shown(x[2]))
    if k == 'if':
        return 'if %s then %s else %s' % tuple(shown(y) for y in x[1:])
    if k == 'of':
        return '%s of %s' % (shown(x[1]), shown(x[2]))
    if k in ('on', 'by'):
        return '%s %d: %s' % (k, x[1], shown(x[2]))
    if k == 'when':
        return 'when %s: %s' % (shown(x[1]), shown(x[2]))
    return '(%s %s %s)' % (shown(x[1]), k, shown(x[2]))

def verdict(text):
    if len(text) > 8192:
        return 'refused 2 at 0'
    p = place(text)
    if p is not None:
        return 'refused 1 at %d' % p
    parser = Parser(text)
    x = parser.contract()
    try:
        if marks(x) > 256 or moved(x)[2] > 64:
            return 'refused 2 at 0'
    except Passed:
        return 'refused 2 at 0'
    for at, limit, n in parser.numbers:
        if n >= limit:
            return 'refused 2 at %d' % at
    return shown(x)
