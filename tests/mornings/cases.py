"""Mornings, good and damaged, each with the verdict on it: the table below by hand, the others worked out by judge.py, which must agree with the table.

  python3 tests/mornings/cases.py     writes crates/judge_lines/stdin and stdout, and the book of crates/house with what must be printed for it, from the repository's root
"""
import os
import struct
import sys
from judge import verdict

sys.path.insert(0, os.path.join(os.path.dirname(__file__), '..'))
import model

START = struct.pack('<HHB', 4, 2, 1)    # four houses, two rates, one currency


def deal(holder, other, day, text, length=None):
    text = text.encode() if isinstance(text, str) else text
    return struct.pack('<HHIH', holder, other, day, len(text) if length is None else length) + text


def choice(number, way, length=None):
    return struct.pack('<IB', number, len(way) if length is None else length) + bytes(way)


def morning(deals=(), rates=(0, 0), choices=(), n=None, m=None):
    return (struct.pack('<H', len(deals) if n is None else n) + b''.join(deals) + struct.pack('<%dq' % len(rates), *rates)
            + struct.pack('<H', len(choices) if m is None else m) + b''.join(choices))


def both_deep(depth, inner):
    """a contract at some depth, 0 for all the way"""
    return 'turned(' * depth + inner + ')' * depth


def many_marks(n):
    """a contract with an odd number of marks"""
    return 'nothing' if n == 1 else 'both(nothing, ' + many_marks(n - 2) + ')'


GOOD = morning([deal(1, 3, 7, 'nothing'), deal(2, 3, 65535, 'both(pays 5 0, on 9: pays -1 0)')], (10**9, -10**9), [choice(7, [0, 1, 1]), choice(65535, [])])
ALL_FORMS = morning([
    deal(0, 1, 3, 'if (rate 0 < max(day, -1)) then choice(nothing, turned(pays 1 0)) else (rate 1 4096 * 3) of by 65535: when (1 - 0): nothing')],
    (1, -1), [choice(0, [1, 0])])
N = 'nothing'
ONE = [deal(0, 1, 3, N)]

# name, day, deals so far, morning, verdict; by a thin house on day 3 and with 5 deals so far where nothing is said
TABLE = [
    ('good', {}, GOOD, 'taken, 2 deals, 2 choices'),
    ('empty morning', {}, morning(), 'taken, 0 deals, 0 choices'),
    ('no bytes', {}, b'', 'refused 3 at 0'),
    ('one byte', {}, b'\0', 'refused 3 at 1'),
    ('goes on', {}, GOOD + b'\0', 'refused 3 at %d' % len(GOOD)),
    ('goes on by much', {}, morning() + bytes(9), 'refused 3 at 20'),
    # deals
    ('holder no house', {}, morning([deal(4, 1, 3, N)]), 'refused 3 at 2'),
    ('holder the last house', {}, morning([deal(3, 1, 3, N)]), 'taken, 1 deals, 0 choices'),
    ('holder by its high byte', {}, morning([deal(256, 1, 3, N)]), 'refused 3 at 2'),
    ('other no house', {}, morning([deal(0, 4, 3, N)]), 'refused 3 at 4'),
    ('other the same', {}, morning([deal(2, 2, 3, N)]), 'refused 3 at 4'),
    ('holder before other', {}, morning([deal(4, 4, 3, N)]), 'refused 3 at 2'),
    ('other before day', {}, morning([deal(1, 1, 2, N)]), 'refused 3 at 4'),
    ('day is over', {}, morning([deal(0, 1, 2, N)]), 'refused 3 at 6'),
    ('day is today', {}, morning([deal(0, 1, 3, N)]), 'taken, 1 deals, 0 choices'),
    ('day too late', {}, morning([deal(0, 1, 65536, N)]), 'refused 3 at 6'),
    ('last day', {}, morning([deal(0, 1, 65535, N)]), 'taken, 1 deals, 0 choices'),
    ('day by its high byte', {}, morning([deal(0, 1, 3 + 2**24, N)]), 'refused 3 at 6'),
    ('day before text', {}, morning([deal(0, 1, 2, 'no')]), 'refused 3 at 6'),
    ('more deals said than there', {}, morning(ONE, (), n=2), 'refused 3 at 21'),
    ('fewer deals said than there', {}, morning([deal(0, 1, 3, N), deal(1, 0, 3, N)], n=1), 'refused 3 at 19'),
    # texts: the first deal's begins at byte 12
    ('empty text', {}, morning([deal(0, 1, 3, '')]), 'refused 1 at 12'),
    ('first byte', {}, morning([deal(0, 1, 3, 'xothing')]), 'refused 1 at 12'),
    ('a byte in a text', {}, morning([deal(0, 1, 3, 'notxing')]), 'refused 1 at 15'),
    ('text ends too soon', {}, morning([deal(0, 1, 3, 'nothin')]), 'refused 1 at 18'),
    ('text goes on', {}, morning([deal(0, 1, 3, 'nothing ')]), 'refused 1 at 19'),
    ('text in the second deal', {}, morning([deal(0, 1, 3, N), deal(0, 1, 3, 'nothung')]), 'refused 1 at 33'),
    ('leading nought', {}, morning([deal(0, 1, 3, 'pays 01 0')]), 'refused 1 at 18'),
    ('minus nought', {}, morning([deal(0, 1, 3, 'pays -0 0')]), 'refused 1 at 18'),
    ('a long number is a number', {}, morning([deal(0, 1, 3, 'pays ' + '9' * 4000 + ' x')]), 'refused 1 at 4018'),
    ('amount at its limit', {}, morning([deal(0, 1, 3, 'pays %d 0' % (2**40 - 1))]), 'taken, 1 deals, 0 choices'),
    ('amount past its limit', {}, morning([deal(0, 1, 3, 'on 4: pays %d 0' % 2**40)]), 'refused 2 at 12'),
    ('amounts together past the limit', {}, morning([deal(0, 1, 3, 'both(pays %d 0, pays 1 0)' % (2**40 - 1))]), 'refused 2 at 12'),
    ('currency out of range', {}, morning([deal(0, 1, 3, 'pays 7 1')]), 'refused 2 at 19'),
    ('day of a text out of range', {}, morning([deal(0, 1, 3, 'on 65536: nothing')]), 'refused 2 at 15'),
    ('last day of a text', {}, morning([deal(0, 1, 3, 'on 65535: nothing')]), 'taken, 1 deals, 0 choices'),
    ('1 before 2 in one text', {}, morning([deal(0, 1, 3, 'on 65536: nothinx')]), 'refused 1 at 28'),
    ('the first 2', {}, morning([deal(0, 1, 3, 'both(pays 7 1, on 65536: nothing)')]), 'refused 2 at 24'),
    ('limit before range', {}, morning([deal(0, 1, 3, 'both(on 65536: nothing, pays %d 0)' % 2**40)]), 'refused 2 at 12'),
    ('marks at the limit', {}, morning([deal(0, 1, 3, many_marks(255))]), 'taken, 1 deals, 0 choices'),
    ('too many marks', {}, morning([deal(0, 1, 3, many_marks(257))]), 'refused 2 at 12'),
    ('rate out of range', {'stage': 'all'}, morning([deal(0, 1, 3, 'rate 2 of nothing')]), 'refused 2 at 17'),
    ('days before out of range', {'stage': 'all'}, morning([deal(0, 1, 3, 'rate 1 4097 of nothing')]), 'refused 2 at 19'),
    ('figure past its limit', {'stage': 'all'}, morning([deal(0, 1, 3, 'when %d: nothing' % 2**32)]), 'refused 2 at 12'),
    ('figure at its limit', {'stage': 'all'}, morning([deal(0, 1, 3, 'when %d: nothing' % (2**32 - 1))]), 'taken, 1 deals, 0 choices'),
    ('choice 64 deep', {'stage': 'all'}, morning([deal(0, 1, 3, both_deep(64, 'by 3: nothing'))]), 'taken, 1 deals, 0 choices'),
    ('choice too deep', {'stage': 'all'}, morning([deal(0, 1, 3, both_deep(65, 'by 3: nothing'))]), 'refused 2 at 12'),
    ('all forms', {'stage': 'all'}, ALL_FORMS, 'taken, 1 deals, 1 choices'),
    ('not built yet', {}, ALL_FORMS, 'refused 1 at 12'),
    ('not built within', {}, morning([deal(0, 1, 3, 'both(nothing, by 4: nothing)')]), 'refused 1 at 12'),
    ('out of range before not built', {}, morning([deal(0, 1, 3, 'by 65536: nothing')]), 'refused 2 at 15'),
    # texts too long, and cut
    ('longest text', {}, morning([deal(0, 1, 3, N + ' ' * 8185)]), 'refused 1 at 19'),
    ('text too long', {}, morning([deal(0, 1, 3, N + ' ' * 8186)]), 'refused 2 at 12'),
    ('text too long and cut', {}, morning(n=1) [:2] + deal(0, 1, 3, 'x', 8193), 'refused 2 at 12'),
    ('text too long, nothing there', {}, morning(n=1)[:2] + deal(0, 1, 3, '', 65535), 'refused 2 at 12'),
    ('text cut, nothing there', {}, morning(n=1)[:2] + deal(0, 1, 3, '', 1), 'refused 3 at 12'),
    ('text cut', {}, morning(n=1)[:2] + deal(0, 1, 3, 'noth', 7), 'refused 3 at 16'),
    ('text cut, 1 before the end', {}, morning(n=1)[:2] + deal(0, 1, 3, 'notxh', 7), 'refused 1 at 15'),
    ('text cut, 1 in the last byte', {}, morning(n=1)[:2] + deal(0, 1, 3, 'notx', 7), 'refused 1 at 15'),
    ('text cut behind a whole one', {}, morning(n=1)[:2] + deal(0, 1, 3, 'nothing', 9), 'refused 3 at 19'),
    ('no 2 of a text that was cut', {}, morning(n=1)[:2] + deal(0, 1, 3, 'on 65536: noth', 17), 'refused 3 at 26'),
    ('no 2 of a whole text that is cut', {}, morning(n=1)[:2] + deal(0, 1, 3, 'pays 7 9', 9), 'refused 3 at 20'),
    # rates: with no deals they begin at byte 2
    ('rate at its bound', {}, morning(rates=(10**9, -10**9)), 'taken, 0 deals, 0 choices'),
    ('rate above', {}, morning(rates=(10**9 + 1, 0)), 'refused 3 at 2'),
    ('rate below', {}, morning(rates=(0, -10**9 - 1)), 'refused 3 at 10'),
    ('least rate', {}, morning(rates=(0, -2**63)), 'refused 3 at 10'),
    ('rate by its high byte', {}, morning(rates=(2**62, 0)), 'refused 3 at 2'),
    ('rate cut', {}, morning()[:17], 'refused 3 at 17'),
    ('wrong rate before the end', {}, morning(rates=(10**9 + 1, 0))[:17], 'refused 3 at 2'),
    # choices: with two rates and no deals they begin at byte 20
    ('choice of the last deal', {}, morning(choices=[choice(65535, [])]), 'taken, 0 deals, 1 choices'),
    ('choice of a deal too many', {}, morning(choices=[choice(65536, [])]), 'refused 3 at 20'),
    ('choice by its high byte', {}, morning(choices=[choice(2**31, [])]), 'refused 3 at 20'),
    ('longest way', {}, morning(choices=[choice(0, [1] * 64)]), 'taken, 0 deals, 1 choices'),
    ('way too long', {}, morning(choices=[choice(0, [1] * 65)]), 'refused 3 at 24'),
    ('deal before length', {}, morning(choices=[choice(65536, [1] * 65)]), 'refused 3 at 20'),
    ('step above 1', {}, morning(choices=[choice(0, [0, 1, 2, 3])]), 'refused 3 at 27'),
    ('length before steps', {}, morning(choices=[choice(0, [2], 65)]), 'refused 3 at 24'),
    ('way cut', {}, morning(choices=[choice(0, [1], 2)]), 'refused 3 at 26'),
    ('wrong step before the end', {}, morning(choices=[choice(0, [2], 2)]), 'refused 3 at 25'),
    ('more choices said than there', {}, morning(m=1), 'refused 3 at 20'),
    ('fewer choices said than there', {}, morning(choices=[choice(0, []), choice(1, [])], m=1), 'refused 3 at 25'),
    ('the same choice twice', {}, morning(choices=[choice(0, [1]), choice(0, [1])]), 'taken, 0 deals, 2 choices'),
    # too many
    ('the last deal', {'so_far': 65535}, morning(ONE), 'taken, 1 deals, 0 choices'),
    ('a deal too many', {'so_far': 65536}, morning(ONE), 'refused 4 at 2'),
    ('the second deal too many', {'so_far': 65535}, morning([deal(0, 1, 3, N), deal(0, 1, 3, N)]), 'refused 4 at 19'),
    ('no deal, none too many', {'so_far': 65536}, morning(), 'taken, 0 deals, 0 choices'),
    ('3 before 4 at one byte', {'so_far': 65536}, morning([deal(4, 1, 3, N)]), 'refused 3 at 2'),
    ('4 before 3 behind it', {'so_far': 65536}, morning([deal(0, 4, 3, N)]), 'refused 4 at 2'),
    ('a deal too many, missing', {'so_far': 65536}, morning(n=1)[:2], 'refused 3 at 2'),
    ('a deal too many, one byte', {'so_far': 65536}, morning(n=1)[:2] + b'\0', 'refused 4 at 2'),
    ('the last morning', {'day': 65535}, morning([deal(0, 1, 65535, N)]), 'taken, 1 deals, 0 choices'),
    ('a morning too many', {'day': 65536}, morning(), 'refused 4 at 0'),
    ('a morning too many, one byte', {'day': 65536}, b'\0', 'refused 4 at 0'),
    ('a morning too many, empty', {'day': 65536}, b'', 'refused 3 at 0'),
    # other starts
    ('no houses', {'start': struct.pack('<HHB', 0, 0, 0)}, morning([deal(0, 1, 3, N)], ()), 'refused 3 at 2'),
    ('no rates', {'start': struct.pack('<HHB', 2, 0, 1)}, morning([deal(0, 1, 3, N)], ()), 'taken, 1 deals, 0 choices'),
    ('no currencies', {'start': struct.pack('<HHB', 2, 0, 0)}, morning([deal(0, 1, 3, 'pays 1 0')], ()), 'refused 2 at 19'),
    ('largest start', {'start': struct.pack('<HHB', 1024, 256, 64)}, morning([deal(1023, 0, 3, 'pays 1 63')], [5] * 256), 'taken, 1 deals, 0 choices'),
    ('too many houses', {'start': struct.pack('<HHB', 1025, 0, 0)}, morning(), 'refused 3 at 0'),
    ('too many rates', {'start': struct.pack('<HHB', 1024, 257, 0)}, morning(), 'refused 3 at 2'),
    ('too many currencies', {'start': struct.pack('<HHB', 1024, 256, 65)}, morning(), 'refused 3 at 4'),
]


def settings(stage='thin', start=START, day=3, so_far=5):
    return stage, start, day, so_far


def cut_everywhere(data):
    return [data[:n] for n in range(len(data))]


def changed_everywhere(data, values):
    """each single byte changed to each of several values, and up and down by 1"""
    for i, b in enumerate(data):
        for v in sorted((values | {(b + 1) % 256, (b - 1) % 256}) - {b}):
            yield data[:i] + bytes([v]) + data[i + 1:]


def all_cases():
    for name, how, data, expected in TABLE:
        got = verdict(*settings(**how), data)
        assert got == expected, (name, got, expected)
        yield settings(**how), data
    for stage, good, values in ('thin', GOOD, {0, 1, 2, 4, 32, 64, 65, 128, 255}), ('all', ALL_FORMS, {48}):
        for data in cut_everywhere(good):
            yield settings(stage), data
        for data in changed_everywhere(good, values):
            yield settings(stage), data
    for data in cut_everywhere(GOOD):
        yield settings(so_far=65535), data
        yield settings(day=65536), data


def write_lines(folder):
    with open(os.path.join(folder, 'stdin'), 'w') as lines, open(os.path.join(folder, 'stdout'), 'w') as said:
        for (stage, start, day, so_far), data in all_cases():
            head = bytes([stage == 'all']) + start + struct.pack('<II', day, so_far)
            lines.write((head + data).hex() + '\n')
            said.write(verdict(stage, start, day, so_far, data) + '\n')


# a book for the house: five houses, two rates, three currencies
BOOK_START = struct.pack('<HHB', 5, 2, 3)
FIRST = [
    deal(0, 1, 0, 'pays 100 0'),
    deal(1, 0, 0, 'pays 40 0'),
    deal(1, 2, 0, 'on 2: pays 7 0'),
    deal(3, 0, 0, 'both(pays 30 1, on 3: turned(pays 5 2))'),
    deal(4, 2, 0, 'turned(both(pays 9 2, turned(pays 4 0)))'),
    deal(2, 3, 0, 'both(pays 8 1, on 4: pays 1 1)'),
    deal(3, 2, 0, 'pays 8 1'),
    deal(4, 3, 2, 'pays 11 0'),
]
SECOND = morning([deal(3, 1, 1, 'both(on 0: pays 77 0, on 5: pays 6 0)'), deal(1, 3, 1, 'on 5: pays 6 0'), deal(2, 0, 4, 'on 3: pays 2 2')], (10**9, -10**9), [choice(7, [0, 1])])
# in order: what is refused is not done, and the next is tried as the same day
BOOK = [
    morning(FIRST, (1, -1)),
    SECOND[:30] + b'p' + SECOND[31:],
    SECOND[:-1],
    SECOND,
    morning([deal(0, 1, 2, 'pays -3 2')]) + b'\0',
    morning([deal(0, 1, 1, N)]),
    morning([deal(0, 1, 2, 'nothung')]),
    morning([deal(0, 1, 2, 'both(pays 5 0, by 4: nothing)')]),
    morning([deal(0, 1, 2, 'pays 1 3')]),
    morning([deal(0, 1, 2, 'pays -3 2'), deal(2, 1, 2, 'pays 7 0')]),
    morning(),
    morning([deal(4, 0, 4, 'on 4: both(pays 1099511627775 1, turned(on 4: nothing))')]),
    morning(),
]


def write_house(folder):
    """a run of the house: what is paid when, and what is refused, as the model has it; the other judge must agree"""
    os.makedirs(os.path.join(folder, 'data'), exist_ok=True)
    names, day, so_far, refused = ['start'], 0, 0, []
    open(os.path.join(folder, 'data', 'start'), 'wb').write(BOOK_START)
    for k, data in enumerate(BOOK):
        names.append('morning%02d' % k)
        open(os.path.join(folder, 'data', names[-1]), 'wb').write(data)
        line = verdict('thin', BOOK_START, day, so_far, data)
        if line.startswith('taken'):
            day, so_far = day + 1, so_far + int(line.split()[1])
        else:
            refused.append(line)
    said = model.run(BOOK_START, BOOK, True)
    assert [line for line in said if line.startswith('refused')] == refused
    open(os.path.join(folder, 'args'), 'w').write('\n'.join(names) + '\n')
    open(os.path.join(folder, 'stdout'), 'w').write('\n'.join(said) + '\n')


if __name__ == '__main__':
    write_lines('crates/judge_lines')
    write_house('crates/house')
    print(len(TABLE), 'by hand,', sum(1 for _ in all_cases()), 'in all')
