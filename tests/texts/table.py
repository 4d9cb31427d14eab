# Makes the lines of the program text_table: a table made by hand from the rules, and lines that the model judges. Each row of the table is also put to the model.
# Usage: python3 tests/texts/table.py, from the root; writes crates/text_table/stdin and stdout.
import os, sys
sys.setrecursionlimit(100000)
sys.set_int_max_str_digits(0)
sys.path.insert(0, os.path.dirname(__file__))
import model
SAME = None
def nest(word, n, inner='nothing'):
    return word * n + inner + ')' * n
def chain(word, n, inner):
    return word * n + inner
def pairs(n):
    # n marks, n odd: both(nothing, both(nothing, ..))
    return 'both(nothing, ' * ((n - 1) // 2) + 'nothing' + ')' * ((n - 1) // 2)
ROWS = [
    # every form
    ('nothing', SAME), ('pays 100 0', SAME), ('pays -1 63', SAME), ('turned(nothing)', SAME), ('both(nothing, pays 1 2)', SAME), ('choice(nothing, nothing)', SAME),
    ('if day then nothing else pays 1 0', SAME), ('rate 0 of pays 100 0', SAME), ('on 2: pays 100 0', SAME), ('when rate 0 1: nothing', SAME), ('by 2: pays 50 0', SAME),
    ('5 of nothing', SAME), ('-500000 of pays 3 0', SAME), ('rate 7 4096 of nothing', SAME), ('day of nothing', SAME), ('(1 + 2) of nothing', SAME), ('(1 - -2) of nothing', SAME),
    ('(1 * 2) of nothing', SAME), ('max(1, 2) of nothing', SAME), ('(1 < 2) of nothing', SAME),
    ('when (1000000 < rate 0): both(pays 7 0, turned(on 3: pays 7 1))', SAME), ('choice(nothing, (rate 0 - 1000000) of pays -101 0)', SAME),
    ('if rate 0 1 then pays 1 0 else pays 2 0', SAME), ('if 1 then if 2 then nothing else nothing else 3 of nothing', SAME),
    # rate k 0 is rate k
    ('rate 0 0 of nothing', 'rate 0 of nothing'), ('when (rate 5 0 + rate 5 10): nothing', 'when (rate 5 + rate 5 10): nothing'),
    # no contract: words, ends, numbers
    ('', 'refused 1 at 0'), ('x', 'refused 1 at 0'), ('nothin', 'refused 1 at 6'), ('nothink', 'refused 1 at 6'), ('nothing ', 'refused 1 at 7'), ('nothing)', 'refused 1 at 7'),
    ('b', 'refused 1 at 1'), ('bx', 'refused 1 at 1'), ('bot(', 'refused 1 at 3'), ('both(nothing,nothing)', 'refused 1 at 13'), ('both(nothing, nothing', 'refused 1 at 21'),
    ('pays', 'refused 1 at 4'), ('pays 1', 'refused 1 at 6'), ('pays 1 ', 'refused 1 at 7'), ('pays -0 1', 'refused 1 at 6'), ('pays 00 1', 'refused 1 at 6'), ('pays 1 01', 'refused 1 at 8'),
    ('pays 01 1', 'refused 1 at 6'), ('pays - 1', 'refused 1 at 6'), ('pays +1 1', 'refused 1 at 5'), ('on 02: nothing', 'refused 1 at 4'), ('on -1: nothing', 'refused 1 at 3'),
    ('by 1:nothing', 'refused 1 at 5'), ('when rate 0 x', 'refused 1 at 12'), ('when rate 0 ', 'refused 1 at 12'), ('rate 0  of nothing', 'refused 1 at 7'), ('rate 0 1 2', 'refused 1 at 9'),
    ('(1 / 2) of nothing', 'refused 1 at 3'), ('(1 + 2 of nothing', 'refused 1 at 6'), ('max(1 , 2) of nothing', 'refused 1 at 5'), ('if 1 then nothing', 'refused 1 at 17'),
    ('turned(nothing', 'refused 1 at 14'), ('Nothing', 'refused 1 at 0'), ('when 5:  nothing', 'refused 1 at 8'), ('day of', 'refused 1 at 6'), ('-05 of nothing', 'refused 1 at 1'),
    # numbers out of range, the first of them
    ('rate 255 of nothing', SAME), ('rate 256 of nothing', 'refused 2 at 5'), ('rate 0 4096 of nothing', SAME), ('rate 0 4097 of nothing', 'refused 2 at 7'),
    ('pays 1 63', SAME), ('pays 1 64', 'refused 2 at 7'), ('on 65535: nothing', SAME), ('on 65536: nothing', 'refused 2 at 3'), ('by 65535: nothing', SAME), ('by 65536: nothing', 'refused 2 at 3'),
    ('both(pays 1 64, on 65536: nothing)', 'refused 2 at 12'), ('on 65536: pays 1 64', 'refused 2 at 3'), ('rate 256 4097 of nothing', 'refused 2 at 5'), ('both(rate 0 4097 of nothing, pays 1 64)', 'refused 2 at 12'),
    ('pays 1 64x', 'refused 1 at 9'), ('on 70000: nothin', 'refused 1 at 16'),
    # limits, at the edge and one past it; a limit passed goes before a number out of range
    ('4294967295 of nothing', SAME), ('4294967296 of nothing', 'refused 2 at 0'), ('-4294967295 of nothing', SAME), ('-4294967296 of nothing', 'refused 2 at 0'),
    ('when (4294967294 + 1): nothing', SAME), ('when (4294967295 + 1): nothing', 'refused 2 at 0'), ('when (4294967294 - 1): nothing', SAME), ('when (4294967295 - 1): nothing', 'refused 2 at 0'),
    ('when max(4294967295, 0): nothing', SAME), ('when max(4294967295, 1): nothing', 'refused 2 at 0'), ('when (4294967295 < 4294967295): nothing', SAME), ('when (4294967296 < 0): nothing', 'refused 2 at 0'),
    ('when (4294967294 * 1000000): nothing', SAME), ('when (4294967295 * 1000000): nothing', 'refused 2 at 0'), ('when (rate 0 + 3294967295): nothing', SAME), ('when (rate 0 + 3294967296): nothing', 'refused 2 at 0'),
    ('when (day + 4294901759): nothing', SAME), ('when (day + 4294901760): nothing', 'refused 2 at 0'),
    ('pays 1099511627775 0', SAME), ('pays 1099511627776 0', 'refused 2 at 0'), ('pays -1099511627775 0', SAME), ('pays -1099511627776 0', 'refused 2 at 0'),
    ('both(pays 1099511627774 0, pays 1 1)', SAME), ('both(pays 1099511627774 0, pays 2 1)', 'refused 2 at 0'), ('choice(pays 1099511627775 0, nothing)', SAME), ('choice(pays 1099511627775 0, pays 1 0)', 'refused 2 at 0'),
    ('if 1 then pays 1099511627775 0 else nothing', SAME), ('if 1 then pays 1099511627775 0 else pays 1 0', 'refused 2 at 0'),
    ('1000000 of pays 1099511627774 0', SAME), ('1000000 of pays 1099511627775 0', 'refused 2 at 0'), ('2000000 of pays 549755813887 0', SAME), ('2000000 of pays 549755813888 0', 'refused 2 at 0'),
    ('1000000 of both(pays 1099511627773 0, pays 0 0)', SAME), ('1000000 of both(pays 1099511627774 0, pays 0 0)', 'refused 2 at 0'), ('4294967295 of 4294967295 of 1000 of pays 1 0', SAME),
    ('pays 1099511627776 64', 'refused 2 at 0'), ('both(pays 1 64, pays 1099511627776 0)', 'refused 2 at 0'), ('turned(4294967296 of pays 1 64)', 'refused 2 at 0'),
    # marks and depth
    (pairs(255), SAME), ('turned(' + pairs(255) + ')', SAME), (pairs(257), 'refused 2 at 0'), (pairs(301), 'refused 2 at 0'), (pairs(301) + ')', 'refused 1 at %d' % len(pairs(301))),
    (pairs(301)[:-1], 'refused 1 at %d' % (len(pairs(301)) - 1)), ('both(pays 1 64, ' + pairs(301) + ')', 'refused 2 at 0'),
    (nest('turned(', 64, 'by 1: nothing'), SAME), (nest('turned(', 65, 'by 1: nothing'), 'refused 2 at 0'), (nest('turned(', 200), SAME),
    (chain('on 1: ', 64, 'choice(nothing, nothing)'), SAME), (chain('on 1: ', 65, 'choice(nothing, nothing)'), 'refused 2 at 0'), (chain('by 1: ', 65, 'nothing'), SAME), (chain('by 1: ', 66, 'nothing'), 'refused 2 at 0'),
    # long texts
    ('(' * 8192, 'refused 1 at 8192'), ('(' * 8193, 'refused 2 at 0'), ('turned(' * 1170, 'refused 1 at 8190'), ('x' * 8192, 'refused 1 at 0'), ('x' * 8193, 'refused 2 at 0'),
    ('pays 1' + '0' * 3999 + ' 0', 'refused 2 at 0'), ('on 1' + '0' * 3999 + ': nothing', 'refused 2 at 3'), ('1' * 4000 + 'x', 'refused 1 at 4000'), ('rate 0 ' + '9' * 4000 + ' of pays 1 0', 'refused 2 at 7'),
    ('1' * 8181 + ' of nothing', 'refused 2 at 0'), ('when day: ' * 200 + 'nothing', 'refused 2 at 0'), ('rate 0 of ' * 819 + 'x', 'refused 1 at 8190'),
]
def main():
    out = []
    for text, expected in ROWS:
        expected = text if expected is SAME else expected
        if text.count('(') < 2000 and model.verdict(text) != expected:
            print('the model says', model.verdict(text), 'of', text[:80], 'and the table', expected)
        out.append((text, expected))
    rows = len(out)
    for line in open(os.path.join(os.path.dirname(__file__), 'lines.txt')):
        text = line.rstrip('\n')
        out.append((text, model.verdict(text)))
    with open('crates/text_table/stdin', 'w') as f:
        f.write(''.join(t + '\n' for t, _ in out))
    with open('crates/text_table/stdout', 'w') as f:
        f.write(''.join(e + '\n' for _, e in out))
    print(rows, 'rows by hand,', len(out) - rows, 'more')
main()
