#!/usr/bin/env python3
"""Spells the repository's own names of specs/ and proofs/ as the library does: types in camel case, all else in snake case.

  tools/spell_names.py [--dry]      from the repository's root; run once. --dry only lists names that would fall together

A name is turned where the repository declares it: definitions, lemmas, records, fields, constructors and what stands in a `module _`.
Names that the checker makes (a function's goals, the steps of its code) and the library's names stay as they are.
"""
import collections
import os
import re
import sys

DRY = '--dry' in sys.argv
NAME = r"[A-Za-z_][A-Za-z0-9_'-]*"
WORD = re.compile(r"(?<![A-Za-z0-9_'-])" + NAME)
# where a name would fall together with another one
OTHER = {
    'Too-many': 'IsTooMany',
    'Rate-end': 'RateEnding',
    'Rate-end-numerals': 'RateEndingNumerals',
    'Within-limits': 'IsWithinLimits',
}
# types that the kit's script took for words, and a type under another name
TYPES = {'Goes_on': 'GoesOn', 'Laid_out': 'LaidOut', 'Deal-due': 'DealDue'}
# lemmas of the name of the function whose contract they are, that the kit's script has spelt, and the files that speak of them
LATE = {
    'all_short': ['Short', 'Kept', 'all_short/Answers'],
    'nothing_left': ['Left', 'nothing_left/Answers'],
    'sums_kept': ['Books', 'sums_kept/Answers'],
    'skipped': ['Sleep', 'Morning', 'skipped/Answers'],
}
# lemmas of the name of the function whose contract they are
LEMMAS = """chosen-is-there counted-in-order day-by-day examples-hold few-entries few-rows finished-anything left-is-all morning-in-order
not-before paid-within paired-is-paid past-stays payments-in-order place-tells rows-placed shared-day shared-deal sums-short turned-twice
two-sided within-limit exact-when-short stands-anew over-million""".split()


def files(*ends):
    for top, dirs, names in os.walk('crates'):
        dirs[:] = sorted(d for d in dirs if d not in ('out', 'target'))
        for name in sorted(names):
            if name.endswith(ends):
                yield os.path.join(top, name)


def declared():
    """The names with a dash that the repository's own definitions, lemmas, records and cases have."""
    names, library = set(), set()
    for path in files('.antt', '.rt'):
        for line in open(path, encoding='utf-8'):
            if re.match(r"(?:ghost )?use (?:Rattle\.std|borrow|Prim)\b", line):
                library.update(WORD.findall(line))
            m = re.match(r"^\s*(?:pub )?(?:abbrev |unfoldable )?(?:pub )?(?:data |record )?(%s)(?: [({].*)? :(?: (\S+))?" % NAME, line)
            if not m or '-' not in m.group(1):
                continue
            if (m.group(2) or '').startswith('goal.'):
                continue
            names.add(m.group(1))
    return names - library


def spelled(name):
    if name in OTHER:
        return OTHER[name]
    if name in LEMMAS:
        return name.replace('-', '_') + '_lem'
    if name[0].isupper():
        return ''.join(p[:1].upper() + p[1:] for p in name.split('-'))
    return name.replace('-', '_')


def is_field(name, path, text, at):
    """Whether a word is a record's field, and not the lemma of that name."""
    line = text[text.rfind('\n', 0, at) + 1:text.find('\n', at)]
    return text[at - 1] == '.' or '/specs/' in path or not path.startswith('crates/deals/proofs/') or re.search(r'\b%s = ' % name, line) is not None


def commented(text, at):
    return '--' in text[text.rfind('\n', 0, at) + 1:at]


def turned(m, names, path, text):
    word = m.group(0)
    if word in ('few-rows', 'few-entries', 'two-sided') and is_field(word, path, text, m.start()):
        return names[word].removesuffix('_lem')
    if word == 'over-million' and text[m.start() - 1] == '.':
        return 'over_million'
    return names.get(word, word)


def main():
    names = {n: spelled(n) for n in declared()} | TYPES
    back = collections.defaultdict(list)
    for old, new in names.items():
        back[new].append(old)
    for new, olds in back.items():
        if len(olds) > 1:
            print('fall together:', olds, new)
    pages = list(files('.antt', '.rt', '.edit')) + ['README.md'] + ['docs/' + n for n in sorted(os.listdir('docs')) if n.endswith('.md')]
    for path in pages:
        text = open(path, encoding='utf-8').read()
        words = set(WORD.findall(text))
        for w in sorted(words):
            if w in names and names[w] in words:
                print('meet:', path, w, names[w])
        new = WORD.sub(lambda m: turned(m, names, path, text), text)
        for name, places in LATE.items():
            if path in ['crates/deals/proofs/%s.antt' % p for p in places]:
                new = re.sub(r"(?<![\w.'-])%s(?![\w'-])(?! =)" % name, lambda m: m.group(0) if commented(new, m.start()) else name + '_lem', new)
        if new != text and not DRY:
            open(path, 'w', encoding='utf-8').write(new)


main()
