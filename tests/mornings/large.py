"""A morning at its bounds: 65,535 deals and 65,535 choices, for a start of 1,024 houses, 256 rates and 64 currencies.

  python3 tests/mornings/large.py FOLDER     writes FOLDER/start and FOLDER/morning; then: house FOLDER/start FOLDER/morning
"""
import os
import struct
import sys
from cases import choice, deal, morning

TEXT = 'both(pays 1099511627 63, turned(on 65535: both(pays -7 0, nothing)))'


def main(folder):
    os.makedirs(folder, exist_ok=True)
    deals = [deal(k % 1024, (k + 1) % 1024, k, TEXT) for k in range(65535)]
    choices = [choice(k, [k >> j & 1 for j in range(64)]) for k in range(65535)]
    data = morning(deals, [10**9] * 256, choices)
    open(os.path.join(folder, 'start'), 'wb').write(struct.pack('<HHB', 1024, 256, 64))
    open(os.path.join(folder, 'morning'), 'wb').write(data)
    print(len(data), 'bytes')


main(sys.argv[1])
