"""Compares programs with the model on books made up at random: compare.py PROGRAM... [HOW MANY] [FIRST SEED] [thin]. With `thin` the books are of contracts that a thin house
takes; a damaged text may still become another that is in bounds. A program called `house` is a thin house, others take every contract. Prints the first book on which one differs, and
keeps its files in the folder that it names."""

import os
import subprocess
import sys
import tempfile

import model


def wanted(program, start, mornings):
    return model.run(start, mornings, os.path.basename(program) == "house")


def main():
    words = [w for w in sys.argv[1:] if w != "thin"]
    programs = [w for w in words if not w.isdigit()]
    numbers = [int(w) for w in words if w.isdigit()]
    many = numbers[0] if numbers else 200
    first = numbers[1] if len(numbers) > 1 else 0
    lines = 0
    for seed in range(first, first + many):
        start, mornings = model.Maker(seed, "thin" in sys.argv, "thin" in sys.argv).book()
        folder = tempfile.mkdtemp(prefix="book")
        names = []
        for i, data in enumerate([start] + mornings):
            names.append(os.path.join(folder, f"{i}.bin"))
            with open(names[-1], "wb") as f:
                f.write(data)
        for program in programs:
            got = subprocess.run([program] + names, capture_output=True, text=True)
            want = wanted(program, start, mornings)
            if got.returncode != 0 or got.stdout.splitlines() != want:
                print(f"seed {seed}, {program}, status {got.returncode}: files in {folder}")
                print("wanted:", *want, sep="\n  ")
                print("got:", *got.stdout.splitlines(), sep="\n  ")
                sys.exit(1)
            lines += len(want)
        for name in names:
            os.remove(name)
        os.rmdir(folder)
    print(f"{many} books, {len(programs)} programs, {lines} lines: the same")


main()
