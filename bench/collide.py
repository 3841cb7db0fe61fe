#!/usr/bin/env python3
"""Measures `pdq exec` where the values of a look-up were made to hash alike, beside ordinary values of the same length.

usage: bench/collide.py [--repeats N] [--program FILE]

The plan is that of bench/exec.py: the orders are read whole, and the customer of each is looked up by its number. In one
series the numbers are random letters. In the other each is made of 15 words whose hashes are equal in their last 17 bits,
so all customers have one code. Shown are medians of CPU time. The bytes that `pdq` writes have to be those of the Python
script of bench/exec.py. The exit status is 1 where an output differs.
"""
import argparse
import os
import random
import string
import sys
import tempfile

sys.dont_write_bytecode = True
sys.path.insert(0, os.path.dirname(os.path.realpath(__file__)))
import bench  # noqa: E402
import exec as lookups  # noqa: E402

# powers of two, as the codes are hashes modulo the number of rows
ROWS = (2048, 4096, 8192, 32768)
# each byte of a text is added to 1099511628211 times the hash before it, in 64 bits
WORDS = ("aaaa", "fjgg")
LENGTH = 15


def ordinary(choose, number):
    return "".join(choose.choices(string.ascii_lowercase, k=LENGTH * len(WORDS[0])))


def colliding(choose, number):
    return "".join(WORDS[number >> place & 1] for place in range(LENGTH))


def make_case(folder, count, named):
    choose = random.Random(count)
    numbers = [named(choose, number) for number in range(count)]
    with open(f"{folder}/customers.csv", "w", encoding="utf-8") as file:
        file.write("id,name,city\n")
        file.writelines(f"{id},name{choose.randrange(10**5)},city{choose.randrange(400)}\n" for id in numbers)
    choose.shuffle(numbers)
    with open(f"{folder}/orders.csv", "w", encoding="utf-8") as file:
        file.write("number,customer\n")
        file.writelines(f"{number},{id}\n" for number, id in enumerate(numbers))
    for name, text in (("s.pdq", lookups.SCHEMA), ("plan.txt", lookups.PLAN), ("peer.py", lookups.PEER)):
        with open(f"{folder}/{name}", "w", encoding="utf-8") as file:
            file.write(text)


def main():
    parser = argparse.ArgumentParser(description=__doc__, formatter_class=argparse.RawDescriptionHelpFormatter)
    parser.add_argument("--repeats", type=int, default=5)
    parser.add_argument("--program")
    given = parser.parse_args()
    program = bench.program_of(given.program)
    bench.row("rows", "ordinary CPU ms", "colliding CPU ms", "colliding / ordinary", "same bytes as python")
    bench.row(*["---"] * 5)
    well, series = True, []
    with tempfile.TemporaryDirectory(prefix="pdq-bench-") as room:
        for count in ROWS:
            took = []
            for named in (ordinary, colliding):
                folder = f"{room}/{named.__name__}-{count}"
                os.mkdir(folder)
                make_case(folder, count, named)
                of, same = bench.run_case(folder, [program, "exec", "s.pdq", "plan.txt"], given.repeats)
                took.append(of["pdq"][0])
                well = well and same
            bench.row(count, f"{took[0] * 1000:.0f}", f"{took[1] * 1000:.0f}", f"{took[1] / took[0]:.1f}", "yes" if well else "NO")
            series.append((count, took[1]))
    print("\nGrowth of the colliding CPU time between neighbouring sizes, as an exponent of the number of rows (that of n log n beside "
          f"it): {', '.join(bench.exponents(series))}.\nWanted: at most twice the ordinary time.")
    return 0 if well else 1


if __name__ == "__main__":
    sys.exit(main())
