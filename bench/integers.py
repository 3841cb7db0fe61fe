#!/usr/bin/env python3
"""Measures what columns of integers cost: the same work over the same files, by a schema of texts and by one of version 2 with integers.

usage: bench/integers.py [--repeats N] [--program FILE] [--before FILE] [--instructions] [WORK ..]

The work is a file of 8 MiB read, sorted and written, with one column of integers and with six; look-ups by 99,999 integer keys, alone and
as a batch of two queries; the rules tested on 60,000 orders; and a crawl of 50,001 rounds. Both schemas are run in turn, N times (5 if
left out), and have to write the same bytes. Shown are medians of the CPU time (user and system) and what the integers take of that of the
texts; a difference between two runs of one program shows how far to trust them.

--before is an earlier program, which is run over the schema of texts: what the program takes there beside it is what a schema without
sorts pays. --instructions counts by `valgrind --tool=callgrind`, one run each, which a busy machine does not move. Wanted is at most 1.1
for integers beside texts, and at most 1.03 for texts beside the earlier program. The exit status is 1 where an output differs.
"""
import argparse
import os
import random
import re
import statistics
import subprocess
import sys
import tempfile

sys.dont_write_bytecode = True
sys.path.insert(0, os.path.dirname(os.path.realpath(__file__)))
import bench  # noqa: E402

READ = bench.SCHEMA.replace("r(id,", "r(id INT,")
NUMBERS = "relation r(a INT, b INT, c INT, d INT, e INT, f INT)\nmethod all_r on r() cost 1\nsource r csv 'r.csv'\n"
LOOKUPS = """relation orders(number INT, customer INT)
relation customers(id INT, name, city)
method all_orders on orders() cost 1
method customer_by_id on customers(id) cost 1
source orders csv 'orders.csv'
source customers csv 'customers.csv'
"""
PLAN = "plan 3\nbranch\naccess all_orders(new, new)\naccess customer_by_id($1, new, new)\noutput $0, $2, $3\nend\n"
OF_ORDERS = "SELECT DISTINCT number, {} FROM orders, customers WHERE customer = id"
RULES = """relation orders(o INT, c INT)
relation lines(o INT, p INT, q INT)
foreign key lines(o) references orders(o)
source orders csv 'orders.csv'
source lines csv 'lines.csv'
"""
PATH = "relation edge(a INT, b INT)\nmethod by_a on edge(a) cost 1\nconstant 0\nsource edge csv 'edge.csv'\n"
CUSTOMERS, ORDERS, ROUNDS, MIB = 99999, 60000, 50001, 8


def table(path, header, rows):
    with open(path, "w", encoding="utf-8") as file:
        file.write(header + "\n")
        file.writelines(",".join(map(str, row)) + "\n" for row in rows)


def shuffled(choose, count):
    numbers = list(range(count))
    choose.shuffle(numbers)
    return numbers


def make_read(folder, choose):
    bench.make_file(f"{folder}/r.csv", "wide", MIB * bench.MIB)
    return {"q.sql": "SELECT DISTINCT id, name, amount FROM r\n"}


def make_numbers(folder, choose):
    rows = ([choose.randint(-10**9, 10**9) for _ in range(6)] for _ in range(MIB * bench.MIB // 65))
    table(f"{folder}/r.csv", "a,b,c,d,e,f", rows)
    return {"q.sql": "SELECT DISTINCT b, d, f FROM r\n"}


def make_lookups(folder, choose):
    customers = ((id, f"name{choose.randrange(10**5)}", f"city{choose.randrange(400)}") for id in range(CUSTOMERS))
    table(f"{folder}/customers.csv", "id,name,city", customers)
    table(f"{folder}/orders.csv", "number,customer", enumerate(shuffled(choose, CUSTOMERS)))
    return {"p.plan": PLAN, "b.sql": f"{OF_ORDERS.format('name')};\n{OF_ORDERS.format('city')}\n"}


def make_rules(folder, choose):
    table(f"{folder}/orders.csv", "o,c", ((order, choose.randrange(ORDERS)) for order in shuffled(choose, ORDERS)))
    table(f"{folder}/lines.csv", "o,p,q", ((choose.randrange(ORDERS), choose.randrange(ORDERS), number) for number in range(3 * ORDERS)))
    return {}


def make_path(folder, choose):
    table(f"{folder}/edge.csv", "a,b", ((number, number + 1) for number in shuffled(choose, ROUNDS - 1)))
    return {}


# the schema, what else the work needs, and the words behind the command and the schema
WORKS = {
    "read": (READ, make_read, "run {} q.sql"), "numbers": (NUMBERS, make_numbers, "run {} q.sql"),
    "look-ups": (LOOKUPS, make_lookups, "exec {} p.plan"), "batch": (LOOKUPS, make_lookups, "batch {} b.sql --calls 1000000"),
    "verify": (RULES, make_rules, "verify {}"), "crawl": (PATH, make_path, "crawl {} --calls 1000000"),
}


def make_case(folder, name):
    """Writes the files of a work, in a process of its own, so that this one stays small."""
    schema, make, _ = WORKS[name]
    files = {"t.pdq": schema.replace(" INT", ""), "i.pdq": "schema 2\n" + schema.replace(" INT", " int")}
    for file, text in {**files, **make(folder, random.Random(name))}.items():
        with open(f"{folder}/{file}", "w", encoding="utf-8") as out:
            out.write(text)


def instructions(words, folder):
    """How many millions of instructions a run takes."""
    words = ["valgrind", "--tool=callgrind", "--callgrind-out-file=/dev/null", *words]
    ran = subprocess.run(words, cwd=folder, capture_output=True, text=True)
    found = re.search(r"Collected : (\d+)", ran.stderr)
    if ran.returncode or not found:
        sys.exit(f"{' '.join(words)} was not counted: {ran.stderr[-300:]}")
    return int(found[1]) / 1e6


def figures(contenders, folder, repeats, counts):
    """For each contender its CPU time in ms, or its millions of instructions, and its peak; and whether all wrote the same bytes."""
    runs = {name: [] for name in contenders}
    for turn in range(repeats):
        names = list(contenders)
        for name in names[turn % len(names):] + names[:turn % len(names)]:
            runs[name].append(bench.measure(contenders[name], folder, f"{name}.out"))
    same = len({bench.contents(f"{folder}/{name}.out") for name in contenders}) == 1
    same = same and all(run[3] == 0 for of in runs.values() for run in of)
    cost = {name: statistics.median(run[0] for run in of) * 1000 for name, of in runs.items()}
    if counts:
        cost = {name: instructions(words, folder) for name, words in contenders.items()}
    return cost, {name: statistics.median(run[2] for run in of) for name, of in runs.items()}, same


def main():
    parser = argparse.ArgumentParser(description=__doc__, formatter_class=argparse.RawDescriptionHelpFormatter)
    parser.add_argument("--repeats", type=int, default=5)
    parser.add_argument("--program")
    parser.add_argument("--before")
    parser.add_argument("--instructions", action="store_true")
    parser.add_argument("--make", nargs=2, help=argparse.SUPPRESS)
    parser.add_argument("works", nargs="*", metavar="WORK", default=list(WORKS), help=f"some of {', '.join(WORKS)}")
    given = parser.parse_args()
    if given.make:
        make_case(*given.make)
        return 0
    program, unit = bench.program_of(given.program), "million instructions" if given.instructions else "CPU ms"
    bench.row("work", f"texts {unit}", f"integers {unit}", "integers / texts", "texts MiB", "integers MiB", f"before {unit}",
              "texts / before", "same bytes")
    bench.row(*["---"] * 9)
    well, most, most_before = True, 0.0, 0.0
    with tempfile.TemporaryDirectory(prefix="pdq-bench-") as room:
        for name in given.works:
            folder = f"{room}/{name}"
            os.mkdir(folder)
            subprocess.run([sys.executable, os.path.realpath(__file__), "--make", folder, name], check=True)
            words = lambda one, schema: [one, *WORKS[name][2].format(schema).split()]
            contenders = {"texts": words(program, "t.pdq"), "integers": words(program, "i.pdq")}
            contenders.update({"before": words(os.path.abspath(given.before), "t.pdq")} if given.before else {})
            cost, peak, same = figures(contenders, folder, given.repeats, given.instructions)
            ratio, beside = cost["integers"] / cost["texts"], cost["texts"] / cost["before"] if given.before else None
            bench.row(name, f"{cost['texts']:.1f}", f"{cost['integers']:.1f}", f"{ratio:.3f}", f"{peak['texts'] / bench.MIB:.1f}",
                      f"{peak['integers'] / bench.MIB:.1f}", f"{cost['before']:.1f}" if given.before else "-",
                      f"{beside:.3f}" if beside else "-", "yes" if same else "NO")
            well, most, most_before = well and same, max(most, ratio), max(most_before, beside or 0)
    print(f"\nIntegers take at most {most:.3f} times what texts take (wanted: 1.1).")
    if given.before:
        print(f"A schema of texts takes at most {most_before:.3f} times what it took before (wanted: 1.03).")
    return 0 if well else 1


if __name__ == "__main__":
    sys.exit(main())
