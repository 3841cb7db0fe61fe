#!/usr/bin/env python3
"""Measures `pdq exec` on plans of two steps with 1,000, 10,000 and 100,000 requests beside a Python script.

usage: bench/exec.py [--repeats N] [--program FILE]

The first step reads a relation of orders whole; the second looks up, for each order, its customer by number, one request a
customer. Every number of an order is another, so that a plan over n orders makes n requests more; one file has an order
for each customer, so the rows grow with the requests. The Python script does the same by a dictionary. The bytes that
`pdq` writes have to be those of the script. The exit status is 1 where an output differs.
"""
import argparse
import os
import random
import subprocess
import sys
import tempfile

sys.dont_write_bytecode = True
sys.path.insert(0, os.path.dirname(os.path.realpath(__file__)))
import bench  # noqa: E402

# one request for the orders, and one for each customer; 100,000 requests are the most that a run may make
ROWS = (999, 9999, 99999)
SCHEMA = """relation orders(number, customer)
relation customers(id, name, city)
method all_orders on orders() cost 1
method customer_by_id on customers(id) cost 1
source orders csv 'orders.csv'
source customers csv 'customers.csv'
"""
PLAN = """plan 3
branch
access all_orders(new, new)
access customer_by_id($1, new, new)
output $0, $2, $3
end
"""
PEER = """import csv, sys
def rows(name):
    with open(name, newline="", encoding="utf-8") as file:
        reader = csv.reader(file)
        next(reader)
        return list(reader)
customers = {}
for id, name, city in rows("customers.csv"):
    customers.setdefault(id, []).append((name, city))
found = {(number, name, city) for number, customer in rows("orders.csv") for name, city in customers.get(customer, [])}
writer = csv.writer(sys.stdout, lineterminator="\\n")
writer.writerow(["column1", "column2", "column3"])
writer.writerows(sorted(found))
"""


def make_case(folder, count):
    choose = random.Random(count)
    ids = list(range(count))
    choose.shuffle(ids)
    with open(f"{folder}/customers.csv", "w", encoding="utf-8") as file:
        file.write("id,name,city\n")
        file.writelines(f"c{id},name{choose.randrange(10**5)},city{choose.randrange(400)}\n" for id in range(count))
    with open(f"{folder}/orders.csv", "w", encoding="utf-8") as file:
        file.write("number,customer\n")
        file.writelines(f"{number},c{id}\n" for number, id in enumerate(ids))
    for name, text in (("s.pdq", SCHEMA), ("plan.txt", PLAN), ("peer.py", PEER)):
        with open(f"{folder}/{name}", "w", encoding="utf-8") as file:
            file.write(text)


def main():
    parser = argparse.ArgumentParser(description=__doc__, formatter_class=argparse.RawDescriptionHelpFormatter)
    parser.add_argument("--repeats", type=int, default=5)
    parser.add_argument("--program")
    given = parser.parse_args()
    program = bench.program_of(given.program)
    bench.row("requests", "pdq CPU ms", "wall ms", "peak MiB", "python CPU ms", "python / pdq", "same bytes as python")
    bench.row(*["---"] * 7)
    well, series = True, []
    with tempfile.TemporaryDirectory(prefix="pdq-bench-") as room:
        for count in ROWS:
            folder = f"{room}/{count}"
            os.mkdir(folder)
            make_case(folder, count)
            of, same = bench.run_case(folder, [program, "exec", "s.pdq", "plan.txt"], given.repeats)
            (cpu, wall, peak), python = of["pdq"], of["python"][0]
            bench.row(count + 1, f"{cpu * 1000:.0f}", f"{wall * 1000:.0f}", f"{peak / bench.MIB:.0f}", f"{python * 1000:.0f}",
                      f"{python / cpu:.1f}", "yes" if same else "NO")
            series.append((count, cpu))
            well = well and same
    print("\nGrowth of the CPU time between neighbouring sizes, as an exponent of the number of requests (that of n log n "
          f"beside it): {', '.join(bench.exponents(series))}.\nWanted: at most 1.3, and under three seconds for the largest.")
    return 0 if well else 1


if __name__ == "__main__":
    sys.exit(main())
