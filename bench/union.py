#!/usr/bin/env python3
"""Measures a union of 16 selects beside its 16 selects one by one.

usage: bench/union.py [--repeats N] [--program FILE]

The one by one are 16 runs, each of which reads the schema too; their CPU times are added up. Three workloads:

- keys: `explain`. 60 tables in six layers, two foreign keys from each to the next layer, a look-up by key for each, and lists. Each select
  goes along other keys, from a number that it gives or that a list has.
- lists: `run`. Each select takes the rows of one kind from a list of 40,000 rows and looks them up in a second one.
- stuck: `explain`. As keys, but the last select has no way in, so there is no plan.

The rows of `lists` have to be those of the 16 answers together. A plan of `keys` has to have the 16 branches, and `stuck` has to end without
a plan. The exit status is 1 where that is not so.
"""
import argparse
import os
import random
import re
import statistics
import sys
import tempfile

sys.dont_write_bytecode = True
sys.path.insert(0, os.path.dirname(os.path.realpath(__file__)))
import bench  # noqa: E402

SELECTS, LAYERS, WIDTH, ROWS, KINDS = 16, 6, 10, 40_000, 400


def keys_schema(choose):
    """The schema, and the targets of the keys of each table."""
    targets, lines = {}, ["relation numbers(id)", "method list_numbers on numbers() cost 3"]
    for layer in range(LAYERS):
        for place in range(WIDTH):
            name, last = f"t{layer}_{place}", layer == LAYERS - 1
            targets[name] = [] if last else [f"t{layer + 1}_{choose.randrange(WIDTH)}" for _ in range(2)]
            keys = "" if last else "k0, k1, "
            lines += [f"relation {name}(id, {keys}note)", f"method get_{name} on {name}(id) cost 1"]
            lines += [f"method list_{name} on {name}() cost 20"] if layer and choose.random() < 0.3 else []
    for name, others in targets.items():
        lines += [f"foreign key {name}(k{number}) references {other}(id)" for number, other in enumerate(others)]
        lines += [f"foreign key {name}(id) references numbers(id)"] if name.startswith("t0_") and name != "t0_0" else []
    return "".join(f"{line}\n" for line in lines), targets


def keys_select(choose, targets, number, given):
    """A select along keys from a table of the first layer, from a number that is given or not. That of number 0 is in no list."""
    name = f"t0_{number % WIDTH}"
    froms, conditions = [f"{name} AS a0"], [f"a0.id = '{number}'"] if given else []
    for step in range(1, LAYERS):
        key = choose.randrange(2)
        name = targets[name][key]
        froms.append(f"{name} AS a{step}")
        conditions.append(f"a{step - 1}.k{key} = a{step}.id")
    return f"SELECT DISTINCT a{LAYERS - 1}.note FROM {', '.join(froms)}" + (f" WHERE {' AND '.join(conditions)}" if conditions else "")


def keys(is_stuck):
    choose = random.Random(16)
    schema, targets = keys_schema(choose)
    selects = [keys_select(choose, targets, number, number % 2 == 0) for number in range(1, SELECTS + 1)]
    if is_stuck:
        selects[-1] = keys_select(choose, targets, 0, False)
    return {"s.pdq": schema}, selects


def lists():
    choose = random.Random(17)
    schema = ("relation r(id, kind)\nrelation s(id, name)\nmethod all_r on r() cost 1\nmethod s_by_id on s(id) cost 1\n"
              "source r csv 'r.csv'\nsource s csv 's.csv'\n")
    first = "id,kind\n" + "".join(f"{number},k{choose.randrange(KINDS)}\n" for number in range(ROWS))
    second = "id,name\n" + "".join(f"{number},name{choose.randrange(10**6)}\n" for number in range(ROWS))
    selects = [f"SELECT DISTINCT s.name FROM r, s WHERE r.kind = 'k{kind}' AND s.id = r.id" for kind in range(SELECTS)]
    return {"s.pdq": schema, "r.csv": first, "s.csv": second}, selects


def rows(path):
    return bench.contents(path).decode().split("\n")[1:-1]


def wrong(name, folder, status):
    """Whether the union of the workload did not do what it has to."""
    text = bench.contents(f"{folder}/union.out").decode()
    if name == "stuck":
        return status != 1 or not text.startswith("no plan\n")
    if name == "keys":
        return status != 0 or len(re.findall("^branch$", text, re.MULTILINE)) != SELECTS
    return status != 0 or rows(f"{folder}/union.out") != sorted({row for number in range(SELECTS) for row in rows(f"{folder}/{number}.out")})


def measured(folder, program, command, repeats):
    """The median CPU seconds of the union and of each select, the peak of the union, the greatest of a select, and the union's status."""
    names = ["union", *map(str, range(SELECTS))]
    runs = {name: [] for name in names}
    for _ in range(repeats):
        for name in names:
            runs[name].append(bench.measure([program, command, "s.pdq", f"{name}.sql"], folder, f"{name}.out"))
    cpu = {name: statistics.median(run[0] for run in of) for name, of in runs.items()}
    peak = {name: max(run[2] for run in of) for name, of in runs.items()}
    return cpu["union"], [cpu[name] for name in names[1:]], peak["union"], max(peak[name] for name in names[1:]), runs["union"][0][3]


def main():
    parser = argparse.ArgumentParser(description=__doc__, formatter_class=argparse.RawDescriptionHelpFormatter)
    parser.add_argument("--repeats", type=int, default=5)
    parser.add_argument("--program")
    given = parser.parse_args()
    program = bench.program_of(given.program)
    bench.row("workload", "union CPU ms", "one by one CPU ms", "union / one by one", "union peak MiB", "greatest peak of one MiB", "as it has to be")
    bench.row(*["---"] * 7)
    well = True
    with tempfile.TemporaryDirectory(prefix="pdq-bench-") as room:
        for name, command, (files, selects) in (("keys", "explain", keys(False)), ("lists", "run", lists()), ("stuck", "explain", keys(True))):
            folder = f"{room}/{name}"
            os.mkdir(folder)
            texts = {"union.sql": "\nUNION\n".join(selects), **{f"{number}.sql": select for number, select in enumerate(selects)}}
            for file, text in {**files, **texts}.items():
                with open(f"{folder}/{file}", "w", encoding="utf-8") as to:
                    to.write(text)
            union, each, peak, most, status = measured(folder, program, command, given.repeats)
            right = not wrong(name, folder, status)
            bench.row(name, f"{union * 1000:.0f}", f"{sum(each) * 1000:.0f}", f"{union / sum(each):.2f}", f"{peak / bench.MIB:.0f}",
                      f"{most / bench.MIB:.0f}", "yes" if right else "NO")
            well = well and right
    print("\nWanted: at most 1.2 for keys and lists; for stuck less than 1, since no select is searched for a cheaper branch before the last one"
          "\nis found to have none.")
    return 0 if well else 1


if __name__ == "__main__":
    sys.exit(main())
