#!/usr/bin/env python3
"""Measures what several workers save over a source whose calls take work, and what they cost where there is nothing to save.

usage: bench/lanes.py [--repeats N] [--scratch FOLDER] [--working FILE] [--program FILE]

Copies the crates to a scratch folder, adds the program of bench/lane_speed.main there, and proves and builds it by `rt run`: that takes as
long as a build by the launcher where the machine has not proved the libraries. Then, medians of N runs each (5 if left out), by 1, 2, 4
and 8 workers:

- `working`: `world 200` over a source whose calls take some thousandth of a second each, 1,401 of them in eight rounds. What counts is
  wall time; with one worker a call takes the time shown as `ms a call`.
- `look-ups`: `exec` of 60,000 look-ups in a file, where what counts is CPU time.
- `chain`: `exec` of a plan of 2,000 steps with one request each over generated rows, where what counts is CPU time.

The last two are run by --program, or else by the program that ./pdq would run. All runs of a kind have to write the same bytes.
"""
import argparse
import os
import resource
import shutil
import statistics
import subprocess
import sys
import tempfile
import time

TOP = os.path.realpath(f"{os.path.dirname(os.path.realpath(__file__))}/..")
sys.path.insert(0, f"{TOP}/bench")

import bench  # noqa: E402

WORKERS = (1, 2, 4, 8)
PERSONS, ROWS, STEPS = 200, 60_000, 2_000
NAME = "lane_speed"


def built(folder):
    """The program of bench/lane_speed.main, built in the scratch folder."""
    if not os.path.exists(f"{folder}/crates"):
        shutil.copytree(f"{TOP}/crates", f"{folder}/crates", ignore=shutil.ignore_patterns("must-fail", "out"))
        shutil.copy2(f"{TOP}/HANDLES", folder)
    uses = "pdq_core command_io system_io world_source source_trait row_text meaning lists"
    with open(f"{TOP}/crates.txt") as known, open(f"{folder}/crates.txt", "w") as out:
        out.write(known.read() + f"{NAME}: {uses}\n")
    crate = f"{folder}/crates/{NAME}"
    os.makedirs(f"{crate}/src", exist_ok=True)
    shutil.copy2(f"{TOP}/bench/lane_speed.main", f"{crate}/src/main.rt")
    # without words the program ends with status 3, which the builder hands on
    subprocess.run(["rt", "run"], cwd=crate, stdin=subprocess.DEVNULL)
    return f"{crate}/out/{NAME}"


def timed(command, folder):
    """CPU seconds, wall seconds, and what was written."""
    before, begun = resource.getrusage(resource.RUSAGE_CHILDREN), time.perf_counter()
    ran = subprocess.run(command, cwd=folder, stdin=subprocess.DEVNULL, stdout=subprocess.PIPE, stderr=subprocess.PIPE)
    wall, after = time.perf_counter() - begun, resource.getrusage(resource.RUSAGE_CHILDREN)
    if ran.returncode:
        sys.exit(f"{' '.join(command)} ended with {ran.returncode}: {ran.stderr[-300:]!r}")
    return after.ru_utime + after.ru_stime - before.ru_utime - before.ru_stime, wall, (ran.stdout, ran.stderr)


def look_ups(folder):
    """Files and a plan of one look-up for each row of a file."""
    with open(f"{folder}/s.pdq", "w") as schema:
        schema.write("relation o(id, c)\nrelation c(id, n)\nmethod all_o on o() cost 1\nmethod c_by_id on c(id) cost 1\n"
                     "source o csv 'o.csv'\nsource c csv 'c.csv'\n")
    with open(f"{folder}/o.csv", "w") as orders, open(f"{folder}/c.csv", "w") as customers:
        orders.write("id,c\n" + "".join(f"{number},{number * 7919 % ROWS}\n" for number in range(ROWS)))
        customers.write("id,n\n" + "".join(f"{number},name{number}\n" for number in range(ROWS)))
    with open(f"{folder}/p.plan", "w") as plan:
        plan.write("plan 2\nbranch\naccess all_o(new, new)\naccess c_by_id($1, new)\noutput $0, $2\nend\n")


def chain(folder):
    """A plan in which each step looks up what the step before it gave, over generated rows."""
    with open(f"{folder}/s.pdq", "w") as schema:
        schema.write("relation e(a, b)\nmethod by_a on e(a) cost 1\nsource e world '1/10000'\nconstant '0'\n")
    with open(f"{folder}/p.plan", "w") as plan:
        steps = "".join(f"access by_a(${step - 1}, new)\n" for step in range(1, STEPS))
        plan.write(f"plan 1\nbranch\naccess by_a('0', new)\n{steps}output ${STEPS - 1}\nend\n")


def series(name, command, folder, repeats):
    """The lines of one kind of run by each number of workers."""
    alone = None
    for workers in WORKERS:
        runs = [timed([*command, "--workers", str(workers)], folder) for _ in range(repeats)]
        cpu, wall = (statistics.median(run[part] for run in runs) for part in (0, 1))
        alone = alone or (cpu, wall, runs[0][2])
        if any(run[2] != alone[2] for run in runs):
            sys.exit(f"{name}: {workers} workers wrote other bytes")
        print(f"| {name} | {workers} | {wall:.3f} | {wall / alone[1]:.2f} | {cpu:.3f} | {cpu / alone[0]:.2f} |")
    return alone[1]


def main():
    parser = argparse.ArgumentParser()
    parser.add_argument("--repeats", type=int, default=5)
    parser.add_argument("--scratch")
    parser.add_argument("--working")
    parser.add_argument("--program")
    words = parser.parse_args()
    program = bench.program_of(words.program)
    with tempfile.TemporaryDirectory(prefix="lanes-") as own:
        working = os.path.realpath(words.working or built(words.scratch or f"{own}/crates_of_it"))
        print("| runs | workers | wall s | of one worker's | CPU s | of one worker's |\n| --- | --- | --- | --- | --- | --- |")
        wall = series("working", [working, "world", str(PERSONS)], own, words.repeats)
        for name, files in (("look-ups", look_ups), ("chain", chain)):
            os.mkdir(f"{own}/{name}")
            files(f"{own}/{name}")
            series(name, [program, "exec", "s.pdq", "p.plan"], f"{own}/{name}", words.repeats)
    print(f"{wall * 1000 / (7 * PERSONS + 1):.2f} ms a call")


if __name__ == "__main__":
    main()
