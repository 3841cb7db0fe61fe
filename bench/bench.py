#!/usr/bin/env python3
"""Measures `pdq run` on files of 1, 2, 4 and 8 MiB beside a Python script for the same work and beside `sort -u`.

usage: bench/bench.py [--repeats N] [--program FILE]

For each kind of rows and each size the three are run in turn, N times (5 if left out), on the same file. Shown are
medians: CPU time (user and system), wall time, and the peak of resident memory. The bytes that `pdq` writes have to
be those that the Python script writes. `sort -u` sorts the lines of the file as they are: it reads no fields,
chooses no columns and knows no quotes, and so does less.

The files are made from a fixed seed in a temporary folder. The exit status is 1 where an output differs.
"""
import argparse
import math
import os
import random
import shutil
import statistics
import subprocess
import sys
import tempfile

TOP = os.path.dirname(os.path.dirname(os.path.realpath(__file__)))
sys.path.insert(0, f"{TOP}/tools")

import programs  # noqa: E402

MIB = 1 << 20
SIZES = (1, 2, 4, 8)
COLUMNS = ("id", "name", "city", "kind", "amount", "note")
SCHEMA = f"relation r({', '.join(COLUMNS)})\nmethod all_r on r() cost 1\nsource r csv 'r.csv'\n"
KINDS = {
    "wide": ("three columns, nearly all rows distinct", ("id", "name", "amount")),
    "few": ("two columns, few distinct rows", ("city", "kind")),
    "quoted": ("two columns, one of them quoted", ("id", "note")),
}
PEER = """import csv, sys
columns = {columns!r}
with open("r.csv", newline="", encoding="utf-8") as file:
    reader = csv.reader(file)
    header = next(reader)
    places = [header.index(column) for column in columns]
    rows = {{tuple([row[place] for place in places]) for row in reader}}
writer = csv.writer(sys.stdout, lineterminator="\\n")
writer.writerow(columns)
writer.writerows(sorted(rows))
"""
# Starts a command and prints its CPU seconds, wall seconds, peak bytes and status. It is a process of its own and takes
# in few modules, since a started process is charged with the memory of the one that starts it.
RUNNER = """import os, sys, time
begun = time.perf_counter()
started = os.posix_spawnp(sys.argv[2], sys.argv[2:], os.environ, file_actions=[
    (os.POSIX_SPAWN_OPEN, 0, os.devnull, os.O_RDONLY, 0), (os.POSIX_SPAWN_OPEN, 2, os.devnull, os.O_WRONLY, 0),
    (os.POSIX_SPAWN_OPEN, 1, sys.argv[1], os.O_WRONLY | os.O_CREAT | os.O_TRUNC, 0o644)])
_, status, used = os.wait4(started, 0)
wall = time.perf_counter() - begun
print(used.ru_utime + used.ru_stime, wall, used.ru_maxrss * 1024, os.WEXITSTATUS(status) if os.WIFEXITED(status) else -1)
"""


def make_file(path, kind, size):
    """Writes a file of at most `size` bytes, and returns how many rows it has."""
    choose = random.Random(f"{kind} {size}")
    count, room = 0, size - len(",".join(COLUMNS)) - 1
    with open(path, "w", encoding="utf-8", newline="") as file:
        file.write(",".join(COLUMNS) + "\n")
        while True:
            note = f"note {choose.randrange(10**6)}"
            if kind == "quoted":
                note = f'"say ""{choose.randrange(10**4)}"", then {count}"'
            row = (f"{choose.randrange(10**7)},name{choose.randrange(10**5)},city{choose.randrange(400)},"
                   f"k{choose.randrange(12)},{choose.randrange(10**5)}.{count % 100:02d},{note}\n")
            room -= len(row)
            if room < 0:
                return count
            file.write(row)
            count += 1


def make_case(folder, kind, mib):
    """Makes the folder of a case in a process of its own, so that this one stays small; returns the number of rows."""
    os.mkdir(folder)
    columns = KINDS[kind][1]
    with open(f"{folder}/s.pdq", "w", encoding="utf-8") as file:
        file.write(SCHEMA)
    with open(f"{folder}/q.sql", "w", encoding="utf-8") as file:
        file.write(f"SELECT DISTINCT {', '.join(columns)} FROM r\n")
    with open(f"{folder}/peer.py", "w", encoding="utf-8") as file:
        file.write(PEER.format(columns=columns))
    made = subprocess.run([sys.executable, os.path.realpath(__file__), "--make", f"{folder}/r.csv", kind, str(mib)],
                          stdout=subprocess.PIPE, check=True)
    return int(made.stdout)


def measure(words, folder, out):
    """Runs a command and returns its CPU seconds, wall seconds, peak bytes and exit status."""
    ran = subprocess.run([sys.executable, "-I", "-S", "-c", RUNNER, out, *words], cwd=folder, stdout=subprocess.PIPE,
                         env={**os.environ, "LC_ALL": "C"}, check=True)
    cpu, wall, peak, status = ran.stdout.split()
    return float(cpu), float(wall), int(peak), int(status)


def contents(path):
    with open(path, "rb") as file:
        return file.read()


def program_of(path):
    """The program to measure, by its whole path. The launcher builds it where that is due."""
    if path:
        return os.path.abspath(path)
    subprocess.run([f"{TOP}/pdq"], stdin=subprocess.DEVNULL, stderr=subprocess.DEVNULL)
    return programs.first() or sys.exit(programs.NONE)


def run_case(folder, words, repeats, further={}):
    """The medians of each contender, by name, and whether the output is that of the Python script."""
    contenders = {"pdq": words, "python": [sys.executable, "peer.py"], **further}
    runs = {name: [] for name in contenders}
    for _ in range(repeats):
        for name, words in contenders.items():
            runs[name].append(measure(words, folder, name.split()[0] + ".out"))
    same = contents(f"{folder}/pdq.out") == contents(f"{folder}/python.out") and all(run[3] == 0 for run in runs["pdq"])
    return {name: [statistics.median(run[at] for run in of) for at in range(3)] for name, of in runs.items()}, same


def row(*cells):
    print("| " + " | ".join(str(cell) for cell in cells) + " |", flush=True)


def exponents(series):
    """How the CPU time grows: the exponents between neighbouring sizes, and those of n log n on the same rows."""
    told = []
    for (rows, cpu), (more, later) in zip(series, series[1:]):
        steps = math.log(more / rows)
        told.append(f"{math.log(later / cpu) / steps:.2f} ({math.log(more * math.log(more) / (rows * math.log(rows))) / steps:.2f})")
    return told


def main():
    parser = argparse.ArgumentParser(description=__doc__, formatter_class=argparse.RawDescriptionHelpFormatter)
    parser.add_argument("--repeats", type=int, default=5)
    parser.add_argument("--program")
    parser.add_argument("--make", nargs=3, help=argparse.SUPPRESS)
    given = parser.parse_args()
    if given.make:
        print(make_file(given.make[0], given.make[1], int(given.make[2]) * MIB))
        return 0
    program = program_of(given.program)
    further = {"sort -u": ["sort", "-u", "r.csv"]} if shutil.which("sort") else {}
    row("rows", "MiB", "number", "pdq CPU ms", "wall ms", "peak MiB", "peak / file", "python CPU ms", "python / pdq",
        "sort -u CPU ms", "pdq / sort -u", "same bytes as python")
    row(*["---"] * 12)
    well, growth, least, most = True, {}, math.inf, 0.0
    with tempfile.TemporaryDirectory(prefix="pdq-bench-") as room:
        os.mkdir(f"{room}/floor")
        floor = measure(["true"], f"{room}/floor", "true.out")
        for kind in KINDS:
            for mib in SIZES:
                folder = f"{room}/{kind}-{mib}"
                rows = make_case(folder, kind, mib)
                of, same = run_case(folder, [program, "run", "s.pdq", "q.sql"], given.repeats, further)
                (cpu, wall, peak), python, lines = of["pdq"], of["python"][0], of.get("sort -u")
                size = os.path.getsize(f"{folder}/r.csv")
                row(kind, mib, rows, f"{cpu * 1000:.0f}", f"{wall * 1000:.0f}", f"{peak / MIB:.0f}", f"{peak / size:.1f}",
                    f"{python * 1000:.0f}", f"{python / cpu:.1f}", f"{lines[0] * 1000:.0f}" if lines else "-",
                    f"{cpu / lines[0]:.1f}" if lines else "-", "yes" if same else "NO")
                growth.setdefault(kind, []).append((rows, cpu))
                well, least, most = well and same, min(least, python / cpu), max(most, peak / size)
                shutil.rmtree(folder)
    print("\nGrowth of the CPU time between neighbouring sizes, as an exponent of the number of rows (that of n log n beside it):\n")
    for kind, series in growth.items():
        print(f"- {kind}, {KINDS[kind][0]}: {', '.join(exponents(series))}")
    print(f"\nAt least {least:.1f} times as fast as the Python script (wanted: 3). Peak memory at most {most:.1f} times the file "
          f"(wanted: under 20).\nOf each peak up to {floor[2] / MIB:.0f} MiB may be that of the process that starts it.")
    return 0 if well else 1


if __name__ == "__main__":
    sys.exit(main())
