#!/usr/bin/env python3
"""How the calls of accessible_copy grow: a tree of rules, a chain of relations, and a star whose sets are exposed and undone.

usage: bench/copy.py [--scratch FOLDER] [--program FILE] [--plain FILE]

Copies the crates that it needs to a scratch folder, adds the program of bench/copy_speed.main with the helpers of planner_cases' tests, and
proves and builds it by `rt run`: most of that is the proof of the libraries below. Then counts the instructions of each measurement by
`valgrind --tool=callgrind`, which a busy machine does not move, and reads its CPU time, the median of fifteen runs. --program is one that was built
before. --plain is a program that takes the same words and does the same, and is measured beside it, run by run in turn.
"""
import argparse, glob, math, os, re, resource, shutil, statistics, subprocess, sys, tempfile

TOP = os.path.realpath(f"{os.path.dirname(os.path.realpath(__file__))}/..")
NAME = "copy_speed"
USES = ["lists", "meaning", "access_schema", "homomorphism", "rule_pass", "accessible_copy"]
CRATES = USES + ["meaning_laws", "state_path"]
# The files of planner_cases' tests that the measurements use.
HELPERS = ["calls", "queries", "schemas"]
# Each measurement, and how many units of work its sizes are: firings, relations, or sets.
MEASURED = [("tree", [3750, 7500, 15000, 30000]), ("chain", [25, 50, 100, 200]), ("sets", [128, 512, 2048, 8190])]
# The loops of the program that keep a proof: their invariants are that of the helpers' loop over calls.
LOOPS = {"all_rounds": "loop", "expose_sets": "loop"}
# The functions of the program that are proved as those of the helpers with the same names.
ALIKE = ["is_quiet", "expose_listed"]


def built(folder):
    """The program, built in the scratch folder."""
    for name in CRATES:
        shutil.copytree(f"{TOP}/crates/{name}", f"{folder}/crates/{name}", dirs_exist_ok=True, ignore=shutil.ignore_patterns("must-fail", "out"))
    shutil.copy2(f"{TOP}/HANDLES", folder)
    with open(f"{TOP}/crates.txt") as known, open(f"{folder}/crates.txt", "w") as out:
        out.writelines(row for row in known if row.split(":")[0] in CRATES)
        out.write(f"{NAME}: {' '.join(USES)}\n")
    crate, tests = f"{folder}/crates/{NAME}", f"{TOP}/crates/planner_cases"
    os.makedirs(f"{crate}/src", exist_ok=True)
    shutil.copy2(f"{TOP}/bench/copy_speed.main", f"{crate}/src/main.rt")
    for name in HELPERS:
        shutil.copy2(f"{tests}/src/of_proofs/{name}.rt", f"{crate}/src")
    for path in glob.glob(f"{tests}/proofs/of_proofs/**/*.antt", recursive=True):
        of = os.path.relpath(path, f"{tests}/proofs/of_proofs")
        write(f"{crate}/proofs/{of}", open(path).read().replace("planner_cases.proofs.of_proofs", f"{NAME}.proofs"))
    kept = open(f"{tests}/proofs/of_proofs/calls/make_all/Invariants.antt").read()
    for function in ALIKE:
        said = open(f"{tests}/proofs/of_proofs/calls/{function}/Answers.antt").read()
        write(f"{crate}/proofs/{function}/Answers.antt", said.replace("planner_cases.proofs.of_proofs.calls", f"{NAME}.proofs"))
    for function, loop in LOOPS.items():
        said = kept.replace("planner_cases.proofs.of_proofs.calls.make_all", f"{NAME}.proofs.{function}").replace("invariant-loop-call", f"invariant-{loop}")
        write(f"{crate}/proofs/{function}/Invariants.antt", said)
    subprocess.run(["rt", "run"], cwd=crate, stdin=subprocess.DEVNULL)
    return f"{crate}/out/{NAME}"


def write(path, text):
    os.makedirs(os.path.dirname(path), exist_ok=True)
    with open(path, "w") as out:
        out.write(text)


def instructions(command):
    """How many instructions the command takes."""
    ran = subprocess.run(["valgrind", "--tool=callgrind", "--callgrind-out-file=/dev/null"] + command, capture_output=True, text=True)
    found = re.search(r"Collected : (\d+)", ran.stderr)
    if ran.returncode or not found:
        sys.exit(f"{' '.join(command)} was not counted: {ran.stderr[-300:]}")
    return int(found[1])


def used(command):
    """CPU seconds."""
    before = resource.getrusage(resource.RUSAGE_CHILDREN)
    subprocess.run(command, check=True)
    after = resource.getrusage(resource.RUSAGE_CHILDREN)
    return after.ru_utime + after.ru_stime - before.ru_utime - before.ru_stime


def main():
    asked = argparse.ArgumentParser()
    asked.add_argument("--scratch")
    asked.add_argument("--program")
    asked.add_argument("--plain")
    asked = asked.parse_args()
    if not shutil.which("valgrind"):
        sys.exit("valgrind is not there")
    program = os.path.abspath(asked.program or built(asked.scratch or tempfile.mkdtemp(prefix=NAME)))
    programs = [program] + ([os.path.abspath(asked.plain)] if asked.plain else [])
    heads = ["measurement", "size"] + ["million instructions", "exponent", "CPU ms"] * len(programs)
    if asked.plain:
        heads += ["times the instructions", "the CPU time"]
    print(f"| {' | '.join(heads)} |\n|{' --- |' * len(heads)}")
    for name, sizes in MEASURED:
        last = None
        for size in sizes:
            commands = [[one, name, str(size)] for one in programs]
            runs = [[used(command) for command in commands] for _ in range(15)]
            times = [statistics.median(run[n] for run in runs) * 1000 for n in range(len(commands))]
            counts = [instructions(command) for command in commands]
            cells = []
            for n in range(len(commands)):
                grows = "" if last is None else f"{math.log(counts[n] / last[1][n]) / math.log(size / last[0]):.2f}"
                cells += [f"{counts[n] / 1e6:.1f}", grows, f"{times[n]:.1f}"]
            if asked.plain:
                cells += [f"{counts[0] / counts[1]:.1f}", f"{times[0] / times[1]:.1f}"]
            print(f"| {name} | {size} | {' | '.join(cells)} |", flush=True)
            last = (size, counts)


main()
