#!/usr/bin/env python3
"""How long the pass over the rules takes, alone: trees of rules, joins over their paths, joins of many facts, and joins with few firings.

usage: bench/fire.py [--scratch FOLDER] [--only NAME] [--plain PROGRAM]

Copies the crates that it needs to a scratch folder, adds the program of bench/fire_speed.main there, and for each schema puts its text in, proves
and builds the program by `rt run`, and counts its firings, its instructions (`valgrind --tool=callgrind`), its CPU time, the median of fifteen
runs, and its peak memory. Most of the first build is the proof of the libraries below; each further one takes a minute. --plain is a program that
does the same for the schema in a file, and is measured beside it, run by run in turn.
"""
import argparse, os, re, resource, shutil, statistics, subprocess, sys, tempfile

TOP = os.path.realpath(f"{os.path.dirname(os.path.realpath(__file__))}/..")
NAME = "fire_speed"
USES = ["lists", "meaning", "access_schema", "homomorphism", "rule_pass", "tgd_reader"]
CRATES = USES + ["meaning_laws", "pq_text"]
# What is proved by hand: that the first fact has no label.
PROOFS = {
    "has_label/Invariants.antt": """use Rattle.std.proofs.Common.{ℕ, Contains, take}
use Rattle.meaning.specs.declared.types.Val.TheVariants.{Label}
use Rattle.fire_speed.proofs.has_label.Given as goal

abbrev pub invariant-loop-val : goal.invariant-loop-val
invariant-loop-val l = (k : ℕ) → Contains (take l.val-index l.val-items) (Label k) → ⊥
""",
    "has_label/Answers.antt": """use Rattle.std.proofs.Common.{◌≡◌, ℕ, [], ◌∷◌, ⊎_elim, sym, subst, Contains, take}
use Rattle.std.proofs.lemmas.List.{take_all}
use Rattle.std.proofs.lemmas.List.Elements.{Contains-push_cases}
use Rattle.meaning.specs.declared.types.Val.{Val}
use Rattle.meaning.specs.declared.types.Val.TheVariants.{Const, Label}
use Rattle.lists.proofs.Places.{take_indexed}
use Rattle.fire_speed.proofs.has_label.Goals as goal

pub loop-val-preserved : goal.loop-val-preserved
loop-val-preserved c = λ k h. ⊎_elim (λ before. c.loop-val.invariant k before) (λ same. c.in_default.not-Label k same)
    (Contains-push_cases (take c.loop-val.val-index c.as_slice-val-items.result.now) c.val-item.result (Label k)
    (subst (λ z. Contains z (Label k)) (take_indexed c.as_slice-val-items.result.now c.loop-val.val-index c.val-item.result c.loop-val-test.true c.val-item.is) h))

pub returns : goal.returns
returns c = λ e k h. c.loop-val.invariant k (subst (λ z. Contains z (Label k)) (sym (take_all c.loop-val.val-index c.as_slice-val-items.result.now c.loop-val-test.false)) (subst (λ z. Contains z (Label k)) (sym c.as_slice-val-items.ensures) h))
""",
    "count/Answers.antt": """use Rattle.std.proofs.Common.{◌≡◌, ⊎_elim, sym, subst, Contains, []}
use Rattle.meaning.specs.declared.types.Val.TheVariants.{Label}
use Rattle.lists.proofs.Members.{contains_cases, contains_none}
use Rattle.fire_speed.proofs.count.Goals as goal

pub insert-requires-clause-labels : goal.insert-requires-clause-labels
insert-requires-clause-labels c = λ old other k among h.
    absurd (⊎_elim (λ same. c.has_label.ensures c.if-has_label.false k (subst (λ f. Contains f.vals (Label k)) (sym same) h)) (λ none. contains_none other none) (contains_cases c.in_ok-fact.fact [] other among))
""",
}


def tree(levels):
    relations = "".join(f"relation e{k}(a, b)\n" for k in range(levels + 1))
    return relations + "".join(f"rule e{k}(x, y) -> e{k + 1}(y, z), e{k + 1}(y, w)\n" for k in range(levels))


def paths(levels):
    ends = "".join(f"relation p{k}(a, b)\n" for k in range(levels - 3))
    joins = "".join(f"rule e{k}(x, y), e{k + 1}(y, z), e{k + 2}(z, w), e{k + 3}(w, v) -> p{k}(x, v)\n" for k in range(levels - 3))
    return tree(levels) + ends + joins


def join(facts, columns, head):
    """Four relations of so many facts each, and a join of the four."""
    relations = "relation c(a)\n" + "".join(f"relation d{i}(a, b)\n" for i in range(4)) + f"relation o({columns})\n"
    made = "".join(f"rule c(x) -> d{i}(x, 'k{j}')\n" for i in range(4) for j in range(facts))
    return relations + made + f"rule d0(x, p), d1(x, q), d2(x, r), d3(x, t) -> o({head})\n"


# Each schema, and how many columns its first relation has.
MEASURED = [
    ("tree-14", tree(14), 2), ("tree-16", tree(16), 2), ("paths-12", paths(12), 2), ("paths-14", paths(14), 2),
    ("cross-8", join(8, "a, b, c, d", "p, q, r, t"), 1), ("frontier-16", join(16, "a", "x"), 1), ("frontier-32", join(32, "a", "x"), 1),
]


def prepared(folder):
    """The crate of the program, without the text of a schema."""
    for name in CRATES:
        shutil.copytree(f"{TOP}/crates/{name}", f"{folder}/crates/{name}", dirs_exist_ok=True, ignore=shutil.ignore_patterns("must-fail", "out"))
    shutil.copy2(f"{TOP}/HANDLES", folder)
    with open(f"{TOP}/crates.txt") as known, open(f"{folder}/crates.txt", "w") as out:
        out.writelines(row for row in known if row.split(":")[0] in CRATES)
        out.write(f"{NAME}: {' '.join(USES)}\n")
    crate = f"{folder}/crates/{NAME}"
    for path, text in PROOFS.items():
        os.makedirs(os.path.dirname(f"{crate}/proofs/{path}"), exist_ok=True)
        with open(f"{crate}/proofs/{path}", "w") as out:
            out.write(text)
    os.makedirs(f"{crate}/src", exist_ok=True)
    return crate


def built(crate, schema, columns):
    """The program that fires the rules of this schema."""
    text = open(f"{TOP}/bench/fire_speed.main").read().replace('SCHEMA: &str = ""', 'SCHEMA: &str = "' + schema.replace("\n", "\\n") + '"')
    if columns == 1:
        text = text.replace('    vals.push(Val::Const(Text::from_str(alloc, "b")?))?;\n', "")
    with open(f"{crate}/src/main.rt", "w") as out:
        out.write(text)
    if subprocess.run(["rt", "run"], cwd=crate, stdin=subprocess.DEVNULL, capture_output=True).returncode:
        sys.exit(f"the program was not proved: see `rt check` in {crate}")
    return f"{crate}/out/{NAME}"


def cpu(command):
    """CPU milliseconds of a run."""
    before = resource.getrusage(resource.RUSAGE_CHILDREN)
    subprocess.run(command, check=True, stdout=subprocess.DEVNULL)
    after = resource.getrusage(resource.RUSAGE_CHILDREN)
    return (after.ru_utime + after.ru_stime - before.ru_utime - before.ru_stime) * 1000


def instructions(command):
    """Millions of instructions of a run."""
    counted = subprocess.run(["valgrind", "--tool=callgrind", "--callgrind-out-file=/dev/null"] + command, capture_output=True, text=True).stderr
    number = re.search(r"Collected : (\d+)", counted)
    if not number:
        sys.exit(f"{command[0]} was not counted: {counted[-300:]}")
    return int(number[1]) / 1e6


def memory(command):
    """Peak memory in MiB, of a run below a small parent."""
    told = subprocess.run(["/usr/bin/time", "-f", "%M"] + command, capture_output=True, text=True, check=True).stderr
    return int(told.split()[-1]) / 1024


def figures(commands):
    """Instructions, CPU milliseconds and memory of each command; their runs come in turn."""
    runs = [[cpu(command) for command in commands] for _ in range(15)]
    times = [statistics.median(run[n] for run in runs) for n in range(len(commands))]
    return [(instructions(command), times[n], memory(command)) for n, command in enumerate(commands)]


def main():
    asked = argparse.ArgumentParser()
    asked.add_argument("--scratch")
    asked.add_argument("--only")
    asked.add_argument("--plain")
    asked = asked.parse_args()
    crate = prepared(asked.scratch or tempfile.mkdtemp(prefix=NAME))
    heads = ["rules", "firings", "million instructions", "CPU ms", "MiB"]
    if asked.plain:
        heads += ["plain program's million instructions", "CPU ms", "MiB", "times the instructions", "the CPU time", "the memory"]
    print(f"| {' | '.join(heads)} |\n|{' --- |' * len(heads)}")
    for name, schema, columns in MEASURED:
        if asked.only and asked.only != name:
            continue
        program = built(crate, schema, columns)
        commands = [[program]]
        if asked.plain:
            with open(f"{crate}/{name}.schema", "w") as out:
                out.write(schema)
            commands.append([os.path.abspath(asked.plain), f"{crate}/{name}.schema"])
        firings = {subprocess.run(command, capture_output=True, text=True, check=True).stdout.strip() for command in commands}
        if len(firings) > 1:
            sys.exit(f"{name}: the programs made {' and '.join(sorted(firings))} firings")
        measured = figures(commands)
        cells = [f"{number:.1f}" for one in measured for number in one]
        if asked.plain:
            cells += [f"{own / other:.1f}" for own, other in zip(*measured)]
        print(f"| {name} | {firings.pop()} | {' | '.join(cells)} |", flush=True)


main()
