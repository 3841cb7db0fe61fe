"""The documents: each command of `tools/carry_out` that they show gives what they show, and the guide has all keys and statuses."""
import csv
import os
import re
import shlex
import shutil
import sqlite3
import subprocess
import sys

import programs
from services import faults

from .room import SECONDS, TOOL, TOP, Reply, same

DOCUMENTS = ["README.md", "docs/GUIDE.md", "examples/services/README.md"]
TOKEN = "a-token-of-the-guide"
RECORDS = {"1": {"employee": {"number": 1, "name": "smith"}, "room": 101}, "3": {"employee": {"number": 3, "name": "smith"}, "room": 103}}


def content(path):
    with open(f"{TOP}/{path}", encoding="utf-8") as file:
        return file.read()


def blocks(path):
    """The blocks of a document, with commands that go on in a further line as one line."""
    text = re.sub(r" \\\n *", " ", content(path))
    return re.findall(r"^```[a-z]*\n(.*?)^```", text, re.MULTILINE | re.DOTALL)


def block_of(path, begin):
    """The block of a document that begins with these words."""
    return next(block for block in blocks(path) if block.startswith(begin))


def shown(path):
    """The commands of carry_out in a document, with what is shown below each."""
    for block in blocks(path):
        for command, output in re.findall(r"^\$ (.*)\n((?:(?!\$ ).*\n)*)", block, re.MULTILINE):
            if "tools/carry_out" in command:
                yield command, output


def carried(folder, command, plan, environment=()):
    """What a command of a document gives; a plan stands in for what `pdq explain` would print before it."""
    words = shlex.split(command.rstrip(")").split("tools/carry_out ")[1])
    return subprocess.run([sys.executable, TOOL, *words], cwd=folder, input=plan.encode(), capture_output=True, timeout=SECONDS,
                          env={**os.environ, **dict(environment)})


def explained(folder, command, plan):
    """Runs `pdq explain` of a command too, where a program is of the sources, and compares the plan."""
    program, words = programs.first(), re.search(r"pdq (explain .*?) \|", command)
    if words and program:
        ran = subprocess.run([program, *words[1].split()], cwd=folder, stdin=subprocess.DEVNULL, capture_output=True, timeout=SECONDS)
        same((ran.returncode, ran.stdout.decode()), (0, plan))


def test_the_commands_of_the_example(room):
    for name in ("services", "flights"):
        shutil.copytree(f"{TOP}/examples/{name}", room.path(name))
    server = subprocess.Popen([sys.executable, "server.py", "0"], cwd=room.path("services"), stdout=subprocess.PIPE)
    room.started.append(server)
    url = server.stdout.readline().decode().strip()
    text = content("examples/services/services.toml")
    same(text.count("http://127.0.0.1:8017"), 1)
    room.write("services/services.toml", text.replace("http://127.0.0.1:8017", url))
    plan = content("tests/cases/example_flights_copenhagen_any_day_explained/out")
    rows = content("tests/cases/example_flights_copenhagen_any_day/out")
    found = [pair for path in ("README.md", "examples/services/README.md") for pair in shown(path)]
    same(len(found), 4)
    for command, output in found:
        explained(room.path("services"), command, plan)
        ran = carried(room.path("services"), command, plan)
        same((command, ran.returncode, ran.stdout.decode(), ran.stderr), (command, 0, output or rows, b""))
    for name in ("fares_from_oslo", "to_copenhagen"):
        ran = carried(room.path("services"), "tools/carry_out --schema ../flights/schema.pdq --services services.toml "
                                             f"../flights/plans/{name}.plan", "")
        same((ran.returncode, ran.stdout.decode()), (0, content(f"tests/cases/exec_example_flights_{name}/out")))
    server.terminate()
    lines = server.stdout.read().decode().splitlines()
    # the long plan has three pages of airports and 900 searches, and each of the two short ones searches on 30 days
    same(len([line for line in lines if line.startswith("GET /airports")]), 3)
    same(len([line for line in lines if line.startswith("POST /flights")]), 30 + 30 + 900 + more_searches())


def more_searches():
    """How many searches the other two plans make: one for each destination from Oslo, and one for each search of `to_copenhagen`."""
    with open(f"{TOP}/examples/flights/data/route.csv", newline="", encoding="utf-8") as file:
        from_oslo = {row["destination"] for row in csv.DictReader(file) if row["origin"] == "OSL"}
    return len(from_oslo) + content("examples/flights/plans/to_copenhagen.plan").count("access flight_search")


def records(call):
    """The records of the guide, for those who have the token."""
    if call.headers["Authorization"] != f"Bearer {TOKEN}":
        return Reply({"error": "no token"}, 401)
    same((call.verb, call.path), ("GET", "/v1/records"))
    return Reply({"records": [RECORDS[number] for number in RECORDS if number == call.query["employee"]]})


def guide(room, answer=records):
    """The files of the guide, with a server in place of records.example.com."""
    text = block_of("docs/GUIDE.md", "[service.directory]")
    same(text.count("https://records.example.com/"), 1)
    server = room.serve(answer, text.replace("https://records.example.com/", "URL/"))
    for name, begin in [("s.pdq", "relation profinfo(eid, onum, lname)"), ("q.sql", "SELECT DISTINCT eid, onum FROM profinfo")]:
        room.write(name, block_of("docs/GUIDE.md", begin))
    file = sqlite3.connect(room.path("staff.db"))
    file.execute("CREATE TABLE udirect (eid INTEGER, lname TEXT)")
    file.executemany("INSERT INTO udirect VALUES (?, ?)", [(1, "smith"), (2, "jones"), (3, "smith")])
    file.commit()
    file.close()
    return server, re.search(r"^\$ pdq explain s\.pdq q\.sql\n(.*?^end\n)", content("docs/GUIDE.md"), re.MULTILINE | re.DOTALL)[1]


def test_the_example_of_the_guide(room):
    server, plan = guide(room)
    found = list(shown("docs/GUIDE.md"))
    same(len(found), 1)
    for command, output in found:
        explained(room.folder, command, plan)
        ran = carried(room.folder, command, plan, {"RECORDS_TOKEN": TOKEN}.items())
        same((ran.returncode, ran.stdout.decode(), ran.stderr), (0, output, b""))
    same(server.targets, ["/v1/records?employee=1", "/v1/records?employee=3"])
    same(records(server.calls[1]).body.decode() + "\n", block_of("docs/GUIDE.md", '{"records"'))


def test_the_failed_request_of_the_guide(room):
    _, plan = guide(room, lambda call: Reply("<h1>down for maintenance</h1>\n", 503) if call.query["employee"] == "3" else records(call))
    room.write("services.toml", room.read("services.toml").replace(b"rate = 5\n", b"wait = 0.01\n"))
    room.write("p.plan", plan)
    wanted = block_of("docs/GUIDE.md", "branch 1 step 2: prof_by_eid(eid '3')")
    same(room.carry(environment={"RECORDS_TOKEN": TOKEN}), (9, "", wanted))


def test_the_guide_has_all_keys(_):
    section = content("docs/GUIDE.md").split("## Your own services\n")[1].split("\n## ")[0]
    named = {"service": [], "method": []}
    for kind in named:
        table = section.split(f"| Key of a {kind} |")[1].split("\n\n")[0]
        for cell in re.findall(r"^\| (`[^|]*) \|", table, re.MULTILINE):
            named[kind] += re.findall(r"`(\w+)`", cell)
    with open(f"{TOP}/tools/services/reading.py", encoding="utf-8") as file:
        services, methods = file.read().split("# ---- methods\n")
    keys = r"(?:\bkeys\.(?:text|flag|table|choice|whole|number|any|texts|statuses)\(|read_pairs\(keys, )\"(\w+)\""
    same(sorted(set(named["service"])), sorted(set(re.findall(keys, services))))
    same(sorted(set(named["method"]) - {"headers"}), sorted(set(re.findall(keys, methods))))
    statuses = {kind.status for kind in vars(faults).values() if isinstance(kind, type) and issubclass(kind, faults.Fault)}
    table = section.split("### Statuses of carry_out")[1]
    same(set(map(int, re.findall(r"\d+", " ".join(re.findall(r"^\| ([\d, ]+) \|", table, re.MULTILINE))))), statuses | {0, 143})
    options = set(re.findall(r"^\| (`--.*?) \|", section, re.MULTILINE))
    with open(f"{TOP}/tools/services/command.py", encoding="utf-8") as file:
        same(sorted(re.findall(r"--[a-z-]+", " ".join(options))), sorted(set(re.findall(r"add_argument\(\"(--[a-z-]+)\"", file.read()))))
