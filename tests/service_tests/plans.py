"""Plans: random ones beside `pdq exec` and a plain join, and small ones with rows that were worked out by hand."""
import importlib.machinery
import importlib.util
import os
import sqlite3
import subprocess

from pdq_texts import read_plan

from .room import SECONDS, TOP, Reply, same, shop

COUNT = 100
KINDS = ("http", "sqlite", "csv")


def plans_agree():
    """The script tests/plans_agree, whose plans are taken."""
    loader = importlib.machinery.SourceFileLoader("plans_agree", f"{TOP}/tests/plans_agree")
    module = importlib.util.module_from_spec(importlib.util.spec_from_loader("plans_agree", loader))
    loader.exec_module(module)
    return module


AGREE = plans_agree()
KINDS_OF_PLACES = {"value": AGREE.CONST, "column": AGREE.COLUMN, "new": AGREE.NEW}


def methods_of(case):
    """Each method with its relation and the names of its inputs."""
    for relation in case.relations:
        yield f"w{relation.number}", relation, []
        yield f"m{relation.number}", relation, [f"c{place}" for place in relation.inputs]


def columns_of(relation):
    return [f"c{place}" for place in range(relation.arity)]


def web_services(case, url):
    text = f'[service.s]\nkind = "http"\nurl = "{url}"\nwait = 0\nretries = 100\n'
    for name, relation, inputs in methods_of(case):
        query = ", ".join(f'{column} = "{{{column}}}"' for column in inputs)
        text += f'[method.{name}]\nservice = "s"\nurl = "/{name}"\nquery = {{ {query} }}\nrows = "/rows"\nnext = "/next"\n'
    return text


def table_services(case, _):
    text = '[service.s]\nkind = "sqlite"\nfile = "data.db"\n'
    for name, relation, inputs in methods_of(case):
        where = " AND ".join(f"{column} = :{column}" for column in inputs)
        text += f'[method.{name}]\nservice = "s"\nselect = "SELECT * FROM r{relation.number}{" WHERE " * bool(where)}{where}"\n'
    return text


def file_services(case, _):
    return '[service.s]\nkind = "csv"\n' + "".join(
        f'[method.{name}]\nservice = "s"\nfile = "r{relation.number}.csv"\n' for name, relation, _ in methods_of(case))


def table_file(path, case):
    if os.path.exists(path):
        os.unlink(path)
    file = sqlite3.connect(path)
    for relation in case.relations:
        file.execute(f"CREATE TABLE r{relation.number} ({', '.join(column + ' TEXT' for column in columns_of(relation))})")
        file.executemany(f"INSERT INTO r{relation.number} VALUES ({', '.join('?' * relation.arity)})", relation.rows)
    file.commit()
    file.close()


def requests_of(case, plan):
    """The requests of a plan, each once: its method and what it asks for, found by going through all rows for each partial row."""
    inputs = {name: (relation, [columns_of(relation).index(column) for column in names]) for name, relation, names in methods_of(case)}
    wanted = set()
    for branch in plan.branches:
        partials = [[]]
        for access in branch.accesses:
            relation, taken = inputs[access.method]
            places = [(KINDS_OF_PLACES[place.kind], place.value) for place in access.places]
            for row in partials:
                wanted.add((access.method, *(row[what] if kind == AGREE.COLUMN else what for kind, what in (places[at] for at in taken))))
            partials = [AGREE.joined(row, places, values) for row in partials for values in relation.rows]
            partials = [row for row in partials if row is not None]
    return sorted(wanted)


class Answers:
    """A server for the methods of a case: it demands the inputs, gives three rows a page, and refuses every fifth call at first."""

    def __init__(self):
        self.case, self.missed, self.first_pages, self.count = None, [], [], 0

    def __call__(self, call):
        self.count += 1
        if self.count % 5 == 0:
            return Reply("", 503)
        name, relation, inputs = next(method for method in methods_of(self.case) if f"/{method[0]}" == call.path)
        page = int(call.query.pop("page", "0"))
        if sorted(call.query) != sorted(inputs):
            self.missed.append(call.target)
            return Reply("", 400)
        if not page:
            self.first_pages.append((name, *(call.query[column] for column in inputs)))
        rows = [dict(zip(columns_of(relation), row)) for row in relation.rows]
        rows = [row for row in rows if all(row[column] == call.query[column] for column in inputs)]
        following = call.target.split("&page=")[0] + ("" if inputs else "?") + f"&page={page + 1}"
        following = following.replace("??&", "?&")
        return Reply({"rows": rows[3 * page:3 * page + 3], "next": following if rows[3 * page + 3:] else None})


def test_random_plans(room):
    answers = Answers()
    server = room.serve(answers)
    texts = {"http": web_services, "sqlite": table_services, "csv": file_services}
    program = AGREE.programs.first()
    for number in range(COUNT):
        case = answers.case = AGREE.Case(f"services {number}")
        for name, content in case.files().items():
            room.write(name, content)
        table_file(room.path("data.db"), case)
        wanted = b"" if case.bad() else case.wanted()
        if program:
            same(subprocess.run([program, "exec", "s.pdq", "p.plan"], cwd=room.folder, stdin=subprocess.DEVNULL, capture_output=True,
                                timeout=SECONDS).stdout, wanted)
        for kind in KINDS:
            room.write("services.toml", texts[kind](case, server.url))
            answers.first_pages.clear()
            if case.bad():
                status, out, err = room.carry("--workers", str(number % 3 + 1))
                same((number, kind, status, out, err.endswith(" is no integer\n")), (number, kind, 10, "", True))
                continue
            same((number, kind, *room.carry("--workers", str(number % 3 + 1))), (number, kind, 0, wanted.decode(), ""))
            if kind == "http":
                same(sorted(answers.first_pages), requests_of(case, read_plan(room.read("p.plan"))))
        if case.bad():
            continue
        room.write("services.toml", web_services(case, server.url))
        same(room.carry("--output", room.path("answer.csv"), "--journal", room.path(f"{number}.journal"))[:2], (0, ""))
        same(room.read("answer.csv"), wanted)
    same(answers.missed, [])
    return None if program else "skipped: beside pdq exec: no program is of the sources; the plain join agreed"


# ---- small plans, with what was worked out by hand

ROWS = {"r": [("a", "b"), ("b", "b"), ("b", "c"), ("c", "a")]}
R = ("relation r(x, y)\nmethod all_r on r() cost 1\nmethod r_of on r(x) cost 1\nmethod r_both on r(x, y) cost 1\n")
R_SERVICES = '[service.s]\nkind = "http"\nurl = "URL"\n' + "".join(
    f'[method.{name}]\nservice = "s"\nurl = "/r"\nquery = {query}\n'
    for name, query in [("all_r", "{}"), ("r_of", '{ x = "{x}" }'), ("r_both", '{ x = "{x}", y = "{y}" }')])


def rows_of_r(call):
    return Reply([{"x": x, "y": y} for x, y in ROWS["r"] if call.query.get("x", x) == x and call.query.get("y", y) == y])


def planned(room, lines, wanted, targets):
    """Carries out a plan over r, and compares its rows and the requests."""
    room.write("s.pdq", R)
    room.write("p.plan", lines)
    server = room.serve(rows_of_r, R_SERVICES)
    same(room.carry(), (0, wanted, ""))
    same(server.targets, [f"/r?{target}" if target else "/r" for target in targets])


def test_a_plan_without_branches(room):
    planned(room, "plan 3\nend\n", "column1,column2,column3\n", [])


def test_a_branch_without_accesses(room):
    planned(room, "plan 2\nbranch\noutput 'b', '1,\"'\nbranch\noutput 'a', ''\nbranch\noutput 'a', ''\nend\n",
            'column1,column2\na,\nb,"1,"""\n', [])


def test_a_row_of_one_empty_value(room):
    planned(room, "plan 1\nbranch\noutput ''\nbranch\noutput 'a\rb'\nbranch\noutput 'a\nb'\nbranch\noutput ' a'\nend\n",
            'column1\n""\n a\n"a\nb"\n"a\rb"\n', [])


def test_a_constant_at_a_place_that_is_no_input(room):
    planned(room, "plan 1\nbranch\naccess all_r(new, 'b')\noutput $0\nend\n", "column1\na\nb\n", [""])


def test_a_column_of_the_same_step(room):
    planned(room, "plan 1\nbranch\naccess all_r(new, $0)\noutput $0\nend\n", "column1\nb\n", [""])


def test_a_column_of_an_earlier_step(room):
    # from a to b and back: x -> y, y -> x
    planned(room, "plan 2\nbranch\naccess all_r(new, new)\naccess r_of($1, $0)\noutput $0, $1\nend\n", "column1,column2\nb,b\n",
            ["", "x=a", "x=b", "x=c"])


def test_two_inputs_of_one_column(room):
    planned(room, "plan 1\nbranch\naccess all_r(new, new)\naccess r_both($0, $0)\noutput $0\nend\n", "column1\nb\n",
            ["", "x=a&y=a", "x=b&y=b", "x=c&y=c"])


def test_no_row_and_so_no_request(room):
    planned(room, "plan 1\nbranch\naccess r_of('z', new)\naccess r_of($0, new)\naccess all_r(new, new)\noutput $1\nend\n", "column1\n", ["x=z"])


def test_a_request_of_two_steps_is_made_once(room):
    planned(room, "plan 2\nbranch\naccess all_r(new, new)\naccess all_r($1, new)\noutput $0, $2\n"
                  "branch\naccess r_of('b', new)\naccess r_of($0, new)\noutput 'b', $1\nend\n",
            "column1,column2\na,b\na,c\nb,a\nb,b\nb,c\nc,b\n", ["", "x=b", "x=c"])


def test_requests_are_distinct_over_all_partial_rows(room):
    # six pairs of a and of what follows it ask for three values
    planned(room, "plan 3\nbranch\naccess all_r(new, new)\naccess r_of($1, new)\naccess r_of('a', new)\noutput $0, $1, $2\nend\n",
            "column1,column2,column3\na,b,b\na,b,c\nb,b,b\nb,b,c\nb,c,a\nc,a,b\n", ["", "x=a", "x=b", "x=c"])


def test_a_number_that_is_no_integer(room):
    # each kind of service: a row that joins, one that does not, and one that no request receives
    room.write("s.pdq", "schema 2\nrelation r(x int, y)\nmethod all_r on r() cost 1\nmethod r_of on r(y) cost 1\n")
    rows = [("7", "a"), ("07", "b")]
    server = room.serve(lambda call: Reply([{"x": x, "y": y} for x, y in rows if call.query.get("y", y) == y]))
    room.write("r.csv", "x,y\n7,a\n07,b\n")
    web = f'[service.s]\nkind = "http"\nurl = "{server.url}"\n[method.all_r]\nservice = "s"\nurl = "/r"\n'
    web += '[method.r_of]\nservice = "s"\nurl = "/r"\nquery = { y = "{y}" }\n'
    files = '[service.s]\nkind = "csv"\n'
    files += "".join(f'[method.{name}]\nservice = "s"\nfile = "r.csv"\n' for name in ("all_r", "r_of"))
    plan = "plan 1\nbranch\naccess {}\noutput {}\nend\n"
    for services in web, files:
        room.write("services.toml", services)
        for access, output, wanted in [
                ("all_r(new, new)", "$1", (10, "", "branch 1 step 1: all_r(): '07' for x is no integer\n")),
                ("all_r(new, 'a')", "$0", (10, "", "branch 1 step 1: all_r(): '07' for x is no integer\n")),
                ("r_of(new, 'b')", "$0", (10, "", "branch 1 step 1: r_of(y 'b'): '07' for x is no integer\n")),
                ("r_of(new, 'a')", "$0", (0, "column1\n7\n", ""))]:
            room.write("p.plan", plan.format(access, output))
            same(room.carry(), wanted)


def test_names_of_the_answer(room):
    room.serve(shop)
    same(room.carry("--names", 'id,"the ""price"""')[:2], (0, 'id,"the ""price"""\n1,10\n2,20\n3,30\n'))
    same(room.carry("--names", "id"), (3, "", "words: --names has 1 names, and the plan has 2 columns\n"))
