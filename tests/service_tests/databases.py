"""Tables of a database, and CSV files."""
import os
import sqlite3
import sys
import types

from services.templates import Statement

from .room import same

SCHEMA = """relation item(id, name, "unit price")
method all_items on item() cost 1
method item_of on item(id) cost 1
method priced on item(name, "unit price") cost 1
"""
ALL = "plan 3\nbranch\naccess all_items(new, new, new)\noutput $0, $1, $2\nend\n"
ONE = "plan 2\nbranch\naccess item_of('2', new, new)\noutput $0, $1\nend\n"
SQLITE = '[service.d]\nkind = "sqlite"\nfile = "d.db"\n'


def table(room, *statements):
    file = sqlite3.connect(room.path("d.db"))
    for statement in statements or ["CREATE TABLE item (id INTEGER, name TEXT, price REAL)",
                                    "INSERT INTO item VALUES (1, 'pen', 0.1), (2, 'cup: %s', 20), (3, 'it''s', 1e22)"]:
        file.execute(statement)
    file.commit()
    file.close()


def method(name, select, more=""):
    return f'[method.{name}]\nservice = "d"\nselect = """{select}"""\n{more}'


def asked(room, services, plan, environment=None):
    room.write("s.pdq", SCHEMA)
    room.write("services.toml", services)
    room.write("p.plan", plan)
    return room.carry(environment=environment)


def test_a_file_of_sqlite(room):
    table(room)
    all_items = method("all_items", "SELECT price AS 'unit price', id, name FROM item")
    same(asked(room, SQLITE + all_items, ALL), (0, "column1,column2,column3\n1,pen,0.1\n2,cup: %s,20.0\n3,it's,1e+22\n", ""))
    columns = 'columns = { id = "i", "unit price" = { at = "p" } }\n'
    one = method("item_of", "SELECT id AS i, name, price AS p, 5 AS other FROM item WHERE id = :ID -- not :this\n AND name <> ':that' /* nor :it */",
                 columns)
    same(asked(room, SQLITE + one, ONE), (0, "column1,column2\ncup: %s,20.0\n", ""))
    priced = method("priced", 'SELECT id, name, price AS "unit price" FROM item WHERE CAST(price AS TEXT) = :\\"unit price\\" AND name = :name')
    same(asked(room, SQLITE + priced, "plan 1\nbranch\naccess priced(new, 'pen', '0.1')\noutput $0\nend\n"), (0, "column1\n1\n", ""))


def test_another_text_of_the_same_number_is_refused(room):
    table(room)
    one = method("item_of", "SELECT id, name, price AS 'unit price' FROM item WHERE id = :id")
    same(asked(room, SQLITE + one, ONE.replace("'2'", "'02'")),
         (10, "", "branch 1 step 1: item_of(id '02'): row 1 has '2' for id, and '02' was asked for\n"))


def test_null_and_values_without_a_text(room):
    table(room, "CREATE TABLE item (id, name, price)", "INSERT INTO item VALUES (1, NULL, 3), (2, 'cup', 4)")
    text = "SELECT id, name, price AS 'unit price' FROM item"
    place = "branch 1 step 1: all_items(): "
    same(asked(room, SQLITE + method("all_items", text), ALL), (10, "", place + "row 1 has null for name\n"))
    same(asked(room, SQLITE + method("all_items", text, 'null = "drop"\n'), ALL), (0, "column1,column2,column3\n2,cup,4\n", ""))
    same(asked(room, SQLITE + method("all_items", text.replace("price AS", "x'00' AS"), 'null = "drop"\n'), ALL),
         (10, "", place + "row 1 has a value of the type bytes, which has no text form for unit price\n"))


def test_a_statement_that_fails(room):
    table(room)
    place = "branch 1 step 1: all_items(): "
    for select, status, err in [
            ("SELECT id FROM none", 9, "the database refused: OperationalError: no such table: none"),
            ("SELECT id, name FROM item", 10, "no column unit price: 'unit price' does not stand once in `id, name`"),
            ("SELECT id, id, name, 1 AS 'unit price' FROM item", 10, "no column id: 'id' does not stand once in `id, id, name, unit price`"),
            ("WITH RECURSIVE n(i) AS (VALUES (1) UNION ALL SELECT i + 1 FROM n) SELECT i FROM n WHERE i < 0", 9, "no answer within 0.2 seconds"),
            ("WITH n AS (SELECT 1) DELETE FROM item", 9, "the database refused: OperationalError: attempt to write a readonly database"),
            ("SELECT id, name, price AS 'unit price' FROM item, (VALUES (1), (2))", 10, "there are more than the 5 rows of max_rows")]:
        services = SQLITE + "timeout = 0.2\nmax_rows = 5\n" + method("all_items", select)
        same(asked(room, services, ALL), (status, "", place + err + "\n"))


def test_a_file_that_is_missing(room):
    same(asked(room, SQLITE + method("all_items", "SELECT 1"), ALL), (12, "", f"service d: there is no file {room.path('d.db')}\n"))
    same(os.path.exists(room.path("d.db")), False)


def test_each_style_of_parameters(room):
    statement = Statement.of("SELECT a::int, ':no' FROM t WHERE a = :a AND b LIKE 'x%' AND c = :\"b c\" AND d = :a")
    values = {"a": "1", "b c": "2"}
    begin = "SELECT a::int, ':no' FROM t WHERE a = "
    for style, text, given in [
            ("qmark", begin + "? AND b LIKE 'x%' AND c = ? AND d = ?", ["1", "2", "1"]),
            ("numeric", begin + ":1 AND b LIKE 'x%' AND c = :2 AND d = :3", ["1", "2", "1"]),
            ("named", begin + ":p1 AND b LIKE 'x%' AND c = :p2 AND d = :p3", {"p1": "1", "p2": "2", "p3": "1"}),
            ("format", begin + "%s AND b LIKE 'x%%' AND c = %s AND d = %s", ["1", "2", "1"]),
            ("pyformat", begin + "%(p1)s AND b LIKE 'x%%' AND c = %(p2)s AND d = %(p3)s", {"p1": "1", "p2": "2", "p3": "1"})]:
        same(statement.in_style(style, values), (text, given))


class Module(types.ModuleType):
    """A module of the DB-API over sqlite3, with another style of parameters, which notes the words of its connections."""

    apilevel, paramstyle, Error = "2.0", "format", sqlite3.Error

    def __init__(self, name, path, threadsafety):
        super().__init__(name)
        self.path, self.threadsafety, self.words, self.open = path, threadsafety, [], 0

    def connect(self, *words, **named):
        self.words.append((words, named))
        if "refused" in words:
            raise RuntimeError("no entry with hidden-word")
        self.open += 1
        return Connection(self)


class Connection:
    def __init__(self, module):
        self.module, self.file = module, sqlite3.connect(module.path, check_same_thread=False)

    def cursor(self):
        return Cursor(self.file.cursor())

    def rollback(self):
        self.file.rollback()

    def close(self):
        self.module.open -= 1
        self.file.close()


class Cursor:
    def __init__(self, cursor):
        self.cursor, self.fetchmany, self.close = cursor, cursor.fetchmany, cursor.close

    def execute(self, text, values):
        self.cursor.execute(text.replace("%s", "?").replace("%%", "%"), values)

    @property
    def description(self):
        return self.cursor.description


DBAPI = '[service.d]\nkind = "dbapi"\nmodule = "pdq_test_module"\n'
TWO = "plan 2\nbranch\naccess all_items(new, new, new)\naccess item_of($0, new, new)\noutput $0, $3\nend\n"


def module(room, threadsafety):
    sys.modules["pdq_test_module"] = found = Module("pdq_test_module", room.path("d.db"), threadsafety)
    return found


def test_a_module_of_the_db_api(room):
    table(room)
    select = "SELECT id, name, price AS 'unit price' FROM item WHERE name LIKE '%'"
    methods = method("all_items", select) + method("item_of", select + " AND id = :id")
    answer = (0, "column1,column2\n1,pen\n2,cup: %s\n3,it's\n", "")
    connect = 'connect = { host = "h", port = 5, user = "u", password = { env = "DB_WORD" } }\n'
    for threadsafety, connect, words in [
            (0, connect, ((), {"host": "h", "port": 5, "user": "u", "password": "hidden-word"})),
            (1, 'connect = { env = "DB_WORD", before = "dbname=x password=" }\n', (("dbname=x password=hidden-word",), {}))]:
        found = module(room, threadsafety)
        room.write("s.pdq", SCHEMA)
        room.write("services.toml", DBAPI + connect + methods)
        room.write("p.plan", TWO)
        same(room.carry("--workers", "3", environment={"DB_WORD": "hidden-word"}), answer)
        same((found.words[0], found.open), (words, 0))
        assert len(found.words) == 1 if threadsafety == 0 else 1 <= len(found.words) <= 3, found.words


def test_a_module_that_fails(room):
    table(room)
    module(room, 1)
    all_items = method("all_items", "SELECT id FROM none")
    place = "branch 1 step 1: all_items(): "
    same(asked(room, DBAPI + "connect = {}\n" + all_items, ALL),
         (9, "", place + "the database refused: OperationalError: no such table: none\n"))
    services = DBAPI + 'connect = { env = "DB_WORD" }\n' + all_items
    same(asked(room, services, ALL, {"DB_WORD": "refused"}), (9, "", place + "no connection: RuntimeError: no entry with hidden-word\n"))
    same(asked(room, services, ALL), (12, "", "environment: DB_WORD is not set\n"))
    for name, err in [("pdq_no_such_module", "the Python module pdq_no_such_module cannot be loaded: "
                       "ModuleNotFoundError: No module named 'pdq_no_such_module'"),
                      ("json", "json is no module of the DB-API: AttributeError: module 'json' has no attribute 'connect'")]:
        same(asked(room, f'[service.d]\nkind = "dbapi"\nmodule = "{name}"\nconnect = {{}}\n{all_items}', ALL), (12, "", f"service d: {err}\n"))


def test_a_csv_file(room):
    services = '[service.f]\nkind = "csv"\nfolder = "data"\n[method.item_of]\nservice = "f"\nfile = "i.csv"\ncolumns."unit price" = "Price"\n'
    os.mkdir(room.path("data"))
    room.write("data/i.csv", '\ufeffid,Price,name,note\r\n2,"1,5",cup,x\r\n\r\n3,9,hat,\r\n2,"1,5",cup,y\r\n')
    same(asked(room, services, ONE), (0, 'column1,column2\ncup,"1,5"\n', ""))
    place = "branch 1 step 1: item_of(id '2'): "
    for content, status, err in [
            (b"", 10, "no CSV: there is no header"), (b"id,name\n", 10, "no column unit price: 'Price' does not stand once in `id, name`"),
            (b"id,Price,name\n1,2\n", 10, "row 1 has 2 fields, and the header has 3"),
            (b"id,Price,name\n1,2,\xff\n", 10, "the file is not UTF-8 at byte 18")]:
        room.write("data/i.csv", content)
        same(asked(room, services, ONE), (status, "", place + err + "\n"))
    os.unlink(room.path("data/i.csv"))
    same(asked(room, services, ONE)[0], 9)
