"""The services file: each fault by its line, and forms that are taken."""
from pdq_texts import read_schema

from services.faults import TextFault
from services.reading import read_settings

from .room import SCHEMA, same

SERVICE = '[service.s]\nkind = "http"\nurl = "http://h"\n'
ITEMS = '[method.all_items]\nservice = "s"\n'
PRICE = '[method.price_of]\nservice = "s"\nurl = "/p?id={id}"\n'
DATABASE = '[service.s]\nkind = "sqlite"\nfile = "f"\n'
FAULTS = [
    ("a = ", "not TOML: Invalid value (at end of document)"),
    ("[service.s]\n[service.s]\n", None),
    (b"\xff", "not UTF-8 at byte 0"),
    ("#" * (1 << 20) + "\n", "too large"),
    ("other = 1\n", "unknown key 'other'"),
    ("service = 1\n", "service has to be a table"),
    ("service.s = 1\n", "service s: it has to be a table"),
    ("[service.s]\n", "service s: the key kind is missing"),
    ('[service.s]\nkind = "ftp"\n', "service s: kind has to be one of http, sqlite, dbapi, csv"),
    (SERVICE + "tmeout = 1\n", "service s: unknown key 'tmeout'"),
    (SERVICE + 'timeout = "1"\n', "service s: timeout has to be a number from 0 to 1000000"),
    (SERVICE + "timeout = 0\n", "service s: timeout has to be more than 0"),
    (SERVICE + "timeout = nan\n", "service s: timeout has to be a number from 0 to 1000000"),
    (SERVICE + "wait = -1\n", "service s: wait has to be a number from 0 to 1000000"),
    (SERVICE + "rate = true\n", "service s: rate has to be a number from 0 to 1000000"),
    (SERVICE + "retries = 1.5\n", "service s: retries has to be a whole number"),
    (SERVICE + "retries = 101\n", "service s: retries has to be from 0 to 100"),
    (SERVICE + "retries = true\n", "service s: retries has to be a whole number"),
    (SERVICE.replace("http://h", "ftp://h"), "service s: url has to begin with http:// or https:// and a host"),
    (SERVICE.replace("http://h", "http:///p"), "service s: url has to begin with http:// or https:// and a host"),
    (SERVICE.replace("http://h", "http://h:x"), None),
    (SERVICE.replace("//h", "//u:p@h"), "service s: url has a user or a password: secrets come from the environment, as by a header"),
    (SERVICE.replace("//h", "//u@h"), "service s: url has a user or a password: secrets come from the environment, as by a header"),
    (SERVICE.replace("//h", "//h/a b"), "service s: url has a blank, a #, or another character that has to be percent-encoded"),
    (SERVICE.replace("//h", "//h/é"), "service s: url has a blank, a #, or another character that has to be percent-encoded"),
    (SERVICE.replace("//h", "//h/?a=1&api_key=x"), 'service s: url has the secret api_key: write query.api_key = { env = "NAME" }'),
    (SERVICE + 'headers = { Authorization = "Bearer x" }\n',
     'service s: headers.Authorization is a secret, and has to come from the environment: { env = "NAME" }'),
    (SERVICE + 'headers = { X-Api-Key = "x" }\n', 'service s: headers.X-Api-Key is a secret, and has to come from the environment: { env = "NAME" }'),
    (SERVICE + 'headers = { "A B" = "x" }\n', "service s: headers: 'A B' is no name of a header"),
    (SERVICE + 'headers = { A = "x\\r\\nB: y" }\n', "service s: headers.A has a character that no header may have"),
    (SERVICE + 'headers = { A = "é" }\n', "service s: headers.A has a character that no header may have"),
    (SERVICE + 'headers = { A = { env = "B", before = "é" } }\n', "service s: headers.A has a character that no header may have"),
    (SERVICE + "headers = { A = 1 }\n", 'service s: headers.A has to be a text, or { env = "NAME" }'),
    (SERVICE + 'headers = { A = { env = "" } }\n', "service s: headers.A: '' is no name of a variable"),
    (SERVICE + 'headers = { A = { env = "B", value = "c" } }\n', "service s: headers.A: unknown key 'value'"),
    (SERVICE + '[method.none]\nservice = "s"\n', "method none: the schema has no such method"),
    (SERVICE + '[method.All_Items]\nservice = "s"\n', "method All_Items: the schema has no such method"),
    ('[method.all_items]\nservice = "s"\n', "method all_items: there is no service 's'"),
    (SERVICE + "[method.all_items]\n", "method all_items: the key service is missing"),
    ('[service.s]\nkind = "http"\n' + ITEMS, "method all_items: the key url is missing"),
    (SERVICE + ITEMS + 'url = "/a"\nrow = "/x"\n', "method all_items: unknown key 'row'"),
    (SERVICE + ITEMS + 'url = "/a?x={id}"\n', "method all_items: url: id is no input of the method"),
    (SERVICE + ITEMS + 'url = "/a}"\n', "method all_items: url: a single } in 'http://h/a}'; write {column}, or the brace twice"),
    ('[service.s]\nkind = "http"\n' + PRICE.replace("/p", "http://{id}/p"), "method price_of: url: a column may not choose the host"),
    (SERVICE + PRICE.replace("/p", ".{id}/p"), "method price_of: url: a column may not choose the host"),
    (SERVICE + PRICE.replace("{id}", "1"), "method price_of: the input id has no place in the request"),
    (SERVICE + PRICE + 'verb = "PUT"\n', "method price_of: verb has to be one of GET, POST"),
    (SERVICE + PRICE + 'json = {}\n', 'method price_of: json or form, one of them, belongs to verb = "POST"'),
    (SERVICE + PRICE + 'verb = "POST"\njson = {}\nform = { a = "b" }\n', 'method price_of: json or form, one of them, belongs to verb = "POST"'),
    (SERVICE + PRICE + 'verb = "POST"\njson = { a = [2027-03-01] }\n', "method price_of: json.a has a value that JSON has not"),
    (SERVICE + PRICE + 'verb = "POST"\njson = { a = inf }\n', "method price_of: json.a has a value that JSON has not"),
    (SERVICE + PRICE + 'verb = "POST"\njson = { a = "{amount}" }\n', "method price_of: json.a: amount is no input of the method"),
    (SERVICE + PRICE + 'form = { a = 1 }\n', "method price_of: form.a has to be a text"),
    (SERVICE + PRICE + 'numbers = ["amount"]\n', "method price_of: numbers: amount is no input of the method"),
    (SERVICE + PRICE + 'numbers = "id"\n', "method price_of: numbers has to be a list of texts"),
    (SERVICE + PRICE + 'query = { token = "x" }\n',
     'method price_of: query.token is a secret, and has to come from the environment: { env = "NAME" }'),
    (SERVICE + PRICE + 'verb = "POST"\nform = { password = "x" }\n',
     'method price_of: form.password is a secret, and has to come from the environment: { env = "NAME" }'),
    (SERVICE + PRICE + 'verb = "POST"\njson = { a = [{ key = "x" }] }\n',
     "method price_of: json.a.key is a secret, and has to come from the environment, by a header, query or form"),
    (SERVICE + PRICE + 'format = "xml"\n', "method price_of: format has to be one of json, csv"),
    (SERVICE + PRICE + 'rows = "data"\n', "method price_of: rows has to be a path as /data/items, or empty: 'data'"),
    (SERVICE + PRICE + 'rows = "/a~b"\n', "method price_of: rows: in a path ~ is written as ~0, and a / in a name as ~1"),
    (SERVICE + PRICE + 'next = "next"\n', "method price_of: next has to be a path as /data/items, or empty: 'next'"),
    (SERVICE + PRICE + 'next_parameter = "page"\n', "method price_of: next_parameter belongs to a path as next"),
    (SERVICE + PRICE + 'format = "csv"\nrows = "/a"\n', 'method price_of: rows, single and a path to the next page belong to format = "json"'),
    (SERVICE + PRICE + 'empty = [500]\n', "method price_of: empty has to be a list of statuses from 200 to 499 without 429"),
    (SERVICE + PRICE + 'empty = 404\n', "method price_of: empty has to be a list of statuses from 200 to 499 without 429"),
    (SERVICE + PRICE + 'null = "skip"\n', "method price_of: null has to be one of refuse, drop"),
    (SERVICE + PRICE + 'columns.price = "/p"\n', "method price_of: columns: the relation has no column 'price'"),
    (SERVICE + PRICE + "columns.amount = 1\n", "method price_of: columns.amount has to be a text or a table"),
    (SERVICE + PRICE + 'columns.amount = "p"\n', "method price_of: columns.amount has to be a path as /data/items, or empty: 'p'"),
    (SERVICE + PRICE + "columns.amount.asked = true\n", "method price_of: columns.amount: only an input can have the value that was asked for"),
    (SERVICE + PRICE + 'columns.amount = { path = "/p" }\n', "method price_of: columns.amount: unknown key 'path'"),
    ('[service.s]\nkind = "sqlite"\n', "service s: the key file is missing"),
    (DATABASE + "rows = 1\n", "service s: unknown key 'rows'"),
    (DATABASE + ITEMS, "method all_items: the key select is missing"),
    (DATABASE + ITEMS + 'select = "DELETE FROM t"\n', "method all_items: select has to begin with SELECT, WITH or VALUES"),
    (DATABASE + ITEMS + 'select = "SELECT :id"\n', "method all_items: select: id is no input of the method"),
    (DATABASE + PRICE.replace('url = "/p?id={id}"', 'select = "SELECT \':id\'"'), "method price_of: the input id has no place in the request"),
    (DATABASE + ITEMS + 'select = "SELECT 1"\nurl = "/a"\n', "method all_items: unknown key 'url'"),
    ('[service.s]\nkind = "dbapi"\nconnect = {}\n', "service s: the key module is missing"),
    ('[service.s]\nkind = "dbapi"\nmodule = "a;b"\nconnect = {}\n', "service s: module 'a;b' is no name of a Python module"),
    ('[service.s]\nkind = "dbapi"\nmodule = "m"\nconnect = { password = "x" }\n',
     'service s: connect.password is a secret, and has to come from the environment: { env = "NAME" }'),
    ('[service.s]\nkind = "dbapi"\nmodule = "m"\nconnect = { password = 5 }\n',
     'service s: connect.password has to be a text, or { env = "NAME" }'),
    ('[service.s]\nkind = "csv"\n' + ITEMS, "method all_items: the key file is missing"),
    ('[service.s]\nkind = "csv"\nrate = 1\n', "service s: unknown key 'rate'"),
    ('[service.s]\nkind = "csv"\n' + PRICE.replace('url = "/p?id={id}"', 'file = "f"\ncolumns.id.asked = true'),
     "method price_of: columns: a file has the values at its inputs, and none is the one that was asked for"),
    (DATABASE + ITEMS + 'select = "SELECT 1"\ncolumns.id.optional = true\n', "method all_items: columns.id: optional belongs to rows of JSON"),
]


def fault_of(text):
    try:
        read_settings(text if isinstance(text, bytes) else text.encode(), read_schema(SCHEMA.encode()), "/base")
    except TextFault as fault:
        return str(fault)
    return None


def test_each_fault_of_the_services_file(_):
    for text, err in FAULTS:
        found = fault_of(text)
        if err is None:  # the words are those of Python
            assert found and found.startswith("services: "), (text, found)
        else:
            same((text, found), (text, f"services: {err}"))


def test_forms_that_are_taken(_):
    for text in ["", "\ufeff", SERVICE, SERVICE + PRICE, SERVICE + PRICE.replace("/p", "https://other:8080/p"),
                 SERVICE + PRICE + 'query = { token = "{id}", key = { env = "KEY" }, author = "a", sort_key = "name" }\n',
                 SERVICE + PRICE + 'next = ""\nempty = [404]\nsingle = false\n',
                 SERVICE + 'timeout = 1\nrate = 0.5\nmax_wait = 0\nwait = 0\n', DATABASE + ITEMS + 'select = "\\n with a as (select 1) select 1"\n',
                 '[service.s]\nkind = "dbapi"\nmodule = "a.b"\nconnect = { dsn = { env = "D" }, autocommit = true, host = "h" }\n']:
        same((text, fault_of(text)), (text, None))
