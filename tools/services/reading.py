"""Reads the services file.

`read_settings` reads the whole file over a schema, and refuses it by its first fault: a key that nobody knows, a method that the schema lacks,
a template without an input, a secret in the file. Nothing is opened, and no variable of the environment is looked at.
"""
from __future__ import annotations

import os
import re
import sys
from typing import Dict, Iterable, List, Mapping, Tuple, Union
from urllib.parse import urlsplit

from pdq_texts import Method, Relation, Schema, shown_name

from .faults import MachineFault, TextFault
from .keys import REQUIRED, Keys
from .secrets import FromEnvironment
from .settings import Database, DataFile, Folder, MethodSettings, Pair, Select, Service, Value, WebCall, WebService
from .templates import NoTemplate, Statement, Template
from .texts import Column, Pointer, RowForm

MOST_BYTES = 1 << 20
SECRET_WORDS = re.compile(r"""
    auth(?!or(?!i[sz])) | cookie | token | secret | passw | pwd | credential | session | signature | dsn | ^key$ | (api|access|app|private)[-_]?key
    """, re.IGNORECASE | re.VERBOSE)
HEADER_NAME = re.compile(r"[A-Za-z0-9!#$%&'*+.^_`|~-]+")
CONTROL = re.compile(r"[\x00-\x1f\x7f]")


def parsed(data: bytes) -> Mapping[str, object]:
    """The tables of the file."""
    try:
        import tomllib
    except ImportError:
        version = ".".join(map(str, sys.version_info[:3]))
        raise MachineFault(f"services: the module tomllib is missing: Python 3.11 or newer is needed, and this is {version}") from None
    if len(data) > MOST_BYTES:
        raise TextFault("services: too large")
    try:
        return tomllib.loads(data.decode("utf-8-sig"))
    except UnicodeDecodeError as fault:
        raise TextFault(f"services: not UTF-8 at byte {fault.start}") from None
    except (tomllib.TOMLDecodeError, RecursionError) as fault:
        raise TextFault(f"services: not TOML: {fault}") from None


def read_settings(data: bytes, schema: Schema, base: str) -> Dict[str, MethodSettings]:
    """The settings of each method that the file speaks of, by the method's name. Other files are looked up from the folder `base`."""
    top = Keys("", parsed(data))
    service_tables = top.tables("service")
    method_tables = top.tables("method")
    top.finish()
    services = {name: read_service(name, keys, base) for name, keys in service_tables.items()}
    methods = {method.name: method for method in schema.methods}
    relations = {relation.name: relation for relation in schema.relations}
    settings = {}
    for name, keys in method_tables.items():
        if name not in methods:
            raise keys.fault("the schema has no such method")
        method = methods[name]
        settings[name] = read_method(keys, method, relations[method.relation], services)
    return settings


# ---- services


def read_service(name: str, keys: Keys, base: str) -> Service:
    kind = keys.choice("kind", ("http", "sqlite", "dbapi", "csv"))
    service = {"http": read_web, "sqlite": read_sqlite, "dbapi": read_dbapi, "csv": read_folder}[kind](name, keys, base)
    keys.finish()
    return service


def read_web(name: str, keys: Keys, _base: str) -> WebService:
    url = keys.text("url", "")
    if url:
        check_url(keys, url)
    return WebService(name, url, read_headers(keys), keys.number("rate", None, above=0), keys.number("timeout", 30.0, above=0),
                      keys.whole("retries", 4, 0, 100), keys.number("wait", 1.0, least=0), keys.number("max_wait", 300.0, least=0),
                      keys.whole("max_bytes", 16 << 20, 1, 1 << 32), keys.whole("pages", 1000, 1, 1_000_000))


def read_sqlite(name: str, keys: Keys, base: str) -> Database:
    return Database(name, "sqlite", os.path.join(base, keys.text("file")), "sqlite3", (), keys.number("rate", None, above=0),
                    keys.number("timeout", 30.0, above=0), keys.whole("max_rows", 1_000_000, 1, 1 << 32))


def read_dbapi(name: str, keys: Keys, _base: str) -> Database:
    module = keys.text("module")
    if not all(part.isidentifier() for part in module.split(".")):
        raise keys.fault(f"module {module!r} is no name of a Python module")
    return Database(name, "dbapi", "", module, read_connect(keys), keys.number("rate", None, above=0), 0.0,
                    keys.whole("max_rows", 1_000_000, 1, 1 << 32))


def read_connect(keys: Keys) -> Union[FromEnvironment, Tuple[Tuple[str, object], ...]]:
    """The words of the connection: one text of the environment, or words by name, of which the secret ones are of the environment."""
    table = keys.table("connect")
    if set(table) <= {"env", "before"} and "env" in table:
        return read_value(keys, "connect", table)
    words = []
    for name, value in table.items():
        if isinstance(value, (int, bool, float)) and not SECRET_WORDS.search(name):
            words.append((name, value))
        else:
            words.append((name, read_value(keys, f"connect.{name}", value, secret=SECRET_WORDS.search(name) is not None)))
    return tuple(words)


def read_folder(name: str, keys: Keys, base: str) -> Folder:
    return Folder(name, os.path.join(base, keys.text("folder", "")), keys.whole("max_bytes", 256 << 20, 1, 1 << 32))


def read_value(keys: Keys, where: str, value: object, secret: bool = False) -> Value:
    """A text, or one of the environment; a secret has to be of the environment."""
    if isinstance(value, dict):
        inner = Keys(keys.inner(where), value)
        name, before = inner.text("env"), inner.text("before", "")
        inner.finish()
        if not name or "=" in name or "\0" in name:
            raise keys.fault(f"{where}: {name!r} is no name of a variable")
        return FromEnvironment(name, before)
    if not isinstance(value, str):
        raise keys.fault(f"{where} has to be a text, or {{ env = \"NAME\" }}")
    if secret:
        raise keys.fault(f"{where} is a secret, and has to come from the environment: {{ env = \"NAME\" }}")
    return value


def read_headers(keys: Keys) -> Tuple[Tuple[str, Value], ...]:
    headers = []
    for name, value in keys.table("headers", {}).items():
        if not HEADER_NAME.fullmatch(name):
            raise keys.fault(f"headers: {name!r} is no name of a header")
        text = read_value(keys, f"headers.{name}", value, secret=SECRET_WORDS.search(name) is not None)
        written = text if isinstance(text, str) else text.before
        if not written.isascii() or not written.isprintable():
            raise keys.fault(f"headers.{name} has a character that no header may have")
        headers.append((name, text))
    return tuple(headers)


def check_url(keys: Keys, url: str) -> None:
    """Refuses what is no URL of a web service, and one with a secret in it. Names of columns may have any characters."""
    url = re.sub(r"\{[^{}]*\}", "{}", url)
    try:
        parts = urlsplit(url)
        parts.port
    except ValueError as fault:
        raise keys.fault(f"url: {fault}") from None
    if parts.scheme not in ("http", "https") or not parts.hostname:
        raise keys.fault("url has to begin with http:// or https:// and a host")
    if parts.username is not None or parts.password is not None:
        raise keys.fault("url has a user or a password: secrets come from the environment, as by a header")
    if "{" in parts.netloc:
        raise keys.fault("url: a column may not choose the host")
    if parts.fragment or CONTROL.search(url) or " " in url or not url.isascii():
        raise keys.fault("url has a blank, a #, or another character that has to be percent-encoded")
    for pair in parts.query.split("&"):
        name, _, value = pair.partition("=")
        if SECRET_WORDS.search(name) and not value.startswith("{"):
            raise keys.fault(f"url has the secret {name}: write query.{name} = {{ env = \"NAME\" }}")


# ---- methods


def read_method(keys: Keys, method: Method, relation: Relation, services: Mapping[str, Service]) -> MethodSettings:
    columns, name = relation.columns, keys.text("service")
    if name not in services:
        raise keys.fault(f"there is no service {name!r}")
    service = services[name]
    inputs = tuple(column for column in columns if column in method.inputs)
    if isinstance(service, WebService):
        call = read_web_call(keys, service, inputs)
        by_pointer = call.format == "json"
    else:
        call = read_select(keys, inputs) if isinstance(service, Database) else DataFile(keys.text("file"))
        by_pointer = False
    form = RowForm(read_columns(keys, columns, inputs, by_pointer), inputs)
    if isinstance(call, DataFile) and any(column.asked for column in form.columns):
        raise keys.fault("columns: a file has the values at its inputs, and none is the one that was asked for")
    keys.finish()
    return MethodSettings(method, service, call, form, tuple(at for at, sort in enumerate(relation.sorts) if sort == "int"))


def read_columns(keys: Keys, columns: List[str], inputs: Tuple[str, ...], by_pointer: bool) -> Tuple[Column, ...]:
    """Where each column of the relation stands; without an entry it stands under its own name."""
    drops_null = keys.choice("null", ("refuse", "drop"), "refuse") == "drop"
    table = keys.table("columns", {})
    for name in table:
        if name not in columns:
            raise keys.fault(f"columns: the relation has no column {name!r}")
    return tuple(read_column(keys, name, table.get(name), name in inputs, by_pointer, drops_null) for name in columns)


def read_column(keys: Keys, name: str, entry: object, is_input: bool, by_pointer: bool, drops_null: bool) -> Column:
    own = "/" + name.replace("~", "~0").replace("/", "~1") if by_pointer else name
    if entry is None or isinstance(entry, str):
        column = Column(name, own if entry is None else entry, drops_null=drops_null)
    elif isinstance(entry, dict):
        inner = Keys(keys.inner(f"columns.{name}"), entry)
        asked = inner.flag("asked", False)
        null = inner.choice("null", ("refuse", "drop"), "drop" if drops_null else "refuse")
        column = Column(name, inner.text("at", own), asked, null == "drop", inner.flag("optional", False))
        inner.finish()
    else:
        raise keys.fault(f"columns.{name} has to be a text or a table")
    if column.optional and not by_pointer:
        raise keys.fault(f"columns.{name}: optional belongs to rows of JSON")
    if column.asked and not is_input:
        raise keys.fault(f"columns.{name}: only an input can have the value that was asked for")
    if by_pointer:
        check_pointer(keys, f"columns.{name}", column.at)
    return column


def check_pointer(keys: Keys, where: str, written: str) -> Pointer:
    if written and not written.startswith("/"):
        raise keys.fault(f"{where} has to be a path as /data/items, or empty: {written!r}")
    if re.search(r"~(?![01])", written):
        raise keys.fault(f"{where}: in a path ~ is written as ~0, and a / in a name as ~1")
    return Pointer(written)


def template(keys: Keys, where: str, written: object, inputs: Tuple[str, ...]) -> Template:
    """The template that a text is; it names inputs alone."""
    if not isinstance(written, str):
        raise keys.fault(f"{where} has to be a text")
    try:
        found = Template.of(written)
    except NoTemplate as fault:
        raise keys.fault(f"{where}: {fault}") from None
    known_only(keys, where, sorted(found.columns), inputs)
    return found


def known_only(keys: Keys, where: str, names: Iterable[str], inputs: Tuple[str, ...]) -> None:
    for name in names:
        if name not in inputs:
            raise keys.fault(f"{where}: {shown_name(name)} is no input of the method")


def lacks_none(keys: Keys, names: set, inputs: Tuple[str, ...]) -> None:
    """Refuses a request in which an input has no place, since its answer would be one for any value."""
    for name in inputs:
        if name not in names:
            raise keys.fault(f"the input {shown_name(name)} has no place in the request")


def read_web_call(keys: Keys, service: WebService, inputs: Tuple[str, ...]) -> WebCall:
    written = keys.text("url", REQUIRED if not service.url else "")
    whole = written if written.startswith(("http://", "https://")) else service.url + written
    check_url(keys, whole)
    url = template(keys, "url", whole, inputs)
    query = read_pairs(keys, "query", inputs)
    verb = keys.choice("verb", ("GET", "POST"), "GET")
    body, numbers = json_templates(keys, "json", keys.any("json"), inputs), keys.texts("numbers")
    known_only(keys, "numbers", numbers, inputs)
    form = read_pairs(keys, "form", inputs)
    if (body is not None or form) and verb != "POST" or body is not None and form:
        raise keys.fault("json or form, one of them, belongs to verb = \"POST\"")
    names = url.columns.union(*(part.columns for _, part in query + form if isinstance(part, Template)), columns_of(body))
    lacks_none(keys, names, inputs)
    return WebCall(url, query, verb, body, numbers, form, read_headers(keys), *read_answer_form(keys))


def read_pairs(keys: Keys, key: str, inputs: Tuple[str, ...]) -> Tuple[Pair, ...]:
    """The parameters of a URL, or the fields of a form."""
    pairs: List[Pair] = []
    for name, value in keys.table(key, {}).items():
        where = f"{key}.{name}"
        if isinstance(value, dict):
            pairs.append((name, read_value(keys, where, value)))
        else:
            text = template(keys, where, value, inputs)
            refuse_secret(keys, where, name, text)
            pairs.append((name, text))
    return tuple(pairs)


def refuse_secret(keys: Keys, where: str, name: str, text: Template) -> None:
    """Refuses a text for what a name says is a secret, unless it has the value of a column."""
    if SECRET_WORDS.search(name) and not text.columns:
        raise keys.fault(f"{where} is a secret, and has to come from the environment: {{ env = \"NAME\" }}")


def read_answer_form(keys: Keys) -> Tuple[str, Pointer, bool, Tuple[int, ...], str, str]:
    """How the rows and the next page are found in an answer, and which statuses say that there is no row."""
    form = keys.choice("format", ("json", "csv"), "json")
    rows, single = check_pointer(keys, "rows", keys.text("rows", "")), keys.flag("single", False)
    empty = keys.statuses("empty")
    following, parameter = keys.text("next", ""), keys.text("next_parameter", "")
    if following and following.lower() == "link":
        following = "Link"
    elif following:
        check_pointer(keys, "next", following)
    if form == "csv" and (rows.written or single or following not in ("", "Link")):
        raise keys.fault("rows, single and a path to the next page belong to format = \"json\"")
    if parameter and not following.startswith("/"):
        raise keys.fault("next_parameter belongs to a path as next")
    return form, rows, single, empty, following, parameter


def json_templates(keys: Keys, where: str, value: object, inputs: Tuple[str, ...]) -> object:
    """The body with a template for each text."""
    if isinstance(value, str):
        return template(keys, where, value, inputs)
    if isinstance(value, dict):
        found = {name: json_templates(keys, f"{where}.{name}", inner, inputs) for name, inner in value.items()}
        for name, inner in found.items():
            if isinstance(inner, Template) and SECRET_WORDS.search(name) and not inner.columns:
                raise keys.fault(f"{where}.{name} is a secret, and has to come from the environment, by a header, query or form")
        return found
    if isinstance(value, list):
        return [json_templates(keys, where, inner, inputs) for inner in value]
    if value is None or isinstance(value, (bool, int)) or isinstance(value, float) and value - value == 0:
        return value
    raise keys.fault(f"{where} has a value that JSON has not")


def columns_of(value: object) -> set:
    """The columns of all templates of a body."""
    if isinstance(value, Template):
        return value.columns
    inner = value.values() if isinstance(value, dict) else value if isinstance(value, list) else []
    return set().union(*map(columns_of, inner))


def read_select(keys: Keys, inputs: Tuple[str, ...]) -> Select:
    written = keys.text("select")
    if not re.match(r"\s*(select|with|values)\b", written, re.IGNORECASE):
        raise keys.fault("select has to begin with SELECT, WITH or VALUES")
    statement = Statement.of(written)
    known_only(keys, "select", sorted(set(statement.parameters)), inputs)
    lacks_none(keys, set(statement.parameters), inputs)
    return Select(statement)
