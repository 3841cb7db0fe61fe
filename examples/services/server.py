#!/usr/bin/env python3
"""A small web service over the six relations of examples/flights, on this machine alone.

usage: python3 server.py [PORT]     (default: 8017; 0 for any free port, which is printed)

    GET  /airports?page=2             {"airports": [{"code": .., "city": ..}, ..], "next": "/airports?page=3"}; ten a page
    GET  /airports/OSL                {"code": "OSL", "city": "Oslo"}, or status 404
    GET  /routes?from=OSL             {"destinations": ["AMS", ..]}
    POST /flights                     of {"from": "OSL", "to": "CPH", "day": "2027-03-01"}: {"flights": [{"number": ..}, ..]}
    GET  /fares/PD121?day=2027-03-01  CSV, with the columns class and price
    GET  /carriers/PD121              {"number": "PD121", "airline": "Nordwind"}, or status 404
    GET  /calendar                    {"days": ["2027-03-01", ..]}

Each line on standard output is a request. Ctrl-C ends the server.
"""
import csv
import io
import json
import os
import sys
from http.server import BaseHTTPRequestHandler, ThreadingHTTPServer
from urllib.parse import parse_qs, unquote, urlsplit

DATA = f"{os.path.dirname(os.path.realpath(__file__))}/../flights/data"
PAGE = 10


class NotThere(Exception):
    """There is nothing at this path."""


class Tables:
    """The rows of the relations, as dictionaries."""

    def __init__(self):
        for name in ("airport", "calendar", "carrier", "fare", "flight", "route"):
            with open(f"{DATA}/{name}.csv", newline="", encoding="utf-8") as file:
                setattr(self, name, list(csv.DictReader(file)))

    def answer(self, verb, path, query, body):
        """What a request gets: the type of the body and the body."""
        asked = [verb] + [unquote(part) for part in path.strip("/").split("/")]
        if asked == ["GET", "airports"]:
            return as_json(self.airports(int(query.get("page", "1"))))
        if asked[:2] == ["GET", "airports"] and len(asked) == 3:
            return as_json(first(self.airport, code=asked[2]))
        if asked == ["GET", "routes"]:
            return as_json({"destinations": [row["destination"] for row in where(self.route, origin=query["from"])]})
        if asked == ["POST", "flights"]:
            wanted = json.loads(body)
            found = where(self.flight, origin=wanted["from"], destination=wanted["to"], day=wanted["day"])
            return as_json({"flights": [{"number": row["number"]} for row in found]})
        if asked[:2] == ["GET", "fares"] and len(asked) == 3:
            return as_csv(["class", "price"], where(self.fare, number=asked[2], day=query["day"]))
        if asked[:2] == ["GET", "carriers"] and len(asked) == 3:
            return as_json(first(self.carrier, number=asked[2]))
        if asked == ["GET", "calendar"]:
            return as_json({"days": [row["day"] for row in self.calendar]})
        raise NotThere

    def airports(self, page):
        rows = self.airport[(page - 1) * PAGE:page * PAGE]
        more = page * PAGE < len(self.airport)
        return {"airports": rows, "next": f"/airports?page={page + 1}" if more else None}


def where(rows, **values):
    return [row for row in rows if all(row[name] == value for name, value in values.items())]


def first(rows, **values):
    found = where(rows, **values)
    if not found:
        raise NotThere
    return found[0]


def as_json(value):
    return "application/json", json.dumps(value, ensure_ascii=False)


def as_csv(names, rows):
    text = io.StringIO()
    csv.writer(text, lineterminator="\n").writerows([names] + [[row[name] for name in names] for row in rows])
    return "text/csv; charset=utf-8", text.getvalue()


class Handler(BaseHTTPRequestHandler):
    tables = Tables()

    def do_GET(self):
        self.give("GET", None)

    def do_POST(self):
        self.give("POST", self.rfile.read(int(self.headers.get("Content-Length", "0"))))

    def give(self, verb, body):
        parts = urlsplit(self.path)
        query = {name: values[0] for name, values in parse_qs(parts.query, keep_blank_values=True).items()}
        try:
            status, (kind, text) = 200, self.tables.answer(verb, parts.path, query, body)
        except NotThere:
            status, kind, text = 404, "application/json", '{"error": "there is no such thing"}'
        except (KeyError, TypeError, ValueError):
            status, kind, text = 400, "application/json", '{"error": "a required value is missing"}'
        data = text.encode()
        self.send_response(status)
        self.send_header("Content-Type", kind)
        self.send_header("Content-Length", str(len(data)))
        self.end_headers()
        self.wfile.write(data)
        sys.stdout.write(f"{verb} {self.path} {body.decode('utf-8', 'replace') if body else ''}".rstrip() + "\n")
        sys.stdout.flush()

    def log_message(self, *_):
        pass


def main():
    server = ThreadingHTTPServer(("127.0.0.1", int(sys.argv[1]) if len(sys.argv) > 1 else 8017), Handler)
    print(f"http://127.0.0.1:{server.server_address[1]}", flush=True)
    try:
        server.serve_forever()
    except KeyboardInterrupt:
        pass


if __name__ == "__main__":
    main()
