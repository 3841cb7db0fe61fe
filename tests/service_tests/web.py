"""Web services: what is sent, what is read, and what is refused."""
import email.utils
import threading
import time

from .room import ANSWER, PLAN, SERVICES, Reply, same, shop, until

ONE = "plan 1\nbranch\naccess price_of('2', new)\noutput $0\nend\n"
ONE_ROW = "column1\n20\n"
WHERE = "branch 1 step 1: price_of(id '2'): "


def one(room, answer, more="", services=SERVICES, environment=None):
    """What a run gives that asks for one price, with further lines in the services file."""
    room.write("p.plan", ONE)
    server = room.serve(answer, services + more)
    return room.carry(environment=environment), server


def fixed(body, status=200, **headers):
    return lambda call: Reply(body, status, **headers)


def refused(room, answer, status, err, more="", services=SERVICES, environment=None):
    """A run that ends with this status and line, and writes no answer."""
    got, server = one(room, answer, more, services, environment)
    same(got, (status, "", err + "\n"))
    return server


# ---- what is asked


def test_each_request_is_made_once_in_ascending_order(room):
    server = room.serve()
    same(room.carry(), (0, ANSWER, ""))
    same(server.targets, ["/items", "/prices?id=1", "/prices?id=2", "/prices?id=3"])


def test_values_are_percent_encoded(room):
    room.write("p.plan", PLAN.replace("access all_items(new, new)", "access all_items(new, new)\naccess item_of('a/b c?&=é%+#', new)"))
    path = '[method.item_of]\nservice = "shop"\nurl = "/items/{id}/{{x}}"\nquery = { of = "<{id}>" }\n'

    def answer(call):
        if call.path.startswith("/items/"):
            return Reply([{"id": "a/b c?&=é%+#", "name": "n"}])
        return shop(call)
    server = room.serve(answer, SERVICES + path)
    same(room.carry()[0], 0)
    same(server.calls[1].path, "/items/a/b c?&=é%+#/{x}")
    same(server.targets[1].split("?")[0], "/items/a%2Fb%20c%3F%26%3D%C3%A9%25%2B%23/{x}")
    same(server.calls[1].query, {"of": "<a/b c?&=é%+#>"})


def test_names_of_columns_in_any_characters(room):
    room.write("s.pdq", 'relation r("full name?", "Größe")\nmethod m on r("full name?", "Größe") cost 1\n')
    room.write("p.plan", "plan 1\nbranch\naccess m('a', 'b')\noutput 'c'\nend\n")
    server = room.serve(fixed([{"full name?": "a", "Größe": "b"}]),
                        '[service.s]\nkind = "http"\nurl = "URL"\n[method.m]\nservice = "s"\nurl = "/x/{full name?}/{Größe}"\n')
    same(room.carry(), (0, "column1\nc\n", ""))
    same(server.targets, ["/x/a/b"])


def test_a_value_that_would_change_the_path_is_not_sent(room):
    services = SERVICES.replace("/prices?id={id}", "/prices/{id}/now")
    for value, sent in [("", False), (".", False), ("..", False), ("...", True)]:
        room.write("p.plan", ONE.replace("'2'", f"'{value}'"))
        server = room.serve(fixed([]), services)
        err = "" if sent else f"branch 1 step 1: price_of(id '{value}'): the value '{value}' cannot be sent as a part of the path\n"
        same(room.carry(), (0, "column1\n", "") if sent else (9, "", err))
        same(len(server.calls), int(sent))


def test_a_form_and_a_body_of_json(room):
    for body, wanted, kind in [
            ('form = { id = "{id}", "a b" = "x&{id}" }', b"id=2&a+b=x%262", "application/x-www-form-urlencoded"),
            ('json = { id = "{id}", deep = [{ n = "n{id}", t = true, f = 1.5 }, 7] }',
             b'{"id": "2", "deep": [{"n": "n2", "t": true, "f": 1.5}, 7]}', "application/json"),
            ('json = { id = "{id}", text = " {id}" }\nnumbers = ["id"]', b'{"id": 2, "text": " 2"}', "application/json")]:
        services = SERVICES.replace('url = "/prices?id={id}"', f'url = "/prices"\nverb = "POST"\n{body}')
        got, server = one(room, fixed([{"id": 2, "amount": 20}]), services=services)
        same(got, (0, ONE_ROW, ""))
        same((server.calls[0].verb, server.calls[0].body, server.calls[0].headers["Content-Type"]), ("POST", wanted, kind))


def test_a_value_that_is_no_number(room):
    services = SERVICES.replace('url = "/prices?id={id}"', 'url = "/prices"\nverb = "POST"\njson = { id = "{id}" }\nnumbers = ["id"]')
    room.write("p.plan", ONE.replace("'2'", "'02'"))
    room.serve(services=services)
    same(room.carry(), (9, "", "branch 1 step 1: price_of(id '02'): the value '02' cannot be sent: it is no number\n"))


def test_headers_and_a_secret_of_the_environment(room):
    more = 'headers = { X-Version = "3", Authorization = { env = "SHOP_TOKEN", before = "Bearer " } }\nquery = { key = { env = "SHOP_KEY" } }\n'
    environment = {"SHOP_TOKEN": "hidden-token\n", "SHOP_KEY": "hidden/key 2"}
    got, server = one(room, shop, more, environment=environment)
    same(got, (0, ONE_ROW, ""))
    headers = server.calls[0].headers
    same((headers["X-Version"], headers["Authorization"]), ("3", "Bearer hidden-token"))
    same(server.targets, ["/prices?id=2&key=hidden%2Fkey%202"])
    services = SERVICES.replace('url = "/prices?id={id}"', 'url = "/prices"\nverb = "POST"\nform = { id = "{id}", key = { env = "SHOP_KEY" } }')
    got, server = one(room, fixed([{"id": "2", "amount": "20"}]), services=services, environment=environment)
    same((got, server.calls[0].body), ((0, ONE_ROW, ""), b"id=2&key=hidden%2Fkey+2"))
    refused(room, fixed("no: hidden-token, hidden%2Fkey%202, hidden%2Fkey+2, hidden/key 2", 403), 9,
            WHERE + "status 403: `no: ***, ***, ***, ***`", more, environment=environment)
    server = refused(room, shop, 12, "environment: SHOP_TOKEN is not set", more)
    same(server.calls, [])


# ---- what is read


def test_the_one_text_of_each_value(room):
    services = SERVICES.replace('url = "/items"', 'url = "/items"\nrows = "/a~1b/0/~0"\ncolumns.id = "/k/1"\ncolumns.name.at = "/v"')
    room.write("p.plan", "plan 2\nbranch\naccess all_items(new, new)\noutput $0, $1\nend\n")
    values = ['"x"', "1", "-0", "1.50", "1e3", "1E+400", "123456789012345678901234567890", "true", "false", '""', '"\\u00e9"', '"1"']
    rows = ", ".join(f'{{"k": [0, {number}], "v": {value}}}' for number, value in enumerate(values, 10))
    room.serve(fixed(f'\ufeff{{"a/b": [{{"~": [{rows}]}}]}}'), services)
    wanted = ("column1,column2\n10,x\n11,1\n12,-0\n13,1.50\n14,1e3\n15,1E+400\n16,123456789012345678901234567890\n17,true\n18,false\n"
              "19,\n20,é\n21,1\n")
    same(room.carry(), (0, wanted, ""))


def test_null_is_refused_or_drops_the_row(room):
    rows = [{"id": "2", "amount": None}, {"id": "2", "amount": "20"}, {"id": "2"}]
    refused(room, fixed(rows), 10, WHERE + "row 1 has null for amount")
    refused(room, fixed(rows), 10, WHERE + "row 3 has no amount: nothing is at '/amount'", 'null = "drop"\n')
    for more in ['null = "drop"\ncolumns.amount.optional = true\n', 'columns.amount = { null = "drop", optional = true }\n']:
        same(one(room, fixed(rows), more)[0], (0, ONE_ROW, ""))
    refused(room, fixed(rows), 10, WHERE + "row 1 has null for amount", 'null = "drop"\ncolumns.amount.null = "refuse"\n')


def test_a_row_with_another_value_at_an_input(room):
    refused(room, fixed([{"id": "2", "amount": "1"}, {"id": "3", "amount": "1"}]), 10, WHERE + "row 2 has '3' for id, and '2' was asked for")
    refused(room, fixed([{"id": "02", "amount": "1"}]), 10, WHERE + "row 1 has '02' for id, and '2' was asked for")
    refused(room, fixed([{"id": None, "amount": "1"}]), 10, WHERE + "row 1 has null for id")


def test_rows_without_a_column(room):
    refused(room, fixed([{"id": "2"}]), 10, WHERE + "row 1 has no amount: nothing is at '/amount'")
    refused(room, fixed(["2"]), 10, WHERE + "row 1 has no id: nothing is at '/id'")
    same(one(room, fixed([{"amount": "20"}]), "columns.id.asked = true\n")[0], (0, ONE_ROW, ""))


def test_what_is_no_answer(room):
    for body, err, more in [
            ("<html>\n", "no JSON (Expecting value: line 1 column 1 (char 0)): `<html>`", ""),
            ("", "no JSON (Expecting value: line 1 column 1 (char 0)): nothing", ""),
            ("[NaN]", "no JSON: NaN is no value of JSON", ""),
            ("[" * 100_000, "no JSON that can be read: it is nested too deeply", ""),
            ({"error": "x"}, "no list is at '': `{\"error\": \"x\"}`", ""),
            ({"data": 5}, "no list is at '/rows': `{\"data\": 5}`", 'rows = "/rows"\n'),
            ([], "no object is at '/0': `[]`", 'rows = "/0"\nsingle = true\n'),
            ([{"id": "2", "amount": [1]}], "row 1 has a value of the type list, which has no text form for amount", ""),
            ('[{"id": "2", "amount": "\\ud800"}]', "row 1 has a text that is not Unicode for amount", ""),
            ("id,amount\n", "no JSON (Expecting value: line 1 column 1 (char 0)): `id,amount`", ""),
            ("", "no CSV: there is no header", 'format = "csv"\n'),
            ("id,name\n", "no column amount: 'amount' does not stand once in `id, name`", 'format = "csv"\n'),
            ("id,amount\n2\n", "row 1 has 1 fields, and the header has 2", 'format = "csv"\n'),
            (b"\xff", "the body is not utf-8 at byte 0", "")]:
        refused(room, fixed(body), 10, WHERE + err, more)
    refused(room, fixed([], Content_Type="application/json; charset=none"), 10, WHERE + "the character set none is not known")
    refused(room, fixed([], Content_Encoding="gzip"), 10, WHERE + "the body is packed as gzip, which was not asked for")


def test_csv_in_another_character_set(room):
    body = '\nname,amount,id\n"caf\u00e9, \n",20,2\n'.encode("latin-1")
    same(one(room, fixed(body, Content_Type="text/csv; charset=ISO-8859-1"), 'format = "csv"\n')[0], (0, ONE_ROW, ""))
    more = 'format = "csv"\ncolumns.amount = "name"\n'
    same(one(room, fixed(body, Content_Type="text/csv; charset=ISO-8859-1"), more)[0], (0, 'column1\n"caf\u00e9, \n"\n', ""))


def test_an_answer_that_does_not_say_where_it_ends(room):
    refused(room, fixed("id,amount\n2,20\n", Content_Length=None), 10, WHERE + "a CSV text without Content-Length, of which rows may be missing",
            'format = "csv"\n')
    same(one(room, fixed([{"id": "2", "amount": "20"}], Content_Length=None))[0], (0, ONE_ROW, ""))
    chunked = "7\r\nid,amou\r\n8\r\nnt\n2,20\n\r\n0\r\n\r\n"
    same(one(room, fixed(chunked, Content_Length=None, Transfer_Encoding="chunked"), 'format = "csv"\n')[0], (0, ONE_ROW, ""))
    cut = in_turn(*(Reply(body, Content_Length=None, Transfer_Encoding="chunked") for body in (chunked[:20], chunked)))
    got, server = one(room, cut, 'format = "csv"\n')
    same((got, len(server.calls)), ((0, ONE_ROW, ""), 2))


def test_one_object_and_no_row(room):
    more = 'single = true\nempty = [404, 204]\ncolumns.id.asked = true\n'
    same(one(room, fixed({"amount": 20}), more)[0], (0, ONE_ROW, ""))
    for status in (404, 204):
        got, server = one(room, fixed("", status), more)
        same((got, len(server.calls)), ((0, "column1\n", ""), 1))
    server = refused(room, fixed("gone\r\nfor ever", 410), 9, WHERE + "status 410: `gone`", more)
    same(len(server.calls), 1)


def test_a_body_over_the_limit(room):
    services = SERVICES.replace("wait = 0.01", "wait = 0.01\nmax_bytes = 30")
    same(one(room, fixed('[{"id": "2", "amount": "20"}]' + " "), services=services)[0], (0, ONE_ROW, ""))
    services = services.replace("max_bytes = 30", "max_bytes = 200")  # of three pages of some 80 bytes each
    refused(room, pages, 10, WHERE + "the answer has more than the 200 bytes of max_bytes", 'rows = "/rows"\nnext = "/next"\n', services)
    services = services.replace("max_bytes = 200", "max_bytes = 30")
    refused(room, fixed('[{"id": "2", "amount": "20"}]' + "  "), 10, WHERE + "the answer has more than the 30 bytes of max_bytes",
            services=services)


# ---- pages


def pages(call):
    """Three pages of one row each: by a path, by a parameter and by a header."""
    page = int(call.query.get("page", "1"))
    more = page < 3
    body = {"rows": [{"id": call.query["id"], "amount": str(page)}], "next": f"prices?id=2&page={page + 1}" if more else None,
            "cursor": page + 1 if more else ""}
    link = f'</other>, <{call.path}?page=1>; rel="first", </prices?id=2&page={page + 1}>; title="a, b"; rel="last next"'
    return Reply(body, Link=link if more else "")


def test_pages_are_followed(room):
    for more in ['next = "/next"', 'next = "/cursor"\nnext_parameter = "page"', 'next = "Link"', 'next = "link"']:
        got, server = one(room, pages, f'rows = "/rows"\n{more}\n')
        same(got, (0, "column1\n1\n2\n3\n", ""))
        same(server.targets, ["/prices?id=2", "/prices?id=2&page=2", "/prices?id=2&page=3"])


def test_pages_that_lead_round_or_do_not_end(room):
    def round_about(call):
        following = {None: "1", "1": "2", "2": "1"}[call.query.get("page")]
        return Reply({"rows": [], "next": f"/prices?id=2&page={following}"})
    server = refused(room, round_about, 10, WHERE + "the pages lead round: page 3 leads back to one before it", 'rows = "/rows"\nnext = "/next"\n')
    same(len(server.calls), 3)

    def endless(call):
        return Reply({"rows": [], "next": f"/prices?id=2&page={int(call.query.get('page', 1)) + 1}"})
    services = SERVICES.replace("wait = 0.01", "wait = 0.01\npages = 4")
    server = refused(room, endless, 10, WHERE + "there are more than the 4 pages of the key pages", 'rows = "/rows"\nnext = "/next"\n', services)
    same(len(server.calls), 4)


def test_a_page_on_another_server_is_not_asked_for(room):
    other = room.serve()
    for url in (other.url + "/prices?id=2", "https://127.0.0.1/", "file:///etc/passwd", "http://[/"):
        refused(room, fixed({"rows": [], "next": url}), 10, WHERE + f"the next page is on another server, and is not asked for: {url}",
                'rows = "/rows"\nnext = "/next"\n')
    refused(room, fixed({"rows": [], "next": 5}), 10, WHERE + "what is at '/next' is no next page: `5`", 'rows = "/rows"\nnext = "/next"\n')
    same(other.calls, [])


def test_a_redirection_is_not_followed(room):
    other = room.serve()
    err = f"status 302, a redirection to {other.url}/items, which is not followed: write that URL"
    refused(room, fixed("", 302, Location=other.url + "/items"), 9, WHERE + err)
    same(other.calls, [])


# ---- retries and times


def in_turn(*replies):
    """Gives the replies one after another, and then prices."""
    left = list(replies)
    return lambda call: left.pop(0) if left else shop(call)


def test_calls_are_repeated_after_5xx_429_and_lost_connections(room):
    got, server = one(room, in_turn(Reply("", 503), Reply("", 500), None, Reply("", 429)))
    same((got, len(server.calls)), ((0, ONE_ROW, ""), 5))
    cut = Reply("[", Content_Length="100")
    got, server = one(room, in_turn(cut))
    same((got, len(server.calls)), ((0, ONE_ROW, ""), 2))


def test_calls_are_not_repeated_for_ever(room):
    services = SERVICES.replace("wait = 0.01", "wait = 0.01\nretries = 2")
    server = refused(room, fixed("<b>down</b>", 502), 9, WHERE + "status 502: `<b>down</b>`, after 3 calls", services=services)
    same(len(server.calls), 3)
    services = SERVICES.replace("wait = 0.01", "retries = 0")
    server = refused(room, fixed("\x1b[31mbusy", 429), 9, WHERE + "status 429: `[31mbusy`, after 1 call", services=services)
    same(len(server.calls), 1)


def test_no_connection(room):
    server = room.serve(services=SERVICES.replace("wait = 0.01", "wait = 0.01\nretries = 1"))
    server.close()
    room.servers.remove(server)
    status, out, err = room.carry()
    same((status, out), (9, ""))
    assert err.startswith("branch 1 step 1: all_items(): no connection: ConnectionRefusedError"), err
    assert err.endswith(", after 2 calls\n"), err


def test_retry_after_is_waited_for(room):
    def times(*replies):
        begins, give = [], in_turn(*replies)

        def answer(call):
            begins.append(time.monotonic())
            return give(call)
        got, _ = one(room, answer)
        same(got, (0, ONE_ROW, ""))
        return begins[1] - begins[0]
    assert times(Reply("", 429, Retry_After="1")) >= 1
    assert times(Reply("", 503, Retry_After=email.utils.formatdate(time.time() + 3, usegmt=True))) >= 1
    assert times(Reply("", 503, Retry_After="soon")) < 20
    services = SERVICES.replace("wait = 0.01", "max_wait = 60")
    refused(room, in_turn(Reply("", 429, Retry_After="61")), 9, WHERE + "status 429: nothing, and asks to wait 61 seconds, more than max_wait",
            services=services)


def test_a_slow_service(room):
    def slow(call):
        time.sleep(1.5)
        return shop(call)
    services = SERVICES.replace("wait = 0.01", "wait = 0.01\nretries = 1\ntimeout = 0.3")
    server = refused(room, slow, 9, WHERE + "no answer within 0.3 seconds, after 2 calls", services=services)
    until(lambda: len(server.calls) == 2)
    # a body of which a byte comes from time to time
    services = SERVICES.replace("wait = 0.01", "retries = 0\ntimeout = 0.4")
    refused(room, fixed("[" + " " * 100 + "]", slowly=0.1), 9, WHERE + "no answer within 0.4 seconds, after 1 call", services=services)


def test_so_many_calls_a_second(room):
    for more, words in [("rate = 10", []), ("rate = 1000", ["--rate", "10"]), ("", ["--rate=10"])]:
        room.write("p.plan", PLAN)
        server = room.serve(services=SERVICES.replace("wait = 0.01", more))
        began = time.monotonic()
        same(room.carry("--workers", "4", *words), (0, ANSWER, ""))
        assert time.monotonic() - began >= 0.3, "four calls, ten a second"
        same(len(server.calls), 4)


def test_several_workers(room):
    together = threading.Barrier(3)

    def slow(call):
        if call.path == "/prices":
            together.wait(60)
        return shop(call)
    server = room.serve(slow)
    same(room.carry("--workers", "3"), (0, ANSWER, ""))
    same((sorted(server.targets[1:]), server.most_at_once), (["/prices?id=1", "/prices?id=2", "/prices?id=3"], 3))


def test_the_earliest_of_several_failures_is_reported(room):
    together = threading.Barrier(3)

    def refusing(call):
        if call.path == "/prices":
            together.wait(60)
            return Reply("", 400)
        return shop(call)
    room.serve(refusing)
    same(room.carry("--workers", "3"), (9, "", "branch 1 step 2: price_of(id '1'): status 400: nothing\n"))
