"""The journal, and runs that end before their time."""
import json
import os
import signal
import sqlite3
import threading
import time

from services.faults import JournalFault
from services.journal import Journal

from .room import ANSWER, SERVICES, Reply, ended, same, shop, until

FOUR = ["/items", "/prices?id=1", "/prices?id=2", "/prices?id=3"]


def journal_of(room):
    """The requests that the journal has."""
    file = sqlite3.connect(room.path("j"))
    found = [(method, json.loads(inputs)) for method, inputs in file.execute("SELECT method, inputs FROM answers ORDER BY method, inputs")]
    file.close()
    return found


def aged(room, seconds, which="1 = 1"):
    """Makes answers of the journal older."""
    file = sqlite3.connect(room.path("j"))
    file.execute(f"UPDATE answers SET asked = asked - ? WHERE {which}", (seconds,))
    file.commit()
    file.close()


def used(err):
    """How many answers of the journal a run says that it used."""
    return int(err.split()[1]) if err.startswith("journal: ") else 0


def test_a_run_that_broke_goes_on(room):
    broken = [True]
    server = room.serve(lambda call: Reply("no", 400) if broken and call.query.get("id") == "3" else shop(call))
    same(room.carry("--journal", room.path("j")), (9, "", "branch 1 step 2: price_of(id '3'): status 400: `no`\n"))
    same(server.targets, FOUR)
    broken.clear()
    status, out, err = room.carry("--journal", room.path("j"))
    same((status, out, used(err)), (0, ANSWER, 3))
    same(server.targets, FOUR + FOUR[3:])
    status, out, err = room.carry("--journal", room.path("j"))
    same((status, out, used(err), len(server.calls)), (0, ANSWER, 4, 5))


def hanging(hang, free):
    """The shop, which keeps calls for the ids of `hang` waiting until `free` is set."""
    def answer(call):
        if call.query.get("id") in hang:
            free.wait(60)
        return shop(call)
    return answer


def test_a_killed_run_goes_on_and_asks_nothing_twice(room):
    for workers, hang in [("1", ["2"]), ("2", ["2", "3"])]:
        free = threading.Event()
        server = room.serve(hanging(hang, free))
        room.write("p.plan", room.read("p.plan"))
        process = room.start("--journal", room.path(f"j{workers}"), "--workers", workers)
        until(lambda: len(server.calls) == 2 + int(workers))
        process.kill()
        same(ended(process), (-signal.SIGKILL, "", ""))
        answered = sorted(server.answered)
        same(answered, FOUR[:2])
        server.calls.clear()
        free.set()
        status, out, err = room.carry("--journal", room.path(f"j{workers}"))
        same((status, out, used(err)), (0, ANSWER, 2))
        same(server.targets, FOUR[2:])


def test_a_signal_lets_what_is_under_way_end(room):
    for number, status in [(signal.SIGINT, 130), (signal.SIGTERM, 143)]:
        free = threading.Event()
        server = room.serve(hanging(["2"], free))
        journal = room.path(f"j{status}")
        process = room.start("--journal", journal, "--output", room.path("answer"))
        until(lambda: len(server.calls) == 3)
        process.send_signal(number)
        time.sleep(0.3)
        same(process.poll(), None)
        free.set()
        same(ended(process), (status, "", "stopped in branch 1 step 2: 2 of 3 requests of price_of were answered; the journal has their answers\n"))
        same(server.targets, FOUR[:3])
        assert not [name for name in os.listdir(room.folder) if name.startswith("answer")], "an answer was written"
        server.calls.clear()
        same(room.carry("--journal", journal)[:2], (0, ANSWER))
        same(server.targets, FOUR[3:])


def test_a_second_signal_ends_the_run_at_once(room):
    free = threading.Event()
    server = room.serve(hanging(["1"], free))
    process = room.start()
    until(lambda: len(server.calls) == 2)
    while process.poll() is None:
        process.send_signal(signal.SIGINT)
        time.sleep(0.5)
    same(ended(process)[0], -signal.SIGINT)
    free.set()


def test_a_signal_ends_a_wait(room):
    server = room.serve(lambda call: Reply("", 503, Retry_After="50"))
    process = room.start()
    until(lambda: len(server.calls) == 1)
    time.sleep(0.3)
    began = time.monotonic()
    process.send_signal(signal.SIGINT)
    same(ended(process), (130, "", "stopped in branch 1 step 1: 0 of 1 requests of all_items were answered\n"))
    assert time.monotonic() - began < 20


def test_a_failure_lets_no_further_request_begin(room):
    server = room.serve(lambda call: Reply("", 400) if call.path == "/prices" else shop(call))
    status, _, err = room.carry()
    same((status, err, server.targets), (9, "branch 1 step 2: price_of(id '1'): status 400: nothing\n", FOUR[:2]))


def test_only_fresh_answers_are_used(room):
    server = room.serve()
    same(room.carry("--journal", room.path("j"), "--fresh", "12h"), (0, ANSWER, ""))
    aged(room, 13 * 3600, "inputs = '[\"2\"]'")
    server.calls.clear()
    status, out, err = room.carry("--journal", room.path("j"), "--fresh", "12h")
    same((status, out, used(err), server.targets), (0, ANSWER, 3, ["/prices?id=2"]))
    aged(room, 3600, "inputs = '[\"1\"]'")
    file = sqlite3.connect(room.path("j"))
    oldest = file.execute("SELECT min(asked) FROM answers").fetchone()[0]
    file.close()
    wanted = time.strftime("journal: 4 answers used, the oldest of %Y-%m-%d %H:%M:%S\n", time.localtime(oldest))
    same(room.carry("--journal", room.path("j")), (0, ANSWER, wanted))
    for time_word in ("1s", "1", "0.01m", "0.001h"):
        aged(room, 5)
        server.calls.clear()
        same(room.carry("--journal", room.path("j"), "--fresh", time_word), (0, ANSWER, ""))
        same(server.targets, FOUR)
    aged(room, 6 * 86400)
    same(used(room.carry("--journal", room.path("j"), "--fresh", "7d")[2]), 4)
    same(used(room.carry("--journal", room.path("j"))[2]), 4)


def test_what_is_no_answer_is_not_kept(room):
    room.serve(lambda call: Reply([{"id": "9", "amount": "1"}]) if call.query.get("id") == "2" else shop(call))
    same(room.carry("--journal", room.path("j"))[0], 10)
    same(journal_of(room), [("all_items", []), ("price_of", ["1"])])


def test_a_bad_number_is_not_kept_and_not_used(room):
    amounts = {"1": "10", "2": "20", "3": "030"}
    server = room.serve(lambda call: Reply([{"id": call.query["id"], "amount": amounts[call.query["id"]]}]) if call.query else shop(call))
    # a text as the amount, which the journal keeps
    same(room.carry("--journal", room.path("j")), (0, ANSWER.replace("3,30", "3,030"), ""))
    # and then an integer: only the answer that has none is asked for once more
    room.write("s.pdq", b"schema 2\n" + room.read("s.pdq").replace(b"amount", b"amount int"))
    for amount, wanted in [("030", (10, "", "branch 1 step 2: price_of(id '3'): '030' for amount is no integer\n")), ("30", (0, ANSWER))]:
        amounts["3"] = amount
        server.calls.clear()
        same(room.carry("--journal", room.path("j"))[:len(wanted)], wanted)
        same(server.targets, FOUR[3:])


def test_another_definition_has_no_answer_in_the_journal(room):
    server = room.serve()
    text = room.read("services.toml").decode()
    for changed, asked in [(text, FOUR), (text + "# a comment\n", []), (text.replace("wait = 0.01", "rate = 1000\ntimeout = 5"), []),
                           (text + 'null = "drop"\n', FOUR[1:]),
                           (text.replace("id={id}", "id={id}&a=1"), [target + "&a=1" for target in FOUR[1:]]),
                           (text.replace("wait = 0.01", 'headers = { X-A = "1" }'), FOUR), (text, [])]:
        room.write("services.toml", changed)
        server.calls.clear()
        same(room.carry("--journal", room.path("j"))[:2], (0, ANSWER))
        same(server.targets, asked)
    # another relation under the same name
    room.write("s.pdq", room.read("s.pdq").replace(b"price(id, amount)", b"price(id, amount, currency)"))
    room.write("p.plan", room.read("p.plan").replace(b"price_of($0, new)", b"price_of($0, new, new)"))
    same(room.carry("--journal", room.path("j"))[2].split(": ", 2)[2], "row 1 has no currency: nothing is at '/currency'\n")


def test_another_file_of_the_same_name_has_no_answer_in_the_journal(room):
    room.write("p.plan", "plan 1\nbranch\naccess all_items(new, new)\noutput $1\nend\n")
    for folder, name in [("a", "pen"), ("b", "cup"), ("a", "pen")]:
        os.makedirs(room.path(folder), exist_ok=True)
        room.write(f"{folder}/services.toml", '[service.d]\nkind = "sqlite"\nfile = "d.db"\n[method.all_items]\nservice = "d"\n'
                                              'select = "SELECT id, name FROM item"\n')
        file = sqlite3.connect(room.path(f"{folder}/d.db"))
        file.execute("CREATE TABLE IF NOT EXISTS item AS SELECT 1 AS id, ? AS name", (name,))
        file.commit()
        file.close()
        words = ["--schema", room.path("s.pdq"), "--services", room.path(f"{folder}/services.toml"), "--journal", room.path("j"), room.path("p.plan")]
        same(room.run(words)[:2], (0, f"column1\n{name}\n"))


def test_another_plan_uses_the_journal(room):
    server = room.serve()
    same(room.carry("--journal", room.path("j"))[0], 0)
    room.write("p.plan", "plan 1\nbranch\naccess price_of('2', new)\noutput $0\nend\n")
    same(room.carry("--journal", room.path("j"))[:2], (0, "column1\n20\n"))
    same(server.targets, FOUR)


def test_two_runs_on_one_journal(room):
    def slow(call):
        time.sleep(0.05)
        return shop(call)
    room.serve(slow)
    runs = [room.start("--journal", room.path("j"), "--workers", "3") for _ in range(3)]
    same([ended(run)[:2] for run in runs], [(0, ANSWER)] * 3)
    same(len(journal_of(room)), 4)


def test_a_journal_that_another_program_has_locked(room):
    Journal(room.path("j"), None).close()
    other = sqlite3.connect(room.path("j"), isolation_level=None)
    other.execute("BEGIN EXCLUSIVE")
    try:
        Journal(room.path("j"), None, patience=0.1)
        raise AssertionError("it was opened")
    except JournalFault as fault:
        same(str(fault), f"journal {room.path('j')}: database is locked")
    finally:
        other.close()


def test_a_file_that_is_no_journal(room):
    server = room.serve()
    room.write("text", "a text of some length, which is no database at all\n" * 30)
    file = sqlite3.connect(room.path("other"))
    file.execute("CREATE TABLE t (a)")
    file.commit()
    file.close()
    Journal(room.path("later"), None).close()
    file = sqlite3.connect(room.path("later"), isolation_level=None)
    file.execute("PRAGMA user_version = 2")
    file.close()
    for name, err in [("text", "file is not a database"), ("other", "it is a database, and no journal"), ("later", "its form is 2, and 1 is known"),
                      ("none/j", "unable to open database file")]:
        before = os.path.exists(room.path(name)) and room.read(name)
        same(room.carry("--journal", room.path(name)), (11, "", f"journal {room.path(name)}: {err}\n"))
        same(os.path.exists(room.path(name)) and room.read(name), before)
    same(server.calls, [])


def test_the_cap_of_calls(room):
    server = room.serve()
    same(room.carry("--calls", "3", "--journal", room.path("j")), (7, "", "branch 1 step 2 price_of: call cap: 1 made, 3 wanted, cap 3\n"))
    same(server.targets, FOUR[:1])
    same(room.carry("--calls", "0"), (7, "", "branch 1 step 1 all_items: call cap: 0 made, 1 wanted, cap 0\n"))
    # one answer is in the journal, and three are to be made
    same(room.carry("--calls", "3", "--journal", room.path("j"))[:2], (0, ANSWER))
    same(room.carry("--calls", "4")[:2], (0, ANSWER))


def test_a_dry_run_makes_no_request(room):
    server = room.serve()
    first = "branch 1 step 1 all_items: 1 request, "
    same(room.carry("--dry-run"), (0, first + "1 to make\nbranch 1 step 2 price_of: depends on what comes before\n", ""))
    same(server.calls, [])
    same(room.carry("--calls", "3", "--journal", room.path("j"))[0], 7)
    same(room.carry("--dry-run", "--journal", room.path("j")), (0, first + "0 to make\nbranch 1 step 2 price_of: 3 requests, 3 to make\n", ""))
    same(room.carry("--journal", room.path("j"))[0], 0)
    same(room.carry("--dry-run", "--journal", room.path("j")), (0, first + "0 to make\nbranch 1 step 2 price_of: 3 requests, 0 to make\n", ""))
    same(server.targets, FOUR)


def test_a_dry_run_reads_files(room):
    files = '[service.f]\nkind = "csv"\n[method.all_items]\nservice = "f"\nfile = "items.csv"\n'
    server = room.serve(services=SERVICES.split("[method.all_items]")[0] + files + "[method.price_of]" + SERVICES.split("[method.price_of]")[1])
    room.write("items.csv", "name,id\npen,1\ncup,2\n")
    same(room.carry("--dry-run"), (0, "branch 1 step 1 all_items: 1 request, 0 to make\nbranch 1 step 2 price_of: 2 requests, 2 to make\n", ""))
    same(room.carry("--journal", room.path("j")), (0, "column1,column2\n1,10\n2,20\n", ""))
    same((server.targets, journal_of(room)), (FOUR[1:3], [("price_of", ["1"]), ("price_of", ["2"])]))
