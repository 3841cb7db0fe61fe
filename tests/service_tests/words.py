"""The words of the command, its files and outputs, and what a terminal shows."""
import os
import pty
import stat
import subprocess
import sys
import unittest.mock

from services.rounds import Run

from .room import ANSWER, SECONDS, TOOL, Reply, ended, same, shop



def test_words_that_are_none(room):
    room.serve()
    for words, err in [
            ([], "words: the following arguments are required: --schema, --services"),
            (["--schema", "s"], "words: the following arguments are required: --services"),
            (room.words("--worker", "2"), "words: unrecognized arguments: --worker"),
            (room.words("more.plan"), "words: unrecognized arguments: "),
            (room.words("--workers", "0"), "words: argument --workers: '0' is no number from 1 to 64"),
            (room.words("--workers", "65"), "words: argument --workers: '65' is no number from 1 to 64"),
            (room.words("--workers", "02"), "words: argument --workers: '02' is no number from 1 to 64"),
            (room.words("--calls", "-1"), "words: argument --calls: "),
            (room.words("--calls", "10000001"), "words: argument --calls: '10000001' is no number from 0 to 10000000"),
            (room.words("--rate", "0"), "words: argument --rate: '0' is no number of calls a second"),
            (room.words("--rate", "x"), "words: argument --rate: 'x' is no number of calls a second"),
            (room.words("--fresh", "12x", "--journal", "j"), "words: argument --fresh: '12x' is no time as 90s, 15m, 12h or 7d"),
            (room.words("--fresh", "12h"), "words: --fresh belongs to --journal")]:
        status, out, line = room.run(words)
        same((status, out, line.count("\n")), (3, "", 1))
        assert line.startswith(err), line


def test_files_that_are_missing_or_wrong(room):
    room.serve()
    for name in ("s.pdq", "services.toml", "p.plan"):
        kept = room.read(name)
        os.unlink(room.path(name))
        same(room.carry(), (5, "", f"read {room.path(name)}: missing\n"))
        os.mkdir(room.path(name))
        same(room.carry(), (5, "", f"read {room.path(name)}: failed\n"))
        os.rmdir(room.path(name))
        room.write(name, kept)
    for name, text, err in [
            ("s.pdq", "relation\n", "schema: line 1 is not a declaration"), ("p.plan", "", "plan: line 1 does not fit"),
            ("p.plan", "plan 1\nbranch\naccess price_of(new, new)\noutput $0\nend\n", "illegal: branch 1 step 1 place 1: input not known"),
            ("p.plan", "plan 1\nbranch\naccess none(new)\noutput $0\nend\n", "illegal: branch 1 step 1: no such method"),
            ("p.plan", "no plan\nanswer '_1'\nfirst\nsecond\nend\n", "plan: there is none: the text begins with `no plan`"),
            ("p.plan", "undecided after 2 firings\nselect 1\nend\n", "plan: there is none: the text begins with `undecided after 2 firings`"),
            ("p.plan", "plan 1\nbranch\naccess item_of('1', new)\noutput $0\nend\n", "services: there is no method item_of, which the plan uses")]:
        kept = room.read(name)
        room.write(name, text)
        same(room.carry(), (4, "", err + "\n"))
        room.write(name, kept)


def test_a_plan_on_standard_input(room):
    room.serve()
    run = subprocess.run([sys.executable, TOOL, *room.words()[:-1]], input=room.read("p.plan"), capture_output=True, timeout=SECONDS)
    same((run.returncode, run.stdout.decode(), run.stderr), (0, ANSWER, b""))
    run = subprocess.run([TOOL, "--help"], capture_output=True, timeout=SECONDS)
    same((run.returncode, run.stderr), (0, b""))


def test_the_answer_in_a_file(room):
    server = room.serve()
    room.write("answer", "old\n")
    os.chmod(room.path("answer"), 0o640)
    same(room.carry("--output", room.path("answer")), (0, "", ""))
    same((room.read("answer").decode(), stat.S_IMODE(os.stat(room.path("answer")).st_mode)), (ANSWER, 0o640))
    os.symlink(room.path("answer"), room.path("link"))
    room.write("answer", "old\n")
    same((room.carry("--output", room.path("link")), os.path.islink(room.path("link"))), ((0, "", ""), True))
    there = sorted(os.listdir(room.folder))
    answer, server.answer = server.answer, lambda call: Reply("", 400) if call.query.get("id") == "3" else shop(call)
    same(room.carry("--output", room.path("answer"))[:2], (9, ""))
    same((room.read("answer").decode(), sorted(os.listdir(room.folder))), (ANSWER, there))
    server.answer = answer
    with unittest.mock.patch("os.replace", side_effect=OSError(28, "No space left on device")):
        same(room.carry("--output", room.path("new")), (6, "", f"output {room.path('new')}: No space left on device\n"))
    same(sorted(os.listdir(room.folder)), there)
    server.calls.clear()
    for path in (room.path("none/answer"), room.path("."), "/dev/null"):
        same(room.carry("--output", path), (6, "", f"output {path}: it cannot be written there\n"))
    same(server.calls, [])


def test_standard_output_that_refuses(room):
    room.serve()
    with open("/dev/full", "wb") as full:
        same(ended(room.start(stdout=full, stderr=subprocess.PIPE))[0::2], (6, "write failed\n"))
    read, write = os.pipe()
    os.close(read)
    process = room.start(stdout=write)
    os.close(write)
    same(ended(process)[0::2], (6, "write failed\n"))


def test_standard_error_that_refuses(room):
    room.serve(lambda call: Reply("", 400))
    with open("/dev/full", "wb") as full:
        same(ended(room.start(stderr=full))[:2], (9, ""))


def test_a_fault_of_the_program_itself_shows_no_secret(room):
    room.serve()
    room.write("services.toml", room.read("services.toml").replace(b"wait = 0.01", b'headers = { A = { env = "SHOP_TOKEN" } }'))

    with unittest.mock.patch.object(Run, "rows", side_effect=RuntimeError("with hidden-token")):
        status, out, err = room.carry(environment={"SHOP_TOKEN": "hidden-token"})
    same((status, out, err.splitlines()[-1]), (1, "", "RuntimeError: with ***"))


def test_want_of_memory(room):
    room.serve()
    with unittest.mock.patch.object(Run, "rows", side_effect=MemoryError):
        same(room.carry(), (8, "", "out of memory\n"))
    with unittest.mock.patch("services.web.WebSource.rows", side_effect=MemoryError):
        same(room.carry(), (8, "", "branch 1 step 1: all_items(): out of memory\n"))


def test_a_terminal_shows_how_far_the_run_is(room):
    room.serve()
    leader, follower = pty.openpty()
    process = room.start(stderr=follower)
    os.close(follower)
    shown = b""
    try:
        while True:
            shown += os.read(leader, 1000)
    except OSError:  # the end of a terminal
        pass
    os.close(leader)
    same((process.stdout.read().decode(), process.wait(timeout=SECONDS)), (ANSWER, 0))
    assert b"branch 1 step 2 price_of: " in shown and b" of 3 requests, " in shown and b" a second" in shown, shown
    assert shown.endswith(b"\r\x1b[K"), shown


def test_an_older_python(room):
    room.serve()
    os.mkdir(room.path("lib"))
    room.write("lib/tomllib.py", "raise ImportError\n")
    run = subprocess.run([sys.executable, TOOL, *room.words()], capture_output=True, timeout=SECONDS,
                         env={**os.environ, "PYTHONPATH": room.path("lib")})
    version = ".".join(map(str, sys.version_info[:3]))
    wanted = f"services: the module tomllib is missing: Python 3.11 or newer is needed, and this is {version}\n"
    same((run.returncode, run.stdout, run.stderr.decode()), (12, b"", wanted))
