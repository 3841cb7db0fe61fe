"""What the tests stand on: a web server on this machine that does what a test says and notes what it was asked, and runs of carry_out."""
import contextlib
import io
import json
import os
import shutil
import signal
import subprocess
import sys
import tempfile
import threading
import time
from http.server import BaseHTTPRequestHandler, ThreadingHTTPServer
from urllib.parse import parse_qsl, unquote, urlsplit

TOP = os.path.dirname(os.path.dirname(os.path.dirname(os.path.realpath(__file__))))
TOOL = f"{TOP}/tools/carry_out"
SECONDS = 120
for proxy in [name for name in os.environ if name.lower().endswith("_proxy")]:
    del os.environ[proxy]
sys.path.insert(0, f"{TOP}/tools")

from services.command import main as carry_out

SCHEMA = """relation item(id, name)
relation price(id, amount)
method all_items on item() cost 1
method item_of on item(id) cost 1
method price_of on price(id) cost 1
"""
# all items, and then the price of each
PLAN = """plan 2
branch
access all_items(new, new)
access price_of($0, new)
output $0, $2
end
"""
ITEMS = {"1": "pen", "2": "cup", "3": "hat"}
PRICES = {"1": "10", "2": "20", "3": "30"}
ANSWER = "column1,column2\n1,10\n2,20\n3,30\n"
SERVICES = """[service.shop]
kind = "http"
url = "URL"
wait = 0.01

[method.all_items]
service = "shop"
url = "/items"

[method.price_of]
service = "shop"
url = "/prices?id={id}"
"""


class Call:
    """A request as the server saw it."""

    def __init__(self, verb, target, headers, body):
        parts = urlsplit(target)
        self.verb, self.target, self.path, self.headers, self.body = verb, target, unquote(parts.path), headers, body
        self.query = dict(parse_qsl(parts.query, keep_blank_values=True))


class Reply:
    """What the server gives: a status, headers, and a body, as bytes, a text or a value for JSON."""

    def __init__(self, body=b"", status=200, slowly=0, **headers):
        self.slowly = slowly  # seconds between two bytes of the body
        self.status, self.headers = status, {name.replace("_", "-"): value for name, value in headers.items()}
        self.body = body if isinstance(body, bytes) else (body if isinstance(body, str) else json.dumps(body)).encode()


def shop(call):
    """Items, and the price of one; a price without an id is refused."""
    if call.path == "/items":
        return Reply([{"id": int(number), "name": name} for number, name in ITEMS.items()])
    if call.path == "/prices" and call.query.get("id"):
        number = call.query["id"]
        return Reply([{"id": number, "amount": PRICES[number]}] if number in PRICES else [])
    return Reply({"error": "id is required"}, 400)


class Server:
    """A server that answers each call by a function of it, and notes the call before and after."""

    def __init__(self, answer=shop):
        self.answer, self.calls, self.answered, self.at_once, self.most_at_once = answer, [], [], 0, 0
        self.lock = threading.Lock()
        outer = self

        class Handler(BaseHTTPRequestHandler):
            def do_GET(self):
                outer.serve(self)

            do_POST = do_GET

            def log_message(self, *_):
                pass

        class Listener(ThreadingHTTPServer):
            request_queue_size, daemon_threads, block_on_close = 64, True, False

            def handle_error(self, *_):  # a client that went away
                pass

        self.listener = Listener(("127.0.0.1", 0), Handler)
        self.url = f"http://127.0.0.1:{self.listener.server_address[1]}"
        threading.Thread(target=self.listener.serve_forever, kwargs={"poll_interval": 0.02}, daemon=True).start()

    def serve(self, handler):
        body = handler.rfile.read(int(handler.headers.get("Content-Length", "0")))
        call = Call(handler.command, handler.path, handler.headers, body)
        with self.lock:
            self.calls.append(call)
            self.at_once += 1
            self.most_at_once = max(self.most_at_once, self.at_once)
        try:
            reply = self.answer(call)
        finally:
            with self.lock:
                self.at_once -= 1
        if reply is None:  # the connection is closed without a word
            handler.close_connection = True
            return
        handler.send_response(reply.status)
        for name, value in {"Content-Type": "application/json", "Content-Length": str(len(reply.body)), **reply.headers}.items():
            if value is not None:
                handler.send_header(name, value)
        handler.end_headers()
        for at in range(len(reply.body) if reply.slowly else 0):
            handler.wfile.write(reply.body[at:at + 1])
            time.sleep(reply.slowly)
        handler.wfile.write(b"" if reply.slowly else reply.body)
        with self.lock:
            self.answered.append(call.target)

    @property
    def targets(self):
        return [call.target for call in self.calls]

    def close(self):
        self.listener.shutdown()
        self.listener.server_close()


class Room:
    """A fresh folder with a schema, a plan and a services file, and the servers of a test."""

    def __init__(self):
        self.folder, self.servers, self.started = tempfile.mkdtemp(prefix="pdq-services-"), [], []
        self.write("s.pdq", SCHEMA)
        self.write("p.plan", PLAN)

    def path(self, name):
        return f"{self.folder}/{name}"

    def write(self, name, text):
        with open(self.path(name), "wb") as file:
            file.write(text if isinstance(text, bytes) else text.encode())

    def read(self, name):
        with open(self.path(name), "rb") as file:
            return file.read()

    def serve(self, answer=shop, services=SERVICES):
        """A server, with a services file that leads to it."""
        server = Server(answer)
        self.servers.append(server)
        self.write("services.toml", services.replace("URL", server.url))
        return server

    def words(self, *words, plan="p.plan"):
        return ["--schema", self.path("s.pdq"), "--services", self.path("services.toml"), *words, self.path(plan)]

    def carry(self, *words, plan="p.plan", environment=None):
        """The status, standard output and standard error of a run in this process."""
        return self.run(self.words(*words, plan=plan), environment)

    def run(self, words, environment=None):
        out, err = io.TextIOWrapper(io.BytesIO(), encoding="utf-8", newline=""), io.StringIO()
        with contextlib.redirect_stdout(out), contextlib.redirect_stderr(err), changed(environment or {}):
            try:
                status = carry_out(words)
            except SystemExit as ended:
                status = ended.code
            out.flush()
        return status, out.buffer.getvalue().decode(), err.getvalue()

    def start(self, *words, **more):
        """A run in a process of its own."""
        process = subprocess.Popen([sys.executable, TOOL, *self.words(*words)], stdin=subprocess.DEVNULL,
                                   **{"stdout": subprocess.PIPE, "stderr": subprocess.PIPE, **more})
        self.started.append(process)
        return process

    def close(self):
        for process in self.started:
            if process.poll() is None:
                process.send_signal(signal.SIGKILL)
            process.wait()
            for stream in (process.stdout, process.stderr):
                if stream:
                    stream.close()
        for server in self.servers:
            server.close()
        shutil.rmtree(self.folder)


@contextlib.contextmanager
def changed(environment):
    """The environment with these variables set."""
    before = dict(os.environ)
    os.environ.update(environment)
    try:
        yield
    finally:
        os.environ.clear()
        os.environ.update(before)


def ended(process):
    """The status of a process that ends, and what is read of standard output and standard error."""
    out, err = process.communicate(timeout=SECONDS)
    return process.returncode, (out or b"").decode(), (err or b"").decode()


def until(condition):
    """Waits until the condition holds."""
    end = time.monotonic() + SECONDS
    while not condition():
        assert time.monotonic() < end, "it took too long"
        time.sleep(0.01)


def same(got, wanted):
    """Complains where the two differ."""
    assert got == wanted, f"got {got!r}, wanted {wanted!r}"
