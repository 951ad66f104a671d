"""Each refusal, what goes with an answer, and how the server begins and ends. Programs are stand-ins that do what a record says."""

import json
import os
import pathlib
import socket
import subprocess
import threading
import time

from .common import expect
from .serving import LINE, SERVER, TEXT, Server, becomes

MEBIBYTE = 1 << 20


def refused(what, answer, status, part, **more):
    """A refusal has its status, is JSON with a sentence and a remedy, and has what else is told."""
    came, headers, body = answer
    try:
        told = json.loads(body)
    except ValueError:
        told = {}
    expect(f"{what}: status", came, status)
    expect(f"{what}: the sentence", part in told.get("error", ""), True)
    expect(f"{what}: a remedy, and the status again", (bool(told.get("remedy")), told.get("status")), (True, status))
    expect(f"{what}: JSON", headers.get_content_type(), "application/json")
    for key, wanted in more.items():
        expect(f"{what}: {key}", told.get(key), wanted)
    return headers


def test_answers(server):
    """What goes with an answer: exit code, first line, notes, and the program's bytes as they are."""
    status, headers, body = server.ask("/status?node=3&target=D17&all&quick&steps=2000", b"(;SZ[9])")
    expect("the words of a call", body, b"<--json><--node=3><--target=D17><--all><--quick><--steps=2000>\n(;SZ[9])\n")
    expect("an object a line", headers.get_content_type(), "application/x-ndjson")
    told = (headers["Tsumego-Exit-Code"], headers["Tsumego-First-Line"], headers["Server"], headers["X-Content-Type-Options"])
    expect(
        "its headers", told, ("0", "<--json><--node=3><--target=D17><--all><--quick><--steps=2000>", "tsumego-server", "nosniff")
    )
    expect("no origin may read it", headers["Access-Control-Allow-Origin"], None)
    for path, words in (
        ("solve", "<solve>"),
        ("solve?proof&steps=10", "<solve><--proof><--steps=10>"),
        ("first-moves", "<--json>"),
        ("first-moves?record", ""),
        ("short-proof", "<prove>"),
        ("tree", "<tree>"),
        ("check", "<check>"),
        ("check?short", "<check>"),
        ("audit", "<audit>"),
        (
            "mark?target=aa,cb:db&region=9&walls=natural&to-play=white",
            "<mark><--target=aa,cb:db><--region=9><--walls=natural><--to-play=white>",
        ),
        ("picture?caption=%24(touch%20x)%3B%60y%60", "<picture><--caption=$(touch x);`y`>"),
        ("page?short=2", "<page><--json><--short=2>"),
        ("status?record", "<--sgf>"),
        ("picture?ascii", "<picture><--ascii>"),
    ):
        status, headers, body = server.ask(f"/{path}", b"x")
        expect(f"the words of /{path}", (status, body), (200, f"{words}\nx\n".encode()))
    status, headers, body = server.ask("/solve", b"UNKNOWN")
    expect("unknown", (status, headers["Tsumego-Exit-Code"], body), (200, "1", b"unknown: step budget, 20 steps\n"))
    status, headers, body = server.ask("/solve", b"CONTROL")
    expect("bytes as they are", body, b"one\x01two\r\xc3\xa9\nmore\n")
    expect("a first line in ASCII", (headers["Tsumego-First-Line"], headers["Tsumego-Notes"]), ("one?two???", "a note"))
    status, headers, body = server.ask("/solve", b"LIMITS")
    expect("limits of memory in kB, of seconds, and no core", body, b"65536 4 0\n")
    status, headers, body = server.ask("/check", b"a" * MEBIBYTE)
    expect("a mebibyte is read", (status, len(body)), (200, MEBIBYTE + 9))
    status, headers, body = server.ask("/solve", b"x" * 3000, {**TEXT, "Expect": "100-continue"})
    expect("a client that waits for a 100", (status, len(body)), (200, 3009))
    status, headers, body = server.ask("/solve", b"x", {"Content-Type": "application/x-go-sgf; charset=utf-8"})
    expect("the type of SGF", status, 200)


def test_gets(server):
    status, headers, body = server.ask("/")
    expect("the page", (status, headers.get_content_type(), body[:15]), (200, "text/html", b"<!DOCTYPE html>"))
    policy = headers["Content-Security-Policy"]
    expect(
        "what the page may do",
        ("default-src 'none'" in policy, "script-src 'sha256-" in policy, "unsafe-inline" in policy.split("style-src")[0]),
        (True, True, False),
    )
    expect(
        "the page names no place",
        [it for it in body.decode().split('"') if it.startswith("http") and it != "http://www.w3.org/2000/svg"],
        [],
    )
    status, headers, body = server.ask("/", headers={}, method="HEAD")
    expect("its head", (status, body), (200, b""))
    health = json.loads(server.ask("/health")[2])
    expect("health", (health["status"], health["running"], health["waiting"], health["jobs"]), ("ok", 0, 0, 2))
    version = json.loads(server.ask("/version")[2])
    expect(
        "versions",
        version["programs"],
        {name: "9.9" for name in ("tsumego", "group_status", "first_moves", "short_claims", "problem_tools")},
    )
    described = json.loads(server.ask("/openapi.json")[2])
    wanted = {
        "/",
        "/health",
        "/version",
        "/openapi.json",
        "/status",
        "/solve",
        "/first-moves",
        "/short-proof",
        "/tree",
        "/check",
        "/audit",
        "/mark",
        "/picture",
        "/page",
    }
    expect("openapi.json names all paths", set(described["paths"]), wanted)
    for path, methods in described["paths"].items():
        for method in methods:
            expect(f"{method} {path} is there", server.ask(path, None if method == "get" else b"x")[0], 200)


def test_refusals(server):
    for what, path, part in (
        ("a word that is none", "/status?targe=D4", "'targe' is no word"),
        ("a word twice", "/status?target=D4&target=D5", "twice"),
        ("an option as a value", "/status?target=--help", "not a point"),
        ("a value that is none", "/status?first=black", "first"),
        ("a number that is none", "/solve?steps=1e3", "steps"),
        ("steps out of bounds", "/solve?steps=0", "steps"),
        ("too many steps", "/solve?steps=1000001", "more than this server allows"),
        ("a flag with a value", "/status?all=no", "takes no value"),
        ("a control character", "/picture?caption=a%00b", "caption"),
        ("a long caption", f"/picture?caption={'a' * 201}", "caption"),
    ):
        refused(what, server.ask(path, b"x"), 400, part)
    refused("the program's own", server.ask("/solve", b"ARGUMENT"), 400, "error: the argument cannot be used")
    refused("no such path", server.ask("/solv", b"x"), 404, "no such path")
    refused("a path upwards", server.ask("/../etc/passwd"), 404, "no such path")
    expect("what a question takes", refused("GET of a question", server.ask("/solve"), 405, "POST")["Allow"], "POST")
    expect("what the page takes", refused("POST of the page", server.ask("/", b"x"), 405, "GET")["Allow"], "GET, HEAD")
    refused("a preflight", server.ask("/solve", b"", method="OPTIONS"), 405, "POST")
    refused("too large", server.ask("/solve", b"a" * (MEBIBYTE + 1)), 413, "1,048,576")
    refused("too large, and no length told", server.ask("/solve", iter([b"a" * MEBIBYTE, b"b"])), 413, "1,048,576")
    refused("a form", server.ask("/solve", b"a=b", {"Content-Type": "application/x-www-form-urlencoded"}), 415, "type")
    refused("compressed", server.ask("/solve", b"x", {**TEXT, "Content-Encoding": "gzip"}), 415, "compressed")
    refused(
        "a refused record",
        server.ask("/solve", b"REFUSED"),
        422,
        "refused: problem 9 illegal turn at node 2: occupied",
        name="problem",
        number=9,
    )
    refused("a refusal in the same words", server.ask("/status", b"NODE"), 422, "--node 1 is before it", name="problem", number=9)
    refused("a refusal without a number", server.ask("/status", b"STONE"), 422, "there is no stone at D4", name=None, number=None)
    refused("a program that fails", server.ask("/solve", b"FAILED"), 500, "failed: memory")
    refused("a program that is killed", server.ask("/solve", b"KILLED"), 500, "status -9")
    refused("an answer without end", server.ask("/solve", b"LARGE"), 500, "33,554,432")
    begun = time.monotonic()
    refused("the time is up", server.ask("/solve", b"SLEEP"), 504, "within 3 s")
    expect("it was ended in time", 3 <= time.monotonic() - begun < 8)
    expect("no process is left", server.children(), [])
    for what, sent in (
        ("no HTTP", b"hello\r\n\r\n"),
        ("a line without end", b"GET /" + b"a" * 70000 + b" HTTP/1.1\r\n\r\n"),
        ("a head without end", b"GET / HTTP/1.1\r\nX: " + b"a" * 70000 + b"\r\n\r\n"),
        ("a length that is none", b"POST /solve HTTP/1.1\r\nContent-Length: x\r\n\r\n"),
    ):
        expect(f"{what} is refused", server.raw(sent, seconds=20)[9:12], b"400")
    status, _, body = server.ask("/solve", b"x")
    expect("it answers after all this", (status, body), (200, b"<solve>\nx\n"))


def test_slow_clients(server):
    """Clients that send too slowly are refused while others are answered. Each takes some 15 seconds, all at once."""
    head = b"POST /solve HTTP/1.1\r\nHost: x\r\nContent-Type: text/plain\r\nContent-Length: 1000\r\n"
    told = {}

    def slow(name, *parts, pause=0.0):
        told[name] = server.raw(*parts, pause=pause, seconds=60)

    drops = [b"x"] * 18
    cases = (
        ("a body that stops", [head + b"\r\n", b"(;SZ"], 0.0),
        ("a body by drops", [head + b"\r\n", *drops], 1.0),
        ("half a head", [head], 0.0),
        ("a head by drops", [b"GET / HTTP/1.1\r\nX: ", *drops], 1.0),
        ("nothing", [], 0.0),
    )
    threads = [threading.Thread(target=slow, args=(name, *parts), kwargs={"pause": pause}) for name, parts, pause in cases]
    begun = time.monotonic()
    for it in threads:
        it.start()
    time.sleep(1)
    expect("others are answered meanwhile", server.ask("/solve", b"x")[0], 200)
    for it in threads:
        it.join()
    expect("they were ended in time", 14 <= time.monotonic() - begun < 40)
    for name in ("a body that stops", "a body by drops", "half a head", "a head by drops"):
        expect(f"{name}: 408", told[name][:12], b"HTTP/1.1 408")
    expect("who says nothing is told nothing", told["nothing"], b"")


def test_queue(folder, programs):
    """One runs, one waits, the next is refused; a client that goes away ends its process, or its waiting."""
    with Server(folder, "--jobs", "1", "--queue", "1", "--timeout", "30", programs=programs) as server:
        first, second = server.connect(), server.connect()
        first.request("POST", "/solve", b"SLEEP", TEXT)
        expect("one runs", becomes(lambda: len(server.children()) == 1))
        second.request("POST", "/solve", b"WAIT", TEXT)
        expect("one waits", becomes(lambda: json.loads(server.ask("/health")[2])["waiting"] == 1))
        second.close()
        expect("who goes away waits no longer", becomes(lambda: json.loads(server.ask("/health")[2])["waiting"] == 0))
        second.request("POST", "/solve", b"WAIT", TEXT)
        expect("another one waits", becomes(lambda: json.loads(server.ask("/health")[2])["waiting"] == 1))
        headers = refused("the queue is full", server.ask("/solve", b"x"), 429, "waiting already")
        expect("when to ask again", 1 <= int(headers["Retry-After"]) <= 60)
        first.close()
        answer = second.getresponse()
        expect("the one that waited is answered", (answer.status, answer.read()), (200, b"waited\n"))
        expect("the process of who went away has ended", becomes(lambda: server.children() == []))
        expect("nothing waits", json.loads(server.ask("/health")[2])["waiting"], 0)
        second.close()


def test_end(folder, programs):
    """SIGTERM: what runs is answered, who waits or comes is refused, and then it ends."""
    with Server(folder, "--jobs", "1", "--queue", "4", programs=programs) as server:
        running, waiting, idle = server.connect(), server.connect(), server.connect()
        idle.request("GET", "/health")
        idle.getresponse().read()
        running.request("POST", "/solve", b"WAIT", TEXT)
        expect("one runs", becomes(lambda: len(server.children()) == 1))
        waiting.request("POST", "/solve", b"WAIT", TEXT)
        expect("one waits", becomes(lambda: json.loads(server.ask("/health")[2])["waiting"] == 1))
        server.end()
        answer = waiting.getresponse()
        expect("who waits is refused", (answer.status, "being ended" in answer.read().decode()), (503, True))
        idle.request("POST", "/solve", b"x", TEXT)
        answer = idle.getresponse()
        expect("who asks on an open connection is refused", (answer.status, "being ended" in answer.read().decode()), (503, True))
        try:
            server.ask("/health")
            expect("who comes is not answered", False)
        except ConnectionError:
            expect("who comes is not answered", True)
        answer = running.getresponse()
        expect("what runs is answered", (answer.status, answer.read()), (200, b"waited\n"))
        expect("it ends", (server.process.wait(timeout=20), server.log().splitlines()[-1]), (0, "tsumego-server: ended"))
    with Server(folder, "--jobs", "1", programs=programs) as server:
        running = server.connect()
        running.request("POST", "/solve", b"SLEEP", TEXT)
        expect("one runs", becomes(lambda: len(server.children()) == 1))
        child = server.children()[0]
        server.end()
        time.sleep(0.3)
        server.end()
        expect("a second signal ends what runs", (server.process.wait(timeout=20), os.path.exists(f"/proc/{child}")), (0, False))


def test_connections(folder, programs):
    """With few files the connections are fewer too; one too many is refused, and room is made again."""
    few = f'ulimit -n 200; exec "{SERVER}" "$@"'
    with Server(folder, "--jobs", "1", programs=programs, command=["bash", "-c", few, "bash"]) as server:
        most = 200 - 8 - 64
        open_ones = [socket.create_connection(("127.0.0.1", server.port)) for _ in range(most)]
        answer = server.raw(b"GET /health HTTP/1.1\r\nHost: x\r\n\r\n", seconds=20)
        expect("one connection too many", (answer[:12], b"too many connections" in answer), (b"HTTP/1.1 503", True))
        for it in open_ones:
            it.close()
        expect("then there is room again", becomes(lambda: server.raw(b"GET /health HTTP/1.0\r\n\r\n", seconds=20)[9:12] == b"200"))


def test_origins(folder, programs):
    own = {**TEXT, "Origin": "https://go.example"}
    with Server(folder, programs=programs) as server:
        refused("another origin", server.ask("/solve", b"x", own), 403, "another origin")
        refused(
            "another site, by the browser's word",
            server.ask("/solve", b"x", {**TEXT, "Origin": server.address()[:-1], "Sec-Fetch-Site": "cross-site"}),
            403,
            "another origin",
        )
        expect("its own page", server.ask("/solve", b"x", {**TEXT, "Origin": server.address()[:-1]})[0], 200)
        expect("its own page behind another name", server.ask("/solve", b"x", {**own, "Sec-Fetch-Site": "same-origin"})[0], 200)
    with Server(folder, "--allow-origin", "https://go.example", programs=programs) as server:
        status, headers, _ = server.ask("/solve", b"x", own)
        expect(
            "an origin that is allowed",
            (status, headers["Access-Control-Allow-Origin"], headers["Vary"]),
            (200, "https://go.example", "Origin"),
        )
        status, headers, _ = server.ask("/solve", b"REFUSED", own)
        expect("refusals can be read too", (status, headers["Access-Control-Allow-Origin"]), (422, "https://go.example"))
        status, headers, _ = server.ask("/solve", b"", own, method="OPTIONS")
        expect(
            "a preflight",
            (status, headers["Access-Control-Allow-Methods"], headers["Access-Control-Allow-Headers"]),
            (204, "POST", "Content-Type"),
        )
        refused("others are not", server.ask("/solve", b"x", {**TEXT, "Origin": "https://other.example"}), 403, "another origin")


def test_begin(folder, programs):
    """How it begins, and what is said where it cannot."""

    def ended(what, words, status, part, environment=None):
        done = subprocess.run(
            [SERVER, *words], capture_output=True, text=True, timeout=60, env={**os.environ, **programs, **(environment or {})}
        )
        came = (done.returncode, done.stderr.count("\n"), part in done.stderr, done.stdout)
        expect(what, came, (status, 1, True, ""))

    path = str(pathlib.Path(folder, "socket"))
    with Server(folder, programs=programs, path=path) as server:
        asked = ["curl", "-s", "--unix-socket", path, "-H", "Content-Type: text/plain", "-d", "x", "http://x/solve"]
        expect("by a socket", becomes(lambda: subprocess.run(asked, capture_output=True).stdout == b"<solve>\nx\n"))
        ended("a socket that is in use", ["--socket", path], 4, "another server listens on it")
        server.end()
        expect("the socket is taken away", (server.process.wait(timeout=20), os.path.exists(path)), (0, False))
    with Server(folder, programs=programs) as server:
        ended("an address that is in use", ["--listen", f"127.0.0.1:{server.port}"], 4, "in use")
    ended("a socket where none can be", ["--socket", "/nowhere/socket"], 4, "/nowhere")
    ended("no program", [], 4, "there is no command /nowhere/tsumego", {"TSUMEGO": "/nowhere/tsumego"})
    ended("another program", [], 4, "does not say a version", {"TSUMEGO": "/bin/true"})
    broken = pathlib.Path(folder, "broken")
    broken.mkdir()
    (broken / "aiohttp.py").write_text("raise ImportError\n")
    ended("no aiohttp", [], 4, "sudo apt install python3-aiohttp", {"PYTHONPATH": str(broken)})
    for words in (
        ["--listen", "nowhere"],
        ["--listen", "1.2.3.4:99999"],
        ["--jobs", "0"],
        ["--queue", "-1"],
        ["--timeout", "x"],
        ["--allow-origin", "go"],
        ["--nothing"],
        ["word"],
        ["--listen", "127.0.0.1:0", "--socket", "x"],
        ["--memory", "1"],
    ):
        ended(f"wrong words {words}", words, 3, "--help says more")
    done = subprocess.run([SERVER, "--help"], capture_output=True, text=True)
    expect("help", (done.returncode, "--steps-most" in done.stdout, done.stderr), (0, True, ""))


def test_log(server):
    """A request leaves its bytes, its seconds and its status, and nothing else."""
    secret = b"(;C[secret-in-the-record])"
    server.ask("/solve?steps=77777", secret, {**TEXT, "X-Secret": "secret-in-a-header"})
    server.ask("/secret-in-a-path", secret)
    server.raw(b"secret-without-HTTP\r\n\r\n", seconds=20)
    lines = server.log().splitlines()
    expect(
        "the log has only these lines",
        [it for it in lines if not LINE.fullmatch(it) and not it.startswith("tsumego-server: listening on ")],
        [],
    )
    expect("the log has the bytes of that record", any(it.startswith(f"{len(secret)} bytes, ") for it in lines))


def run(folder, programs):
    with Server(folder, "--jobs", "2", "--queue", "8", "--timeout", "3", "--memory", "64", programs=programs) as server:
        slow = threading.Thread(target=test_slow_clients, args=(server,))
        slow.start()
        test_answers(server)
        test_gets(server)
        test_refusals(server)
        slow.join()
        test_log(server)
        expect("no process is left at the end", becomes(lambda: server.children() == []))
    test_queue(folder, programs)
    test_end(folder, programs)
    test_connections(folder, programs)
    test_origins(folder, programs)
    test_begin(folder, programs)
