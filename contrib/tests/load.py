"""Load that is bounded: 20 seconds of wrk on this machine alone, and clients that behave badly. What is asked are the real programs."""

import asyncio
import json
import os
import pathlib
import random
import subprocess
import time

from .common import TOP, expect
from .serving import TEXT, Server, becomes

SECONDS, CONNECTIONS = 20, 50
# A question of some milliseconds.
RECORD = (TOP / "examples/bulky-five.sgf").read_bytes()
# The least rate, as a part of that of the bare program.
LEAST = 0.8
RATE_TRIES = 3
MOST_MEGABYTES = 200
SCRIPT = """
local threads, wanted = {}, %s
function setup(thread) table.insert(threads, thread) end
function init() wrong = 0; wrk.method = "POST"; wrk.headers["Content-Type"] = "text/plain"; wrk.body = %s end
function response(status, headers, body) if status ~= 200 or body ~= wanted then wrong = wrong + 1 end end
function done(summary, latency, requests)
  local wrong = 0
  for _, it in ipairs(threads) do wrong = wrong + it:get("wrong") end
  local errors = summary.errors
  print(string.format('TOLD {"requests": %%d, "seconds": %%f, "wrong": %%d, "errors": %%d}', summary.requests, summary.duration / 1e6, wrong,
    errors.connect + errors.read + errors.write + errors.status + errors.timeout))
end
"""


def lua(text):
    return '"' + "".join(f"\\{it:03d}" for it in text) + '"'


def bare_rate(folder, tsumego, jobs, seconds):
    """How many of these questions a second xargs gets answered by the bare program."""
    record = pathlib.Path(folder, "record.sgf")
    record.write_bytes(RECORD)
    call = [
        "timeout",
        str(seconds),
        "xargs",
        "-P",
        str(jobs),
        "-n",
        "1",
        "sh",
        "-c",
        f'"{tsumego}" solve < "{record}" > /dev/null && echo',
    ]
    with subprocess.Popen(["yes"], stdout=subprocess.PIPE) as words:
        done = subprocess.run(call, stdin=words.stdout, stdout=subprocess.PIPE)
        words.kill()
    return done.stdout.count(b"\n") / seconds


def test_rate(folder, server, tsumego, jobs):
    """50 connections for 20 seconds: each is answered rightly, at nearly the rate of the bare program. That is measured before and
    after, and the lower of both counts, since other work on the machine takes from either; so the rate has three tries."""
    wanted = subprocess.run([tsumego, "solve"], input=RECORD, stdout=subprocess.PIPE, check=True).stdout
    script = pathlib.Path(folder, "ask.lua")
    script.write_text(SCRIPT % (lua(wanted), lua(RECORD)))
    for _ in range(RATE_TRIES):
        bare, rate = rates(folder, server, tsumego, jobs, script)
        if rate >= LEAST * bare > 0:
            break
    expect(f"the rate: {rate:.0f} a second, at least {LEAST} of {bare:.0f}", rate >= LEAST * bare > 0)


def rates(folder, server, tsumego, jobs, script):
    """How many of these questions a second the bare program and the server answer; of the server each rightly."""
    before = bare_rate(folder, tsumego, jobs, 5)
    call = ["wrk", "-t1", f"-c{CONNECTIONS}", f"-d{SECONDS}s", "--timeout", "60s", "-s", script, server.address("solve")]
    done = subprocess.run(call, capture_output=True, text=True, timeout=120)
    bare = min(before, bare_rate(folder, tsumego, jobs, 5))
    told = json.loads(done.stdout.partition("TOLD ")[2] or "{}")
    rate = told.get("requests", 0) / told.get("seconds", 1)
    print(f"load: {rate:.0f} answers a second by {CONNECTIONS} connections, {bare:.0f} by xargs; {server.memory()} MB held at most")
    expect("no error and no wrong answer", (told.get("errors"), told.get("wrong")), (0, 0))
    return bare, rate


async def ask(server, path, record, half=None):
    """The bytes of an answer without its head; with `half` only so many bytes are sent, and the client vanishes."""
    reader, writer = await asyncio.open_connection("127.0.0.1", server.port)
    head = f"POST /{path} HTTP/1.1\r\nHost: x\r\nContent-Type: text/plain\r\nContent-Length: {len(record)}\r\nConnection: close\r\n\r\n"
    sent = head.encode() + record
    writer.write(sent if half is None else sent[:half])
    try:
        await writer.drain()
        if half is not None:
            await asyncio.sleep(random.random() / 5)
            writer.transport.abort()
            return 0, b""
        told = await reader.read()
    except ConnectionError:
        return 0, b""
    finally:
        writer.close()
    head, _, body = told.partition(b"\r\n\r\n")
    return int(head[9:12] or 0), body


async def open_and_drop(server, count):
    """Connections that are opened and dropped, some after half a request."""
    begun = (b"", b"GET / HT", b"POST /solve HTTP/1.1\r\nContent-Type: text/plain\r\nContent-Length: 100\r\n\r\n(;")

    async def one(number):
        _, writer = await asyncio.open_connection("127.0.0.1", server.port)
        writer.write(begun[number % 3])
        await asyncio.sleep(0.01)
        writer.transport.abort()

    for first in range(0, count, 200):
        await asyncio.gather(*(one(first + i) for i in range(200)))


async def ask_mixed(server, tsumego, rounds):
    """Many clients with records of their own at once: each gets the answer to its own."""
    records = [path.read_bytes() for path in sorted((TOP / "examples").glob("*.sgf"))]
    wanted = [subprocess.run([tsumego, "audit"], input=it, stdout=subprocess.PIPE).stdout for it in records]
    # Records that are told apart by their size, and refused with its place.
    for number in range(20):
        records.append(b"(;SZ[9]" + b" " * number)
        wanted.append(b"refused: sgf 2 syntax at %d\n" % (7 + number))

    async def one(number):
        status, body = await ask(server, "audit", records[number])
        return (
            body == wanted[number]
            if status == 200
            else status == 422 and json.loads(body)["error"].encode() + b"\n" == wanted[number]
        )

    numbers = list(range(len(records))) * rounds
    random.shuffle(numbers)
    came = []
    for first in range(0, len(numbers), 60):
        came += await asyncio.gather(*(one(it) for it in numbers[first : first + 60]))
    return came


async def ask_random(server, count):
    """Bodies of random bytes, to every path."""
    # Some of these bodies are problems of the whole board, so searches take few steps.
    searching = ["status?quick&steps=50", "solve?steps=50", "first-moves?steps=50", "short-proof?steps=50", "tree?steps=50"]
    paths = [*searching, "check", "check?short", "audit", "mark?target=aa", "picture", "page"]
    source = random.Random(17)
    statuses = []
    for number in range(count):
        body = source.randbytes(source.randrange(400))
        if number % 2:
            body = b"(;SZ[9]AB[aa]TR[aa]" + bytes(source.choices(b"()[];:\\abcSZTRABWQ0159 \n\x00\xff", k=source.randrange(200)))
        status, _ = await ask(server, paths[number % len(paths)], body)
        statuses.append(status)
    return statuses


async def vanish(server, count):
    await asyncio.gather(*(ask(server, "solve", RECORD, random.randrange(60, 130 + len(RECORD) + 1)) for _ in range(count)))


def test_clients(server, tsumego):
    """What clients do, one after another; at the end nothing of it is left."""
    asyncio.run(open_and_drop(server, 2000))
    expect("after 2,000 connections it answers", becomes(lambda: server.ask("/health")[0] == 200, 30))
    came = asyncio.run(ask_mixed(server, tsumego, 12))
    expect("each client has the answer to its own record", (len(came), came.count(True)), (len(came), len(came)))
    statuses = asyncio.run(ask_random(server, 330))
    expect("random bodies are answered or refused", sorted(set(statuses) - {200, 422}), [])
    expect("most of them are refused", statuses.count(422) > 100)
    for _ in range(4):
        asyncio.run(vanish(server, 50))
    expect("no process is left", becomes(lambda: server.children() == [], 30))
    health = json.loads(server.ask("/health")[2])
    expect("nothing runs or waits", (health["running"], health["waiting"]), (0, 0))
    files = f"/proc/{server.process.pid}/fd"
    expect("no file is left open", becomes(lambda: len(os.listdir(files)) < 30, 30))
    expect(
        "nothing failed in the server", [it for it in server.log().splitlines() if it.endswith("status 500") or "failed" in it], []
    )
    expect("it still answers", server.ask("/audit", (TOP / "examples/answered.sgf").read_bytes(), TEXT)[2], b"wins White\n")
    expect(f"at most {MOST_MEGABYTES} MB were held: {server.memory()}", server.memory() <= MOST_MEGABYTES)


def run(folder, programs):
    jobs = len(os.sched_getaffinity(0))
    with Server(folder, "--timeout", "30", programs=programs) as server:
        begun = time.monotonic()
        test_rate(folder, server, programs["TSUMEGO"], jobs)
        test_clients(server, programs["TSUMEGO"])
        server.end()
        expect("it ends", server.process.wait(timeout=60), 0)
        print(f"load: {time.monotonic() - begun:.0f} s")
