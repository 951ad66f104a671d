"""The service: from a request to its answer."""

import asyncio
import json
import re
import signal
import sys
import time
import urllib.parse

from aiohttp import web

from .connection import SECONDS_IDLE, SECONDS_TO_SEND, SECONDS_TO_TAKE
from .openapi import description
from .page import page
from .programs import MOST_ANSWER, MOST_NOTES, Ended
from .questions import QUESTIONS, Refused
from .queue import Queue
from .refusals import COMMON, refusal
from .remedies import remedy_of

MOST_RECORD = 1 << 20
# The most bytes of records and answers that are held at once.
MOST_HELD = 128 << 20
PART = 1 << 16
TYPES = ("application/x-go-sgf", "text/plain", "application/octet-stream")
EXPOSED = "Tsumego-Exit-Code, Tsumego-First-Line, Tsumego-Notes, Retry-After"


def shown(text, most):
    """The beginning of a program's text, as a header may have it: printable characters of ASCII, a ? for each other byte."""
    return re.sub(r"[^\x20-\x7e]", "?", text[:most].decode("latin-1")).strip()


class Service:
    """Answers requests. It keeps no more of them than their number."""

    def __init__(self, given, programs, version):
        self.given, self.programs, self.version = given, programs, version
        self.queue = Queue(given.jobs, given.queue)
        self.connections = self.active = self.held = 0
        self.page, self.policy = page()
        self.openapi = self.as_json(description(version))

    @staticmethod
    def as_json(data):
        return json.dumps(data).encode() + b"\n"

    def log(self, size, seconds, status):
        print(f"{size} bytes, {seconds:.2f} s, status {status}", file=sys.stderr, flush=True)

    async def handle(self, request):
        """Answers one request, and says how in the log."""
        connection, begun = request.protocol, time.monotonic()
        connection.stop_waiting()
        request["size"], status = 0, 499
        self.active += 1
        try:
            response = await self.answer(request)
            status = response.status
        except Refused as refused:
            response = refusal(refused.status, refused.line, refused.remedy, **refused.more)
            status = response.status
            if status in (408, 413, 503):
                response.force_close()
        except (asyncio.CancelledError, ConnectionError):
            # The client has gone away: aiohttp ends the connection at this, and says nothing.
            raise asyncio.CancelledError from None
        except Exception as error:
            print(f"tsumego-server: failed: {type(error).__name__}", file=sys.stderr, flush=True)
            response, status = refusal(500, "the server failed", "Please report it."), 500
        finally:
            self.active -= 1
            self.log(request["size"], time.monotonic() - begun, status)
            if connection.transport is not None:
                connection.wait(SECONDS_IDLE)
        if not response.prepared:
            self.allow(request, response)
        return response

    def allow(self, request, response):
        """Lets a page of another origin read the answer, where the call allowed it."""
        origin = request.headers.get("Origin")
        if origin and ("*" in self.given.allow_origin or origin in self.given.allow_origin):
            response.headers["Access-Control-Allow-Origin"] = "*" if "*" in self.given.allow_origin else origin
            response.headers["Access-Control-Expose-Headers"] = EXPOSED
        if self.given.allow_origin:
            response.headers["Vary"] = "Origin"

    def check_origin(self, request):
        """Refuses what a page of another origin asks, but where the call allowed it. Browsers say from where a page is, and others
        need not."""
        origin = request.headers.get("Origin")
        if origin is None or "*" in self.given.allow_origin or origin in self.given.allow_origin:
            return
        site = request.headers.get("Sec-Fetch-Site")
        is_own = site == "same-origin" if site else urllib.parse.urlsplit(origin).netloc == request.headers.get("Host")
        if not is_own:
            raise Refused(403, "a page of another origin may not ask", "tsumego-server --allow-origin ORIGIN lets it.")

    async def answer(self, request):
        name = request.path[1:]
        gets = {"": self.get_page, "health": self.get_health, "version": self.get_version, "openapi.json": self.get_openapi}
        if name not in gets and name not in QUESTIONS:
            raise Refused(404, "there is no such path", "openapi.json names all paths.")
        self.check_origin(request)
        allowed = "GET, HEAD" if name in gets else "POST"
        if request.method == "OPTIONS" and self.given.allow_origin:
            headers = {
                **COMMON,
                "Access-Control-Allow-Methods": allowed,
                "Access-Control-Allow-Headers": "Content-Type",
                "Access-Control-Max-Age": "600",
            }
            return web.Response(status=204, headers=headers)
        if request.method not in allowed.split(", "):
            raise Refused(405, f"this path takes {allowed}", "openapi.json says what each path takes.", allow=allowed)
        if name in gets:
            return gets[name]()
        query = urllib.parse.parse_qsl(request.query_string, keep_blank_values=True, max_num_fields=32)
        words, kind = QUESTIONS[name].asked(query, self.given.steps_most)
        return await self.question(request, words, kind)

    def get_page(self):
        headers = {**COMMON, "Content-Security-Policy": self.policy, "Cache-Control": "no-cache"}
        return web.Response(body=self.page, content_type="text/html", charset="utf-8", headers=headers)

    def get_json(self, text, status=200):
        return web.Response(body=text, status=status, content_type="application/json", headers=COMMON)

    def get_health(self):
        queue = self.queue
        told = {
            "status": "ending" if queue.is_ending else "ok",
            "running": queue.running,
            "jobs": queue.jobs,
            "waiting": len(queue.waiting),
            "queue": queue.most,
            "timeout": self.given.timeout,
            "steps_most": self.given.steps_most,
        }
        return self.get_json(self.as_json(told), 503 if queue.is_ending else 200)

    def get_version(self):
        return self.get_json(self.as_json({"server": self.version, "programs": self.programs.versions}))

    def get_openapi(self):
        return self.get_json(self.openapi)

    async def question(self, request, words, kind):
        """Reads the record, and answers it; where the client goes away, the process that answers it ends."""
        self.queue.check()
        kept = []
        try:
            record = await self.record(request, kept)
            connection = request.protocol
            connection.is_busy = True
            connection.asking = asyncio.ensure_future(self.run(request, words, kind, record, kept))
            try:
                return await connection.asking
            finally:
                connection.asking, connection.is_busy = None, False
        finally:
            self.held -= sum(kept)

    def hold(self, size, kept):
        """Counts bytes that are held until the request is answered."""
        self.held += size
        kept.append(size)
        if self.held > MOST_HELD:
            raise Refused(429, "the server holds as many bytes as it may", "Ask again in 1 s.", after=1)

    async def record(self, request, kept):
        """The body of a request."""
        if request.content_type not in TYPES:
            hint = "Send the record as it is: curl -H 'Content-Type: text/plain' --data-binary @game.sgf .."
            raise Refused(415, "this is not the type of a record", hint)
        if request.headers.get("Content-Encoding", "identity") != "identity":
            raise Refused(415, "a compressed record is not read", "Send it as it is.")
        if (request.content_length or 0) > MOST_RECORD:
            raise Refused(413, f"a record has at most {MOST_RECORD:,} bytes", "Send one game.")
        if request.headers.get("Expect", "").lower() == "100-continue":
            await request.writer.write(b"HTTP/1.1 100 Continue\r\n\r\n")
            request.writer.output_size = 0
        try:
            return await asyncio.wait_for(self.read(request, kept), SECONDS_TO_SEND)
        except asyncio.TimeoutError:
            raise Refused(408, f"the record did not come within {SECONDS_TO_SEND} s", "Send it faster.") from None
        except web.RequestPayloadError:
            raise Refused(400, "the body is not what its head says", "Send it with its Content-Length.") from None

    async def read(self, request, kept):
        record = bytearray()
        while part := await request.content.readany():
            record += part
            request["size"] = len(record)
            self.hold(len(part), kept)
            if len(record) > MOST_RECORD:
                raise Refused(413, f"a record has at most {MOST_RECORD:,} bytes", "Send one game.")
        return bytes(record)

    async def run(self, request, words, kind, record, kept):
        async with self.queue.turn():
            run = self.programs.start(words, record)
            try:
                status = await run.ended(self.given.timeout)
            except Ended:
                run.close()
                hint = "Mark a smaller region, or ask with fewer steps."
                raise Refused(504, f"there was no answer within {self.given.timeout} s", hint) from None
            except BaseException:
                run.close()
                raise
        # Who has read the whole answer may ask again before this has ended.
        request.protocol.is_busy = False
        try:
            return await self.told(request, run, status, kind, kept)
        finally:
            run.close()

    async def told(self, request, run, status, kind, kept):
        """Hands on what a program wrote, or refuses with its first line."""
        size = run.size()
        line = shown(run.part(0, 4096).partition(b"\n")[0], 200)
        if status not in (0, 1):
            self.refuse(status, size, line)
        self.hold(size, kept)
        notes = shown(run.notes().strip().replace(b"\n", b"; "), MOST_NOTES)
        headers = {
            **COMMON,
            "Tsumego-Exit-Code": str(status),
            "Tsumego-First-Line": line,
            **({"Tsumego-Notes": notes} if notes else {}),
        }
        response = web.StreamResponse(headers=headers)
        response.content_type = kind if status == 0 else "text/plain"
        response.content_length = size
        self.allow(request, response)
        try:
            await asyncio.wait_for(self.send(request, response, run, size), SECONDS_TO_TAKE)
        except asyncio.TimeoutError:
            request.protocol.drop()
            raise ConnectionResetError from None
        return response

    async def send(self, request, response, run, size):
        await response.prepare(request)
        for at in range(0, size, PART):
            await response.write(run.part(at, PART))
        await response.write_eof()

    def refuse(self, status, size, line):
        """Refuses where a program did not answer."""
        if status == 2:
            remedy, named = remedy_of(line)
            raise Refused(422, line, remedy, **named)
        if status == 3:
            raise Refused(400, line, "openapi.json says what each path takes.")
        if status == -signal.SIGXCPU:
            raise Refused(
                504,
                f"there was no answer within {self.given.timeout} s of a processor",
                "Mark a smaller region, or ask with fewer steps.",
            )
        if status == -signal.SIGXFSZ or size >= MOST_ANSWER:
            raise Refused(
                500, f"the answer has more than {MOST_ANSWER:,} bytes", "Ask for a short proof, or mark a smaller region."
            )
        if status == 4:
            raise Refused(500, line or "failed", "Memory ran out: mark a smaller region, or ask with fewer steps.")
        raise Refused(500, f"the program ended with status {status}", "Please report it.")
