"""One connection of a client, with bounds on what it may send and how long it may take."""

import asyncio

from aiohttp import web

from .refusals import raw, refusal

# Seconds for a whole request to come in, for an answer to be taken, and between two requests of a connection.
SECONDS_TO_SEND, SECONDS_TO_TAKE, SECONDS_IDLE = 15, 60, 75
# Seconds for which a client that was refused may go on sending.
SECONDS_TO_LEAVE = 2
# Requests that may wait unread in a connection.
MOST_AHEAD = 16


class Connection(web.RequestHandler):
    """aiohttp reads the requests; this bounds what it leaves unbounded."""

    def __init__(self, service, manager, **words):
        super().__init__(manager, **words)
        self.service, self.asking, self.timer = service, None, None
        # Whether bytes of a request have come, whether its answer is being made, whether the connection was refused.
        self.is_heard = self.is_busy = self.is_refused = False

    def connection_made(self, transport):
        super().connection_made(transport)
        self.service.connections += 1
        if self.service.connections > self.service.given.connections:
            self.refuse(503, "too many connections", "Ask again later.")
        else:
            self.wait(SECONDS_TO_SEND)

    def connection_lost(self, error):
        self.service.connections -= 1
        self.stop_waiting()
        if self.asking is not None:
            self.asking.cancel()
        super().connection_lost(error)

    def data_received(self, data):
        if self.is_refused:
            return
        if self.is_busy:
            # Nobody has to send ahead while an answer is made, and what comes would have to be kept.
            self.drop()
            return
        if self.timer is not None and not self.is_heard:
            self.wait(SECONDS_TO_SEND)
            self.is_heard = True
        super().data_received(data)
        # aiohttp keeps what has been sent ahead without a bound.
        if len(getattr(self, "_messages", ())) > MOST_AHEAD:
            self.drop()

    def wait(self, seconds):
        """Ends the connection if no whole head of a request comes within these seconds."""
        self.stop_waiting()
        self.is_heard = False
        self.timer = asyncio.get_running_loop().call_later(seconds, self.is_late)

    def stop_waiting(self):
        if self.timer is not None:
            self.timer.cancel()
            self.timer = None

    def is_late(self):
        if self.is_heard:
            self.service.log(0, SECONDS_TO_SEND, 408)
            self.refuse(408, f"no whole request came within {SECONDS_TO_SEND} s", "Send it faster.")
        else:
            self.drop()

    def refuse(self, status, line, remedy):
        """Answers outside a request, and ends the connection. What still comes is thrown away for a while: where it met a closed
        connection, the client's system could throw the answer away."""
        if self.transport is not None:
            self.is_refused = True
            self.transport.write(raw(status, line, remedy))
            self.stop_waiting()
            self.timer = asyncio.get_running_loop().call_later(SECONDS_TO_LEAVE, self.drop)

    def drop(self):
        """Ends the connection at once, whatever has not been taken."""
        if self.transport is not None:
            self.transport.abort()

    def handle_error(self, request, status=500, exc=None, message=None):
        """What is no HTTP is refused without a word of it in the log."""
        self.service.log(0, 0, status)
        if status == 500:
            return refusal(500, "the server failed", "Please report it.")
        response = refusal(400, "this is no request of HTTP", "docs/HTTP.md shows how to ask.")
        response.force_close()
        return response


class Listener(web.Server):
    """Makes a connection of each client that comes."""

    def __init__(self, service, **words):
        super().__init__(service.handle, **words)
        self.service, self.words = service, words

    def __call__(self):
        return Connection(self.service, self, loop=asyncio.get_running_loop(), **self.words)

    def drop(self):
        """Ends all connections, and with them all questions."""
        for connection in self.connections:
            connection.drop()
