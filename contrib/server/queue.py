"""Whose turn it is: so many questions run at once, so many wait in the order in which they came, and others are refused."""

import asyncio
import collections
import contextlib
import math
import time

from .questions import Refused

# Seconds after which a client is told to come again at the latest.
MOST_RETRY = 60


class Queue:
    """The questions that run and those that wait."""

    def __init__(self, jobs, most):
        self.jobs, self.most = jobs, most
        self.running, self.waiting = 0, collections.deque()
        self.is_ending, self.mean = False, 1.0

    def retry(self):
        """Seconds after which there should be room, by how long questions have taken."""
        return max(1, min(MOST_RETRY, math.ceil(self.mean * (len(self.waiting) + 1) / self.jobs)))

    def check(self):
        """Refuses a question for which there is no room, before its record is read."""
        if self.is_ending:
            raise Refused(503, "the server is being ended", "Ask again when it runs again.")
        if self.running >= self.jobs and len(self.waiting) >= self.most:
            after = self.retry()
            raise Refused(429, f"{len(self.waiting)} questions are waiting already", f"Ask again in {after} s.", after=after)

    @contextlib.asynccontextmanager
    async def turn(self):
        """Waits for this question's turn, and gives it to the next at the end."""
        self.check()
        if self.running < self.jobs:
            self.running += 1
        else:
            await self.wait()
        begun = time.monotonic()
        try:
            yield
        finally:
            self.mean = 0.9 * self.mean + 0.1 * (time.monotonic() - begun)
            self.give()

    async def wait(self):
        turn = asyncio.get_running_loop().create_future()
        self.waiting.append(turn)
        try:
            await turn
        except asyncio.CancelledError:
            if turn.cancelled():
                # It may have been passed over already.
                with contextlib.suppress(ValueError):
                    self.waiting.remove(turn)
            elif turn.exception() is None:
                self.give()
            raise

    def give(self):
        """Hands a turn that has ended to the first that waits."""
        while self.waiting:
            turn = self.waiting.popleft()
            if not turn.done():
                turn.set_result(None)
                return
        self.running -= 1

    def end(self):
        """Refuses those that wait, and all that come from now on."""
        self.is_ending = True
        while self.waiting:
            turn = self.waiting.popleft()
            if not turn.done():
                turn.set_exception(Refused(503, "the server is being ended", "Ask again when it runs again."))
