"""Starts servers, asks them, and looks at what they leave."""

import contextlib
import http.client
import os
import pathlib
import re
import signal
import socket
import subprocess
import time

from .common import TOP

SERVER = TOP / "contrib/tsumego-server"
NAMES = ("tsumego", "group_status", "first_moves", "short_claims", "problem_tools")
TEXT = {"Content-Type": "text/plain"}
LINE = re.compile(r"[0-9]+ bytes, [0-9]+\.[0-9]{2} s, status [0-9]{3}")

# Stands for each program where what is tried is the server: what it does is what the record says.
STAND_IN = """#!/bin/sh
case " $* " in *" --version "*) echo "NAME 9.9"; exit 3 ;; esac
record=$(cat)
case $record in
*SLEEP*) exec sleep 41.5 ;;
*WAIT*) sleep 1; echo waited ;;
*REFUSED*) echo 'refused: problem 9 illegal turn at node 2: occupied'; exit 2 ;;
*NODE*) echo 'refused: C7, node 3: illegal turn: occupied at node 2; --node 1 is before it'; exit 2 ;;
*STONE*) echo 'refused: there is no stone at D4, at node 0'; exit 2 ;;
*UNKNOWN*) echo 'unknown: step budget, 20 steps'; exit 1 ;;
*ARGUMENT*) echo 'error: the argument cannot be used'; exit 3 ;;
*FAILED*) echo 'failed: memory'; exit 4 ;;
*LIMITS*) echo "$(ulimit -v) $(ulimit -t) $(ulimit -c)" ;;
*LARGE*) head -c 40000000 /dev/zero ;;
*KILLED*) kill -9 $$ ;;
*CONTROL*) printf 'one\\001two\\r\\303\\251\\nmore\\n'; echo 'a note' >&2 ;;
*) for it in "$@"; do printf '<%s>' "$it"; done; printf '\\n%s\\n' "$record" ;;
esac
"""


def stand_ins(folder):
    """Programs that do what the record says, by their names in the environment."""
    for name in NAMES:
        path = pathlib.Path(folder, name)
        path.write_text(STAND_IN.replace("NAME", name))
        path.chmod(0o755)
    return {name.upper(): str(pathlib.Path(folder, name)) for name in NAMES}


class Server:
    """A server of its own, on a free port or on a socket."""

    def __init__(self, folder, *words, programs=None, path=None, command=(SERVER,)):
        self.log_path, self.path = pathlib.Path(folder, f"log-{time.monotonic_ns()}"), path
        where = ["--socket", path] if path else ["--listen", "127.0.0.1:0"]
        with open(self.log_path, "wb") as log:
            self.process = subprocess.Popen(
                [*command, *where, *words], stderr=log, stdout=log, env={**os.environ, **(programs or {})}
            )
        until = time.monotonic() + 60
        while "listening on" not in self.log() and self.process.poll() is None and time.monotonic() < until:
            time.sleep(0.05)
        found = re.search(r"http://127.0.0.1:([0-9]+)/", self.log())
        self.port = int(found[1]) if found else None

    def __enter__(self):
        return self

    def __exit__(self, *_):
        self.kill()

    def kill(self):
        if self.process.poll() is None:
            self.process.kill()
        self.process.wait()

    def end(self):
        self.process.send_signal(signal.SIGTERM)

    def log(self):
        return self.log_path.read_text()

    def address(self, path=""):
        return f"http://127.0.0.1:{self.port}/{path}"

    def connect(self, seconds=90):
        return http.client.HTTPConnection("127.0.0.1", self.port, timeout=seconds)

    def ask(self, path, record=None, headers=TEXT, method=None):
        """The status, the headers and the bytes of an answer."""
        connection = self.connect()
        try:
            connection.request(
                method or ("GET" if record is None else "POST"), path, record, headers if record is not None else headers or {}
            )
            answer = connection.getresponse()
            return answer.status, answer.headers, answer.read()
        finally:
            connection.close()

    def raw(self, *parts, pause=0.0, seconds=90):
        """What comes after these bytes, up to the end of the connection; nothing where it was ended without an answer."""
        with socket.create_connection(("127.0.0.1", self.port), timeout=seconds) as one:
            told = b""
            with contextlib.suppress(ConnectionError):
                for part in parts:
                    one.sendall(part)
                    time.sleep(pause)
            with contextlib.suppress(ConnectionError):
                while part := one.recv(65536):
                    told += part
            return told

    def children(self):
        """The processes that it has started and that have not ended."""
        return pathlib.Path(f"/proc/{self.process.pid}/task/{self.process.pid}/children").read_text().split()

    def memory(self):
        """The most megabytes that it has held."""
        status = pathlib.Path(f"/proc/{self.process.pid}/status").read_text()
        return int(re.search(r"VmHWM:\s+([0-9]+) kB", status)[1]) // 1024


def becomes(what, seconds=10):
    """Whether something becomes true soon."""
    until = time.monotonic() + seconds
    while time.monotonic() < until:
        if what():
            return True
        time.sleep(0.05)
    return bool(what())
