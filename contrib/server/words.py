"""What a call of tsumego-server says, and how it ends."""

import argparse
import os
import re

BAD_WORDS, FAILED = 3, 4

USAGE = "tsumego-server [OPTIONS]"
ABOUT = """\
Answers questions of life and death in Go over HTTP, and has a page to ask them in a browser. Each question is a process of its
own of one of the programs tsumego, group_status, first_moves, short_claims and problem_tools, with limits of memory and time."""
MORE = """\
It writes a line on standard error for each request: its bytes, its seconds and its status. SIGTERM ends it when what runs has
been answered. Put a web server such as nginx before it where strangers ask; docs/HTTP.md says how, and what is asked by which path.

exit codes: 0 ended by SIGTERM or SIGINT; 3 invalid arguments; 4 a program, the package python3-aiohttp or the address cannot be
used."""


class Stop(Exception):
    """Ends the call with a line and a status."""

    def __init__(self, status, line):
        super().__init__(line)
        self.status = status


class Words(argparse.ArgumentParser):
    def error(self, message):
        raise Stop(BAD_WORDS, f"{message} (tsumego-server --help says more)")


def a_number(least, most):
    def number(text):
        if not re.fullmatch("[0-9]{1,9}", text) or not least <= int(text) <= most:
            raise argparse.ArgumentTypeError(f"{text} is no number from {least:,} to {most:,}")
        return int(text)

    return number


def address(text):
    """A host and a port; port 0 is any that is free."""
    found = re.fullmatch(r"(\[[0-9A-Fa-f:.]+\]|[A-Za-z0-9.-]+):([0-9]{1,5})", text)
    if not found or int(found[2]) > 65535:
        raise argparse.ArgumentTypeError(f"{text} is no host and port, as 127.0.0.1:8080")
    return found[1].strip("[]"), int(found[2])


def origin(text):
    if text != "*" and not re.fullmatch(r"https?://[A-Za-z0-9.:\[\]-]+", text):
        raise argparse.ArgumentTypeError(f"{text} is no origin, as https://go.example, nor *")
    return text


def read_words(words):
    """What the call asks for."""
    parser = Words(
        prog="tsumego-server",
        usage=USAGE,
        description=ABOUT,
        epilog=MORE,
        allow_abbrev=False,
        formatter_class=argparse.RawDescriptionHelpFormatter,
    )
    where = parser.add_mutually_exclusive_group()
    processors = len(os.sched_getaffinity(0))
    where.add_argument("--listen", type=address, metavar="HOST:PORT", default=("127.0.0.1", 8080), help="[127.0.0.1:8080]")
    where.add_argument("--socket", metavar="PATH", help="listens on this Unix socket in place of an address")
    add = parser.add_argument
    add("--jobs", type=a_number(1, 1000), metavar="N", default=processors, help="questions that run at once [as it has processors]")
    add("--queue", type=a_number(0, 10_000), metavar="N", default=64, help="questions that may wait for their turn [64]")
    add("--timeout", type=a_number(1, 86_400), metavar="SECONDS", default=60, help="ends a question that runs for so long [60]")
    add(
        "--steps-most",
        type=a_number(1, 10_000_000),
        metavar="N",
        default=1_000_000,
        help="steps that a question may ask for [1000000]",
    )
    add("--memory", type=a_number(64, 1_000_000), metavar="MB", default=512, help="memory of each question's process [512]")
    add(
        "--allow-origin",
        type=origin,
        action="append",
        metavar="ORIGIN",
        default=[],
        help="lets pages of this origin ask, as https://go.example; * lets all; may be given several times",
    )
    given = parser.parse_args(words)
    if given.socket is not None and not 1 <= len(os.fsencode(given.socket)) <= 107:
        parser.error("--socket wants a path of 1 to 107 bytes")
    return given
