"""Games on other machines, by GNU parallel and ssh: a host needs make-collection and its programs, and no folder."""

import json
import os
import shlex

from folders.hosts import answers_from_hosts, ask_hosts
from folders.records import read_file

from .words import UNKNOWN, tell

# What a host has to say to be of use.
PROBE = "command -v {program} >/dev/null || exit 127; {program} game probe </dev/null 2>/dev/null | grep -q counts && echo \"solves $(nproc || echo 1)\""


def work_on_hosts(given, due, tasks):
    """Works on games on hosts. What no host could do is tried by the next call."""
    given.program = given.program or "make-collection"
    hosts = ask_hosts(given, PROBE.format(program=shlex.quote(given.program)))
    contents = [read_file(path) for _, path, _, _ in tasks]
    options = " ".join(f"--{name.replace('_', '-')} {value}" for name, value in tasks[0][2].items())
    commands = [f"{shlex.quote(given.program)} game {options}"]
    for number, status, text, _ in answers_from_hosts(given, hosts, commands[0], [os.fsencode(it[0]) + b"\0" + c for it, c in zip(tasks, contents)]):
        if status in (0, UNKNOWN):
            keep_answer(tasks[number], text)
        else:
            tell(f"{tasks[number][0]}: a host ended with status {status}")


def keep_answer(task, text):
    from .run import keep

    keep(task[3], json.loads(text))
