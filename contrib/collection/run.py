"""A whole collection: the games of a folder, worked on side by side, and the files that are made of what they hold.

What is known of a game is kept in OUT/.part under a checksum of the game, its name and the options, so a call goes on where one was
ended; and what the programs answered about a game that was at work is kept there too.
"""

import argparse
import concurrent.futures
import fcntl
import hashlib
import json
import multiprocessing
import os
import signal

from folders.records import read_file

from .games import COUNTED, Game
from .items import from_data, to_data
from .out import INDEX, check_ours, write_collection
from .programs import Programs, find_programs
from .words import BAD_WORDS, FAILED, SOLVED, UNKNOWN, Stop, shown, tell

OPTIONS = ("every", "stones", "liberties", "put_up", "best")
# It changes where what is kept of a game would be made otherwise.
VERSION = 4


def find_games(path):
    """The files of games below a folder, by their names there; or the one file."""
    if not os.path.isdir(path):
        return [(os.path.basename(path), path)]
    found = []
    for folder, _, names in os.walk(path):
        found += [os.path.join(folder, it) for it in names if it.lower().endswith((".sgf", ".mgt"))]
    if not found:
        raise Stop(BAD_WORDS, f"no file below {shown(path)} has a name in .sgf or .mgt")
    return sorted((os.path.relpath(it, path), it) for it in found)


def check_out(games, out):
    """OUT is a folder of its own, made by this program, or new."""
    inner, outer = os.path.realpath(out), os.path.realpath(games)
    if os.path.isdir(games) and os.path.commonpath([inner, outer]) in (inner, outer):
        raise Stop(BAD_WORDS, f"{shown(out)} and {shown(games)} are one folder, or one is in the other")
    check_ours(out)


def take(out, is_shard):
    """Makes OUT this run's own; shares may work side by side."""
    part = os.path.join(out, ".part")
    try:
        os.makedirs(part, exist_ok=True)
        lock = os.open(os.path.join(part, "lock"), os.O_RDWR | os.O_CREAT | os.O_CLOEXEC, 0o666)
        fcntl.flock(lock, (fcntl.LOCK_SH if is_shard else fcntl.LOCK_EX) | fcntl.LOCK_NB)
    except BlockingIOError:
        raise Stop(FAILED, f"another run is at work in {shown(out)}") from None
    except OSError as error:
        raise Stop(FAILED, f"{shown(out)} cannot be written to: {error.strerror}") from None
    return part


def key_of(label, content, given):
    options = json.dumps([VERSION, label, *(getattr(given, it) for it in OPTIONS)])
    return hashlib.sha256(options.encode(errors="surrogateescape") + b"\0" + content).hexdigest()[:32]


class Due:
    """The games of a call: each with its name and where what is known of it is kept."""

    def __init__(self, given, games, part):
        self.part, self.keys, self.unread = part, {}, []
        self.given = given
        for label, path in games:
            content = self.read(label, path)
            if content is not None and self.is_ours(label):
                self.keys[label] = (key_of(label, content, given), path)

    def read(self, label, path):
        try:
            return read_file(path)
        except OSError as error:
            self.unread.append(f"{label}: cannot be read: {error.strerror}")
            return None

    def is_ours(self, label):
        if self.given.shard is None:
            return True
        part, parts = self.given.shard
        return int(hashlib.sha256(os.fsencode(label)).hexdigest(), 16) % parts == part - 1

    def known(self, key):
        """What is known of a game; None where it has to be worked on."""
        try:
            with open(os.path.join(self.part, key + ".json"), encoding="utf-8") as file:
                return json.load(file)
        except (OSError, ValueError):
            return None

    def tasks(self):
        """The games to be worked on, each with all that a process wants to know."""
        options = {it: getattr(self.given, it) for it in OPTIONS}
        found = [(label, key, path) for label, (key, path) in self.keys.items() if self.known(key) is None]
        return [(label, path, options, os.path.join(self.part, key)) for label, key, path in found]


def work_on_game(programs, options, label, content):
    """What becomes of a game, as data."""
    game = Game(programs, argparse.Namespace(**options), label).work(content)
    return {"items": [to_data(it) for it in game.items], "faults": game.faults, "counts": game.counts}


def keep(path, data):
    """Writes what is known of a game, whole or not at all."""
    with open(path + ".new", "w", encoding="utf-8") as file:
        json.dump(data, file, separators=(",", ":"))
    os.replace(path + ".new", path + ".json")
    if os.path.exists(path + ".kept"):
        os.unlink(path + ".kept")


def work(task):
    """Works on a game in a process of its own."""
    label, path, options, kept = task
    programs = Programs(find_programs(), kept + ".kept")
    try:
        keep(kept, work_on_game(programs, options, label, read_file(path)))
    finally:
        programs.close()
    return label


def begin_worker():
    """A worker ends with the run: the run ends it, and a terminal's Ctrl-C does not reach it before that."""
    for number in (signal.SIGINT, signal.SIGHUP):
        signal.signal(number, signal.SIG_IGN)
    signal.signal(signal.SIGTERM, signal.SIG_DFL)


def work_here(given, tasks):
    """Works on games with the processors of this machine."""
    jobs = min(given.jobs or len(os.sched_getaffinity(0)), len(tasks))
    pool = concurrent.futures.ProcessPoolExecutor(jobs, multiprocessing.get_context("fork"), begin_worker)
    try:
        for done in concurrent.futures.as_completed([pool.submit(work, it) for it in tasks]):
            done.result()
    except BaseException:
        workers = list(pool._processes.values())
        pool.shutdown(wait=False, cancel_futures=True)
        for worker in workers:
            worker.terminate()
        raise


def run(given):
    """A whole call: its status."""
    games, out = given.names
    check_out(games, out)
    find_programs()
    found = find_games(games)
    due = Due(given, found, take(out, given.shard))
    tasks = due.tasks()
    if tasks:
        if given.hosts:
            from .remote import work_on_hosts

            work_on_hosts(given, due, tasks)
        else:
            work_here(given, tasks)
    return finish(given, due, out)


def counted(count):
    return f"{count} problem{'' if count == 1 else 's'}"


def finish(given, due, out):
    """Tells what was passed over, and writes the collection, where this is no share."""
    known = {label: due.known(key) for label, (key, _) in due.keys.items()}
    missing = sum(it is None for it in known.values())
    known = {label: data for label, data in known.items() if data}
    faults = due.unread + [f"{shown(label)}: {fault}" for label, data in known.items() for fault in data["faults"]]
    for fault in faults:
        tell(fault)
    counts = {name: sum(data["counts"][name] for data in known.values()) for name in COUNTED}
    items = merged(from_data(it) for data in known.values() for it in data["items"])
    files = f"{len(due.keys)} file{'' if len(due.keys) == 1 else 's'}"
    print(f"{files}: " + ", ".join(f"{count} {name}" for name, count in counts.items()) + f"; {counted(len(items))}")
    if missing:
        tell(f"files that were not worked on: {missing}; call it again")
        return FAILED
    if given.shard is None:
        write_collection(out, items, given)
        print(f"{os.path.join(out, INDEX)}: {counted(len(items))}")
    return UNKNOWN if faults else SOLVED


def merged(items):
    """Each problem once, with all that it came from."""
    found = {}
    for item in items:
        before = found.get(item.name())
        found[item.name()] = before._replace(source=f"{before.source}; {item.source}") if before else item
    return list(found.values())
