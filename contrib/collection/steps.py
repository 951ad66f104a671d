"""The steps of a collection, each as a command of its own: records in, records out."""

import json
import os
import sys

from .answers import answers_of, has_one_answer
from .cut import cut_out
from .games import Game, item_of_file
from .items import put_list, read_items, record_of
from .out import check_ours, write_collection
from .programs import Programs, find_programs
from .records import Unreadable, main_lines
from .same import canonical
from .run import OPTIONS, work_on_game
from .words import FAILED, REFUSED, SOLVED, UNKNOWN, Stop, shown, tell


def contents(names):
    """The bytes of each file, or of standard input, with its name; files that cannot be read end the step."""
    if not names:
        yield "standard input", sys.stdin.buffer.read()
    for name in names:
        try:
            with open(name, "rb") as file:
                yield name, file.read()
        except OSError as error:
            raise Stop(FAILED, f"{shown(name)}: {error.strerror}") from None


def items_of(names):
    """The items of all files, each with its file and its number there."""
    for name, content in contents(names):
        try:
            yield from ((name, number, item) for number, item in enumerate(read_items(content), 1))
        except Unreadable as why:
            raise Stop(REFUSED, f"{shown(name)}: refused: {why}") from None


def write(text):
    sys.stdout.write(text)
    sys.stdout.flush()


def find(given):
    status, programs = SOLVED, Programs(find_programs())
    for name, content in contents(given.names):
        game = Game(programs, given, os.path.basename(name))
        try:
            for number, nodes in enumerate(main_lines(content), 1):
                for item in game.found_in(nodes, number):
                    write(record_of(item))
        except Unreadable as why:
            status = UNKNOWN
            tell(f"{shown(name)}: {why}")
    return status


def cut(given):
    status, programs = SOLVED, Programs(find_programs())
    for name, number, item in items_of(given.names):
        problem = cut_out(programs, item.problem)
        if problem is None:
            status = UNKNOWN
            tell(f"{shown(name)}: record {number}: nothing proves that whoever moves first decides it")
        else:
            write(record_of(item._replace(problem=canonical(problem)[0])))
    return status


def first(given):
    status, programs = SOLVED, Programs(find_programs())
    for name, number, item in items_of(given.names):
        sides = [item.problem.with_mover(it) for it in (item.problem.attacker, item.problem.defender)]
        chosen = [item._replace(problem=canonical(it)[0]) for it in sides if has_one_answer(programs, it)]
        for it in chosen:
            write(record_of(it._replace(answers=answers_of(programs, it.problem))))
        if not chosen:
            status = UNKNOWN
            tell(f"{shown(name)}: record {number}: not one right first move")
    return status


def grades(given):
    status, programs = SOLVED, Programs(find_programs())
    write("grade\tturns\ttries\tsacrifices\tko\tput up\tname\trecord\n")
    for name, number, item in items_of(given.names):
        answers = answers_of(programs, item.problem)
        if answers is None:
            status = UNKNOWN
            tell(f"{shown(name)}: record {number}: not one right first move")
            continue
        measured = (answers.grade, len(answers.line), len(answers.tries), answers.sacrifices, "yes" if answers.ko else "no")
        write("\t".join(map(str, (*measured, put_list(item.problem) or "-", item.name(), f"{name}:{number}"))) + "\n")
    return status


def same(given):
    """Says which records are one problem: those of one name, together; the status is 1 where some are."""
    found = {}
    for name, number, item in items_of(given.names):
        found.setdefault(item.name(), []).append((name, number))
    for problem, places in found.items():
        for name, number in places:
            write(f"{problem}\t{len(places)}\t{name}\t{number}\n")
    return SOLVED


def out(given):
    """A collection of records: of problems that are one, the first."""
    folder, programs = given.names[0], Programs(find_programs())
    check_ours(folder)
    items, status = {}, SOLVED
    for name, number, item in items_of(given.names[1:]):
        item = item_of_file(programs, item, f"{os.path.basename(name)} {number}")
        if item is None:
            status = UNKNOWN
            tell(f"{shown(name)}: record {number}: not one right first move")
        else:
            items.setdefault(item.name(), item)
    write_collection(folder, list(items.values()), given)
    return status


def game(given):
    """What a host does for `--hosts`: the name of a file of games, a zero byte, and its content on standard input; data as JSON."""
    label, _, content = sys.stdin.buffer.read().partition(b"\0")
    options = {it: getattr(given, it) for it in OPTIONS}
    write(json.dumps(work_on_game(Programs(find_programs()), options, os.fsdecode(label), content), separators=(",", ":")) + "\n")
    return SOLVED


STEPS = {"find": find, "cut": cut, "first": first, "grade": grades, "same": same, "out": out, "game": game}
