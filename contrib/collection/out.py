"""The files of a collection: a record and a page for each problem, an index by grade, a sheet to print, and a table."""

import concurrent.futures
import os
import re
import subprocess
import sys
import tempfile

from .items import put_list, record_of
from .pictures import Picture
from .programs import Programs, find_programs, read_text
from .words import BAD_WORDS, FAILED, Stop, shown

INDEX, TABLE, SHEET = "index.html", "index.tsv", "sheet.html"
COLUMNS = ("number", "name", "grade", "points", "task", "turns", "tries", "sacrifices", "ko", "put up", "rows", "source")
MAKE_PAGE = os.path.join(os.path.dirname(os.path.dirname(os.path.realpath(__file__))), "make-page")
# A page shows lines up to so many turns, and leaves out replies that lose at once.
PAGE_WORDS = ("--judged", "--unaudited", "--short", "2", "--depth", "15")
PER_PAGE = 6


def ordered(items):
    """The items from the easiest to the hardest."""
    return sorted(items, key=lambda it: (it.answers.grade, it.answers.points, it.name()))


def row_of(number, item):
    answers = item.answers
    measured = (answers.grade, answers.points, item.task(), len(answers.line), len(answers.tries), answers.sacrifices)
    fields = (number, item.name(), *measured, "yes" if answers.ko else "no", put_list(item.problem) or "-", item.problem.size, item.source)
    return "\t".join(re.sub(r"\s+", " ", str(it)) for it in fields) + "\n"


def write_file(folder, name, text):
    """Writes a file, whole or not at all, where it is not so already."""
    path, content = os.path.join(folder, name), text.encode(errors="surrogateescape")
    if os.path.exists(path):
        with open(path, "rb") as file:
            if file.read() == content:
                return
    with open(path + ".new", "wb") as file:
        file.write(content)
    os.replace(path + ".new", path)


def check_ours(folder):
    """A folder with files is one of a former collection."""
    if os.path.lexists(folder) and not os.path.isdir(folder):
        raise Stop(BAD_WORDS, f"{shown(folder)} is no folder")
    if not os.path.isdir(folder) or not os.listdir(folder):
        return
    path = os.path.join(folder, TABLE)
    if os.path.isfile(path):
        with open(path, encoding="utf-8", errors="surrogateescape") as file:
            if file.readline() == "\t".join(COLUMNS) + "\n":
                return
    if not os.path.isdir(os.path.join(folder, ".part")):
        raise Stop(BAD_WORDS, f"{shown(folder)} has files that make-collection did not write")


def remove_former(folder, count):
    """Takes away the problems of a former run that has had more, by its table."""
    path = os.path.join(folder, TABLE)
    if not os.path.exists(path):
        return
    with open(path, encoding="utf-8", errors="surrogateescape") as file:
        numbers = [line.split("\t")[0] for line in file.read().splitlines()[1:]]
    for number in (it for it in numbers if re.fullmatch("[0-9]{4,}", it) and int(it) > count):
        for ending in (".sgf", ".svg", ".html"):
            if os.path.lexists(os.path.join(folder, number + ending)):
                os.unlink(os.path.join(folder, number + ending))


def write_collection(folder, items, given):
    """Writes all files of a collection; of a former one in the same folder nothing is left."""
    os.makedirs(folder, exist_ok=True)
    items = ordered(items)
    numbers = [f"{number:04}" for number in range(1, len(items) + 1)]
    remove_former(folder, len(items))
    for number, item in zip(numbers, items):
        write_file(folder, number + ".sgf", record_of(item, number))
        write_file(folder, number + ".svg", Picture(item.problem).svg())
    write_file(folder, TABLE, "\t".join(COLUMNS) + "\n" + "".join(map(row_of, numbers, items)))
    with tempfile.TemporaryDirectory() as work:
        write_answers(work, list(zip(numbers, items)), given)
        make_pages(folder, work, numbers, given)


def write_answers(work, numbered, given):
    """Writes for each problem the record of first_moves, which a page wants, with the record that gives the titles after it."""
    paths = find_programs()

    def write(pair):
        number, item = pair
        answer = Programs(paths).ask("first_moves", (), item.problem.record(), read_text)
        if answer is None:
            raise Stop(FAILED, f"first_moves does not answer problem {number} in time")
        write_file(work, number + ".sgf", answer + record_of(item, number))

    with concurrent.futures.ThreadPoolExecutor(given.jobs or len(os.sched_getaffinity(0))) as pool:
        list(pool.map(write, numbered))


def make_pages(folder, work, numbers, given):
    """Makes the pages, the index and the sheet."""
    title = given.title or "Go problems"
    records = [os.path.join(work, it + ".sgf") for it in numbers]
    common = [sys.executable, MAKE_PAGE, *PAGE_WORDS, "--title", title]
    if not records:
        write_file(folder, INDEX, "<!DOCTYPE html>\n<title>No problems</title>\n<p>No problems.\n")
        return
    environment = {**os.environ, **{name.upper(): path for name, path in find_programs().items()}}
    for words in (["--into", folder], ["--sheet", "--per-page", str(PER_PAGE)]):
        done = subprocess.run([*common, *words, *records], capture_output=True, env=environment)
        if done.returncode != 0:
            raise Stop(FAILED, f"make-page: {shown(done.stderr.strip().splitlines()[-1] if done.stderr.strip() else done.returncode)}")
        if words[0] == "--sheet":
            write_file(folder, SHEET, done.stdout.decode())
