"""What all parts share: the words of a call, statuses, what ends a run, and how names are shown."""

import argparse
import os
import re

from folders.words import BAD_WORDS, FAILED, REFUSED, SOLVED, UNKNOWN, Interrupted, Stop, shown

__all__ = ["BAD_WORDS", "FAILED", "REFUSED", "SOLVED", "UNKNOWN", "Interrupted", "Stop", "read_words", "shown", "tell"]

USAGE = """make-collection [OPTIONS] GAMES OUT
       make-collection STEP [OPTIONS] FILE.."""
ABOUT = """\
Finds the groups in records of games that whoever moves first decides, and makes problems of them: each is proved for both sides, cut
out to the fewest stones, has one right answer, and a grade. GAMES is a file or a folder of records (.sgf, .mgt). OUT gets a record
and a page for each problem, index.html by grade, sheet.html to print, and index.tsv.

Call it again to go on where it was ended, or when there are new games: what is known of a game is kept in OUT/.part. The same games
give the same files. A game that cannot be read, or not to its end, is named, and the others go on."""
MORE = """\
steps, each a command of its own, from records on standard input or in files to records on standard output, one on each line:
  find FILE..     the unsettled groups of games, each as a problem with the attacker to move
  cut FILE..      each problem with the fewest stones, on the smallest board
  first FILE..    those with one right first move, for each side that has one, with the answers and the grade
  grade FILE..    the grade of each problem, and what it was measured by, as a table
  same FILE..     which records are one problem: name, file, number of the record, as a table
  out OUT FILE..  a collection of problems that stand in records
  game            what a host does for --hosts

exit codes: 0 made; 1 something was passed over, each named by a line; 2 a record of a step is refused; 3 invalid arguments, or the
folders cannot be used so; 4 something could not be run, read or written: call it again."""


def tell(text):
    os.write(2, os.fsencode(f"make-collection: {text}\n"))


class Words(argparse.ArgumentParser):
    def error(self, message):
        raise Stop(BAD_WORDS, f"{message} (make-collection --help says more)")


def a_number(least, most):
    def number(text):
        if not re.fullmatch("[0-9]{1,9}", text) or not least <= int(text) <= most:
            raise argparse.ArgumentTypeError(f"{text} is no number from {least:,} to {most:,}")
        return int(text)

    return number


def shard(text):
    found = re.fullmatch("([0-9]{1,6})/([0-9]{1,6})", text)
    if not found or not 1 <= int(found[1]) <= int(found[2]):
        raise argparse.ArgumentTypeError(f"{text} is no share, as 1/8 is of eight")
    return int(found[1]), int(found[2])


def parser_of():
    parser = Words(usage=USAGE, description=ABOUT, epilog=MORE, formatter_class=argparse.RawDescriptionHelpFormatter, allow_abbrev=False)
    add = parser.add_argument
    add("names", nargs="*", help=argparse.SUPPRESS)
    add("--every", type=a_number(1, 1_000), default=1, metavar="K", help="looks at each Kth node of a game [1]")
    add("--stones", type=a_number(1, 100), default=3, metavar="N", help="looks at chains of so many stones or more [3]")
    add("--liberties", type=a_number(1, 100), default=8, metavar="N", help="and of so many liberties or fewer [8]")
    add("--put-up", type=a_number(0, 20), default=6, metavar="N", help="the most stones that may be put up to close a region and its walls [6]")
    add("--best", type=a_number(1, 1_000), default=3, metavar="N", help="takes the N best problems of a game, of each group one [3]")
    add("--jobs", type=a_number(1, 10_000), metavar="N", help="games at once [as this machine has processors]")
    add("--hosts", metavar="FILE", help="works on machines by ssh, one a line in FILE")
    add("--program", metavar="PATH", help="with --hosts: make-collection there [make-collection]")
    add("--shard", type=shard, metavar="I/N", help="works on share I of N alone; a call without it then makes the collection")
    add("--title", metavar="TEXT", help="the title of the collection")
    return parser


def read_words(words, steps):
    """What the call asks for: `step` is None for a whole collection."""
    parser = parser_of()
    given = parser.parse_intermixed_args(words)
    given.step = given.names.pop(0) if given.names and given.names[0] in steps else None
    if given.step is None and len(given.names) != 2:
        parser.error(f"wanted: GAMES and OUT, or a step; given: {len(given.names)}")
    if given.step is None and not os.path.exists(given.names[0]):
        parser.error(f"there is no file or folder {shown(given.names[0])}")
    if given.hosts and given.shard:
        parser.error("--hosts and --shard do not go together")
    if given.step == "out" and len(given.names) < 1:
        parser.error("out wants OUT and records")
    return given
