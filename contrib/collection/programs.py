"""What the programs are asked. Answers are kept in a file, so that a run that was ended goes on where it was."""

import hashlib
import json
import os
import re
import shutil
import subprocess

from .boards import BLACK, WHITE
from .words import FAILED, Stop, shown

NAMES = ("short_claims", "first_moves", "problem_tools")
SIDES = {"B": BLACK, "W": WHITE}
SECONDS = 120


def find_programs():
    """The paths of the programs: each named by a variable (SHORT_CLAIMS), or on the PATH, or built in this repository."""
    top = os.path.dirname(os.path.dirname(os.path.dirname(os.path.realpath(__file__))))
    found = {}
    for name in NAMES:
        built = os.path.join(top, "crates", name, "out", name)
        named = os.environ.get(name.upper()) or shutil.which(name) or built
        path = shutil.which(named)
        if path is None:
            raise Stop(FAILED, f"there is no command {shown(named)} (contrib/install --helpers), and {name.upper()} names none")
        found[name] = os.path.abspath(path)
    return found


class Programs:
    """The programs, with what they have answered. `kept` is the file of the answers; without one none are kept."""

    def __init__(self, paths, kept=None):
        self.paths, self.answers, self.file = paths, {}, None
        if kept is not None:
            self.open_kept(kept)

    def open_kept(self, path):
        """Takes over the answers of a run that was ended; a last line without an end does not count."""
        if os.path.exists(path):
            with open(path, encoding="utf-8") as file:
                for line in file.read().split("\n")[:-1]:
                    key, answer = line.split("\t", 1)
                    self.answers[key] = json.loads(answer)
        self.file = open(path, "a", encoding="utf-8")

    def close(self):
        if self.file:
            self.file.close()

    def ask(self, program, words, text, read):
        """What `read` makes of the program's status and output; None where it runs out of time."""
        key = hashlib.sha256("\0".join([program, *words, text]).encode()).hexdigest()[:24]
        if key not in self.answers:
            self.answers[key] = answer = self.called(program, words, text, read)
            if self.file:
                self.file.write(f"{key}\t{json.dumps(answer, separators=(',', ':'))}\n")
                self.file.flush()
        return self.answers[key]

    def called(self, program, words, text, read):
        try:
            done = subprocess.run([self.paths[program], *words], input=text.encode(), capture_output=True, timeout=SECONDS)
        except subprocess.TimeoutExpired:
            return None
        except OSError as error:
            raise Stop(FAILED, f"{shown(self.paths[program])} cannot be run: {error.strerror}") from None
        if done.returncode not in (0, 1, 2):
            said = done.stdout[:200].decode(errors="replace").strip()
            raise Stop(FAILED, f"{shown(self.paths[program])} ended with status {done.returncode}: {said}")
        return read(done.returncode, done.stdout.decode())

    def winner(self, problem, steps):
        """Who wins by a short claim that its judge has accepted; None where none is found."""
        return self.ask("short_claims", ("prove", "--steps", str(steps)), problem.record(), read_winner)

    def is_judged(self, problem, steps):
        """Who wins, where a claim is found, written and then judged by itself."""
        return self.ask("short_claims", ("prove", "--steps", str(steps)), problem.record() + "\n", self.read_judged)

    def read_judged(self, status, claim):
        if status != 0:
            return None
        return self.called("short_claims", ("check",), claim, lambda _, said: SIDES.get(said[5:6]) if said.startswith("wins ") else None)

    def graded(self, problem, steps):
        """What each first turn is worth, with the answers and the grade, as `first_moves --grade` has it; None where it is refused."""
        return self.ask("first_moves", ("--grade", "--steps", str(steps)), problem.record(), read_lines)


def read_winner(status, text):
    found = re.search(r"^tsushort 1 \d+ ([BW])$", text, re.MULTILINE)
    return SIDES[found[1]] if status == 0 and found else None


def read_text(status, text):
    return text if status == 0 else None


def read_lines(status, text):
    return [json.loads(line) for line in text.splitlines()] if status == 0 else None
