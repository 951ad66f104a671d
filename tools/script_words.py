"""The words of a script, by argparse: `--help` prints what the script is for, and wrong words end it in one line, with status 3.
And the commands that it needs: where one is missing, it ends in one line, with status 4."""

import argparse
import os
import pathlib
import subprocess
import sys
from typing import NoReturn

TOP = pathlib.Path(__file__).resolve().parent.parent


class Words(argparse.ArgumentParser):
    """Reads the words that a script was called with. `about` is its docstring: `--help` prints it, and after it each option that
    has a help of its own."""

    def __init__(self, about: str, prog: str | None = None) -> None:
        super().__init__(prog=prog or name_of_script(), usage=argparse.SUPPRESS, description=about.strip(), allow_abbrev=False,
                         formatter_class=argparse.RawDescriptionHelpFormatter)

    def format_help(self) -> str:
        told = [it for it in self._actions if it.option_strings and it.help not in (None, argparse.SUPPRESS) and it.dest != "help"]
        formatter = self._get_formatter()
        formatter.add_text(self.description)
        if told:
            formatter.start_section("options")
            formatter.add_arguments(told)
            formatter.end_section()
        return formatter.format_help()

    def error(self, message: str) -> NoReturn:
        refuse(self.prog, message)


def refuse(name: str, why: str) -> NoReturn:
    """Ends the script in one line, with status 3."""
    print(f"{name}: {' '.join(why.split())}; --help tells what it takes", file=sys.stderr)
    sys.exit(3)


def name_of_script() -> str:
    return os.path.relpath(sys.argv[0], TOP)


def file(text: str) -> str:
    """A word that names a file or a folder."""
    if not os.path.exists(text):
        raise argparse.ArgumentTypeError(f"there is no file {text}")
    return text


def program(text: str) -> str:
    """A word that names a program, as an absolute path."""
    if not os.path.isfile(text) or not os.access(text, os.X_OK):
        raise argparse.ArgumentTypeError(f"there is no file {text}" if not os.path.exists(text) else f"{text} is no program")
    return os.path.abspath(text)


def a_number(least: int, most: int | None = None):
    """Words that are whole numbers, from the least on."""

    def number(text: str) -> int:
        if not text.isascii() or not text.isdecimal() or int(text) < least or (most is not None and int(text) > most):
            raise argparse.ArgumentTypeError(f"{text} is no number from {least}{f' to {most}' if most is not None else ' on'}")
        return int(text)

    return number


def need(*commands: str) -> None:
    """Ends the script unless these are there, each given as `COMMAND:PACKAGE`. For root they are installed."""
    asked = subprocess.run([TOP / "tools/need", name_of_script(), *commands], check=False)
    if asked.returncode != 0:
        sys.exit(asked.returncode)


def compiler() -> str:
    """Returns the C compiler: that of `CC`, or `cc`, which is asked for."""
    named = os.environ.get("CC")
    if not named:
        need("cc:gcc")
    return named or "cc"
