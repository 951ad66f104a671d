"""Which files of the repository are scripts, and in which language."""

import pathlib
import re

import script_words

TOP = script_words.TOP
FOLDERS = (".ci", "contrib", "docs", "tests", "tools")
FIRST_LINES = {"python": re.compile(rb"#!.*\bpython3\b"), "shell": re.compile(rb"#!.*\b(ba)?sh\b")}
SUFFIXES = {"python": ".py", "shell": ".sh"}


def files() -> list[pathlib.Path]:
    """The files in which scripts may be, by their paths from the top, in order."""
    found = [*TOP.iterdir(), *(it for folder in FOLDERS for it in (TOP / folder).rglob("*"))]
    return sorted(it.relative_to(TOP) for it in found if it.is_file() and "__pycache__" not in it.parts)


def scripts(language: str) -> list[str]:
    """The scripts in a language, `python` or `shell`: by their suffix, or by their first line."""

    def is_one(file: pathlib.Path) -> bool:
        if file.suffix:
            return file.suffix == SUFFIXES[language]
        with open(TOP / file, "rb") as opened:
            return FIRST_LINES[language].match(opened.readline(100)) is not None

    return [str(it) for it in files() if is_one(it)]


def callable_files() -> list[str]:
    """The files of the folders of scripts that can be called."""
    return [str(it) for it in files() if len(it.parts) > 1 and (TOP / it).stat().st_mode & 0o111]
