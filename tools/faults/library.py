#!/usr/bin/env python3
"""Runs those calls of the library that no command meets with memory refused: the n-th request of a run, then all from the
n-th on, for each n until a run meets none. What each refusal left is compared with what it may leave.

    tools/faults/library.py [PATH OF LIBRARY_DRIVER]

It prints a table of runs by call, and each finding; the exit code is 1 where there is one.
"""
import re
import sys
import tempfile

from faults import MEMORY, Program, build, each_call
import script_words

CALLS = ["store", "play", "setup", "source", "check", "solve"]
KEYS = 96
UNCHANGED = b"refused, unchanged"


def fits(program, words, text, fault, own, got):
    """Whether each refusal left the object as it was, and the same call succeeded as soon as there was memory."""
    status, output = got
    if status != 0:
        return False
    lines = output.splitlines()
    if lines == [b"not begun"]:
        return True
    refused = [line for line in lines if not line.startswith(b"end: ")]
    ends = lines[len(refused):]
    if any(line != UNCHANGED for line in refused):
        return False
    if words == ["source"] and refused:
        return len(refused) == 1 and not ends
    if len(ends) != 1:
        return False
    if fault.endswith(":1"):
        return len(refused) <= 1 and ends == own[1].splitlines()
    if words == ["store"]:
        return ends == [b"end: %d keys" % (KEYS - len(refused))]
    return bool(refused) or ends == own[1].splitlines()


def main():
    words = script_words.Words(__doc__)
    words.add_argument("program", nargs="?", type=script_words.program, default="crates/library_driver/out/library_driver")
    path = words.parse_args().program
    total, bad = 0, 0
    print("| Call | Runs that met a refusal | In so many a call was refused |\n|---|---|---|")
    with tempfile.TemporaryDirectory() as folder:
        program = Program(path, build(folder))
        for call in CALLS:
            met, refused = 0, []
            for fault in MEMORY:
                count, findings = each_call(program, [call], b"", fault, fits, refused.append)
                met += count
                bad += len(findings)
                for place, (status, output) in findings:
                    print(f"FINDING: {call}, {place}: exit code {status}, {output[-200:]!r}")
            total += met
            said = sum(re.match(b"refused", output) is not None for _, output in refused)
            print(f"| `{call}` | {met:,} | {said:,} |")
    print(f"{total:,} runs that met a refusal, {bad} findings")
    sys.exit(1 if bad else 0)


main()
