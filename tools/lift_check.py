#!/usr/bin/env python3
"""Puts the claims of `tsumego solve --proof`, with and without `--lift`, to `tsumego check`.

    tools/lift_check.py PROGRAM [FOLDER] [--steps N] [--word WORD]

PROGRAM is the built tsumego. It is asked for each record of FOLDER whose name holds `ko`, or WORD, and for each of the
repository's `examples/`. A line is printed for each: the side that wins, and of either claim the version, the lemmas, and
the lines of their `had` and `not` lists. The exit code is 1 where a claim is rejected, where the two claims name different
sides, or where one is written and the other is not.
"""
import pathlib
import re
import subprocess
import sys

import script_words

EXAMPLES = script_words.TOP / "examples"


def run(words, text):
    done = subprocess.run(words, input=text, stdout=subprocess.PIPE, check=False)
    return done.returncode, done.stdout.decode()


def claim_of(program, record, steps, more):
    """Who wins by the claim that is written, none where there is none, and what it holds; and whether all is well."""
    code, written = run([program, "solve", "--proof", "--steps", str(steps), *more], record)
    if code == 1:
        return None, written.strip(), True
    head = re.search(r"^tsucert (\d+) \d+ ([BW])$", written, re.M)
    if code != 0 or not head:
        return None, f"code {code}: {written[:80].strip()}", False
    side = {"B": "Black", "W": "White"}[head.group(2)]
    lemmas, had, absent = (len(re.findall(rf"^{word} ", written, re.M)) for word in ("lemma", "had", "not"))
    told = f"version {head.group(1)}, {lemmas} lemmas, {had} had, {absent} not"
    judged = run([program, "check"], written.encode())
    if judged != (0, f"wins {side}\n"):
        return side, f"{told}, REJECTED: {judged[1].strip()}", False
    return side, told, True


def main():
    words = script_words.Words(__doc__)
    words.add_argument("program", type=script_words.program, metavar="PROGRAM")
    words.add_argument("folder", nargs="?", type=script_words.file, metavar="FOLDER")
    words.add_argument("--steps", type=script_words.a_number(1), default=100_000)
    words.add_argument("--word", default="ko")
    given = words.parse_args()
    records = sorted(EXAMPLES.glob("*.sgf"))
    if given.folder:
        records = sorted(it for it in pathlib.Path(given.folder).glob("*.sgf") if given.word in it.name) + records
    solved, unknown, pasts, bad = 0, 0, 0, 0
    for record in records:
        text = record.read_bytes()
        side, plain, well = claim_of(given.program, text, given.steps, [])
        lifted_side, lifted, lifted_well = claim_of(given.program, text, given.steps, ["--lift"])
        well = well and lifted_well and side == lifted_side
        solved += side is not None
        unknown += side is None
        pasts += "version 2" in plain or "version 2" in lifted
        bad += not well
        print(f"{record.stem}: {side or 'unknown'}; {plain}; lifted: {lifted}{'' if well else ' FAULT'}", flush=True)
    print(f"{len(records)} records: {solved} solved, {unknown} unknown, {pasts} with a claim of version 2, {bad} faults")
    sys.exit(1 if bad else 0)


main()
