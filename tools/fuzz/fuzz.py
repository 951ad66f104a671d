#!/usr/bin/env python3
"""Mutates inputs of the linked program, keeps those that reach code which none before has reached, and asks of each run what
has to hold: no signal, no more than ten seconds of the processor, an exit code and a text that the formats know, nothing on standard error;
and what `solve` writes, `check` or `audit` accepts.

    tools/fuzz/fuzz.py [--seed N] [--seconds N] [--keep FOLDER] [PATH OF TSUMEGO]

It begins with the inputs of `tools/fuzz/corpus`: a line of words, and then the input. It needs `cc` and `objdump` (binutils; root has
them installed), and runs some twenty inputs a second. Inputs that reach new code are written to FOLDER; each finding is printed, and written there
too. The exit code is 1 where there is a finding. It is no part of the gate.
"""
import os
import pathlib
import random
import re
import signal
import subprocess
import sys
import tempfile
import time

HERE = pathlib.Path(__file__).resolve().parent
sys.path.insert(0, str(HERE.parent))
import script_words  # noqa: E402

MOST_SECONDS = 10
STEPS = ["--steps", "2000"]
OUT_OF_TIME = 128 + signal.SIGXCPU
DICTIONARY = [b";", b"(", b")", b"[", b"]", b":", b"AB", b"AW", b"AE", b"PL[B]", b"PL[W]", b"TR[aa]", b"SQ[ba]", b"SZ[25]", b"SZ[3]", b"B[]",
              b"W[aa]", b"C[", b"\\", b"[aa:yy]", b"\nall 2", b"\nreply pass", b"\nplay pass", b"\nwon", b"\nend", b"\nmain", b"\nuse 1",
              b"\nhad ", b"\nnot ", b"lemma W 0 ", b"tsucert 2 3 W", b"\nplay b a1", b"\nundo", b"\nboardsize 5", b"\ntsu-solve b",
              b"\ntsu-target a3", b"\ntsu-region b3", b"\ngenmove w", b"\nshowboard", b"4294967296", b"\x00", b"\xff", b"\r\n"]
WORDS = [["check"], ["audit"], ["within", "3"], ["solve"], ["solve", "--proof"], ["solve", "--proof", "--lift"], ["solve", "--steps", "50"],
         ["gtp"]]
ANSWERS = {
    "check": rb"wins (Black|White)\n|rejected line \d+: C\d\d [^\n]*\n|refused: [^\n]*\n|failed: (memory|read)\n",
    "audit": rb"wins (Black|White)\n|rejected[^\n]*\n|refused: [^\n]*\n|failed: (memory|read)\n",
    "within": rb"wins (Black|White)\n|neither\n|limit\n|refused: [^\n]*\n|failed: (memory|read)\n",
    "solve": rb"\(;.*\n|unknown: [^\n]*\n|refused: [^\n]*\n|failed: (memory|read)\n",
    "gtp": rb"([=?][^\n]*\n(?:[^\n]+\n)*\n)*(failed: read\n)?",
}


def block_starts(path):
    """The first addresses of the blocks of its code: of functions, of what a jump leads to, and after a jump that may not be taken."""
    listing = subprocess.run(["objdump", "-d", "--no-show-raw-insn", path], stdout=subprocess.PIPE, check=True, text=True).stdout
    starts, is_next = set(), False
    for line in listing.splitlines():
        instruction = re.match(r"\s+([0-9a-f]+):\s+(\S+)(?:\s+([0-9a-f]+) <)?", line)
        if not instruction:
            is_next = is_next or re.match(r"[0-9a-f]+ <", line) is not None
            continue
        address, name, target = instruction.groups()
        if is_next:
            starts.add(address)
        is_next = name.startswith("j") and name != "jmp"
        if name.startswith("j") and target:
            starts.add(target)
    return starts


class Runner:
    def __init__(self, path, folder):
        self.path, self.addresses, self.seen = path, os.path.join(folder, "addresses"), os.path.join(folder, "seen")
        self.blocks = os.path.join(folder, "blocks")
        subprocess.run([script_words.compiler(), "-O2", "-o", self.blocks, str(HERE / "blocks.c")], check=True)
        starts = block_starts(path)
        pathlib.Path(self.addresses).write_text("\n".join(sorted(starts)) + "\n")
        pathlib.Path(self.seen).write_text("")
        print(f"{len(starts):,} blocks")

    def run(self, words, text):
        """The exit code, both outputs, and whether a new block was met."""
        before = os.path.getsize(self.seen)
        done = subprocess.run([self.blocks, self.path, self.addresses, self.seen, str(MOST_SECONDS), *words], input=text,
                              stdout=subprocess.PIPE, stderr=subprocess.PIPE, check=False)
        return done.returncode, done.stdout, done.stderr, os.path.getsize(self.seen) > before

    def met(self):
        return len(pathlib.Path(self.seen).read_text().split())


def judged(path, words, text):
    return subprocess.run([path, *words], input=text, stdout=subprocess.PIPE, check=False).stdout


def fault_of(path, words, status, output, told):
    """What is wrong with a run, or None."""
    if status == OUT_OF_TIME and words[0] == "gtp":
        # Each `tsu-solve` of a session may make 100,000 steps, which take 15 s on the widest boards.
        return None
    if status > 4:
        return f"exit code {status}"
    if told:
        return f"standard error {told[:80]!r}"
    if not re.fullmatch(ANSWERS[words[0]], output, re.DOTALL):
        return f"output {output[:80]!r}"
    if words[0] == "solve" and status == 0:
        verdict = judged(path, ["check" if "--proof" in words else "audit"], output)
        if not verdict.startswith(b"wins "):
            return f"its own judge says {verdict[:80]!r}"
    return None


def mutated(random, text, others):
    for _ in range(random.choice([1, 1, 2, 4, 8])):
        at = random.randrange(len(text) + 1)
        end = min(len(text), at + random.choice([1, 2, 4, 16, 64]))
        way = random.randrange(6)
        if way == 0:
            text = text[:at] + random.choice(DICTIONARY) + text[at:]
        elif way == 1:
            text = text[:at] + text[end:]
        elif way == 2:
            text = text[:at] + text[at:end] * random.choice([2, 3, 20]) + text[end:]
        elif way == 3:
            text = text[:at] + bytes([random.randrange(256)]) + text[at + 1 :]
        elif way == 4:
            other = random.choice(others)[1]
            from_ = random.randrange(len(other) + 1)
            text = text[:at] + other[from_ : from_ + random.choice([4, 16, 64, 1_000])] + text[end:]
        elif text:
            at = min(at, len(text) - 1)
            text = text[:at] + bytes([text[at] + random.choice([-1, 1]) & 255]) + text[at + 1 :]
    return text[:100_000]


def begin():
    corpus = []
    for path in sorted((HERE / "corpus").iterdir()):
        words, text = path.read_bytes().split(b"\n", 1)
        corpus.append((words.decode().split(), text))
    return corpus


def main():
    words = script_words.Words(__doc__)
    words.add_argument("--seed", type=int, default=1)
    words.add_argument("--seconds", type=script_words.a_number(1), default=60)
    words.add_argument("--keep")
    words.add_argument("path", nargs="?", type=script_words.program, default="crates/tsumego/out/tsumego")
    asked = words.parse_args()
    path, chance = asked.path, random.Random(asked.seed)
    findings, runs, corpus = 0, 0, begin()
    with tempfile.TemporaryDirectory() as folder:
        runner = Runner(path, folder)
        keep = pathlib.Path(asked.keep or folder)
        keep.mkdir(exist_ok=True)
        waiting, end = list(corpus), time.monotonic() + asked.seconds
        while time.monotonic() < end:
            if waiting:
                words, text = waiting.pop()
            else:
                words, text = chance.choice(corpus)
                words = chance.choice(WORDS) if chance.random() < 0.1 else words
                words = [*words, *STEPS] if words[0] == "solve" and "--steps" not in words else words
                text = mutated(chance, text, corpus)
            status, output, told, is_new = runner.run(words, text)
            runs += 1
            fault = fault_of(path, words, status, output, told)
            if fault:
                findings += 1
                print(f"FINDING {findings}: {' '.join(words)}: {fault}")
                (keep / f"finding-{findings}").write_bytes(" ".join(words).encode() + b"\n" + text)
            if is_new:
                corpus.append((words, text))
                (keep / f"input-{runs:06}").write_bytes(" ".join(words).encode() + b"\n" + text)
        print(f"seed {asked.seed}: {runs:,} runs, {runner.met():,} blocks met, {len(corpus):,} inputs, {findings} findings")
    sys.exit(1 if findings else 0)


if __name__ == "__main__":
    main()
