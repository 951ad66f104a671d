#!/usr/bin/env python3
"""Runs the programs with memory refused, and with reads and writes that fail, are cut short or interrupted: each call in
turn, until a run meets none of them. Each outcome is compared with what a run may leave.

    tools/faults/faults.py [PATH OF A PROGRAM..]

The name of a path says which program it is: `tsumego`, `first_moves`, `problem_tools`, `short_claims` or `group_status`. Without a path
those are run that stand where `rt run` and the gate leave them. It builds `faults.c` with `cc` into a temporary folder and
lays it in front of the C library. It prints a table of runs by input and fault, and each finding; the exit code is 1 where
there is one, 3 where there is no program, and 4 where there is no `cc` (root has it installed).
"""
import os
import pathlib
import re
import subprocess
import sys
import tempfile
from concurrent.futures import ThreadPoolExecutor

HERE = pathlib.Path(__file__).resolve().parent
TOP = HERE.parent.parent
SECOND_CHECKER = TOP / "contrib/second-checker/check.py"
sys.path.insert(0, str(HERE.parent))
import script_words  # noqa: E402

NO_MEMORY = (4, b"failed: memory\n")
NO_READ = (4, b"failed: read\n")
REFUSED = b"? out of memory\n\n"
SECONDS = 60

CAPTURE = "(;FF[4]GM[1]SZ[3]AB[ab]AW[aa]PL[B]TR[aa]SQ[ba])"
SNAPBACK = "(;FF[4]GM[1]SZ[3]AB[ab]AW[aa][ca][bb]PL[B]TR[aa]SQ[ba])"
WITH_PAST = "(;FF[4]GM[1]SZ[3]AB[ba][ab]AW[ca][bb]PL[W];W[aa]TR[aa]SQ[ba])"
TWO_POINTS = WITH_PAST.replace("SQ[ba]", "SQ[ba][cc]")
ORDERS = "(;FF[4]SZ[3]AW[aa]PL[B]TR[aa]SQ[bc][cc])"
LISTED = "tsucert 1 3 B|lemma B 0 O.OXO....|not .XOXO....|play ba|won|end|main|use 1|end|".replace("|", "\n")
MEETING = ("tsucert 1 3 W|lemma W 0 O......XX|play pass|all 1|reply pass|won|end|main|all 3|reply bc|play pass|all 2|"
           "reply cc|use 1|reply pass|won|reply cc|play pass|all 2|reply bc|use 1|reply pass|won|reply pass|play pass|won|"
           "end|").replace("|", "\n")
ANSWERED = ("(;FF[4]GM[1]SZ[3]AB[ba][ab]AW[ca][bb];AW[aa]AE[ba];PL[B]TR[aa]SQ[ba][cc]C[White wins]"
            "(;B[cc];W[ba];B[];W[])(;B[];W[]))")
KO_SESSION = ("boardsize 3|play b b3|play w c3|play b a2|play w b2|play w a3|play b b3|undo|play w a3|play b b3|showboard|"
              "quit|").replace("|", "\n")
SOLVING_SESSION = ("boardsize 3|play b a2|play w a3|tsu-target a3|tsu-region b3|tsu-solve b|tsu-within 1|4 genmove b|undo|"
                   "showboard|").replace("|", "\n")

# Name, words, input.
RUNS = [
    ("capture", ["solve"], CAPTURE),
    ("capture", ["solve", "--proof"], CAPTURE),
    ("capture, White to move", ["solve"], CAPTURE.replace("PL[B]", "PL[W]")),
    ("snapback", ["solve"], SNAPBACK),
    ("snapback", ["solve", "--proof"], SNAPBACK),
    ("ko with its past", ["solve"], WITH_PAST),
    ("ko with its past", ["solve", "--proof"], WITH_PAST),
    ("ko with its past", ["solve", "--proof", "--lift"], WITH_PAST),
    ("ko, two points", ["solve"], TWO_POINTS),
    ("ko, two points", ["solve", "--proof"], TWO_POINTS),
    ("ko, two points, five steps", ["solve", "--steps", "5"], TWO_POINTS),
    ("two orders", ["solve"], ORDERS),
    ("two orders", ["solve", "--proof"], ORDERS),
    ("claim with a list", ["check"], SNAPBACK + "\n" + LISTED),
    ("the same, rejected", ["check"], WITH_PAST + "\n" + LISTED),
    ("claim of two orders", ["check"], ORDERS + "\n" + MEETING),
    ("capture", ["within", "1"], CAPTURE),
    ("two points, five turns", ["within", "5"], TWO_POINTS),
    ("answer tree", ["audit"], ANSWERED),
    ("answer tree that lacks a reply", ["audit"], ANSWERED.replace("(;B[];W[]))", ")")),
    ("no answer tree", ["audit"], CAPTURE),
    ("cut off", ["solve"], "(;FF[4]SZ[3]AB[aa)"),
    ("ko session", ["gtp"], KO_SESSION),
    ("session that solves", ["gtp"], SOLVING_SESSION),
]

PROVED = ("(;FF[4]GM[1]SZ[3]AB[ab]AW[aa]PL[B]TR[aa]SQ[ba]C[Black wins];B[ba];W[])")
GAMES = "(;FF[4]SZ[5]C[one];B[aa])(;FF[4]SZ[5];B[bb];W[cc])(;SZ[5]"
EYES = "(;FF[4]GM[1]SZ[9]AB[ba][da][ab][bb][cb][db]AW[ea][eb][ac][bc][cc][dc]PL[W]TR[ba][da][ab][bb][cb][db]SQ[aa][ca])"
BULKY_FIVE = (TOP / "examples/bulky-five.sgf").read_text()
POSITION = "(;FF[4]GM[1]SZ[5]AB[ab][bb][ca]AW[aa][ba];C[a comment];B[cc])"

# The same for the programs beside it.
HELPER_RUNS = {
    "first_moves": [
        ("two orders", ["--list"], ORDERS),
        ("two orders", ["--json"], ORDERS),
        ("two orders", [], ORDERS),
        ("capture", ["--list", "--steps", "1"], CAPTURE),
        ("cut off", [], "(;FF[4]SZ[3]AB[aa)"),
        ("help", ["--help"], ""),
        ("wrong words", ["--lst"], ""),
    ],
    "problem_tools": [
        ("a broken file", ["split", "2"], GAMES),
        ("a broken file", ["split", "3"], GAMES),
        ("position", ["mark", "--target", "aa", "--region", "aa:cb", "--to-play", "black"], POSITION),
        ("position", ["mark", "--target", "cc"], POSITION),
        ("solution", ["page"], PROVED),
        ("no solution", ["page"], CAPTURE),
        ("capture", ["picture"], CAPTURE),
        ("capture", ["picture", "--ascii"], CAPTURE),
        ("help", ["help", "mark"], ""),
        ("wrong words", ["mark"], ""),
    ],
    "short_claims": [
        ("two eyes", ["prove"], EYES),
        ("short claim", ["check"], EYES + "\ntsushort 1 9 B\nmain\nalive\nend\n"),
        ("the same, rejected", ["check"], EYES + "\ntsushort 1 9 W\nmain\nalive\nend\n"),
        ("capture", ["prove"], CAPTURE),
        ("two eyes for readers", ["tree"], EYES),
        ("capture for readers", ["tree"], CAPTURE),
        ("cut off", ["check"], "(;FF[4]SZ[3]AB[aa)"),
        ("help", ["--help"], ""),
    ],
    "group_status": [
        ("capture", [], CAPTURE),
        ("capture", ["--claims"], CAPTURE),
        ("capture", ["--full-claims"], CAPTURE),
        ("bulky five", ["--full-claims", "--steps", "200"], BULKY_FIVE),
        ("cut off", [], "(;FF[4]SZ[3]AB[aa)"),
        ("help", ["--help"], ""),
    ],
}
SEARCHES = ["first_moves", "group_status", "short_claims"]

# Each fault; N is the number of the call.
MEMORY = ["memory:N:1", "memory:N:0"]
DEVICES = ["read:N:1", "read:N:0", "read-short:N:1", "read-short:N:0", "read-interrupt:N:1", "write:N:1", "write:N:0",
           "write-short:N:1", "write-short:N:0", "write-interrupt:N:1", "write-none:N:1"]
OFTEN = ["read-interrupt:1:1000", "read-interrupt:1:1001", "write-interrupt:1:1000", "write-interrupt:1:1001"]


class Program:
    def __init__(self, path, library):
        self.path, self.library, self.name = path, library, os.path.basename(path)
        self.known = {}

    def run(self, words, text, fault=None):
        """The exit code and the output, and whether the fault was met."""
        told, tell = os.pipe()
        places = dict(os.environ)
        if fault:
            places.update(LD_PRELOAD=self.library, FAULT=fault, FAULT_REPORT=str(tell))
        try:
            done = subprocess.run([self.path, *words], input=text, stdout=subprocess.PIPE, stderr=subprocess.STDOUT,
                                  env=places, pass_fds=(tell,), timeout=SECONDS, check=False)
        except subprocess.TimeoutExpired:
            return (None, b""), True
        finally:
            os.close(tell)
            met = bool(os.read(told, 1))
            os.close(told)
        return (done.returncode, done.stdout), met

    def answer(self, words, text):
        """What the run without faults leaves; asked once."""
        asked = (tuple(words), text)
        if asked not in self.known:
            self.known[asked] = self.run(words, text)[0]
        return self.known[asked]


def winner(program, words, input_text, output):
    """The side that an output of `solve` names, as the program's own judges see it; none where they do not accept it."""
    judge = "check" if "--proof" in words else "audit"
    status, text = program.answer([judge], output)
    return text if status == 0 else None


def is_unknown(words, text):
    """A search for which memory was refused; or one that went on without what the table had no memory for, and used up its steps."""
    steps = words[words.index("--steps") + 1] if "--steps" in words else "1000000"
    return re.fullmatch(rb"unknown: memory, \d+ steps\n", text) is not None or text == f"unknown: step budget, {steps} steps\n".encode()


def replies_of(output):
    return [reply + b"\n\n" for reply in output.split(b"\n\n")[:-1]]


def session_fits(program, text, got):
    """Whether the replies are those of a session in which the refused commands were not sent, memory having been refused."""
    replies = replies_of(got[1])
    if got == NO_MEMORY:
        return True
    if got[0] != 0 or b"".join(replies) != got[1]:
        return False
    lines = text.splitlines(keepends=True)
    sent, wanted = [], []
    for line, reply in zip(lines, replies):
        name = line.split()[-2 if len(line.split()) > 1 else -1]
        if reply == REFUSED:
            continue
        if name == b"genmove" and reply.strip().endswith(b" pass"):
            line = line.replace(b"genmove", b"play").rstrip(b"\n") + b" pass\n"
            reply = reply.replace(b" pass", b"")
        if name == b"tsu-solve" and reply.strip() == b"= unknown":
            continue
        sent.append(line)
        wanted.append(reply)
    return program.answer(["gtp"], b"".join(sent)) == (0, b"".join(wanted)) and len(replies) == len(lines)


def tells_less(own, got):
    """Whether each line is the program's own, or says of something that it is not known."""
    ours, theirs = own[1].splitlines(), got[1].splitlines()
    return got[0] == own[0] and len(ours) == len(theirs) and all(a == b or b"unknown" in b for a, b in zip(ours, theirs))


def sections_of(text):
    """The lines before the claims of `group_status`, and for each question that was decided its line and what follows it."""
    lines, *parts = re.split(rb"^(?=== )", text, flags=re.MULTILINE)
    return lines, [part.split(b"\n", 1) for part in parts]


def is_accepted(line, section):
    """Whether the second checker accepts the claim of a question for the side that its line names."""
    words = [sys.executable, SECOND_CHECKER, *(["short"] if b"\ntsushort " in section else ["check"])]
    said = subprocess.run(words, input=section, stdout=subprocess.PIPE, check=False).stdout
    return said == b"wins " + line.rsplit(b": ", 1)[1].removesuffix(b" wins") + b"\n"


def claims_fit(own, got):
    """Whether the lines say less at most, and no question that they leave decided is without its line and its claim, or without a
    line that says that the claim is unknown."""
    (lines, sections), (own_lines, own_sections) = sections_of(got[1]), sections_of(own[1])
    if not tells_less((own[0], own_lines), (got[0], lines)):
        return False
    questions, own_questions = ([re.sub(rb": [^:]* wins$|: unknown: .*", b"", line) for line, _ in its] for its in (sections, own_sections))
    if lines == own_lines and questions != own_questions:
        return False
    return all(
        [line, section] in own_sections or (not section if b": unknown: " in line else is_accepted(line, section))
        for line, section in sections
    )


def fits_memory(program, words, text, own, got):
    """Whether a run for which memory was refused may end so."""
    if got == own or got == NO_MEMORY:
        return True
    if {"--claims", "--full-claims"} & set(words):
        return claims_fit(own, got)
    if program.name in SEARCHES:
        return tells_less(own, got)
    if program.name != "tsumego":
        return False
    if words[0] == "gtp":
        return session_fits(program, text, got)
    if words[0] != "solve":
        return False
    if got[0] == 1:
        return is_unknown(words, got[1])
    if "--lift" in words and b"\nlemma " not in got[1]:
        return False
    return got[0] == 0 and own[0] == 0 and winner(program, words, text, got[1]) == winner(program, words, text, own[1])


def fits_device(words, kind, times, own, got):
    """Whether a run whose device was faulty may end so."""
    if kind.endswith("-short") or (kind.endswith("-interrupt") and times <= 1000):
        return got == own
    if kind.startswith("read"):
        if words[:1] != ["gtp"]:
            return got == NO_READ
        said = got[1][: -len(NO_READ[1])]
        return got[0] == 4 and got[1].endswith(NO_READ[1]) and own[1].startswith(said) and (not said or said.endswith(b"\n\n"))
    return got[0] == 4 and own[1].startswith(got[1]) and (not own[1] or got[1] != own[1])


def fits(program, words, text, fault, own, got):
    kind, _, times = fault.split(":")
    if got[0] is None or got[0] < 0:
        return False
    if kind == "memory":
        return fits_memory(program, words, text, own, got)
    return fits_device(words, kind, int(times), own, got)


def each_call(program, words, text, fault, fits=fits, told=lambda got: None):
    """Runs with the fault at the first call, the second, and so on. How many runs met it, and those that do not fit; each run
    that met it is told."""
    own = program.answer(words, text)
    findings, call = [], 1
    while True:
        name = fault.replace("N", str(call))
        got, met = program.run(words, text, name)
        if not met:
            if got != own:
                findings.append((name, got))
            return call - 1, findings
        told(got)
        if not fits(program, words, text, name, own, got):
            findings.append((name, got))
        call += 1


def each_stopped_search(program, words, text, fault):
    """`each_call`; and the searches that refused memory stopped say how many steps they had made: never fewer where it was refused
    later, and some where it was refused last."""
    steps = []

    def note(got):
        told = re.fullmatch(rb"unknown: memory, (\d+) steps\n", got[1])
        if told:
            steps.append(int(told[1]))

    count, findings = each_call(program, words, text, fault, told=note)
    if steps and (steps != sorted(steps) or steps[-1] == 0):
        findings.append((fault, (1, f"steps that were told: {steps}".encode())))
    return count, findings


def often(program, words, text, fault):
    got, met = program.run(words, text, fault)
    bad = not met or not fits(program, words, text, fault, program.answer(words, text), got)
    return 1, [(fault, got)] if bad else []


def build(folder):
    """The library that is laid in front of the C library."""
    library = os.path.join(folder, "faults.so")
    subprocess.run([script_words.compiler(), "-O2", "-shared", "-fPIC", "-o", library, str(HERE / "faults.c")], check=True)
    return library


def programs():
    """The paths of the programs that there are."""
    words = script_words.Words(__doc__)
    words.add_argument("programs", nargs="*", type=script_words.program)
    named = words.parse_args().programs
    if named:
        return named
    built = [f"crates/{name}/out/{name}" for name in ["tsumego", *HELPER_RUNS]]
    return [os.path.abspath(path) for path in built if os.path.exists(path)]


def jobs_of(program):
    runs = RUNS if program.name == "tsumego" else HELPER_RUNS[program.name]
    for name, words, text in runs:
        is_search = program.name == "tsumego" and words[0] == "solve"
        for fault in MEMORY:
            yield each_stopped_search if is_search else each_call, program, name, words, text.encode(), fault
        for fault in DEVICES:
            yield each_call, program, name, words, text.encode(), fault
        for fault in OFTEN if text else []:
            yield often, program, name, words, text.encode(), fault


def main():
    paths = programs()
    if not paths:
        print("faults.py: no program is built; give its path")
        sys.exit(3)
    with tempfile.TemporaryDirectory() as folder:
        library = build(folder)
        jobs = [job for path in paths for job in jobs_of(Program(path, library))]
        with ThreadPoolExecutor(len(os.sched_getaffinity(0))) as pool:
            done = list(pool.map(lambda job: job[0](job[1], *job[3:]), jobs))
    total, bad, by_run = 0, 0, {}
    for (_, program, name, words, _, fault), (count, findings) in zip(jobs, done):
        said = " ".join([program.name, *words] if program.name != "tsumego" else words)
        counts = by_run.setdefault((name, said), {"memory": 0, "read": 0, "write": 0})
        counts[re.match("[a-z]+", fault)[0]] += count
        total += count
        bad += len(findings)
        for place, (status, output) in findings:
            print(f"FINDING: {name}, {said}, {place}: exit code {status}, {output[-200:]!r}")
    print("| Input | Words | Runs with memory refused | with faulty reads | with faulty writes |\n|---|---|---|---|---|")
    for (name, words), counts in by_run.items():
        print(f"| {name} | `{words}` | {counts['memory']:,} | {counts['read']:,} | {counts['write']:,} |")
    print(f"{total:,} runs that met a fault, {bad} findings")
    sys.exit(1 if bad else 0)


if __name__ == "__main__":
    main()
