"""Asks many machines, by GNU parallel and ssh. Records and answers travel on the connection, so a host needs no folder: the
program, `sh` and the coreutils, and perl, in which GNU parallel starts its jobs. The answers come back to this process, which
alone writes them, so what a job does that outlives the run changes nothing.
"""

import base64
import ctypes
import os
import re
import shlex
import signal
import subprocess
import tempfile
from argparse import Namespace
from collections.abc import Callable, Iterable, Iterator
from typing import IO

from .run import Run
from .words import BAD_WORDS, FAILED, Stop, shown, tell

# The number of a content, the status, what was written, and the seconds.
Answer = tuple[int, int, bytes, float]

MOST_BYTES = 1_048_577  # `tsumego solve` reads no more
TINY_PROBLEM, TINY_ANSWER = "(;SZ[3]AB[ab]AW[aa]PL[B]TR[aa]SQ[ba])", "C[Black wins]"

# So many records travel on a connection at most: to open one costs more than most records do.
MOST_RECORDS = 50
# Each host gets so many connections or more for each of its jobs, so that none waits long for the last.
CONNECTIONS = 4
# Run by `sh` on a host, with a record on each line of its input, as base64, which counts only where it came whole. It writes a
# line for each: the number of the connection, that of the record on it, what the program wrote, its status, and the times before
# and after. It fails where all its records should be asked elsewhere.
ASK = """
exec 4>&1
count=0 bad=0
while IFS= read -r record; do
    count=$((count + 1))
    start=$(date +%s.%N)
    printf "%s %s " "$1" "$count"
    status=$({{ {{ printf "%s" "$record" | base64 -d | {command}; echo $? >&3; }} | base64 -w 0 >&4; }} 3>&1)
    printf " %s %s %s\\n" "$status" "$start" "$(date +%s.%N)"
    case $status in 0 | 1 | 2 | 124) ;; *) bad=$((bad + 1)) ;; esac
    record=
done
[ -z "$record" ] && [ "$bad" -lt "$count" ]
"""
# Whether a host has the program, and it solves a problem; and how many processors it has. Logins may write lines of their own.
PROBE = """
answer=$(printf "%s" "{problem}" | {program} solve 2>/dev/null)
status=$?
case $answer in *"{answer}"*) echo "solves $(nproc || echo 1)"; exit 0 ;; esac
[ "$status" != 0 ] || exit 1
exit "$status"
"""
# The same for another program: whether it answers anything about the problem.
PROBE_OF_RUN = """
printf "%s" "{problem}" | {command} >/dev/null 2>&1
status=$?
case $status in 0 | 1) echo "solves $(nproc || echo 1)"; exit 0 ;; esac
exit "$status"
"""
WHY = {
    126: "{program} cannot be run there",
    127: "there is no command {program} there; --program names it",
    255: "it cannot be reached",
    -1: "it gives no answer within 30 seconds",
}


def end_with_parent(how: int) -> Callable[[], None]:
    """What a started program does before it begins: it asks for this signal when its parent ends, however that ends."""
    prctl, parent = ctypes.CDLL(None).prctl, os.getpid()

    def begin() -> None:
        prctl(1, how)  # PR_SET_PDEATHSIG
        if os.getppid() != parent:
            os._exit(1)

    return begin


def for_parallel(script: str) -> str:
    """A script as one word of GNU parallel's, which would replace {}, {#} and more in it."""
    return "sh -c " + shlex.quote(script).replace("{", "{''")


def read_hosts(path: str) -> list[bytes]:
    """The lines of a file of hosts, in the form of GNU parallel's --sshloginfile."""
    try:
        with open(path, "rb") as file:
            lines = [it.strip() for it in file.read().split(b"\n")]
    except OSError as error:
        raise Stop(BAD_WORDS, f"{shown(path)} cannot be read: {error.strerror}") from None
    hosts = [it for it in lines if it and not it.startswith(b"#")]
    if not hosts:
        raise Stop(BAD_WORDS, f"{shown(path)} names no host")
    return hosts


def probe_of(given: Namespace) -> str:
    if given.run:
        return PROBE_OF_RUN.format(problem=TINY_PROBLEM, command=" ".join(map(shlex.quote, [given.program, *given.asked])))
    return PROBE.format(problem=TINY_PROBLEM, answer=TINY_ANSWER, program=shlex.quote(given.program))


def ask_hosts(given: Namespace, script: str | None = None) -> dict[bytes, int]:
    """The hosts that solve a problem, or pass another probe, each with its number of processors. The others are told."""
    script = script or probe_of(given)
    found = {}
    for line, (status, processors, why) in probed(read_hosts(given.hosts), for_parallel(script)).items():
        if status == 0 and processors:
            found[line] = int(processors)
        else:
            reason = WHY.get(status, "{program} solves no problem there").format(program=shown(given.program))
            tell(f"host {shown(line)} is left out: {reason}" + (f" ({shown(why)})" if status == 255 and why else ""))
    if not found:
        raise Stop(FAILED, f"no host of {shown(given.hosts)} is left")
    return found


def probed(lines: list[bytes], command: str) -> dict[bytes, tuple[int, bytes | None, bytes]]:
    """What each host answers to the probe: its status, the processors that it tells, and the first line of its errors."""
    with tempfile.NamedTemporaryFile() as hosts, tempfile.NamedTemporaryFile() as log:
        hosts.write(b"\n".join(lines) + b"\n")
        hosts.flush()
        words = ["parallel", "--plain", "--nonall", "--tag", "--timeout", "30", "--joblog", log.name, "--sshloginfile", hosts.name]
        done = subprocess.run([*words, command], stdin=subprocess.DEVNULL, capture_output=True)
        jobs = [it.split(b"\t") for it in log.read().split(b"\n")[1:-1]]
        statuses = {host: -1 if signaled != b"0" else int(status) for _, host, _, _, _, _, status, signaled, *_ in jobs}
    processors = dict(re.findall(rb"^(.*)\tsolves (\d+)$", done.stdout, re.MULTILINE))
    errors = dict(it.split(b"\t", 1) for it in re.split(rb"[\r\n]+", done.stderr)[::-1] if b"\t" in it)
    logins = {line: re.sub(rb"^(@[^/]+/)?(\d*/)?", b"", line) for line in lines}
    return {line: (statuses.get(it, 255), processors.get(it), errors.get(it, b"").strip()) for line, it in logins.items()}


def solve_by_parallel(run: Run, hosts: dict[bytes, int]) -> None:
    """Asks the due records on hosts, and keeps each answer as it comes."""
    given, asked = run.given, []
    command = " ".join(map(shlex.quote, [given.program, *given.asked]))
    if given.timeout is not None:
        command = f"timeout {given.timeout:g} {command}"

    def contents() -> Iterator[bytes]:
        for record, content, checksum in run.due():
            asked.append((record, checksum))
            yield content[:MOST_BYTES]

    for number, status, text, seconds in answers_from_hosts(given, hosts, command, contents()):
        record, checksum = asked[number]
        run.keep(record, checksum, status, text, seconds)


def answers_from_hosts(
    given: Namespace, hosts: dict[bytes, int], command: str, contents: Iterable[bytes]
) -> Iterator[Answer]:
    """Has a command run on hosts for each content, and yields the answers as they come: the content's number, the status, what was
    written, and the seconds. The contents travel on the connections, a line of base64 each, and so do the answers."""
    lengths = []
    with tempfile.TemporaryFile() as lines, tempfile.NamedTemporaryFile() as logins:
        for content in contents:
            lengths.append(lines.write(base64.b64encode(content) + b"\n"))
        lines.seek(0)
        logins.write(b"".join(login_line(line, count) for line, count in hosts.items()))
        logins.flush()
        jobs = sum(jobs_of(line, given.jobs or count) for line, count in hosts.items())
        together = max(1, min(MOST_RECORDS, len(lengths) // (CONNECTIONS * jobs)))
        longest = max([1 << 20, *(sum(lengths[i : i + together]) for i in range(0, len(lengths), together))])
        words = ["parallel", "--plain", "--pipe", f"-N{together}", "--recend", "\n", "--block", str(longest)]
        words += ["--retries", str(len(hosts) + 2)]
        words += ["--ssh", "ssh -o BatchMode=yes -o ConnectTimeout=20 -o ServerAliveInterval=20"]
        words += ["--sshloginfile", logins.name, "--jobs", str(given.jobs) if given.jobs else "100%", *getattr(given, "words", [])]
        words.append(for_parallel(ASK.format(command=command)) + " sh {#}")
        if lengths:
            yield from read_answers(words, lines, together, len(lengths))


def jobs_of(line: bytes, processors: int) -> int:
    """How many jobs a host has at once: as many as its line says, or else as it has processors."""
    found = re.match(rb"(?:@[^/]+/)?(\d+)/", line)
    return int(found[1]) if found else processors


def login_line(line: bytes, processors: int) -> bytes:
    """A host's line with its number of processors, where it names none."""
    group, count, login = re.fullmatch(rb"(@[^/]+/)?(\d*/)?(.*)", line).groups(b"")
    return group + (count if count.strip(b"/") else b"%d/" % processors) + login + b"\n"


def read_answers(words: list[str], lines: IO[bytes], together: int, count: int) -> Iterator[Answer]:
    """Runs GNU parallel, and yields each answer as it comes. What a host that failed wrote is not read."""
    process = subprocess.Popen(words, stdin=lines, stdout=subprocess.PIPE, preexec_fn=end_with_parent(signal.SIGINT))
    try:
        for line in process.stdout:
            found = re.fullmatch(rb"(\d+) (\d+) ([A-Za-z0-9+/=]*) (\d+) (\S+) (\S+)\n", line)
            number = (int(found[1]) - 1) * together + int(found[2]) - 1 if found else -1
            if 0 <= number < count:
                yield number, int(found[4]), base64.b64decode(found[3]), seconds_between(found[5], found[6])
    finally:
        if process.poll() is None:
            process.send_signal(signal.SIGINT)
        process.stdout.close()
        process.wait()


def seconds_between(start: bytes, end: bytes) -> float:
    """Where a host's clock has whole seconds alone, as none."""
    try:
        return max(0, float(end) - float(start))
    except ValueError:
        return 0
