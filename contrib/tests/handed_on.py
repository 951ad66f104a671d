"""What the real programs answer is handed on byte for byte, and what one path writes another one reads."""

import json
import subprocess

from .common import TOP, expect
from .serving import TEXT, Server

THREE, EYES, SEKI = ((TOP / f"examples/{name}.sgf").read_bytes() for name in ("straight-three", "two-eyes", "seki"))
# A path, the program, its words, and the record.
CASES = (
    ("solve", "tsumego", ["solve"], THREE),
    ("solve?proof&steps=5000", "tsumego", ["solve", "--proof", "--steps=5000"], EYES),
    ("solve?steps=2", "tsumego", ["solve", "--steps=2"], THREE),
    ("audit", "tsumego", ["audit"], (TOP / "examples/answered.sgf").read_bytes()),
    ("check", "tsumego", ["check"], (TOP / "examples/first-capture.txt").read_bytes()),
    ("status?target=B9", "group_status", ["--json", "--target=B9"], EYES),
    ("status?record&target=B9", "group_status", ["--sgf", "--target=B9"], EYES),
    ("status?all&quick&steps=50", "group_status", ["--json", "--all", "--quick", "--steps=50"], EYES),
    ("first-moves", "first_moves", ["--json"], THREE),
    ("first-moves?record&depth=2", "first_moves", ["--depth=2"], THREE),
    ("short-proof", "short_claims", ["prove"], EYES),
    ("tree", "short_claims", ["tree"], EYES),
    (
        "mark?target=aa&to-play=white&region=3&walls=hard",
        "problem_tools",
        ["mark", "--target=aa", "--to-play=white", "--region=3", "--walls=hard"],
        THREE,
    ),
    ("picture?dark&caption=Seki%3F", "problem_tools", ["picture", "--dark", "--caption=Seki?"], SEKI),
    ("picture?ascii", "problem_tools", ["picture", "--ascii"], SEKI),
)


def test_bytes(server, programs):
    for path, program, words, record in CASES:
        done = subprocess.run([programs[program.upper()], *words], input=record, stdout=subprocess.PIPE, stderr=subprocess.DEVNULL)
        status, headers, body = server.ask(f"/{path}", record)
        came = (status, headers["Tsumego-Exit-Code"], body)
        expect(f"/{path} hands the program's bytes on", came, (200, str(done.returncode), done.stdout))


def test_chains(server):
    """Proofs that are judged, an answer that is audited, and the data of a page."""
    expect("a claim", server.ask("/check", server.ask("/solve?proof", EYES)[2], TEXT)[2], b"wins Black\n")
    expect("a short claim", server.ask("/check?short", server.ask("/short-proof", EYES)[2], TEXT)[2], b"wins Black\n")
    expect("an answer tree", server.ask("/audit", server.ask("/solve", THREE)[2], TEXT)[2], b"wins White\n")
    data = json.loads(server.ask("/page", server.ask("/first-moves?record", THREE)[2], TEXT)[2])
    expect("the data of a page", (data["size"], data["mover"], data["region"]), (7, "white", ["ba", "ca", "da"]))
    marked = server.ask("/mark?target=aa&to-play=white", THREE)[2]
    expect("a record that was marked", b"C[White wins]" in server.ask("/solve", marked)[2])
    status, _, body = server.ask("/solve", b"(;SZ[9]AB[aa])")
    told = json.loads(body)
    expect("a refusal", (status, told["error"], told["number"]), (422, "refused: problem 3 no problem node", 3))


def run(folder, programs):
    with Server(folder, "--timeout", "60", programs=programs) as server:
        test_bytes(server, programs)
        test_chains(server)
