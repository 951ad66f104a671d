"""Collections of small games. The shape that they hold is the bulky five of examples/bulky-five.sgf, with two stones more in its wall:
whoever begins wins, by the point in its middle and by no other, as the guide says."""

import json
import os
import random
import re
import shutil
import signal
import subprocess
import time

from .common import TOP, expect

MAKE = str(TOP / "contrib/make-collection")
LETTERS = "abcdefghijklmnopqrstuvwxy"
SIZE = 9
BLACK = "aa ba ca da db dc dd de df cf ag bg cg".split()
WHITE = "ab bb cb cc cd be ce af bf".split()
TURNED = 0, 1, 2, 3, 4, 5, 6, 7
# With these words a game of this shape has one problem, with no stone that it has not.
CLOSED = ("--put-up", "0")


def image(point, turn, size, shift=0):
    """A point of the shape on a larger board, or turned: column and row mirrored and exchanged."""
    column, row = (LETTERS.index(it) + shift for it in point)
    if turn & 4:
        column, row = row, column
    if turn & 2:
        row = size - 1 - row
    if turn & 1:
        column = size - 1 - column
    return LETTERS[column] + LETTERS[row]


def game(turn=0, size=SIZE, exchanged=False, black=BLACK, root="PB[A]PW[B]"):
    """The shape, played out as a game, the colours exchanged or not."""
    sides = [[image(it, turn, size) for it in side] for side in (black, WHITE)]
    moves = [it for pair in zip(*[side + [""] * (13 - len(side)) for side in sides]) for it in pair]
    names = "WB" if exchanged else "BW"
    return f"(;FF[4]GM[1]SZ[{size}]{root}" + "".join(f";{names[i % 2]}[{it}]" for i, it in enumerate(moves)) + ")\n"


def call(*words, stdin=b"", **variables):
    done = subprocess.run([MAKE, *map(str, words)], input=stdin, capture_output=True, env={**os.environ, **variables})
    return done.returncode, done.stdout.decode(), done.stderr.decode()


def refused(what, words, status, text, **given):
    code, out, err = call(*words, **given)
    expect(f"{what}: the status", code, status)
    expect(f"{what}: one line that says {text}", (len(err.splitlines()), text in err, "Traceback" in err), (1, True, False))


def asked(name, *words, stdin):
    return subprocess.run([os.environ[name], *words], input=stdin, stdout=subprocess.PIPE).stdout


def files(folder):
    return {it.name: it.read_bytes() for it in sorted(folder.iterdir()) if it.is_file()}


def rows(folder):
    lines = (folder / "index.tsv").read_text().splitlines()
    return [dict(zip(lines[0].split("\t"), line.split("\t"))) for line in lines[1:]]


def is_right(folder, number):
    """Whether each side that begins wins, each with a claim that is accepted, and one first move is right."""
    record = (folder / f"{number}.sgf").read_bytes()
    problem = record.partition(b"(;B")[0] + b")" if b"(;B" in record else record
    winners = []
    for side in (b"B", b"W"):
        claim = asked("TSUMEGO", "solve", "--proof", stdin=re.sub(rb"PL\[.\]", b"PL[" + side + b"]", problem))
        winners.append(asked("TSUMEGO", "check", stdin=claim).decode().strip())
    unique = asked("FIRST_MOVES", "--list", stdin=problem).decode().splitlines()[-1]
    return winners, unique


def test_whole(folder):
    """One problem of four games that have it turned, on another board, and in the other colours; and whatever cannot be read."""
    games, out = folder / "games", folder / "out"
    (games / "more").mkdir(parents=True)
    (games / "a.sgf").write_text(game())
    (games / "more/b.SGF").write_text(game(5, exchanged=True))
    (games / "c.mgt").write_text(game(3, size=13) + game(6))
    code, said, told = call(*CLOSED, "--title", "Fives", games, out)
    expect("good games", (code, told), (0, ""))
    expect("one problem", [it["number"] for it in rows(out)], ["0001"])
    expect("it is right", is_right(out, "0001"), (["wins Black", "wins White"], "solution unique: 1 winning, 0 unknown"))
    row = rows(out)[0]
    expect("its row", (row["task"], int(row["turns"]) >= 3, 1 <= int(row["grade"]) <= 9, row["put up"]), ("Black to play and kill", True, True, "-"))
    expect("all its sources", [it in row["source"] for it in ("a.sgf", "more/b.SGF", "c.mgt, ", "c.mgt game 2")], [True] * 4)
    expect("its name", row["name"], call("same", out / "0001.sgf")[1].split("\t")[0])
    names = {"0001.sgf", "0001.svg", "0001.html", "index.html", "index.tsv", "sheet.html"}
    expect("the files", set(files(out)), names)
    record = files(out)["0001.sgf"].decode()
    expect("the record has the answer, refutations, grade and source", [it in record for it in ("TE[1]", "BM[1]", f"Grade {row['grade']}.", "SO[A - B")], [True] * 4)
    expect("the index has the grade and the title", ['"grade":' in files(out)["index.html"].decode(), "<title>Fives" in files(out)["index.html"].decode()], [True, True])
    again = folder / "again"
    call(*CLOSED, "--title", "Fives", "--jobs", "1", games, again)
    expect("the same games give the same bytes", files(again) == files(out), True)
    code, said, told = call(*CLOSED, "--title", "Fives", games, out, SHORT_CLAIMS="/bin/false")
    expect("nothing is asked of a known game", (code, told), (0, ""))
    return games, out


def test_bad_games(folder):
    games, out = folder / "bad", folder / "bad-out"
    games.mkdir()
    long_game = "".join(f";{'BW'[i % 2]}[{LETTERS[i % 19]}{LETTERS[i // 19]}]" for i in range(300))
    (games / "broken.sgf").write_text("(;FF[4]SZ[9];B[aa")
    (games / "empty.sgf").write_text("")
    (games / "good.sgf").write_text(game())
    (games / "illegal.sgf").write_text(game()[:-2] + ";B[aa])")
    (games / "handicap.sgf").write_text("(;SZ[19]HA[2]AB[dd][pp];W[dp];B[pd])")
    (games / "setup.sgf").write_text("(;SZ[9];B[ee];AE[ee]AW[ff]PL[B];B[ee];W[];B[tt])")
    (games / "large.sgf").write_text("(;SZ[25];B[yy];W[aa])")
    (games / "chess.sgf").write_text("(;GM[2]SZ[8];B[aa])")
    (games / "wide.sgf").write_text("(;SZ[26];B[aa])")
    (games / "long.sgf").write_text(f"(;SZ[19]{long_game}" + ";B[];W[]" * 350 + ")")
    (games / "lost.sgf").symlink_to("nowhere")
    code, said, told = call(*CLOSED, games, out)
    expect("bad games: the status, and the good ones", (code, [it["number"] for it in rows(out)]), (1, ["0001"]))
    named = sorted(line.split(": ")[1] for line in told.splitlines())
    expect("bad games: a line for each", named, ["broken.sgf", "chess.sgf", "empty.sgf", "illegal.sgf", "lost.sgf", "wide.sgf"])
    expect("bad games: the fault of a move is told with its node", "illegal.sgf: node 27: there is a stone at aa already" in told, True)
    expect("bad games: what is before it counts", "illegal.sgf" in rows(out)[0]["source"], True)


def test_bad_words(folder, games):
    (folder / "full").mkdir()
    (folder / "full/mine.txt").write_text("mine")
    refused("no OUT", [games], 3, "wanted: GAMES and OUT")
    refused("no GAMES", [folder / "nowhere", folder / "x"], 3, "there is no file or folder")
    refused("OUT in GAMES", [games, games / "out"], 3, "one is in the other")
    refused("GAMES in OUT", [games, folder], 3, "one is in the other")
    refused("OUT is GAMES", [games, games], 3, "are one folder")
    refused("OUT is a file", [games, folder / "full/mine.txt"], 3, "is no folder")
    refused("OUT has other files", [games, folder / "full"], 3, "did not write")
    refused("out into a folder with other files", ["out", folder / "full", TOP / "examples/bulky-five.sgf"], 3, "did not write")
    refused("no games", [folder / "full", folder / "x"], 3, "no file below")
    refused("a bad number", ["--every", "0", games, folder / "x"], 3, "no number from 1")
    refused("a bad share", ["--shard", "3/2", games, folder / "x"], 3, "no share")
    refused("an unknown option", ["--nonsense", games, folder / "x"], 3, "--help says more")
    refused("a program that is not there", [games, folder / "x"], 4, "there is no command /no/program", SHORT_CLAIMS="/no/program")
    refused("a step without its file", ["first", folder / "nowhere"], 4, "No such file")
    refused("a step, no problem", ["first"], 2, "no targets", stdin=b"(;SZ[9]AB[aa])")
    refused("a step, no record", ["same"], 2, "no game tree", stdin=b"nothing")
    refused("a step, a target that is no stone", ["same"], 2, "target", stdin=b"(;SZ[9]AB[aa]TR[bb])")
    expect("nothing was made of bad words", ((folder / "x").exists(), (folder / "full/mine.txt").read_text()), (False, "mine"))


def test_steps(folder):
    """The steps as commands of their own, one feeding the next."""
    found = call("find", *CLOSED, stdin=game(0, size=19).encode())
    lines = found[1].splitlines()
    expect("find: a problem on each line", (found[0], len(lines) > 0, all("TR[" in it for it in lines)), (0, True, True))
    found = (0, lines[-1] + "\n")
    cut = call("cut", stdin=found[1].encode())
    size = int(re.search(r"SZ\[(\d+)\]", cut[1])[1])
    count = [len(re.findall(r"\[[a-y]{2}\]", it.partition("PL")[0])) for it in (found[1], cut[1])]
    expect("cut: a smaller board, and no more stones", (cut[0], size <= SIZE, count[1] <= count[0]), (0, True, True))
    (folder / "cut.sgf").write_text(cut[1])
    expect("cut: the answers stay", is_right(folder, "cut")[0], ["wins Black", "wins White"])
    answered = call("first", folder / "cut.sgf")
    expect("first: a record with one right move for each side that has one", (answered[0], 1 <= answered[1].count("TE[1]") <= 2, answered[1].count("TE[1]")), (0, True, answered[1].count("\n")))
    table = call("grade", folder / "cut.sgf")[1].splitlines()
    expect("grade: a row", (table[0].split("\t")[0], table[1].split("\t")[0] in "123456789"), ("grade", True))
    code, _, told = call("first", stdin=(TOP / "examples/seki.sgf").read_bytes())
    expect("first: a problem without a right move is told", (code, "record 1: not one right first move" in told), (1, True))
    code, _, told = call("cut", stdin=(TOP / "examples/two-eyes.sgf").read_bytes())
    expect("cut: a group that lives is told", (code, "nothing proves" in told), (1, True))
    code, _, told = call("out", folder / "made", TOP / "examples/bulky-five.sgf", TOP / "examples/straight-three.sgf")
    expect("out: two problems, the easier first", (code, [it["turns"] for it in rows(folder / "made")]), (0, ["1", "3"]))


def test_stones_put_up(folder):
    """A shape whose wall lacks a stone: it is put up, and looks as no stone of the game does."""
    lacking = [it for it in BLACK if it != "dc"]
    (folder / "open.sgf").write_text(game(black=lacking))
    expect("without it nothing closes the region", call("find", *CLOSED, folder / "open.sgf")[1], "")
    found = [it for it in call("find", "--put-up", "1", folder / "open.sgf")[1].splitlines() if "CR[" in it]
    expect("the stone that is put up is named", (len(found) > 0, all("Not in the game: Black " in it for it in found)), (True, True))
    code, said, told = call("out", folder / "put", stdin=b"", *[folder / "lines.sgf"]) if (folder / "lines.sgf").write_text("\n".join(found)) else None
    numbered = rows(folder / "put")
    expect("it has a ring in the picture, and is in the page's data", [(it in files(folder / "put")[name].decode()) for it, name in (('class="p"', "0001.svg"), ('"put":["', "0001.html"), ('"put":["', "sheet.html"))], [True] * 3)
    expect("it is in the table", numbered[0]["put up"] != "-", True)
    (folder / "next.sgf").write_text(game(black=lacking)[:-2] + ";B[dc])")
    there = [it for it in call("find", "--put-up", "1", folder / "next.sgf")[1].splitlines() if "node 26," in it]
    expect("no stone is put up where the game goes on", [it for it in there if "CR[dc]" in it], [])


def random_problem(numbers):
    """A random position, with targets and a region: what one is does not matter to what is the same."""
    size = numbers.randint(5, 19)
    points = [x + y for x in LETTERS[:size] for y in LETTERS[:size]]
    chosen = numbers.sample(points, min(20, len(points)))
    black, white = chosen[:8], chosen[8:14]
    return size, black, white, numbers.choice("BW"), black[: numbers.randint(1, 3)], chosen[12:]


def written(problem, turn, exchanged):
    size, black, white, mover, targets, region = problem
    if exchanged:
        black, white, mover = white, black, "BW"["WB".index(mover)]
    parts = ["".join(f"[{image(it, turn, size)}]" for it in part) for part in (black, white, targets, region)]
    return f"(;FF[4]GM[1]SZ[{size}]AB{parts[0]}AW{parts[1]}PL[{mover}]TR{parts[2]}SQ{parts[3]})\n"


def test_same(folder):
    """Each of a hundred problems, turned, mirrored and in the other colours by chance, is found again."""
    numbers = random.Random(7)
    problems = [random_problem(numbers) for _ in range(100)]
    turned = [(numbers.choice(TURNED), numbers.random() < 0.5) for _ in problems]
    (folder / "first.sgf").write_text("".join(written(it, 0, False) for it in problems))
    (folder / "second.sgf").write_text("".join(written(it, *how) for it, how in zip(problems, turned)))
    code, said, _ = call("same", folder / "first.sgf", folder / "second.sgf")
    found = {}
    for line in said.splitlines():
        name, count, _, number = line.split("\t")
        found.setdefault(name, []).append((count, number))
    expect("a hundred names, each of two records with one number", (code, len(found), all(len({*it}) == 1 and len(it) == 2 and it[0][0] == "2" for it in found.values())), (0, 100, True))
    other = (TOP / "examples/bulky-five.sgf").read_bytes()
    names = {call("same", stdin=it)[1].split("\t")[0] for it in (other, other.replace(b"PL[W]", b"PL[B]"), other.replace(b"[ga]", b""))}
    expect("another side to move and another stone are other problems", len(names), 3)
    known = "(;FF[4]GM[1]SZ[3]AB[aa]AW[ba];PL[B]TR[ba]SQ[ca])"
    checksum = subprocess.run(["sha256sum"], input=known.encode(), stdout=subprocess.PIPE).stdout.decode()[:16]
    expect("the name is the checksum of the form", call("same", stdin=b"(;SZ[3]AW[cc]AB[cb]PL[W]TR[cb]SQ[ca])")[1].split("\t")[0], checksum)


def test_ended(folder, games):
    """A run that is ended goes on where it was, and its files are those of a run that was not."""
    out = folder / "ended"
    slow = folder / "slow"
    slow.write_text('#!/bin/sh\nsleep 0.15\nexec "$REAL" "$@"\n')
    slow.chmod(0o755)
    variables = {**os.environ, "REAL": os.environ["SHORT_CLAIMS"], "SHORT_CLAIMS": str(slow)}
    run = subprocess.Popen([MAKE, *CLOSED, "--title", "Fives", "--jobs", "2", games, out], env=variables, stderr=subprocess.PIPE)
    kept = out / ".part"
    for _ in range(200):
        if kept.exists() and any(it.suffix == ".kept" and it.stat().st_size for it in kept.iterdir()):
            break
        time.sleep(0.05)
    run.send_signal(signal.SIGINT)
    told = run.communicate()[1].decode()
    expect("SIGINT: the status, and one line", (run.returncode, told), (4, "make-collection: ended; the same call goes on\n"))
    expect("SIGINT: what was answered is kept", any(it.suffix in (".kept", ".json") for it in kept.iterdir()), True)
    code, _, told = call(*CLOSED, "--title", "Fives", games, out)
    expect("the next call makes the same files", (code, told, files(out) == files(folder / "out")), (0, "", True))
    expect("nothing is left over", [it.name for it in kept.iterdir() if it.suffix == ".kept"], [])


def test_shares(folder, games):
    out = folder / "shares"
    for part in ("1/3", "2/3", "3/3"):
        code, said, told = call(*CLOSED, "--shard", part, games, out)
        expect(f"share {part}", (code, told, (out / "index.tsv").exists()), (0, "", False))
    code, _, told = call(*CLOSED, "--title", "Fives", games, out, SHORT_CLAIMS="/bin/false")
    expect("a call without a share makes the collection", (code, told, files(out) == files(folder / "out")), (0, "", True))


def test_hosts(folder, games):
    """Through GNU parallel, on this machine as a host."""
    if not shutil.which("parallel"):
        print("left out: hosts, without GNU parallel")
        return
    (folder / "hosts").write_text("2/:\n")
    code, _, told = call(*CLOSED, "--title", "Fives", "--hosts", folder / "hosts", "--program", MAKE, games, folder / "far")
    expect("hosts make the same files", (code, told, files(folder / "far") == files(folder / "out")), (0, "", True))
    code, _, told = call(*CLOSED, "--hosts", folder / "hosts", "--program", "/no/program", games, folder / "none")
    expect("a host without the program is told", (code, "there is no command /no/program there" in told), (4, True))


def test_page_data(folder):
    """What the index shows is what the table says."""
    data = json.loads(re.search(r'id="problems">(.*)</script>', (folder / "made/index.html").read_text())[1])
    shown = [(it["name"], it["grade"], it["page"]) for it in data]
    page = json.loads(re.search(r'id="problems">(.*)</script>', (folder / "made/0002.html").read_text())[1])[0]
    line = re.search(r"\(;B\[(..)\]TE\[1\]([^)]*)\)", (folder / "made/0002.sgf").read_text())
    expect("a page shows the solution of the record", page["line"], [line[1], *re.findall(r"[BW]\[(..)\]", line[2])])
    expect("the index shows the table", shown, [(it["number"], int(it["grade"]), it["number"] + ".html") for it in rows(folder / "made")])


def run(folder):
    games, _ = test_whole(folder)
    test_bad_games(folder)
    test_bad_words(folder, games)
    test_steps(folder)
    test_stones_put_up(folder)
    test_same(folder)
    test_ended(folder, games)
    test_shares(folder, games)
    test_hosts(folder, games)
    test_page_data(folder)
