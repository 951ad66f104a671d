"""What group_status says. The statuses are those that the guide has for these shapes; the words come from a second program of the
same procedures, in Python, with the same solver. And contrib/group-claims, which keeps the claims of its answers."""

import functools
import json
import re

from script_tests.common import TOP, Case, Setting, case, example, executable, new_place, place, program, run

# Compiled without the proofs it makes some hundred steps in a second, so most is tried with few: the straight three needs no more.
FEW = ("--quick", "--steps", "1000")
# What the proof of the straight three depends on, which takes more steps.
THREE = "(proved, as long as the white stones at F7, F6, A5, B5, C5, D5, E5 have liberties elsewhere)"
GAME = "(;GM[1]SZ[9];B[cc];W[gg];B[cg];W[gc];B[];W[])\n"
HANDICAP = "(;GM[1]SZ[9]HA[2]AB[gc][cg];W[ba];B[ab])\n"
ILLEGAL = "(;GM[1]SZ[9];B[cc];W[cc];B[dd])\n"
# White's answer at A2 would repeat the first position, unless the past is forgotten.
BARRED = "(;GM[1]SZ[3]AW[aa][ca][ab][bb][cb];AE[ab]AB[ac][bc][cc]PL[B])\n"
CORNER = "(;GM[1]SZ[3]AW[aa][ca][bb][cb]AB[ac][bc][cc]PL[B])\n"
# The end of a title game of 1989. White's 41 stones at H19 live by taking black stones ten rows away; GNU Go says that they live.
FAR = """
..OXXXXOO..OXXXXOO.
..OOOX.XO..OOOX.XOX
..OXOX.XOOOOXX.XOOX
..OXX.XOOXXXXO.XOX.
.OOX..XXO.XO.XX.OX.
OOXX.XOXO.XXOOOOOX.
.OOX.XOOOXXOO.OXXX.
OXXX..X.OOXXOOXXO..
X.XOXX.XO.XOXXOOX..
.XOOX.XOOOXOOX..X..
X.XOOOXXOXXX..OOXO.
X.XXOOX.OOXX.XOXXX.
.XXOXOOOOX..XXXOXXX
OXOOXXOXX.XXOOXOOOX
.OOOXOXOXXXOXOO..OO
..OXX.XOOXOO..OOO..
..OO.XXOOOO..O.X...
...XOXO.O..........
...O.O..O..........
"""
PASSES = "refused: C7, node 6: two passes stand there, so the game is over; --node 4 is before them"


def of_rows(text):
    """A record with the stones of these rows, X and O, and Black to move."""
    rows = text.split()
    letters = "abcdefghijklmnopqrs"
    stones = {
        name: "".join(f"[{letters[x]}{letters[y]}]" for y, row in enumerate(rows) for x, cell in enumerate(row) if cell == mark)
        for name, mark in (("AB", "X"), ("AW", "O"))
    }
    return f"(;SZ[{len(rows)}]AB{stones['AB']}AW{stones['AW']}PL[B])\n"


def group(*words, stdin):
    return run(program("group_status"), *words, stdin=stdin)


class Groups(Case):
    @case("group_status: two eyes", "two-eyes", "B9: alive (proved)")
    @case("group_status: four points in a row", "short/straight-four", "A9: alive (proved)")
    @case("group_status: four points in a row, and the attacker moves first", "short/straight-four", "A9: Black wins (proved)",
          "--first", "attacker")
    @case("group_status: two eyes, and the attacker moves first", "two-eyes", "B9: Black wins (proved)", "--first", "attacker")
    @case("group_status: a straight three", "straight-three", "A7: unsettled (sure)", "--steps", "1000")
    @case("group_status --quick", "straight-three", "A7: unsettled (sure)", *FEW)
    @case("group_status --first attacker", "straight-three", "A7: White wins (sure)", "--first", "attacker", "--steps", "1000")
    @case("group_status --first defender", "straight-three", "A7: Black wins (proved)", "--first", "defender", "--steps", "1000")
    @case("group_status: a straight three, by its proof", "straight-three", f"A7: unsettled {THREE}", "--steps", "20000")
    @case("group_status --first attacker, by its proof", "straight-three", f"A7: White wins {THREE}",
          "--first", "attacker", "--steps", "20000")
    @case("group_status: a ko that decides", "ko-eye", "B7: alive, if Black wins the ko (sure)")
    def is_said(self, record, wanted, *words):
        self.assertEqual(group(*words, stdin=example(record)).lines()[0], wanted)

    @case("group_status: bent four in the corner", "bent-four", "D7: dead (sure)")
    @case("group_status: a seki", "seki", "A7: alive (sure)")
    def is_said_slowly(self, record, wanted):
        if Setting.is_unproved:
            self.skipTest("it takes minutes without the proofs")
        self.is_said(record, wanted, "--steps", "20000")

    @case("group_status: a group that lives by taking stones far away is not called dead")
    def lives_by_taking_far_away(self):
        if Setting.is_unproved:
            self.skipTest("it takes minutes without the proofs")
        for words in (("--steps", "20000"), ("--quick",)):
            self.assertNotIn("dead", group("--target", "H19", *words, stdin=of_rows(FAR)).lines()[0])

    @case("group_status --sgf: a variation for each answer")
    def shows_answers(self):
        """A move at one of the two middle points is answered at the other."""
        said = group("--sgf", stdin=example("short/straight-four")).out
        self.assertIn("(;W[ca];B[da])", said)
        self.assertIn("(;W[da];B[ca])", said)

    @case("group_status: an answer that the past bars")
    def is_barred_by_the_past(self):
        words = ("--node", "1", "--target", "A3", *FEW)
        self.assertNotIn("(proved)", group(*words, stdin=BARRED).out)
        self.assertEqual(group(*words, "--position-only", stdin=BARRED).lines()[0], "A3: alive (proved)")

    @case("group_status: no question whose answer changes nothing")
    def leaves_out(self):
        """The attacker wins at 6 points, and neither the natural nor the weak walls are decided at 9: no answer with hard walls
        counts then."""
        lines = group("--steps", "200", "--why", stdin=example("bent-four")).lines()
        begin = next(at for at, line in enumerate(lines) if line.startswith("  White first"))
        end = next((at for at, line in enumerate(lines) if at > begin and line.startswith("  Black first")), len(lines))
        said = "\n".join(lines[begin:end + 1])
        self.assertIn("unknown at 9 points, natural", said)
        self.assertNotIn("points, hard", said)

    @case("group_status: of two games the first, and a note")
    def takes_first_of_two(self):
        done = group(stdin=example("two-eyes") + example("bent-four"))
        self.assertEqual(done.out, group(stdin=example("two-eyes")).out)
        self.assertIn("several games; the first is asked about", done.notes)
        self.assertNotIn("\n", done.notes)

    @case("group_status --progress")
    def tells_progress(self):
        done = group(*FEW, "--progress", stdin=example("straight-three"))
        self.assertEqual(done.out, group(*FEW, stdin=example("straight-three")).out)
        self.assertRegex(done.notes, "(?m)^group_status: .*: White first, .* points, natural: dies$")

    @case("group_status: a ko")
    def finds_ko(self):
        """White may not take the ko back at once; if the past is forgotten it may."""
        said = group(stdin=example("ko-eye")).out
        self.assertRegex(said, "(?m)^    ko: it depends on who took last; without the past dies at ")
        self.assertNotIn("ko:", group("--position-only", stdin=example("ko-eye")).out)

    @case("group_status --all")
    def names_all(self):
        lines = group("--all", *FEW, stdin=example("straight-three")).lines()
        self.assertEqual([line.split(" ")[0] for line in lines if not line.startswith(" ")], ["A7:", "F7:", "A5:", "stones:"])
        lines = group("--all", *FEW, "--json", stdin=example("straight-three")).lines()
        self.assertEqual([json.loads(line)["target"] for line in lines], ["A7", "F7", "A5"])

    @case("group_status --all at the end of a game")
    def asks_all_at_end(self):
        """Without a node: the position before the passes of a game, and the last of a game that begins with a handicap."""
        done = group("--all", *FEW, stdin=GAME)
        self.assertEqual(done.out, group("--all", *FEW, "--node", "4", stdin=GAME).out)
        self.assertEqual(done.notes, "group_status: two passes end the game at node 6; the position of node 4 is asked about")
        self.assertEqual(group("--all", *FEW, stdin=HANDICAP).out, group("--all", *FEW, "--node", "2", stdin=HANDICAP).out)

    @case("group_status --json")
    def writes_json(self):
        said = json.loads(group("--json", "--steps", "1000", stdin=example("straight-three")).out)
        self.assertEqual((said["target"], said["status"], said["word"]), ("A7", "unsettled", "sure"))
        for it in said["questions"]:
            self.assertTrue(it["winner"] is not None or (it["unknown"] == "step budget" and it["steps"] == 1000), it)
            if it["walls"] in ("natural", "race"):
                self.assertIn((it["winner"], it["move"]), ((it["first"], "C7"), (None, None)), it)
            self.assertTrue(set(it["black"] + it["white"] + it["shut"]).isdisjoint(it["inside"]), it)
            self.assertLessEqual(1, len(it["inside"]), it)

    @case("group_status --sgf")
    def writes_record(self):
        """Each variation is a problem with its solution, which the audit judges; the first is that of the attacker. The answer tree
        of the largest region of the first has more than 1,000 turns, so the lines of a short claim are shown."""
        few, record = place("few.sgf"), group("--sgf", *FEW, stdin=example("straight-three")).raw
        few.write_text(record)
        self.assertIn(": wins White, ", run("tools/reading_check.py", few).out)
        self.assertIn("C[As after W ", record)
        solved = group("--sgf", "--node", "121", "--target", "H3", stdin=example("unmarked/game")).raw
        self.assertEqual(run(program("tsumego"), "audit", stdin=solved).out, "wins Black")

    @case("group_status --sgf and --json of a group that lives by its shape")
    def writes_shape(self):
        """It has no variation."""
        record = group("--sgf", stdin=example("two-eyes")).out
        self.assertIn("CR[ba]", record)
        self.assertIn("C[B9: alive (proved)", record)
        said = json.loads(group("--json", stdin=example("two-eyes")).out)
        stones = ["B9", "D9", "A8", "B8", "C8", "D8"]
        wanted = ["B9", "alive", "proved", stones, []]
        self.assertEqual([said[it] for it in ("target", "status", "word", "stones", "questions")], wanted)
        wanted = ["shape", stones, ["A9", "C9"], [], []]
        self.assertEqual([said["proof"][it] for it in ("kind", "kept", "region", "friends", "answers")], wanted)


class Refused(Case):
    @case("group_status: no such node", "refused: the main line has no node 9, its last is node 6",
          GAME, "--node", "9", "--target", "C7")
    @case("group_status: an empty point", "refused: there is no stone at E5, at node 3", GAME, "--node", "3", "--target", "E5")
    @case("group_status: a point off the board", "refused: K3 is no point of the board, at node 3",
          GAME, "--node", "3", "--target", "K3")
    @case("group_status: no point at all", "refused: C99 is no point of the board, at node 3",
          GAME, "--node", "3", "--target", "C99")
    @case("group_status: after two passes", PASSES, GAME, "--target", "C7")
    @case("group_status: a record without marks", "refused: the record marks no stone with a triangle", GAME)
    @case("group_status: an illegal turn before the node", "refused: C7, node 3: illegal turn: occupied at node 2",
          ILLEGAL, "--target", "C7")
    @case("group_status: an illegal turn, and which node is before it", "occupied at node 2; --node 1 is before it",
          ILLEGAL, "--target", "C7")
    @case("group_status: an illegal turn at the node", "refused: C7, node 2: illegal turn: occupied; --node 1 is before it",
          "(;GM[1]SZ[9];B[cc];W[cc])\n", "--target", "C7")
    @case("group_status: a fault of the root, before which there is no node", "refused: C7, node 1: bad point at node 0",
          "(;GM[1]SZ[9]AB[zz];B[cc])\n", "--node", "1", "--target", "C7")
    @case("group_status: a board of no size", "refused: C7, node 1: the size of the board (SZ) is none of 1 to 25",
          "(;GM[1]SZ[99];B[cc])\n", "--target", "C7")
    @case("group_status: no record", "refused: no tree", "no record\n", "--target", "C7")
    @case("group_status: all of an empty board", "refused: there is no stone at node 0", "(;GM[1]SZ[9])\n", "--all")
    def is_refused(self, text, record, *words):
        self.refuses(2, text, program("group_status"), *words, stdin=record)

    @case("group_status: the node before an illegal turn can be asked about")
    def asks_before_fault(self):
        said = group("--quick", "--steps", "1", "--node", "1", "--target", "C7", stdin=ILLEGAL).out
        self.assertRegex(said, "(?m)^C7: ")

    @case("group_status: an option that is not there", "--nodes", "3")
    @case("group_status: steps past the greatest", "--steps", "10000001")
    @case("group_status: a side that is none", "--first", "black")
    @case("group_status: two forms", "--json", "--sgf")
    @case("group_status: all and one", "--all", "--target", "C7")
    @case("group_status: all, and one side first", "--all", "--first", "attacker")
    @case("group_status: a node without a stone", "--node", "3")
    def has_bad_words(self, *words):
        done = group(*words, stdin=GAME)
        self.ends(3, done)
        self.assertTrue(done.out.startswith("error: "), done.out)


@functools.cache
def kept():
    """A folder of the claims of a straight three, and what was said of it."""
    folder = new_place() / "claims"
    return folder, run("contrib/group-claims", folder, *FEW, stdin=example("straight-three"))


class Claims(Case):
    @case("contrib/group-claims with a group that is proved to be alive")
    def keeps_answers(self):
        """The claim by answers is judged by the second checker."""
        second = executable(place("second"), f'#!/bin/sh\nexec "{TOP}/contrib/second-checker/check.py" short\n')
        folder = new_place() / "answers"
        done = run("contrib/group-claims", folder, "--target", "A3", stdin=CORNER, env={"SHORT_CLAIMS": str(second)})
        self.ends(0, done)
        self.assertEqual(done.lines()[-1], f"1 claims in {folder}: 1 accepted, 0 not")
        rows = (folder / "claims.tsv").read_text().rstrip("\n")
        self.assertEqual(rows.partition("\t")[2], "1 A3, by answers: White stands\tstands White aa ca bb cb")

    @case("contrib/group-claims with a group that each side decides by moving first")
    def keeps_first_moves(self):
        """A claim of death and one of life, which short_claims judges."""
        folder = new_place() / "moves"
        done = run("contrib/group-claims", folder, stdin=example("straight-three"))
        self.ends(0, done)
        self.assertEqual(done.lines()[-1], f"2 claims in {folder}: 2 accepted, 0 not")
        dead, alive = (folder / "claims.tsv").read_text().splitlines()
        self.assertTrue(dead.startswith("001.txt\t1 A7, White first, by answers: Black dies\tdead Black aa "), dead)
        self.assertTrue(alive.startswith("002.txt\t2 A7, Black first, by answers: Black stands\tstands Black by ca aa "), alive)

    @case("contrib/group-claims with a question that has no claim")
    def says_unknown(self):
        """Such a question has a line and no file, and the others are judged as ever."""
        folder, answer = new_place() / "no-claim", place("answer")
        answer.write_text("""A3: dead (sure)
== 1 A3, Black first, 2 points natural: unknown: step budget, 5 steps
== 2 A3, Black first, 3 points natural: Black wins
(;FF[4]GM[1]SZ[3]AB[ab]AW[aa];PL[B]TR[aa]SQ[ba])
tsucert 1 3 B
main
play ba
won
end
""")
        unknown = executable(place("unknown"), f'#!/bin/sh\ncat "{answer}"\n')
        done = run("contrib/group-claims", folder, "--full-claims", env={"GROUP_STATUS": str(unknown)})
        self.ends(0, done)
        wanted = f"A3: dead (sure)\n1 questions have no such claim within the steps\n1 claims in {folder}: 1 accepted, 0 not"
        self.assertEqual(done.out, wanted)
        wanted = """-\t1 A3, Black first, 2 points natural: unknown: step budget, 5 steps\t-
001.txt\t2 A3, Black first, 3 points natural: Black wins\twins Black
"""
        self.assertEqual((folder / "claims.tsv").read_text(), wanted)
        self.assertEqual(len(list(folder.rglob("*"))), 2)

    @case("contrib/group-claims")
    def keeps_claims(self):
        folder, done = kept()
        self.ends(0, done)
        *answer, last = done.lines()
        self.assertEqual("\n".join(answer), group(*FEW, stdin=example("straight-three")).out)
        self.assertRegex(last, f"^[1-9][0-9]* claims in {re.escape(str(folder))}: [1-9][0-9]* accepted, 0 not$")
        self.assertEqual((folder / "claims.tsv").read_text().count("\n"), len(list(folder.rglob("*.txt"))))

    @case("contrib/group-claims with a claim that is wrong")
    def tells_bad_claim(self):
        """A claim that is not the program's own is told."""
        forger = executable(place("forger"), f'#!/bin/sh\n"{program("group_status")}" "$@" | sed "s/^play c/play d/"\n')
        folder = new_place() / "forged"
        done = run("contrib/group-claims", folder, *FEW, stdin=example("straight-three"), env={"GROUP_STATUS": str(forger)})
        self.ends(1, done)
        self.assertIn("rejected line", (folder / "claims.tsv").read_text())

    @case("contrib/group-claims with a folder that holds something")
    def refuses_full_folder(self):
        self.refuses(3, "not an empty folder", "contrib/group-claims", kept()[0])

    @case("contrib/group-claims without a folder")
    def wants_folder(self):
        self.refuses(3, "usage", "contrib/group-claims")

    @case("contrib/group-claims with what is refused")
    def hands_on_refusal(self):
        folder, text = new_place() / "none", "refused: there is no stone at E5, at node 3"
        self.refuses(2, text, "contrib/group-claims", folder, "--node", "3", "--target", "E5", stdin=GAME)
        self.assertFalse(folder.exists())

    @case("contrib/group-claims without the program")
    def wants_program(self):
        nothing = str(place("nothing"))
        self.refuses(4, "there is no program", "contrib/group-claims", place("none"), env={"GROUP_STATUS": nothing})


def question(points, walls, winner):
    return {"first": "W", "points": points, "walls": walls, "winner": winner, "shut": []}


# What group_status may say of the straight three, in the form of its --json.
DECIDED = {"questions": [question(3, "natural", "W"), question(4, "natural", "W"), question(9, "hard", "B"), question(18, "natural", "W")]}
BY_MOVE = {"first_moves": [{"first": "W", "winner": "W", "move": "C7", "proof": {"region": ["B7", "C7", "D7"]}}], "questions": []}
TOO_WIDE = {"questions": [question(18, "natural", "W"), question(9, "natural", None)]}


class Best(Case):
    """The region `best` of contrib/mark-table is that of the question on which the answer of group_status stands."""

    def marked(self, said, row):
        """How mark-table ends with one row, where group_status says this, and the folder of its records."""
        table, folder = new_place() / "table.tsv", new_place() / "marked"
        table.write_text("\t".join(row) + "\n")
        says = executable(place("says"), f"#!/bin/sh\necho '{json.dumps(said)}'\n")
        return run("contrib/mark-table", table, folder, env={"GROUP_STATUS": str(says)}), folder

    @case("contrib/mark-table: the best region is that of a question", DECIDED, "4 points, natural: W wins",
          "--region=4", "--walls=natural")
    @case("contrib/mark-table: the best region is that of a proof", BY_MOVE, "by C7, as is proved", "--region=B7,C7,D7")
    def marks(self, said, why, *words):
        done, folder = self.marked(said, ("examples/straight-three.sgf", "", "A7", "white", "best"))
        self.ends(0, done)
        self.assertEqual(done.notes.split("\n")[0], f"mark-table: examples/straight-three.sgf: {why}")
        wanted = run(program("problem_tools"), "mark", "--target=A7", "--to-play=white", *words, stdin=example("straight-three"))
        self.assertEqual((folder / "0001-straight-three.sgf").read_text(), wanted.raw)

    @case("contrib/mark-table: no best region", "decides nothing with at most 15 points", TOO_WIDE, "white")
    @case("contrib/mark-table: a best region, and nobody is to move", "wants to know who is to move", DECIDED, "")
    @case("contrib/mark-table: a best region with walls", "has walls of its own", DECIDED, "white", "hard")
    def refuses_row(self, why, said, mover, *walls):
        done, folder = self.marked(said, ("examples/straight-three.sgf", "", "A7", mover, "best", *walls))
        self.ends(2, done)
        self.assertIn("mark-table: row 1: examples/straight-three.sgf: ", done.notes)
        self.assertIn(why, done.notes)
        self.assertEqual(list(folder.iterdir()), [])

    @case("contrib/mark-table: circles for the stones that are put up", "AW[gb]PL[W]CR[gb]TR")
    @case("contrib/mark-table: circles in a position alone", "PL[W]CR[gb]TR", "bare")
    def circles(self, circles, *bare):
        table, folder, record = new_place() / "table.tsv", new_place() / "marked", place("three.sgf")
        record.write_text(example("straight-three").replace("PL[W]", "C[CR and TR[ are names\\] here]PL[W]"))
        table.write_text("\t".join([str(record), "", "A7", "white", "4", "natural", *bare]) + "\n")
        done = run("contrib/mark-table", "--circles", table, folder)
        self.ends(0, done)
        self.assertIn("white stones are put up at G6", done.notes)
        text = (folder / "0001-three.sgf").read_text()
        self.assertIn(circles, text)
        self.assertEqual(text.count("CR["), 1)

    @case("contrib/mark-table: no stone is put up where the game goes on", "G6", 2)
    @case("contrib/mark-table: one may be put up elsewhere", "G5", 0)
    def next_turn(self, point, status):
        table, folder, record = new_place() / "table.tsv", new_place() / "marked", place("game.sgf")
        turn = "g" + "gfedcba"[int(point[1]) - 1]
        record.write_text(example("straight-three").rstrip()[:-1] + f";W[{turn}])")
        table.write_text(f"{record}\t0\tA7\twhite\t4\tnatural\n{record}\t\tA7\twhite\t4\tnatural\n")
        done = run("contrib/mark-table", table, folder)
        self.ends(status, done)
        self.assertEqual(done.notes.count(f"a stone would be put up at {point}, where the game goes on"), status)
        self.assertEqual(len(list(folder.iterdir())), 2 - status)

    @case("contrib/mark-table: another program in place of group_status")
    def knows_no_answer(self):
        done, _ = self.marked("no answer", ("examples/straight-three.sgf", "", "A7", "white", "best"))
        self.ends(4, done)
        self.assertEqual(done.said, "mark-table: group_status wrote no answer about one group; is it another program?")
