"""Versions; short claims: found and judged, and each program refuses the other's claims; records for readers, and pages of them."""

import functools
import re

from script_tests.common import PROGRAMS, Case, case, example, place, program, run, version

EYES = "Black lives: the eyes a and b. Black may pass for ever."
THREE = (
    "(;FF[4]GM[1]SZ[7]AB[aa][ea][ab][bb][cb][db][eb]AW[fa][fb][ac][bc][cc][dc][ec];"
    "PL[B]TR[aa][ea][ab][bb][cb][db][eb]SQ[ba][ca][da]"
)
EYES_STAND = "(;FF[4]GM[1]SZ[9]AB[ba][da][ab][bb][cb][db]AW[ea][eb][ac][bc][cc][dc];PL[W]TR[ba][da][ab][bb][cb][db]SQ[aa][ca]"
NO_PROBLEM, NO_TREE = "refused: problem 3 no problem node", "refused: sgf 1 no tree"


def short(*words, stdin=""):
    return run(program("short_claims"), *words, stdin=stdin)


def tsumego(*words, stdin=""):
    return run(program("tsumego"), *words, stdin=stdin)


def ended(text):
    """A text as a variable of the shell hands it on."""
    return text.rstrip("\n") + "\n"


def without_squares(name):
    return "\n".join(re.sub(r"SQ(\[[a-z:]*\])*", "", line, count=1) for line in example(name).split("\n"))


class Versions(Case):
    def says_version(self, name):
        self.assertEqual(run(program(name), "--version").out, f"{name} {version()}")


for _name in PROGRAMS:
    Versions.add(f"{_name} says its version", Versions.says_version, (_name,))


class ShortClaims(Case):
    @case("short_claims: two eyes", "two-eyes", "Black")
    @case("short_claims: bulky five", "bulky-five", "White")
    @case("short_claims: bent four in the corner", "bent-four", "White")
    @case("short_claims: a seki", "seki", "Black")
    def says_of_both(self, record, winner):
        claim = short("prove", stdin=example(record)).raw
        self.assertIn(f"wins {winner}", short("check", stdin=claim).lines())

    @case("short_claims: a group with two eyes is one line")
    def ends_alive(self):
        self.assertEqual(short("prove", stdin=example("two-eyes")).lines()[-3:], ["main", "alive", "end"])

    @case("short_claims: alive for the attacker", "line 3: C20 not alive by shape",
          "two-eyes", "tsushort 1 9 W", "main", "alive", "end")
    @case("short_claims: alive without eyes", "line 3: C20 not alive by shape",
          "straight-three", "tsushort 1 7 B", "main", "alive", "end")
    @case("short_claims: a lemma that is not there", "line 3: C10 lemma number not lower",
          "two-eyes", "tsushort 1 9 B", "main", "use 1", "end")
    @case("short_claims: another size", "line 1: C02 size differs", "two-eyes", "tsushort 1 7 B", "main", "alive", "end")
    @case("short_claims: a line after the end", "line 5: C16 text after the end",
          "two-eyes", "tsushort 1 9 B", "main", "alive", "end", "end")
    def judges(self, fault, record, *lines):
        claim = example(record) + "".join(f"{line}\n" for line in ("", *lines))
        self.assertEqual(short("check", stdin=claim).out, f"rejected {fault}")

    @case("short_claims: each program refuses the other's claims")
    def refuses_the_others(self):
        whole, brief = tsumego("solve", "--proof", stdin=example("two-eyes")), short("prove", stdin=example("two-eyes"))
        self.assertEqual(short("check", stdin=whole.raw).out, "rejected line 1: C01 malformed")
        self.assertEqual(tsumego("check", stdin=brief.raw).out, "rejected line 1: C01 malformed")

    @case("short_claims: an option that is not there", "prove")
    @case("short_claims tree: an option that is not there", "tree")
    def has_bad_words(self, command):
        done = short(command, "--step", "3", stdin=example("two-eyes"))
        self.ends(3, done)
        self.assertTrue(done.out.startswith("error: "), done.out)

    @case("short_claims: too few steps", "prove")
    @case("short_claims tree: too few steps", "tree")
    def has_few_steps(self, command):
        done = short(command, "--steps", "1", stdin=example("bulky-five"))
        self.ends(1, done)
        self.assertIn("unknown: step budget, 1 steps", done.lines())

    @case("short_claims: no record", NO_TREE, "check", "")
    @case("short_claims tree: no record", NO_TREE, "tree", "")
    @case("short_claims tree: no problem", NO_PROBLEM, "tree", "(;SZ[9])\n")
    def has_no_record(self, refusal, command, record):
        self.refuses(2, refusal, program("short_claims"), command, stdin=record)


class WholeBoard(Case):
    """Claims by answers of the whole board: what one judge accepts, the other one does."""

    @case("short_claims prove --whole: two eyes", "two-eyes")
    @case("short_claims prove --whole: four points in a row", "short/straight-four")
    def stands_in_both(self, record):
        found = short("prove", "--whole", stdin=without_squares(record))
        self.ends(0, found)
        said = short("check", stdin=found.raw).out
        self.assertTrue(said.startswith("stands Black "), said)
        self.assertEqual(run("contrib/second-checker/check.py", "short", stdin=found.raw).out, said)

    @case("short_claims prove --whole: the attacker moves first and takes three in a row", "2000")
    @case("short_claims prove --whole: too few steps", "1")
    def finds_none(self, steps):
        done = short("prove", "--whole", "--steps", steps, stdin=without_squares("straight-three"))
        self.assertNotEqual(done.status, 0, done.said)
        self.assertRegex(done.out, "(?m)^unknown: ")


@functools.cache
def reading(name):
    """The file of the record for readers of an example."""
    file = place(f"{name.replace('/', '-')}-read.sgf")
    done = short("tree", stdin=example(name))
    assert done.status == 0, done.said
    file.write_text(done.raw)
    return file


class Readings(Case):
    """Records for readers. What they hold follows from the rules: Black has two eyes as it stands; after the middle of a straight
    three it has an eye on either side; and nobody may play outside the region."""

    @case("short_claims tree: two eyes", example("two-eyes"), f"{EYES_STAND}LB[aa:a][ca:b]C[Black wins\n{EYES}])")
    @case("short_claims tree: a straight three", re.sub("(?m)^(.*?)PL.W.", r"\1PL[B]", example("straight-three")),
          f"{THREE}C[Black wins];B[ca]LB[ba:a][da:b]C[{EYES}])")
    @case("short_claims tree: a point outside the region", "(;SZ[3]AB[aa]PL[W]TR[aa]SQ[ab])",
          "(;FF[4]GM[1]SZ[3]AB[aa];PL[W]TR[aa]SQ[ab]LB[ba:a]C[Black wins\n"
          "Black lives: nobody may play at a. Black may pass for ever.])")
    def reads_out(self, record, wanted):
        self.assertEqual(short("tree", stdin=ended(record)).out, wanted)

    @case("short_claims tree: turns, labels and comments")
    def readings_are_right(self):
        """Each turn is legal, each legal reply is there, and each line ends as it may, by the rules of the second checker."""
        names = ("two-eyes", "bulky-five", "seki", "ko-threat", "white-to-move", "short/large-eye")
        self.ends(0, run("tools/reading_check.py", *map(reading, names)))
        self.ends(1, run("tools/reading_check.py", "examples/two-eyes.sgf"))

    @case("short_claims tree: a lemma that comes again")
    def sends_back(self):
        self.assertIn("C[As after W D9, B ", reading("bulky-five").read_text())

    @case("tsumego audit refuses lines that end where shape decides")
    def audit_refuses(self):
        self.assertEqual(tsumego("audit", stdin=reading("two-eyes").read_text()).out, "rejected node 1: A06 not won")


class Pages(Case):
    """Pages of records for readers, which nobody can audit."""

    def setUp(self):
        self.record, self.no_winner = place("three.sgf"), place("no-winner.sgf")
        self.record.write_text(f"{THREE}C[Black wins];B[ca]LB[ba:a][da:b]C[{EYES}])\n")
        self.no_winner.write_text(self.record.read_text().replace("Black wins", "Black", 1))

    @case("make-page: a record for readers")
    def refuses_reading(self):
        text = "three.sgf: rejected node 2: A06 not won; it is a record for readers, which --unaudited shows as it is written"
        self.refuses(2, text, "contrib/make-page", self.record)

    @case("make-page --unaudited")
    def shows_unaudited(self):
        done = run("contrib/make-page", "--unaudited", self.record)
        self.ends(0, done)
        turns = f'"turns":[["ca",{{"comment":"{EYES}","labels":[["ba","a"],["da","b"]]}}]]'
        self.assertIn(f'"winner":"black","unaudited":true,"note":{{"comment":"Black wins"}},{turns}', done.out)

    @case("make-page --unaudited --sheet")
    def makes_sheet(self):
        self.ends(0, run("contrib/make-page", "--unaudited", "--sheet", self.record))

    @case("make-page --unaudited: nobody is said to win")
    def names_no_winner(self):
        text = "no-winner.sgf: refused: the comment of the problem node does not say who wins"
        self.refuses(2, text, "contrib/make-page", "--unaudited", self.no_winner)

    @case("problem_tools page --unaudited")
    def wants_json(self):
        text = "error: '--unaudited' wants '--json'"
        self.refuses(3, text, program("problem_tools"), "page", "--unaudited", stdin=self.record.read_text())
