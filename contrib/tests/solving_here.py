"""contrib/solve-folder on one machine: odd names, whole collections, ended runs, full disks, bad folders, words."""

import os
import pathlib
import resource
import shutil
import signal
import subprocess
import time

from .solving import TOP, Part, column, digest, kill, names, read, record, rows, sum_of, wait_for, write

ODD_NAMES = [
    b"a b", b" lead", b"-n", b"--steps", b"q'uote", b'dq"x', b"tab\tx", b"line\nend", b"back\\slash", b"*",
    b"$(touch pwned)", b"`x`",
    b"{}", b"{#}", b"%s", b"lat\xe9", b"~", b"@", b";", b"&", b".hidden", b"x.y",
]
# What no program of the PATH is found with.
BARE = {"TSUMEGO": None, "PATH": "/usr/bin:/bin"}


def make_repository(at: pathlib.Path) -> pathlib.Path:
    """Puts the script and the program where they stand in a repository; returns the script."""
    (at / "contrib").mkdir(parents=True)
    (at / "crates/tsumego/out").mkdir(parents=True)
    shutil.copy(TOP / "contrib/solve-folder", at / "contrib")
    shutil.copytree(TOP / "contrib/folders", at / "contrib/folders")
    shutil.copy(os.environ["TSUMEGO"], at / "crates/tsumego/out/tsumego")
    return at / "contrib/solve-folder"


def can_split(problem_tools: str) -> bool:
    """Whether the program is there, and can take a file apart."""
    if not os.access(problem_tools, os.X_OK):
        return False
    return "--into" in subprocess.run([problem_tools, "split", "--help"], capture_output=True, text=True).stdout


def split_time(problem_tools: str, count: int) -> int:
    """The milliseconds of the processor for so many trees."""
    write("many.sgf", "".join(f"(;FF[4]SZ[9]AB[aa][bb]AW[cc]C[number {number}])\n" for number in range(count)))
    folder = f"many-{count}"
    os.mkdir(folder)
    before = resource.getrusage(resource.RUSAGE_CHILDREN)
    with open("many.sgf") as source, open("said", "w") as out:
        subprocess.run([problem_tools, "split", "--into", folder], stdin=source, stdout=out)
    after = resource.getrusage(resource.RUSAGE_CHILDREN)
    return int((after.ru_utime + after.ru_stime - before.ru_utime - before.ru_stime) * 1000)


class Names(Part):
    def never_destroy(self):
        """Nothing is destroyed."""
        os.makedirs("both/inner")
        os.mkdir("other")
        write("both/one.sgf", "(;C[my notes]SZ[3]AB[ab]AW[aa]PL[B]TR[aa]SQ[ba](;B[ba]C[right])(;B[]C[wrong]))\n")
        write("both/inner/two.sgf", record("B"))
        os.symlink("both", "linked")
        write("other/one.sgf", record("W"))
        for folders in ("both both", "both linked", "both both/", "both both/new/answers", "both .", "linked both/inner"):
            self.solve(*folders.split())
            self.refused(3, folders, "both")
        self.solve("both", "other")
        self.refused(3, "a file that no table claims", "other/one.sgf")
        self.solve("--recursive", "both", "other")
        self.refused(3, "the same, with subfolders", "other/one.sgf")
        os.mkdir("mine")
        write("mine/answers.tsv", "one\tmy own table\n")
        self.solve("both", "mine")
        self.refused(3, "another table", "mine/answers.tsv")
        os.symlink("../both/inner", "mine/inner")
        os.remove("mine/answers.tsv")
        before = sum_of(".")
        self.solve("--recursive", "both", "mine")
        self.refused(3, "a link from the answers into the records", "mine/inner")
        self.same("nothing was written", sum_of("."), before)

    def odd_names(self):
        records, answers = "the \"records\" of\nJos\udce9's", "an\\answers\t{} folder"
        os.mkdir(records)
        for name in ODD_NAMES:
            write(os.path.join(records, os.fsdecode(name) + ".sgf"), record("B"))
        write(os.path.join(records, "upper.SGF"), record("W"))
        script = make_repository(pathlib.Path('re po\'s "{}"\n').resolve())
        before = sum_of(records)
        for words in ([], ["--", "--jobs", "3"]):
            engine = " ".join(words)
            at = answers + engine
            self.call([script, records, at, *words], BARE)
            self.says(f"odd names: all solved {engine}", "23 records: 23 solved (22 Black, 1 White)")
            self.ended(f"odd names: status 0 {engine}", 0)
            self.same(f"odd names: a file each {engine}", len(list(pathlib.Path(at).rglob("*.sgf"))), 22)
            escaped = {"tab\\tx.sgf", "line\\nend.sgf", "back\\\\slash.sgf"}
            in_table = [it for it in column(at, 1) if it in escaped]
            self.same(f"odd names: a tab, a line end and a backslash in the table {engine}", len(in_table), 3)
            self.call([script, records, at, "--program", "/bin/false", *words], BARE)
            self.says(f"odd names: none is asked again {engine}", "23 solved")
        came = (sum_of(records), list(pathlib.Path().rglob("pwned")))
        self.same("odd names: nothing ran, and the records are as they were", came, (before, []))
        os.mkdir("-x")
        write("-x/p.sgf", record("B"))
        self.solve("-x", "answers")
        self.refused(3, "a folder that looks like an option", "./-NAME")
        self.solve("./-x", "./-y")
        self.says("the same, named with its path", "1 solved (1 Black")


class Collections(Part):
    def collections(self):
        os.makedirs("records/sub/deep")
        write("records/one.Sgf", record("B"))
        write("records/sub/deep/two.sgf", record("W"))
        write("records/games.sgf", record("B") + record("W"))
        self.solve("records", "answers")
        self.says("subfolders are told", "subfolders left out: 1 (--recursive takes them)")
        self.says("further games are told", "files with further games: 1 (--all-games takes them)")
        self.solve("--recursive", "records", "answers")
        self.says("all three are solved", "3 records: 3 solved (2 Black, 1 White)")
        self.expect("the answers mirror the records", os.path.getsize("answers/sub/deep/two.sgf") > 0)
        self.solve("--all-games", "records", "other", PROBLEM_TOOLS=None, PATH="/usr/bin:/bin", TSUMEGO="/bin/false")
        self.refused(4, "without problem_tools", "contrib/install --helpers")
        self.expect("without problem_tools nothing is made", not os.path.exists("other"))
        tools = os.environ["PROBLEM_TOOLS"]
        if can_split(tools):
            self.all_games(tools)
        else:
            self.left_out("--all-games: no problem_tools with split --into")

    def all_games(self, tools):
        games = record("B") + "(;FF[4]C[cut off\n" + record("W").replace("GN", "FF[4]GN", 1) + record("B")
        write("records/games.sgf", games)
        write("records/none.sgf", "no game\n")
        self.solve("--all-games", "records", "answers")
        wanted = [f"games.000{number}.sgf" for number in (1, 2, 3, 4)]
        wanted += ["games.sgf", "none.0001.sgf", "one.0001.Sgf", "one.Sgf", "sub/deep/two.sgf"]
        self.same("a line a game", column("answers", 1), wanted)
        self.says("three are solved, one is broken", "6 records: 4 solved (3 Black, 1 White), 0 unknown, 0 timed out, 2 refused")
        told = [it for it in rows("answers", 1, 2, 3) if it[:2] == ("games.0002.sgf", "2")]
        self.expect("the broken one is told", [it for it in told if it[2].startswith("refused: at byte 43: syntax at ")])
        os.mkdir("trees")
        with open("records/games.sgf") as source:
            outputs = {"stdout": subprocess.PIPE, "stderr": subprocess.STDOUT}
            done = subprocess.run([tools, "split", "--into", "trees"], stdin=source, **outputs)
        self.said, self.status = done.stdout.decode(), done.returncode
        self.same("split --into: the others are written", names("trees"), ["0001.sgf", "0003.sgf", "0004.sgf"])
        self.ended("split --into: status 2", 2)
        self.says("split --into: number and byte", "tree 2 at byte 43: syntax at ")
        small, large = split_time(tools, 3_000), split_time(tools, 30_000)
        self.said = f"3,000 trees: {small} ms; 30,000 trees: {large} ms"
        self.expect("split --into is linear", large < small * 25 + 500)


class Ended(Part):
    def killed_runs(self):
        os.environ["TSUMEGO"] = self.slow
        for name, number in (("KILL", signal.SIGKILL), ("TERM", signal.SIGTERM), ("INT", signal.SIGINT)):
            for folder in ("records", "answers"):
                shutil.rmtree(folder, ignore_errors=True)
            os.mkdir("records")
            write("records/p.sgf", record("B", 3))
            self.start("records", "answers")
            kill(self.run_of.pid, number)
            self.finish()
            if name != "KILL":
                self.says(f"SIG{name}: totals", "0 failed, 1 not asked")
                self.ended(f"SIG{name}: status 4", 4)
            write("records/p.sgf", record("W"))
            self.solve("records", "answers")
            self.says(f"SIG{name}: the next run solves what is there now", "1 solved (0 Black, 1 White)")
            time.sleep(3.2)
            self.expect(f"SIG{name}: and so it stays", "C[White wins]" in read("answers/p.sgf"))
            self.solve("records", "answers")
            self.same(f"SIG{name}: the table too", column("answers", 3), ["wins White"])
            left = [it for it in pathlib.Path("answers/.part").rglob("*") if it.is_file() and it.name != "lock"]
            self.same(f"SIG{name}: nothing is left over", left, [])
        self.killed_jobs()

    def killed_jobs(self):
        for folder in ("records", "answers"):
            shutil.rmtree(folder)
        os.mkdir("records")
        write("records/first.sgf", record("B"))
        write("records/second.sgf", record("B", 5))
        self.start("--jobs", "1", "records", "answers")
        wait_for(lambda: os.path.exists("answers/first.sgf") and os.path.getsize("answers/first.sgf"))
        wait_for(lambda: subprocess.run(["pkill", "-KILL", "-P", str(self.run_of.pid), "-f", "slow"]).returncode == 0)
        self.finish()
        self.ended("a job was killed: status 4", 4)
        text = "1 solved (1 Black, 0 White), 0 unknown, 0 timed out, 0 refused, 1 failed"
        self.says("a job was killed: it failed, the other is solved", text)
        write("records/second.sgf", record("B"))
        self.solve("records", "answers")
        self.says("a job was killed: it is asked again", "2 solved")

    def changed_records(self):
        os.environ["TSUMEGO"] = self.slow
        os.mkdir("records")
        write("records/p.sgf", record("B", 1))
        write("records/bad.sgf", "(;SZ[9]AB[aa])\n")
        self.start("--jobs", "2", "records", "answers")
        time.sleep(0.4)
        write("records/p.sgf", record("W"))
        write("records/bad.sgf", record("W"))
        self.finish()
        self.solve("records", "answers")
        self.says("changed while it was solved, and mended: both are asked again", "2 solved (0 Black, 2 White)")
        write("records/p.sgf", record("B"))
        os.utime("records/p.sgf", (978_307_200, 978_307_200))
        self.solve("records", "answers")
        self.says("replaced by an older file: asked again", "2 solved (1 Black, 1 White)")
        for file in pathlib.Path("records").iterdir():
            file.touch()
        pathlib.Path("begun").unlink(missing_ok=True)
        self.solve("records", "answers")
        self.expect("touched: not asked again", not os.path.exists("begun"))
        wanted = [digest("records/bad.sgf"), digest("records/p.sgf")]
        self.same("the checksums are those of the records", column("answers", 6), wanted)
        write("records/p.sgf", "(;SZ[9])\n")
        self.solve("records", "answers")
        self.expect("no longer a problem: its answer is taken away", not os.path.exists("answers/p.sgf"))


def is_whole(file: pathlib.Path) -> bool:
    with file.open("rb") as source:
        return subprocess.run([os.environ["REAL"], "audit"], stdin=source, stdout=subprocess.DEVNULL).returncode == 0


def mount(*options: str) -> bool:
    return subprocess.run(["mount", *options, "full"], stderr=subprocess.DEVNULL).returncode == 0


class Folders(Part):
    def full_disk(self):
        os.mkdir("records")
        os.mkdir("full")
        if not mount("-t", "tmpfs", "-o", "size=64k", "none"):
            self.left_out("a full disk: no tmpfs can be mounted here")
            return
        self.addCleanup(subprocess.run, ["umount", os.path.abspath("full")])
        for number in range(1, 31):
            write(f"records/{number}.sgf", record("B", after=f"{number}\n"))
        shutil.copy(TOP / "examples/answered.sgf", "records")
        self.solve("records", "full/answers")
        self.ended("a full disk: status 4", 4)
        self.says("a full disk: said", "No space left on device; the next call goes on")
        self.expect("a full disk: every answer is whole", all(map(is_whole, pathlib.Path("full/answers").glob("*.sgf"))))
        mount("-o", "remount,size=1m")
        self.solve("records", "full/answers")
        self.says("room again: the next run goes on", "31 records: 31 solved")
        self.ended("room again: status 0", 0)
        mount("-o", "remount,ro")
        write("records/new.sgf", record("W"))
        self.solve("records", "full/answers")
        self.refused(4, "a read-only folder", "Read-only file system")

    def bad_folders(self):
        os.mkdir("records")
        write("records/p.sgf", record("B"))
        os.symlink("nowhere", "records/dangling.sgf")
        os.mkfifo("records/pipe.sgf")
        self.solve("records", "answers")
        self.ended("unreadable: status 4", 4)
        self.says("unreadable: named", "records/dangling.sgf: cannot be read: No such file")
        self.says("unreadable: a pipe is no record", "records/pipe.sgf: cannot be read: Not a regular file")
        text = "1 solved (1 Black, 0 White), 0 unknown, 0 timed out, 0 refused, 2 failed"
        self.says("unreadable: failed, not unknown", text)
        os.remove("records/dangling.sgf")
        os.remove("records/pipe.sgf")
        pathlib.Path("file").touch()
        self.solve("records", "file")
        self.refused(3, "the answers are a file", "file is no folder")
        self.solve("records", "file/answers")
        self.refused(4, "the answers cannot be made", "file/answers")
        self.solve("nowhere", "answers")
        self.refused(3, "no records", "there is no folder nowhere")
        os.mkdir("empty")
        self.solve("empty", "answers")
        self.says("an empty folder is told", "no file of empty has a name in .sgf")
        self.solve("records", "other", TSUMEGO="/no/such/program")
        self.refused(4, "no program", "there is no command /no/such/program")
        self.expect("no program: nothing is made", not os.path.exists("other"))
        write("records/p.sgf", record("B", 5))
        self.start("records", "third", "--program", self.slow)
        self.solve("records", "third")
        self.refused(4, "two runs at once", "another run is at work in third")
        self.finish()
        self.says("two runs at once: the first is right", "1 solved (1 Black")


WRONG = (
    "--wrong", "--steps 0", "--steps 10000001", "--steps x", "--timeout 0", "--shard 3/2", "--shard 1", "--jobs 0", "--step 5", "more",
)


class Words(Part):
    def words(self):
        shutil.copytree(TOP / "examples", "records")
        for folder in [it for it in pathlib.Path("records").iterdir() if it.is_dir()]:
            shutil.rmtree(folder)
        self.solve("--help")
        self.ended("--help: status 0", 0)
        self.says("--help: a usage", "solve-folder [OPTIONS] RECORDS ANSWERS")
        self.solve("records", "--jobs", "2", "answers", "--steps", "20")
        self.ended("options after the folders, and few steps: status 1", 1)
        row = ("bulky-five.sgf", "1", "unknown: step budget, 20 steps", "20")
        self.expect("the table", row in rows("answers", 1, 2, 3, 4))
        self.solve("records", "answers", "--steps", "20000")
        self.says("more steps: all are solved", "9 records: 9 solved (3 Black, 6 White)")
        self.ended("status 0", 0)
        for wrong in WRONG:
            self.solve("records", "answers", *wrong.split())
            self.refused(3, wrong, "solve-folder --help")
        self.solve("records", "others", "--", "--jobs", "2", "--joblog", "log")
        self.same("words for parallel", read("log").count("\n"), 10)
        self.same("by parallel the same", column("others", 3), column("answers", 3))
        self.timeouts()

    def timeouts(self):
        write("records/late.sgf", record("W", 9))
        self.solve("--timeout", "0.5", "records", "answers", TSUMEGO=self.slow)
        self.says("--timeout: told as such", "9 solved (3 Black, 6 White), 0 unknown, 1 timed out")
        late = [it[1:] for it in rows("answers", 1, 2, 3, 5) if it[0].startswith("late")]
        self.same("--timeout: in the table", late, [("124", "timeout: 0.5 seconds", "0.50")])
        pathlib.Path("begun").unlink(missing_ok=True)
        self.solve("--timeout", "0.5", "records", "answers", TSUMEGO=self.slow)
        self.expect("--timeout: the same seconds are not tried again", not os.path.exists("begun"))
        self.solve("--timeout", "30", "records", "answers")
        self.says("--timeout: more are", "10 solved")

    def other_programs(self):
        os.mkdir("records")
        write("records/p.sgf", record("B"))
        write("records/plain.sgf", "(;SZ[9]AB[aa])\n")
        self.solve("--run", "problem_tools picture --ascii", "records", "pictures")
        self.says("--run: one is answered", "2 records: 1 answered, 0 unknown, 0 timed out, 1 refused")
        tools = [os.environ["PROBLEM_TOOLS"], "picture", "--ascii"]
        drawn = subprocess.run(tools, input=record("B"), capture_output=True, text=True).stdout
        self.same("--run: the answer is what the program writes", read("pictures/p.sgf"), drawn)
        first = drawn.split("\n")[0].lstrip(" ")
        self.same("--run: the table has its first line", rows("pictures", 1, 2, 3)[0], ("p.sgf", "0", first))
        self.solve("records", "pictures")
        self.refused(3, "--run: a folder with answers of another program", "has answers of problem_tools picture --ascii")
        self.solve("records", "solved")
        self.solve("--run", "problem_tools picture", "records", "solved")
        self.refused(3, "--run: a folder with answers of tsumego", "has answers of tsumego solve")
        self.solve("--run", "rm -r", "records", "other")
        self.refused(3, "--run: another command", "does not begin with one of")


class Cost(Part):
    def cost(self):
        self.call([TOP / "tools/measure", "folder", self.real])
        print(self.said)
        self.ended("at most 5 ms a record beyond the program", 0)
