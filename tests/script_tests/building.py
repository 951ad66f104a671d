"""tools/build, in a folder of four crates, with a stand-in for the toolchain that writes down what it is asked for."""

import os
import shutil

from script_tests.common import TOP, Case, case, executable, new_place, run

TOOLS = ("build", "script_words.py")
CRATES = {"low": "", "left": "low", "right": "low", "upper": "left right"}
RT = """#!/bin/sh
if [ "$1" = version ]; then echo "a stand-in"; exit; fi
name=${PWD##*/}
echo "$name" >>"$RT_LOG"
for it in $(sed -n "s/^$name://p" ../../crates.txt); do
    [ -e "../$it/out/rlib/stamp" ] || { echo "$it is not there"; exit 1; }
done
[ "$name" != "$RT_FAILS" ] || { echo "$name has no proof"; exit 1; }
mkdir -p out/rlib
echo "$1" >out/rlib/stamp
[ "$1" = lib ] || echo 'a program' >"out/$name"
"""


class Building(Case):
    def setUp(self):
        self.folder, self.log = new_place(), new_place() / "log"
        shutil.copytree(TOP / "tools", self.folder / "tools", ignore=lambda at, names: {it for it in names if it not in TOOLS})
        (self.folder / "crates.txt").write_text("".join(f"{name}: {below}\n" for name, below in CRATES.items()))
        for name in CRATES:
            (self.folder / "crates" / name / "src").mkdir(parents=True)
            (self.source(name)).write_text("one line\n" * (9 if name == "right" else 1))
        (self.folder / "bin").mkdir()
        executable(self.folder / "bin/rt", RT)

    def source(self, name):
        return self.folder / "crates" / name / "src" / ("main.rt" if name == "upper" else "lib.rt")

    def made(self, name):
        return self.folder / "crates" / name / "out"

    def builds(self, *words, fails=""):
        """Runs it on one processor, so that the order is always the same, and forgets what was asked before."""
        self.log.write_text("")
        env = {"PATH": f"{self.folder}/bin:{os.environ['PATH']}", "RT_LOG": str(self.log), "RT_FAILS": fails}
        one = str(min(os.sched_getaffinity(0)))
        return run("taskset", "-c", one, self.folder / "tools/build", *words, env=env)

    def asked(self):
        return self.log.read_text().split()

    @case("tools/build proves each crate after those below it, that with the longest chain first")
    def builds_in_order(self):
        done = self.builds("upper")
        self.ends(0, done)
        self.assertEqual(self.asked(), ["low", "right", "left", "upper"])
        self.assertIn("tsumego: proved upper, 4 of 4, after ", done.notes)
        self.assertEqual((self.made("upper") / "upper").read_text(), "a program\n")
        self.assertEqual((self.made("left") / "rlib/stamp").read_text(), "lib\n")
        self.assertEqual([it.name for it in (self.folder / "crates/tsumego/out").glob("build.*")], [])

    @case("tools/build proves a library and what is below it alone")
    def builds_library(self):
        self.ends(0, self.builds("left"))
        self.assertEqual(self.asked(), ["low", "left"])

    @case("tools/build does nothing where no text has changed")
    def builds_once(self):
        self.ends(0, self.builds("upper"))
        self.ends(0, self.builds("upper"))
        self.assertEqual(self.asked(), [])
        self.ends(0, self.builds("--is-current", "upper"))
        self.source("low").write_text("another line\n")
        self.ends(1, self.builds("--is-current", "upper"))
        self.assertEqual(self.asked(), [])
        self.ends(0, self.builds("upper"))
        self.assertEqual(self.asked(), ["low", "right", "left", "upper"])

    @case("tools/build --text-hash prints what a build of the same text has left, in whatever folder")
    def prints_hash(self):
        self.ends(0, self.builds("upper"))
        copy = new_place() / "a copy"
        shutil.copytree(self.folder / "crates", copy / "crates", ignore=shutil.ignore_patterns("out"))
        shutil.copy(self.folder / "crates.txt", copy)
        done = self.builds("--text-hash", copy, "upper")
        self.ends(0, done)
        self.assertEqual(done.out, (self.made("upper") / "built").read_text().rstrip("\n"))
        (copy / "crates/low/src/lib.rt").write_text("another line\n")
        self.assertNotEqual(self.builds("--text-hash", copy, "upper").out, done.out)
        self.assertEqual(self.asked(), [])
        self.ends(3, self.builds("--text-hash", self.folder / "nothing", "upper"))

    @case("tools/build of a crate that has no proof")
    def fails_to_build(self):
        done = self.builds("upper", fails="left")
        self.ends(4, done)
        self.assertEqual(self.asked(), ["low", "right", "left"])
        self.assertIn("left has no proof", done.notes)
        self.assertIn("tsumego: left could not be proved and built", done.notes)
        self.assertFalse((self.made("upper") / "upper").exists())
        self.ends(1, self.builds("--is-current", "upper"))
        self.ends(0, self.builds("upper"))
