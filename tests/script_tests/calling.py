"""All scripts: that they can be read, that each says what it is for, and what they say where a command is missing."""

import functools
import os
import shutil
import sys

from script_tests.common import Case, Setting, case, place, program, run

import all_scripts
import measuring

# The second checker has the statuses of the program, and tools/try hands its words on.
CALLED = [(it,) for it in all_scripts.callable_files() if not it.endswith("/check.py")]
CALLED += [("tools/measure", it) for it in measuring.COMMANDS]
# A script has so many seconds to say what it is for.
SECONDS = 20
SHELL, PYTHON = all_scripts.scripts("shell"), all_scripts.scripts("python")


@functools.cache
def without_toolchain() -> str:
    """A folder with all commands but those of the toolchain."""
    folder = place("bin")
    folder.mkdir()
    for at in os.environ["PATH"].split(":"):
        for name in os.listdir(at) if os.path.isdir(at) else []:
            if name != "rt" and not (folder / name).is_symlink():
                (folder / name).symlink_to(os.path.join(at, name))
    return str(folder)


@functools.cache
def few_commands() -> dict[str, str | None]:
    """The variables with which there is no toolchain, no compiler and no objdump, and nobody can install any."""
    folder = place("fewer-commands")
    shutil.copytree(without_toolchain(), folder, symlinks=True)
    for name in ("apt-get", "cc", "objdump"):
        (folder / name).unlink(missing_ok=True)
    return {"PATH": str(folder), "CC": None}


class Reading(Case):
    @case(f"bash reads {len(SHELL)} scripts")
    def bash_reads(self):
        for it in SHELL:
            self.ends(0, run("bash", "-n", it))

    @case(f"python reads {len(PYTHON)} scripts")
    def python_reads(self):
        compiled = 'import sys; [compile(open(it).read(), it, "exec") for it in sys.argv[1:]]'
        self.ends(0, run(sys.executable, "-c", compiled, *PYTHON))

    @case("shellcheck finds nothing", "shellcheck")
    @case("pyflakes3 finds nothing", "pyflakes3")
    def finds_nothing(self, linter):
        done = run("tools/lint", linter)
        if done.status == 4:
            self.skipTest(done.notes)
        self.ends(0, done)


class Missing(Case):
    @case("tools/need of commands that are there")
    def needs_what_is_there(self):
        self.ends(0, run("tools/need", "tests/scripts", "bash:bash", "sed:sed", env=few_commands()))

    @case("tools/need of a command that is not there", "command objdump (of the package binutils)", "sed:sed", "objdump:binutils")
    @case("tools/need of a module that is not there", "module nothing.py (of the package nothing)", "nothing.py:nothing")
    def needs_what_is_missing(self, missing, *needed):
        self.refuses(4, f"tests/scripts: there is no {missing}", "tools/need", "tests/scripts", *needed, env=few_commands())

    @case("tools/need without commands")
    def needs_commands(self):
        self.refuses(3, "usage", "tools/need", "tests/scripts")

    @case("tools/faults/faults.py without cc")
    def faults_without_compiler(self):
        text = "tools/faults/faults.py: there is no command cc (of the package gcc)"
        self.refuses(4, text, "tools/faults/faults.py", program("tsumego"), env=few_commands())

    @case("tools/test without binutils", "tools/test", ".")
    @case("contrib/package without binutils", "contrib/package", "no-package")
    def without_binutils(self, script, word):
        if not shutil.which("dpkg-deb"):
            self.skipTest("dpkg-deb is not there")
        folder = Setting.programs if word == "." else place(word)
        self.refuses(4, f"{script}: there is no command objdump (of the package binutils)", script, folder, env=few_commands())

    @case("tools/try without the toolchain", "tools/try", "solve")
    @case("tools/test without the toolchain", "tools/test")
    @case("tools/build without the toolchain", "tools/build")
    def needs_toolchain(self, *words):
        self.refuses(4, "not on the PATH", *words, env={"PATH": without_toolchain()})

    @case("tools/try without words", "usage", "tools/try")
    @case("tools/try with no file after --", "usage", "tools/try", "solve", "--")
    @case("tools/build with no crate", "no crate", "tools/build", "nothing")
    def has_bad_words(self, text, *words):
        self.refuses(3, text, *words)

    @case("tools/hostile with no program")
    def hostile_without_program(self):
        self.refuses(3, "there is no file", "tools/hostile", place("nothing"))

    @case("tools/hostile with no short_claims")
    def hostile_without_helper(self):
        self.refuses(3, "there is no program", "tools/hostile", program("tsumego"), env={"SHORT_CLAIMS": str(place("nothing"))})


class Calling(Case):
    """Each script that can be called says what it is for, and refuses a word that it does not know."""

    def tells_what_it_is_for(self, *script):
        done = run(*script, "--help", timeout=SECONDS)
        self.ends(0, done)
        self.assertGreater(len(done.said.encode()) + 1, 60)
        self.assertNotIn("Traceback", done.said)

    def refuses_words(self, *script):
        done = run(*script, "--nonsense", "nonsense", "nonsense", "nonsense", timeout=SECONDS)
        self.assertIn(done.status, (2, 3), done.said)
        self.assertLess(done.said.count("\n"), 12)
        self.assertNotIn("Traceback", done.said)


for _script in CALLED:
    Calling.add(f"{' '.join(_script)} --help", Calling.tells_what_it_is_for, _script)
for _script in CALLED:
    if _script != ("tools/try",):
        Calling.add(f"{' '.join(_script)} with words that it does not know", Calling.refuses_words, _script)
