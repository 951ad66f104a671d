"""contrib/solve-folder on several machines: shares of a folder, two hosts of which one is ended meanwhile, a Slurm of one node."""

import os
import pathlib
import re
import shutil
import signal
import socket
import subprocess

from .solving import (
    SOLVE_FOLDER, TOP, Part, copy_examples, digest, executable, guide, kill, names, read, record, rows, table, wait_for, write,
)

SSHD = """Port {port}
ListenAddress 127.0.0.1
HostKey {folder}/key
AuthorizedKeysFile {hosts}/user.pub
PidFile {folder}/pid
StrictModes no
UsePAM no
PasswordAuthentication no
ForceCommand cd {folder} && PATH={folder}/bin:/usr/bin:/bin && eval "$SSH_ORIGINAL_COMMAND"
"""
CLIENT = """BatchMode yes
IdentityFile {hosts}/user
IdentitiesOnly yes
StrictHostKeyChecking no
UserKnownHostsFile /dev/null
LogLevel ERROR
"""
SLURM = """ClusterName=folders
SlurmctldHost={host}(127.0.0.1)
SlurmUser=root
SlurmdUser=root
AuthType=auth/none
CredType=cred/none
SlurmctldPort={ports[0]}
SlurmdPort={ports[1]}
StateSaveLocation={here}/state
SlurmdSpoolDir={here}/spool
SlurmctldPidFile={here}/slurmctld.pid
SlurmdPidFile={here}/slurmd.pid
ProctrackType=proctrack/linuxproc
TaskPlugin=task/none
SelectType=select/cons_tres
SelectTypeParameters=CR_Core
JobAcctGatherType=jobacct_gather/none
NodeName={host} NodeAddr=127.0.0.1 CPUs={processors}
PartitionName=all Nodes=ALL Default=YES
"""
CONTRIB = {"PATH": f"{TOP / 'contrib'}:{os.environ['PATH']}"}


def free_port() -> int:
    with socket.socket() as one:
        one.bind(("127.0.0.1", 0))
        return one.getsockname()[1]


def new_key(file: pathlib.Path) -> None:
    subprocess.run(["ssh-keygen", "-q", "-t", "ed25519", "-N", "", "-f", file], stdin=subprocess.DEVNULL, check=True)


def children(number: int) -> list[int]:
    return [int(it) for it in subprocess.run(["pgrep", "-P", str(number)], capture_output=True, text=True).stdout.split()]


def answers(folder: str) -> dict[str, bytes]:
    """The files below a folder of answers, but for its tables."""
    files = [it for it in pathlib.Path(folder).rglob("*") if it.is_file() and it.suffix != ".tsv"]
    return {str(it.relative_to(folder)): it.read_bytes() for it in files}


class Shares(Part):
    def shards(self):
        os.mkdir("records")
        for number in range(1, 41):
            write(f"records/{number}.sgf", record("B", after=f"{number}\n"))
        words = [[SOLVE_FOLDER, "--shard", f"{number}/4", "records", "answers"] for number in range(1, 5)]
        outputs = {"stdin": subprocess.DEVNULL, "stdout": subprocess.PIPE, "stderr": subprocess.STDOUT, "text": True}
        runs = [subprocess.Popen(it, **outputs) for it in words]
        self.said = "\n".join(it.communicate()[0] for it in runs)
        self.same("shares: a table each", names("answers", "*.tsv"), [f"answers.{number}-of-4.tsv" for number in range(1, 5)])
        asked = [name for file in pathlib.Path("answers").glob("*.tsv") for name, in table(file, 1)]
        self.same("shares: every record once", (len(set(asked)), len(asked)), (40, 40))
        self.solve("--shard", "1/3", "records", "answers")
        self.refused(3, "another number of shares", "answers.1-of-4.tsv")
        self.solve("--totals", "answers")
        self.says("--totals counts", "40 records: 40 solved (40 Black, 0 White)")
        self.ended("--totals: status 0", 0)
        self.same("--totals joins", (names("answers", "*.tsv"), len(rows("answers", 1))), (["answers.tsv"], 40))
        self.solve("--program", "/bin/false", "records", "answers")
        self.says("joined: nothing is asked again", "40 solved")
        self.solve("--totals", "records")
        self.refused(3, "--totals without a table", "records")
        self.condor()

    def condor(self):
        """What the processes 0 to 7 of the guide's file for HTCondor are called with."""
        copy_examples("problems")
        for number in range(8):
            words = guide("arguments  ").replace("$INT(part)", str(number + 1)).replace("/usr/local/bin/tsumego", self.real)
            self.solve(*words.split())
        self.solve("--totals", "solved")
        self.says("the words for HTCondor", "9 records: 9 solved (3 Black, 6 White)")


class Hosts(Part):
    def hosts(self):
        self.here = pathlib.Path.cwd()
        os.makedirs("/run/sshd", exist_ok=True)
        os.mkdir("problems")
        os.symlink(TOP / "contrib", "contrib")
        new_key(self.here / "user")
        write("client", CLIENT.format(hosts=self.here))
        self.ssh_host("one")
        self.ssh_host("two")
        for name in ("one", "two"):
            script = f'#!/bin/sh\ncd {self.here} && echo "$1" >>{name}/asked\nREAL={self.real} exec {self.slow} "$@"\n'
            executable(self.here / name / "tsumego", script)
        for number in range(1, 13):
            write(f"problems/{number}.sgf", record("W", 0.3, f"{number}\n"))
        useless = "# two that are of no use\nssh -F client -p 1 127.0.0.1\nssh -F client -p 1 nobody@127.0.0.1\n"
        write("hosts", read("all") + useless)
        self.call(["bash", "-c", guide("solve-folder --hosts hosts")], {**CONTRIB, "TSUMEGO": None})
        self.says("two hosts: all are solved", "12 records: 12 solved (0 Black, 12 White)")
        self.ended("two hosts: status 0", 0)
        left_out = [line for line in self.said.split("\n") if "is left out: it cannot be reached" in line]
        self.same("two hosts: one line for each that is left out", len(left_out), 2)
        self.expect("two hosts: both were asked", all(read(f"{name}/asked").count("\n") > 1 for name in ("one", "two")))
        self.is_as_here("two hosts: the answers are those of this machine")
        self.host_without_program()
        self.host_ended()
        self.many_on_a_connection()

    def ssh_host(self, name):
        """A host with a PATH of its own, and its line in the file `all`."""
        folder, port = self.here / name, free_port()
        (folder / "bin").mkdir(parents=True)
        new_key(folder / "key")
        write(folder / "config", SSHD.format(port=port, folder=folder, hosts=self.here))
        subprocess.run([shutil.which("sshd"), "-f", folder / "config", "-E", folder / "log"], stdin=subprocess.DEVNULL)
        wait_for(lambda: (folder / "pid").exists() and read(folder / "pid").strip())
        self.addCleanup(kill, self.server_of(name), signal.SIGTERM)
        with open("all", "a") as file:
            file.write(f"2/ssh -F {self.here}/client -p {port} 127.0.0.1\n")

    def server_of(self, name):
        return int(read(self.here / name / "pid"))

    def end_host(self, name):
        """Ends its server, and the sessions that it has open."""
        for session in children(self.server_of(name)):
            for number in (*children(session), session):
                kill(number, signal.SIGKILL)
        kill(self.server_of(name), signal.SIGKILL)

    def is_as_here(self, what):
        subprocess.run([SOLVE_FOLDER, "problems", "here"], stdin=subprocess.DEVNULL, stdout=subprocess.DEVNULL, check=True)
        columns = (1, 2, 3, 4, 6)
        here, solved = ((rows(folder, *columns), answers(folder)) for folder in ("here", "solved"))
        self.same(what, solved, here)

    def host_without_program(self):
        write("only", read("all").splitlines()[1] + "\n")
        self.solve("--hosts", "only", "problems", "none")
        self.ended("no program on the host's PATH: status 4", 4)
        self.says("no program on the host's PATH: said", "is left out: there is no command tsumego there")
        self.says("no host is left: said", "no host of only is left")
        self.expect("no host is left: nothing is made", not os.path.exists("none"))
        self.solve("--hosts", "nowhere", "problems", "none")
        self.refused(3, "no file of hosts", "nowhere")
        for name in ("one", "two"):
            os.link(f"{name}/tsumego", f"{name}/bin/tsumego")

    def solve_until(self, *ended):
        """Solves the problems on both hosts, of which these are ended after the first answers."""
        shutil.rmtree("solved", ignore_errors=True)
        self.start("--hosts", "all", "problems", "solved")
        wait_for(lambda: os.path.exists("solved/answers.tsv") and os.path.getsize("solved/answers.tsv"))
        for name in ended:
            self.end_host(name)
        self.finish()

    def host_ended(self):
        self.solve_until("two")
        self.says("a host was ended: its records are asked elsewhere", "12 records: 12 solved (0 Black, 12 White), 0 unknown")
        self.ended("a host was ended: status 0", 0)
        self.solve_until("one")
        self.ended("every host was ended: status 4", 4)
        text = ", 0 unknown, 0 timed out, 0 refused, 0 failed, "
        self.says("every host was ended: nothing is unknown, refused or failed", text)
        left = re.findall(r", ([0-9]+) not asked", self.said)
        self.expect("every host was ended: the rest is not asked", left and int(left[-1]) > 0)
        self.solve("problems", "solved")
        self.says("every host was ended: this machine goes on", "12 solved")

    def many_on_a_connection(self):
        os.mkdir("many")
        for number in range(1, 301):
            write(f"many/{number}.sgf", record("B", after=f"{number}\n"))
        write("here-alone", "1/:\n")
        self.solve("--hosts", "here-alone", "--program", self.real, "many", "many-answers", "--", "--joblog", "joblog")
        self.says("300 records: all are solved", "300 records: 300 solved (300 Black, 0 White)")
        self.same("300 records: fifty on a connection", read("joblog").count("\n") - 1, 6)
        wanted = [(name, digest(f"many/{name}")) for name in names("many", "*.sgf")]
        self.same("300 records: each answer is that of its record", rows("many-answers", 1, 6), wanted)


class Slurm(Part):
    def slurm(self):
        if os.geteuid() != 0 or not shutil.which("slurmctld") or not self.start_slurm():
            self.left_out("Slurm: it cannot be started here")
            return
        copy_examples("problems")
        os.symlink(TOP / "contrib", "contrib")
        self.call(["bash", "-c", guide("$ sbatch")], CONTRIB)
        self.call(["bash", "-c", guide("$ solve-folder --totals solved")], CONTRIB)
        self.says("an array of Slurm", "9 records: 9 solved (3 Black, 6 White)")
        self.ended("an array of Slurm: status 0", 0)
        self.same("an array of Slurm: tables joined", names("solved", "*.tsv"), ["answers.tsv"])

    def start_slurm(self):
        host, here = socket.gethostname().partition(".")[0], os.getcwd()
        os.mkdir("state")
        os.mkdir("spool")
        ports = [free_port(), free_port()]
        write("slurm.conf", SLURM.format(host=host, ports=ports, here=here, processors=len(os.sched_getaffinity(0))))
        os.environ["SLURM_CONF"] = f"{here}/slurm.conf"
        for daemon, log in (("slurmctld", "ctld.log"), ("slurmd", "slurmd.log")):
            with open(log, "wb") as out:
                process = subprocess.Popen([daemon, "-D"], stdin=subprocess.DEVNULL, stdout=out, stderr=subprocess.STDOUT)
            self.addCleanup(process.wait)
            self.addCleanup(process.terminate)
        return wait_for(lambda: "idle" in subprocess.run(["sinfo", "-h"], capture_output=True, text=True).stdout)
