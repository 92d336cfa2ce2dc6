"""The programs that resolve a request: pick_versions, cadical on the same clauses, dose-debcheck and apt-get."""
import os
import re
import resource
import subprocess
from dataclasses import dataclass, field

from archive import Fault
from back import Table

# How the last line begins if the steps ended before the best solution was known.
BEST = "the best by the first "
# What cadical ends with.
SATISFIABLE, UNSATISFIABLE = 10, 20


@dataclass
class Ran:
    """What a program wrote, how it ended, and the processor time that it took. One that was stopped has no status."""

    text: str
    status: int | None
    seconds: float


def run(words, text="", limit=None):
    begun = processor_time()
    try:
        done = subprocess.run(words, input=text, capture_output=True, text=True, errors="replace", timeout=limit)
    except subprocess.TimeoutExpired:
        return Ran("", None, processor_time() - begun)
    except OSError as fault:
        raise Fault(f"{words[0]}: {fault.strerror}")
    return Ran(done.stdout, done.returncode, processor_time() - begun)


def processor_time():
    used = resource.getrusage(resource.RUSAGE_CHILDREN)
    return used.ru_utime + used.ru_stime


def least(runs, words, text, limit):
    """The fastest of so many runs."""
    return min((run(words, text, limit) for _ in range(runs)), key=lambda ran: ran.seconds)


@dataclass
class Answer:
    """What pick_versions makes of a request: the name and the version of each package that it picks, or what it says
    where it picks none, and why.
    """

    picked: list
    said: str
    seconds: float
    reasons: list = field(default_factory=list)

    def lines(self):
        return [" ".join(version) for version in self.picked] or [self.said]


class PickVersions:
    """A built pick_versions. It is stopped after so many seconds."""

    def __init__(self, path, limit):
        if not os.path.isfile(path) or not os.access(path, os.X_OK):
            where = "`rt run < stdin` in crates/pick_versions proves and builds it"
            raise Fault(f"{path} is no program: {where}; or name another one")
        self.path, self.limit = path, limit

    def answer(self, index, runs=1):
        ran = least(runs, [self.path], index.text(), self.limit)
        if ran.status is None:
            return Answer([], f"stopped after {self.limit} seconds", ran.seconds)
        lines, table = [line for line in ran.text.splitlines()[1:] if not line.startswith(BEST)], Table.of_index(index)
        if lines and all(table.solvable(line.split(" ")) for line in lines):
            return Answer([tuple(table.line(line).split(" ")) for line in lines], "", ran.seconds)
        said = [line for line in lines if not table.solvable(line.split(" "))] or ["nothing"]
        return Answer([], said[0], ran.seconds, list(map(table.line, said[1:])))

    def instructions(self, index):
        """How many instructions it takes, as valgrind counts them, or none where it can't."""
        words = ["valgrind", "--tool=callgrind", "--callgrind-out-file=/dev/null", self.path]
        said = subprocess.run(words, input=index.text(), capture_output=True, text=True).stderr
        counted = re.search(r"Collected : (\d+)", said)
        return int(counted[1]) if counted else None


def satisfy(index, runs=1):
    """Whether the clauses of a request can be met, as cadical finds, and its seconds."""
    ran = least(runs, ["cadical", "-q", "-n"], index.dimacs(), None)
    if ran.status not in (SATISFIABLE, UNSATISFIABLE):
        raise Fault(f"cadical ended with {ran.status} for {index.request}")
    return ran.status == SATISFIABLE, ran.seconds


class Debcheck:
    """dose-debcheck over a `Packages` file, which it reads whole at each call. Essential packages aren't asked for."""

    def __init__(self, packages):
        self.words = ["dose-debcheck", "--deb-ignore-essential", f"--fg={packages}", "--coinst"]

    def check(self, request):
        """Whether a version of each package can be installed beside the others, and its seconds."""
        ran = run([*self.words, ",".join(re.sub("=(.*)", r" (= \1)", name) for name in request.split(","))])
        counts = dict(re.findall(r"^(total|broken)-tuples: (\d+)", ran.text, re.MULTILINE))
        if len(counts) < 2:
            raise Fault(f"dose-debcheck ended with {ran.status} for {request}")
        return int(counts["broken"]) < int(counts["total"]), ran.seconds


class AptGet:
    """apt-get with its own lists, for which nothing is installed. Its cache is in a folder, and filled first."""

    def __init__(self, folder):
        os.makedirs(f"{folder}/archives/partial")
        open(f"{folder}/status", "w").close()
        options = [f"Dir::State::status={folder}/status", f"Dir::Cache={folder}"]
        options += [f"Dir::Cache::{name}={name}.bin" for name in ("pkgcache", "srcpkgcache")]
        self.words = ["apt-get", "-s", "install", "-qq", "--no-install-recommends"]
        self.words += [word for option in options for word in ("-o", option)]
        self.install(["dpkg"])

    def install(self, names):
        """The name and the version of each package that it would install, which are none where it refuses, and its
        seconds.
        """
        ran = run([*self.words, *names])
        return re.findall(r"^Inst (\S+) \((\S+)", ran.text, re.MULTILINE), ran.seconds
