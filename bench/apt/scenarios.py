"""What apt asks a solver (EDSP 0.5), what the answer makes of a machine, and how solvers are run."""
import functools
import os
import re
import subprocess
import sys
import tempfile
from dataclasses import dataclass

HERE = os.path.dirname(os.path.abspath(__file__))
PROGRAM = os.path.normpath(os.path.join(HERE, "../../crates/apt_solver/out/apt_solver"))
# How apt begins each package.
PACKAGE = re.compile(r"^Package: (.*)\nArchitecture: (.*)\nVersion: (.*)\nAPT-ID: (.*)((?:\n.+)*\n)", re.M)


def fields_of(stanza):
    """The fields of a stanza, but for lines that continue another one."""
    return dict(line.split(": ", 1) for line in stanza.splitlines() if line[:1] != " " and ": " in line)


def stanzas(text):
    return [stanza for stanza in text.split("\n\n") if stanza.strip()]


class Scenario:
    """A request, and the packages. Those of two scenarios are often the same text, which is read once."""

    def __init__(self, text):
        head, _, self.packages = text.partition("\n\n")
        self.request = fields_of(head)
        self.by_id, self.installed = read(self.packages, self.request["Architecture"])


@functools.lru_cache(maxsize=2)
def read(packages, native):
    """The name and the version of each package by what apt calls it, and the version of each installed name. A name has
    an architecture; that of `all` is the native one.
    """
    by_id, installed = {}, {}
    for found in PACKAGE.finditer(packages):
        name, architecture, version, number, others = found.groups()
        full_name = name, native if architecture == "all" else architecture
        by_id[number] = full_name, version
        if "\nInstalled: yes\n" in others:
            installed[full_name] = version
    return by_id, installed


@dataclass
class Change:
    """What a solver answers: the version of each name that it installs, and the names that it removes; or why it
    can't.
    """

    new: dict
    removed: set
    error: str

    def afterwards(self, scenario):
        """The version of each name that is there once apt has done this."""
        there = {**scenario.installed, **self.new}
        return {name: version for name, version in there.items() if name not in self.removed}

    def counts(self, scenario):
        """How many packages are new, have another version, and are removed."""
        new = self.new.keys() - scenario.installed.keys()
        others = [name for name in self.new.keys() - new if self.new[name] != scenario.installed[name]]
        return len(new), len(others), len(self.removed)


def change_of(scenario, answer):
    """What an answer says. `Autoremove` says what apt may offer to remove, and isn't a change."""
    new, removed, error = {}, set(), ""
    for stanza in stanzas(answer):
        fields = fields_of(stanza)
        if "Error" in fields or "Message" in fields and "Progress" not in fields:
            error = re.sub(r"\s+", " ", stanza.partition("Message: ")[2]) or fields.get("Error", "error")
        elif "Install" in fields:
            name, version = scenario.by_id[fields["Install"]]
            new[name] = version
        elif "Remove" in fields:
            removed.add(scenario.by_id[fields["Remove"]][0])
    return Change(new, removed - new.keys(), error)


def apt_get(words, options, **others):
    """Runs apt-get, which installs nothing."""
    options = ["Debug::NoLocking=1", "APT::Solver::RunAsUser=root", *options]
    command = ["apt-get", "-s", "--allow-remove-essential", *(f"-o{option}" for option in options)]
    environment = {**os.environ, "LC_ALL": "C", **others}
    return subprocess.run([*command, *words], capture_output=True, text=True, env=environment, errors="replace")


def dumped(words, options):
    """The scenario of a request, by the solver `dump` of Debian's package apt-utils."""
    with tempfile.TemporaryDirectory() as folder:
        path = f"{folder}/scenario"
        said = apt_get(["--solver", "dump", *words], options, APT_EDSP_DUMP_FILENAME=path)
        if not os.path.isfile(path):
            raise SystemExit(f"apt-get {' '.join(words)} asks no solver: {said.stderr.strip()}")
        with open(path, encoding="utf-8") as file:
            return file.read()


@dataclass
class Ran:
    """What a program wrote, and the processor time and the peak of memory that it and its children took."""

    text: str
    status: int
    seconds: float
    megabytes: float


def ran(program, path, limit):
    """Runs a program on a file, for so many seconds of processor time at most."""
    words = [sys.executable, "-I", "-S", f"{HERE}/timed.py", str(limit), program]
    with open(path, "rb") as read:
        done = subprocess.run(words, stdin=read, capture_output=True, text=True, errors="replace", check=True)
    status, seconds, megabytes = done.stderr.split()
    return Ran(done.stdout, int(status), float(seconds), float(megabytes))
