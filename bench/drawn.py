"""What bench/hard and bench/ecosystem share: an index, numbers by a recurrence, and the programs that answer one."""
import argparse
import itertools
import os
import re
import shutil
import subprocess
import sys
import tempfile

HERE = os.path.dirname(os.path.abspath(__file__))
PROGRAM = os.path.normpath(os.path.join(HERE, "../crates/pick_versions/out/pick_versions"))
PYTHON = "/usr/bin/python3"
COLUMNS = "{:24} {:>8} {:>8} {:>6} {:>8}  {:30} {:>8} {:>6} {:>8} {:>14}  {}"
HEADS = ("index", "versions", "seconds", "MB", "distance", "answer", "libsolv", "MB", "distance", "cadical", "")

# Runs a program for this many processor seconds at most, and writes those that it took, its peak and its exit status as
# the last line of standard error. A small interpreter of its own does it, since a process begins with the peak of the
# one that starts it.
STARTER = """
import os, resource, subprocess, sys
resource.setrlimit(resource.RLIMIT_CPU, (int(sys.argv[1]),) * 2)
child = subprocess.Popen(sys.argv[2:])
_, status, used = os.wait4(child.pid, 0)
ended = os.waitstatus_to_exitcode(status)
print(used.ru_utime + used.ru_stime, used.ru_maxrss // 1024, ended, file=sys.stderr)
"""


class Numbers:
    """Numbers that follow from a seed, by a linear recurrence."""

    def __init__(self, seed):
        self.last = seed

    def below(self, end):
        self.last = (self.last * 6364136223846793005 + 1442695040888963407) % 2**64
        return (self.last >> 33) % end

    def sample(self, end, count):
        """This many different numbers below the end."""
        found = {}
        while len(found) < count:
            found[self.below(end)] = None
        return list(found)


class Index:
    """What is wanted, and of each version what it needs, unions of ranges, and to which ranges it limits others. A
    range is a name, its first number, and the one behind its last.
    """

    def __init__(self, title):
        self.title, self.wanted, self.versions = title, [], {}

    def add(self, name, number, needs=(), limits=()):
        self.versions[name, number] = list(needs), list(limits)

    def text(self):
        lines = [" ".join(["request", *map(need, self.wanted)])]
        for (name, number), (needs, limits) in self.versions.items():
            lines.append(" ".join([f"{name} {number}", *map(need, needs), *(f"limits {span(it)}" for it in limits)]))
        return "\n".join(lines) + "\n"

    def by_name(self):
        groups = {}
        for name, number in self.versions:
            groups.setdefault(name, []).append(number)
        return groups

    def dimacs(self):
        """The same as clauses."""
        places = {version: place for place, version in enumerate(self.versions, 1)}
        groups = self.by_name()
        held = lambda name, first, end: [places[name, it] for it in groups.get(name, ()) if first <= it < end]
        union = lambda ranges: list(itertools.chain(*(held(*it) for it in ranges)))
        clauses = [union(it) for it in self.wanted]
        for version, (needs, limits) in self.versions.items():
            clauses += [[-places[version], *union(it)] for it in needs]
            for name, first, end in limits:
                others = set(groups.get(name, ())) - set(range(first, end))
                clauses += [[-places[version], -places[name, it]] for it in sorted(others)]
        for name, group in groups.items():
            clauses += [[-places[name, a], -places[name, b]] for a, b in itertools.combinations(group, 2)]
        lines = [f"p cnf {len(places)} {len(clauses)}", *(" ".join(map(str, [*it, 0])) for it in clauses)]
        return "\n".join(lines) + "\n"

    def judge(self, picked):
        """What isn't right of picked versions, or nothing."""
        chosen = dict(picked)
        met = lambda ranges: any(first <= chosen.get(name, -1) < end for name, first, end in ranges)
        if len(chosen) < len(picked):
            return "two versions of a package"
        if not all(map(met, self.wanted)):
            return "something wanted isn't there"
        for version in picked:
            needs, limits = self.versions.get(version, ([[]], []))
            if not all(map(met, needs)):
                return f"{version} lacks something"
            if any(name in chosen and not first <= chosen[name] < end for name, first, end in limits):
                return f"{version} forbids something"
        return ""

    def distance(self, picked):
        """How many versions of the picked packages are newer, in all."""
        groups = self.by_name()
        return sum(sum(it > number for it in groups[name]) for name, number in picked)


def span(it):
    return f"{it[0]} {it[1]}..{it[2]}"


def need(union):
    return "needs " + " | ".join(map(span, union))


def run(words, text, limit):
    """What a program wrote, or none where it took more processor seconds than this; those that it took, and its peak
    of megabytes.
    """
    starter = [sys.executable, "-I", "-S", "-c", STARTER, str(limit), *words]
    done = subprocess.run(starter, input=text, capture_output=True, text=True, errors="replace")
    if done.returncode:
        sys.exit(f"{words[0]} can't be run")
    seconds, peak, status = done.stderr.splitlines()[-1].split()
    return None if int(status) < 0 else done.stdout, float(seconds), peak


def picked_of(lines):
    return [(name, int(number)) for name, number in map(str.split, lines)]


def by_program(program, index, limit):
    """The answer of pick_versions: what it picked, if it did, and a word; with its seconds and its peak."""
    wrote, seconds, peak = run([program], index.text(), limit)
    used = f"{seconds:.2f}", peak
    if wrote is None:
        return None, "stopped", *used
    lines = wrote.splitlines()[1:]
    if lines[:1] == ["none"] or lines[:1] and lines[0].startswith("gave up"):
        return None, lines[0], *used
    word = lines.pop() if lines[-1:] and lines[-1].startswith("the best by") else "found"
    if not all(re.fullmatch(r"\S+ [0-9]+", line) for line in lines):
        sys.exit(f"{program} doesn't answer as pick_versions does")
    return picked_of(lines), word, *used


def by_cadical(index, limit):
    """A word, and seconds and conflicts as a text."""
    if not shutil.which("cadical"):
        return "", ""
    wrote, seconds, _ = run(["cadical", "-n"], index.dimacs(), limit)
    if wrote is None:
        return "stopped", f"{seconds:.2f}"
    counts = [line.split()[2] for line in wrote.splitlines() if line.startswith("c conflicts:")]
    answer = "none" if "s UNSATISFIABLE" in wrote else "found"
    return answer, f"{seconds:.2f} {counts[0] if counts else '?'}"


def by_libsolv(index, limit):
    """What libsolv picked, if it did, a word, the seconds that its solver took, and the peak of its Python."""
    if not os.access(PYTHON, os.X_OK):
        return None, "", "", ""
    wrote, _, peak = run([PYTHON, f"{HERE}/libsolv.py"], index.text(), limit)
    if wrote is None:
        return None, "stopped", "stopped", peak
    lines = wrote.splitlines()
    if not lines:
        return None, "", "", ""
    answer, seconds = lines[0].split()
    return (picked_of(lines[1:]) if answer == "found" else None), answer, f"{float(seconds):.3f}", peak


def check_share(program, index):
    """The share of the instructions of `pick` that its check takes, in percent, by callgrind."""
    with tempfile.TemporaryDirectory() as folder:
        out = f"{folder}/out"
        counted = ["valgrind", "--tool=callgrind", f"--callgrind-out-file={out}", program]
        subprocess.run(counted, input=index.text().encode(), capture_output=True)
        if not os.path.isfile(out):
            sys.exit(f"valgrind doesn't run {program}")
        listed = subprocess.run(
            ["callgrind_annotate", "--inclusive=yes", "--threshold=100", out], capture_output=True, text=True
        )
    costs = re.findall(r"^ *([\d,]+) .*?\b(picking::(?:finding::pick|search))\b", listed.stdout, re.MULTILINE)
    whole, search = (
        max((int(cost.replace(",", "")) for cost, name in costs if name == wanted), default=0)
        for wanted in ("picking::finding::pick", "picking::search")
    )
    return f"{100 * (whole - search) / whole:.0f}" if whole else "?"


def measure(about, kinds):
    """Answers the indexes of the kinds that are named on the command line, or all, and prints a line for each."""
    if {"-h", "--help"} & {*sys.argv[1:]}:
        print(about.strip())
        return
    parser = argparse.ArgumentParser(usage=argparse.SUPPRESS, add_help=False)
    parser.add_argument("--program", default=PROGRAM)
    parser.add_argument("--seconds", type=int, default=60)
    parser.add_argument("--print", action="store_true")
    parser.add_argument("--share", action="store_true")
    parser.add_argument("kinds", nargs="*")
    given = parser.parse_args()
    if not set(given.kinds) <= set(kinds):
        parser.error("there is no such kind")
    is_program = os.path.isfile(given.program) and os.access(given.program, os.X_OK)
    if not given.print and not is_program:
        parser.error(f"there is no {given.program}: `rt run < stdin` in crates/pick_versions builds it")
    chosen = [index for kind in given.kinds or kinds for index in kinds[kind]()]
    if given.print:
        print("\n".join(index.text() for index in chosen), end="")
        return
    if given.share:
        if not shutil.which("valgrind"):
            parser.error("the check's share is counted by valgrind")
        for index in chosen:
            print(f"{index.title:<24} {check_share(given.program, index):>3} percent", flush=True)
        return
    print(COLUMNS.format(*HEADS).rstrip())
    sys.exit(any([tell(index, given.program, given.seconds) for index in chosen]))


def tell(index, program, limit):
    """Prints a line, and answers whether something in it is wrong."""
    picked, answer, seconds, peak = by_program(program, index, limit)
    theirs, libsolv, *used = by_libsolv(index, limit)
    cadical, conflicts = by_cadical(index, limit)
    wrong = index.judge(picked) if picked is not None else ""
    others = {it for it in (libsolv, cadical) if it in ("found", "none")}
    if answer in ("found", "none") and others - {answer}:
        wrong = f"others say {' '.join(others)}"
    away, further = ("" if it is None else index.distance(it) for it in (picked, theirs))
    row = (index.title, len(index.versions), seconds, peak, away, answer, *used, further, conflicts, wrong)
    print(COLUMNS.format(*row).rstrip(), flush=True)
    return bool(wrong)
