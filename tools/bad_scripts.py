"""What tools/bad-input gives the repository's scripts: files that aren't there, that are folders, and that are no text;
programs that can't be started, and that write no text; and words that they don't take.

A script has to say in a sentence what is wrong, and to end with a status that isn't 0.
"""
import os
import pathlib
import random
import resource
import shutil
import subprocess

from bad_runs import LIMIT, PANICS, Run

# Where scripts are.
FOLDERS = "tools mutants bench bench/debian bench/parts bench/unproved reference-model examples examples/python".split()
# Commands that name a file or a program, which is bad: `{}` stands for it.
NAMES_FILE = """
reference-model/answer {}
reference-model/replay {} {certificate}
reference-model/replay {index} {}
tools/release --repository {} {missing}
bench/debian/convert {} git
bench/debian/convert --back {}
bench/debian/judge {}
bench/debian/run --packages {} /bin/true
bench/debian/run --packages {} --draw 1 /bin/true
bench/debian/run --packages {} --whole /bin/true
"""
NAMES_PROGRAM = """
reference-model/compare 0 0 {}
reference-model/saturations 0 0 {}
reference-model/picks 1 1 {}
reference-model/objects 1 1 {}
bench/hard --program {} holes
bench/ecosystem --program {} small
bench/debian/run --packages {packages} {}
bench/debian/agree 1 1 {}
examples/agree {}
examples/python/agree {}
examples/python/endings {}
examples/python/search.py {}
"""
# These measure any program that can be started.
MEASURES_PROGRAM = """
bench/hard --program {} --share holes
bench/run {} --kinds skipped
bench/run /bin/true {} --kinds skipped
bench/picks {}
tools/bad-input --input empty pick_versions={}
"""
# Commands that take a name or a number there, or nothing.
NAMES_NOTHING = """
reference-model/compare 0 {}
reference-model/saturations {} 0
reference-model/picks {} 1
reference-model/objects {} 1
reference-model/write {}
bench/debian/agree {} 1
bench/hard {}
bench/ecosystem {}
bench/in-process {}
bench/proof-times {}
bench/queue-lines {}
bench/unproved/build {}/program/there
examples/run-foreign {}
tools/api {}
tools/bad-input {}
tools/defined-twice {}
tools/helps {}
tools/lengths {}
mutants/applies {}
mutants/by-promise {}
mutants/changed {}
mutants/compiles {}
mutants/list {}
mutants/row-readers {}
mutants/run {}
mutants/run --since {}
mutants/together {}
"""
# Commands with words that they don't take, or without some that they need.
WRONG_WORDS = """
reference-model/replay {index}
reference-model/replay --self-test 1
reference-model/replay {table} {certificate}
bench/debian/agree 1
bench/debian/convert
bench/debian/convert {packages}
bench/debian/convert {packages} other
bench/debian/convert {packages} dash=2
bench/debian/convert --dimacs {packages} dash dash
bench/debian/convert --back {table} {packages}
bench/debian/convert --table {directory} {packages} dash
bench/debian/judge
bench/debian/run --draw -1 /bin/true
bench/debian/run --packages {packages} --request dash=2 /bin/true
bench/debian/run --seconds dash /bin/true
mutants/changed
mutants/run --since
mutants/without-quick-answers
mutants/write-edits
mutants/write-edits picking/other
tools/embed
tools/embed {binary}
tools/embed {missing} 7th
tools/embed {missing} picking
tools/embed --store
tools/embed --picking --store {missing}
tools/release
"""
# Words that no script takes.
NO_WORDS = ("--nonsense", "a b c d e f")
# Commands that read standard input, which is bad.
READS = """
reference-model/answer
bench/debian/convert --back {table}
bench/debian/judge {packages}
"""
FILES = ("missing", "directory", "binary")
TEXTS = {
    "answer": "request:dash:\ndash 2\n",
    "packages": "Package: dash\nVersion: 1\nArchitecture: all\n",
    "table": "request dash\ndash 1 dash 1\n",
    "index": "request needs a 1..2\n",
    "certificate": "c certificate 1 6\np cnf 0 1\nc because request needs a 1..2\n0\nc learnt 1\n0\n",
    "noise": "#!/bin/sh\nexec cat \"$(dirname \"$0\")/binary\"\n",
}
# As in most places: what isn't UTF-8 is no text.
STRICT = {**os.environ, "PYTHONIOENCODING": "utf-8:strict"}


def bad_files(room):
    """The files, by what they are: `program` is none though its mode says so, `noise` writes no text, and `cat`
    answers what it is given."""
    files = {name: room / name for name in (*FILES, *TEXTS, "program")}
    files["directory"].mkdir()
    for name in ("binary", "program"):
        files[name].write_bytes(random.Random(2).randbytes(1 << 16))
    for name, text in TEXTS.items():
        files[name].write_text(text)
    for name in ("program", "noise"):
        files[name].chmod(0o755)
    return files | {"cat": pathlib.Path(shutil.which("cat"))}


def all_scripts(top):
    """Each script of the repository."""
    files = (file for folder in FOLDERS for file in sorted((top / folder).iterdir()))
    return [file for file in files if file.is_file() and os.access(file, os.X_OK)]


def commands(top):
    """Each command, with what it is given there, and whether that is its standard input."""
    for script in all_scripts(top):
        yield from ((f"{script.relative_to(top)} {words}", "answer", False) for words in NO_WORDS)
    for lines, kinds in (
        (WRONG_WORDS, ("answer",)),
        (NAMES_FILE, FILES),
        (NAMES_PROGRAM, (*FILES, "program", "noise", "cat")),
        (MEASURES_PROGRAM, (*FILES, "program")),
        (NAMES_NOTHING, ("missing",)),
        (READS, ("binary",)),
    ):
        for line in lines.strip().splitlines():
            for kind in kinds:
                yield line, kind, lines is READS


def script_runs(top, room, text):
    """What each script makes of each bad file, if its name has this text."""
    place = room / "files"
    place.mkdir()
    files = bad_files(place)
    for line, kind, is_input in commands(top):
        if text in f"{line}: {kind}":
            yield script_run(top, files, line, kind, is_input)
    shutil.rmtree(place)


def script_run(top, files, line, kind, is_input):
    script, *words = line.format(files[kind], **files).split(" ")
    place, begun = files["answer"].parent, seconds()
    before = sorted(place.iterdir())
    with open(files[kind if is_input else "answer"], "rb") as standard:
        options = {"stdin": standard, "capture_output": True, "cwd": place, "timeout": 10 * LIMIT, "env": STRICT}
        try:
            run = subprocess.run([top / script, *words], **options)
        except subprocess.TimeoutExpired as late:
            run = subprocess.CompletedProcess(late.args, -9, late.stdout or b"", late.stderr or b"")
    numbers = run.returncode, seconds() - begun, 0.0, 0
    found = Run("scripts", f"{line}: {kind}", *numbers, run.stdout, run.stderr, list(faults(run)))
    found.faults += ["it leaves a file"] * (sorted(place.iterdir()) != before)
    return found


def seconds():
    """The processor time of all scripts so far."""
    used = resource.getrusage(resource.RUSAGE_CHILDREN)
    return used.ru_utime + used.ru_stime


def faults(run):
    """What is wrong with the end of a script."""
    if run.returncode < 0:
        yield f"ended by signal {-run.returncode}"
    if run.returncode == 0:
        yield "status 0, and something is wrong"
    if PANICS.search(run.stdout + run.stderr):
        yield "a traceback: " + run.stderr.strip().splitlines()[-1].decode("latin-1")[:80]
    if not (run.stdout + run.stderr).strip():
        yield "it says nothing"
