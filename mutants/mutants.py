"""The mutants of this folder: which there are, what each breaks, and what it replaces."""
import pathlib
import subprocess
import sys

HERE = pathlib.Path(__file__).resolve().parent


class Mutant:
    """An edit of a crate that the prover has to refuse: the promises that it breaks, and the texts that it replaces, in
    order, each with its file and with what replaces it. Lines that aren't in the format are strange.
    """

    def __init__(self, crate, name):
        self.crate, self.name = crate, name
        self.promises, self.pairs, self.strange = [], [], []

    def __str__(self):
        return f"{self.crate}/{self.name}"


def read(crate, text):
    """The mutants of a file, whose first line names the source file, and each of which has a heading."""
    source, file, old, found = None, None, None, []
    for line in text.splitlines():
        word, _, rest = line.partition(" ")
        if word == "#":
            source = rest
        elif word == "##":
            found.append(Mutant(crate, rest))
            file, old = source, None
        elif line and found:
            mutant = found[-1]
            if word == "promise:":
                mutant.promises.append(rest)
            elif word == "file:":
                file = rest
            elif word == "old:":
                old = rest
            elif word == "new:" and old:
                mutant.pairs.append((file, old, rest))
            else:
                mutant.strange.append(line)
    return found


def files(crate):
    return sorted((HERE / crate).glob("**/*.mutants"))


def ran(main, about):
    """Calls a script's main with the words of the command line, and answers its exit status. With --help it prints what
    the script is about instead. What can't be done is told in a sentence.
    """
    words = sys.argv[1:]
    if {"-h", "--help"} & {*words}:
        print(about.strip())
        return 0
    for word in words:
        if word.startswith("-"):
            return f"{word} is no option: --help tells the usage"
    try:
        return main(words)
    except OSError as fault:
        if fault.filename is None:
            raise
        return f"{fault.filename}: {fault.strerror}"
    except subprocess.CalledProcessError as fault:
        return f"{fault.cmd[0]} ended with status {fault.returncode}"


def wanted(names):
    """The mutants of these crates, or of all. Ends where a crate has none."""
    for name in names:
        if not files(name):
            sys.exit(f"mutants/{name} has no mutants")
    names = names or sorted(it.name for it in HERE.iterdir() if files(it.name))
    return [mutant for name in names for file in files(name) for mutant in read(name, file.read_text())]
