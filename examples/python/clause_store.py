"""Drives the proved clause store through a pipe: a command at a time, each answered before the next one is given.

    with ClauseStore(["package a 1 2", "set a 1 3"]) as store:
        store.ask("load s0")          # ["loaded", "1,2"]
        store.ask("requires 0 s0")    # ["clause", "0"]

docs/FORMAT.md has the lines of packages and commands, and the answers.
"""
import pathlib
import subprocess

CRATES = pathlib.Path(__file__).resolve().parents[2] / "crates"
PROGRAM = CRATES / "clause_store_dialog" / "out" / "clause_store_dialog"


class Refused(Exception):
    """The store can't obey the command, and is as it was; docs/BEHAVIOUR.md says what the number means."""

    def __init__(self, command, number):
        super().__init__(f"{command!r} is refused: {number}")
        self.number = number


class Ended(Exception):
    """The program ended: a line is unreadable, a read or a write failed, or memory ran out."""

    def __init__(self, line, reply, status):
        super().__init__(f"the program ended at {line!r} with status {status}: {reply or 'it says nothing'}")
        self.status = status


class ClauseStore:
    """A store over packages, which are the lines of a catalogue. It ends with the `with` block."""

    def __init__(self, packages, program=PROGRAM):
        pipe = subprocess.PIPE
        self._process = subprocess.Popen(
            [str(program)], stdin=pipe, stdout=pipe, encoding="ascii", errors="backslashreplace"
        )
        for line in (*packages, "begin"):
            self._give(line)

    def __enter__(self):
        return self

    def __exit__(self, *_raised):
        self.close()

    def ask(self, command):
        """The words of the answer."""
        if not command.strip() or command.lstrip().startswith("#"):
            raise ValueError(f"{command!r} is no command, so nothing answers it")
        self._give(command)
        reply = self._process.stdout.readline()
        words = reply.split()
        if not words or words[0] == "line":
            raise Ended(command, reply.strip(), self.close())
        if words[0] == "refused":
            raise Refused(command, int(words[1]))
        return words

    def number(self, command):
        """The number in the answer's second word, as of a new variable or clause."""
        return int(self.ask(command)[1])

    def close(self):
        """Lets the program end, and answers its exit status."""
        for pipe in (self._process.stdin, self._process.stdout):
            try:
                pipe.close()
            except BrokenPipeError:
                pass
        return self._process.wait()

    def _give(self, line):
        if "\n" in line:
            raise ValueError(f"{line!r} is more than one line")
        try:
            self._process.stdin.write(line + "\n")
            self._process.stdin.flush()
        except BrokenPipeError:
            raise Ended(line, self._process.stdout.readline().strip(), self.close()) from None
