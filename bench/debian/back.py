"""What pick_versions says of an index, in Debian's names and versions."""
import re

from archive import Fault
from index import word

SET = re.compile(r"(\S+) (\d+)\.\.(\d+)")
ENDING = ", and there is none"


class Table:
    """What the names and ranks of indexes stand for: the versions of each name of an index, by rank."""

    def __init__(self, solvables):
        self.versions = {}
        for name, rank, text in solvables:
            self.versions.setdefault(name, {})[int(rank)] = text

    @staticmethod
    def of_index(index):
        return Table((word(it.name), it.rank, str(it)) for it in index.solvables)

    def line(self, text):
        """A line of an answer: a version that is picked, a reason, or anything else, which stays as it is."""
        words = text.split(" ")
        if words[:2] == ["one", "version"]:
            return f"one version of {name_of(words[-1])}"
        parent, rest = ("request", words[1:]) if words[0] == "request" else (self.solvable(words[:2]), words[2:])
        if not parent:
            return text
        kind, said = rest[0] if rest else "", " ".join(rest[1:])
        if kind == "limits" and (limit := SET.fullmatch(said)):
            return f"{parent} conflicts with {' and '.join(self.outside(*limit.groups())) or said}"
        if kind == "needs" and SET.match(said):
            return self.need(parent, said)
        return " ".join([parent, *rest])

    def need(self, parent, said):
        """A need. One of nothing under a condition is a conflict with what the condition names."""
        union, under, condition = said.removesuffix(ENDING).partition(" if ")
        sets = [SET.fullmatch(it) for it in union.split(" | ")]
        found = [it for one in sets if one for it in self.within(*one.groups())]
        if under and not found and (one := SET.fullmatch(condition)):
            return f"{parent} conflicts with {' and '.join(self.within(*one.groups())) or condition}"
        nothing = " | ".join(name_of(one[1]) for one in sets if one) + ENDING
        return f"{parent} needs {' | '.join(found) or nothing}{under}{condition}"

    def solvable(self, words):
        name, rank = words if len(words) == 2 else ("", "")
        return self.versions.get(name, {}).get(int(rank)) if rank.isdecimal() else None

    def within(self, name, low, high):
        """The versions of a set, the newest first."""
        ranks = sorted(self.versions.get(name, {}), reverse=True)
        return [self.versions[name][rank] for rank in ranks if int(low) <= rank < int(high)]

    def outside(self, name, low, high):
        held = self.within(name, low, high)
        return [text for text in self.within(name, 0, 1 << 32) if text not in held]


def name_of(word):
    """The package's name that a word of an index stands for."""
    try:
        return bytes.fromhex(word[1:]).decode() if word.startswith("%") else word
    except ValueError:
        return word


def restored(lines, answers):
    """Answers with what a table's lines stand for, and each request with its names."""
    entries = [line.split(" ", 2) for line in lines]
    requests = [entry[1] for entry in entries if len(entry) == 2]
    solvables = [entry for entry in entries if len(entry) == 3 and entry[1].isdecimal()]
    if not requests or len(requests) + len(solvables) < len(entries):
        raise Fault("it is no table that --table writes")
    if len(answers) != len(requests):
        raise Fault(f"it has {len(requests)} requests, and there are {len(answers)} answers")
    table = Table(solvables)
    for request, answer in zip(requests, answers):
        heading, *rest = answer.splitlines() or [""]
        yield "\n".join([f"request:{request}:" if heading == "request:" else heading, *map(table.line, rest)])
