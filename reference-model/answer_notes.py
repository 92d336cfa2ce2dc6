"""Says of each line of an answer of pick_versions whether it is so."""
import math

from best import better_than, spare, unneeded, wishes_of
from indexes import has, holds, is_among, is_met, need_text, said, span_text
from judging import UP_TO, listed, version_in
from reasons import is_enough, spare_ones, unsaid

# Limits of what is tried: of the versions of an index, and of their choices and the ways to meet a condition.
VERSIONS, CHOICES = 64, 2**17


def judge(notes, listing, answer):
    """Judges an answer line by line, and as a whole."""
    lines = answer.splitlines() or [""]
    if listing.faults or lines[0].endswith(" unreadable"):
        told = f"line {listing.faults[0].number} unreadable" if listing.faults else "no line is unreadable"
        is_so = lines == [told]
        notes.add(f"    {lines[0]}: {'so' if is_so else f'wrong: {told}'}", is_so)
    elif lines[-1].startswith("gave up:"):
        notes.add(f"    {lines[-1]}: the search gave up, so there is nothing to judge")
    elif lines[0] != "request:":
        notes.add(f"    {lines[0]}: wrong: an answer begins with `request:`", False)
    elif lines[1:2] == ["none"]:
        judge_none(notes, listing, lines[2:])
    else:
        Picked(notes, listing, lines[1:]).judge()


def too_large(index):
    """Why not all choices of an index are tried; none if they are."""
    if len(index.asks) > VERSIONS:
        return f"the index is too large, with {len(index.asks)} versions of at most {VERSIONS}"
    choices = math.prod(1 + sum(map(index.is_allowed, index.of_name(name))) for name in index.versions)
    lists = [spans for *_, condition in index.all_needs() for spans in condition or ()]
    ways = (math.prod(len(index.among([span])) for span in spans) for spans in lists)
    for count, what in ((choices, "choices"), (max(ways, default=0), "ways to meet a condition")):
        if count > CHOICES:
            return f"the index is too large, with {count} {what} of at most {CHOICES}"
    return None


def judge_none(notes, listing, reasons):
    """Judges that there is no solution, and the reasons."""
    index, obstacle = listing.index(), too_large(listing.index())
    solution = next(iter([] if obstacle else index.solutions()), None)
    verdict = "so: no choice is a solution" if solution is None else f"wrong: a solution is {listed(solution)}"
    notes.add(f"    none: {f'not tried: {obstacle}' if obstacle else verdict}", solution is None)
    wrong = unsaid(index, reasons)
    are_enough = not obstacle and is_enough(index, reasons)
    spare_lines = spare_ones(index, reasons) if are_enough and not wrong else []
    for line in reasons:
        if line in wrong:
            notes.add(f"    {line}: wrong: the index says no such thing", False)
        elif line in spare_lines:
            notes.add(f"    {line}: wrong: it is spare{place_of(listing, line)}: the others are enough", False)
        else:
            notes.add(f"    {line}: so{place_of(listing, line)}")
    if obstacle:
        notes.add("whether the reasons are enough isn't tried")
    else:
        verdict = "are enough: no choice meets them all" if are_enough else "aren't enough"
        notes.add(f"the reasons {verdict}", are_enough)


def place_of(listing, line):
    """The number of the line that says a reason, in brackets; nothing if no line of its own says it."""
    words = line.split(" ")
    who = None if words[0] == "request" else version_in(" ".join(words[:2]), listing.kind)
    return f" (line {listing.numbers[who]})" if who or words[0] == "request" else ""


class Picked:
    """The versions that an answer picks."""

    def __init__(self, notes, listing, lines):
        self.notes, self.listing, self.index = notes, listing, listing.index()
        self.up_to = UP_TO.fullmatch(lines[-1]) if lines else None
        self.lines = lines[:-1] if self.up_to else lines
        self.versions = [version_in(line, self.index.kind) for line in self.lines]
        self.picked = dict(version for version in self.versions if version in self.index.asks)
        self.is_solution = len(self.picked) == len(self.lines) and self.index.is_solution(self.picked)
        self.unneeded = unneeded(self.index, self.picked)
        self.spare = [*spare(self.index, self.picked)] if self.is_solution else []

    def judge(self):
        faults = self.unmet(None, self.index.wanted)
        self.tell("request", faults, "")
        for line, version in zip(self.lines, self.versions):
            faults = [*self.faults_of(version)]
            self.tell(line, faults, "" if faults else f" so: {self.who_needs(version)}")
        if self.up_to:
            self.judge_count()
        if self.is_solution:
            self.notes.add("it is a solution")
            self.judge_best()
        else:
            self.notes.add("it is no solution", False)
        if not self.unneeded and self.is_solution and not self.spare:
            self.notes.add("each version is needed, and none is spare")

    def tell(self, line, faults, verdict):
        told = f" wrong: {'; '.join(faults)}" if faults else verdict
        self.notes.add(f"    {line}:{told}", not faults)

    def faults_of(self, version):
        """What is wrong with a version."""
        if version not in self.index.asks:
            yield "the index has no such version" if version else "it is no version"
            return
        name, locked = version[0], self.index.locked.get(version[0], version)
        if sum(it is not None and it[0] == name for it in self.versions) > 1:
            yield f"more than one line has a version of {name}"
        for word in ("excluded", "unknown"):
            if version in self.index.marked[word]:
                yield f"it is {word}{self.at(version)}: {self.listing.whys[version]}"
        if locked != version:
            yield f"{said(locked)} is locked{self.at(locked)}"
        needs, limits = self.index.asks[version]
        yield from self.unmet(version, needs)
        for limit in limits:
            if limit[0] in self.picked and not has(self.picked, limit):
                other = limit[0], self.picked[limit[0]]
                yield f"it limits {span_text(limit)}{self.at(version)}, and {said(other)} is picked"
        if version in self.unneeded:
            yield "nothing that is needed needs it"
        elif version in self.spare:
            yield "it is spare: what is left without it is a solution as good"

    def unmet(self, parent, needs):
        """The needs that aren't met."""
        unmet = [need_text(need) for need in needs if not is_met(self.picked, *need)]
        return [f"it {text}{self.at(parent)}, and no such version is picked" for text in unmet]

    def who_needs(self, version):
        """A need that the version meets, of the request or of what is needed itself."""
        parents = {None: self.index.wanted}
        parents |= {it: self.index.asks[it][0] for it in self.picked.items() if it not in self.unneeded}
        needs = ((parent, need) for parent, needs in parents.items() for need in needs)
        for parent, (spans, condition) in needs:
            if is_among(version, spans) and (not condition or holds(self.picked, condition)):
                return f"{said(parent)} {need_text((spans, condition))}{self.at(parent)}"

    def at(self, version):
        return f" (line {self.listing.numbers[version]})"

    def judge_count(self):
        """Judges the numbers of a line that tells by how many wishes the answer is the best."""
        count, of = map(int, self.up_to.groups())
        wishes = len([*wishes_of(self.index)])
        is_so = count <= of == wishes
        self.notes.add(f"    {self.up_to[0]}:{'' if is_so else ' wrong:'} the wishes are {wishes}", is_so)

    def judge_best(self):
        """Judges whether a solution is the best one, by the wishes of which the answer tells."""
        obstacle = too_large(self.index)
        if obstacle:
            self.notes.add(f"whether it is the best one isn't tried: {obstacle}")
            return
        better = better_than(self.index, self.picked, int(self.up_to[1]) if self.up_to else None)
        by_these = " by these wishes" if self.up_to else ""
        verdict = f"is the best one{by_these}" if better is None else f"isn't the best one: {listed(better)} is better"
        self.notes.add(f"it {verdict}", better is None)
