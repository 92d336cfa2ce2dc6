"""Reads certificates (docs/CERTIFICATES.md), and says why one doesn't show that its index has no solution."""
import re
from dataclasses import dataclass, field

from index_reading import listings
from indexes import said
from reading import Unreadable

HEAD = "c certificate "
NUMBER = re.compile("-?[1-9][0-9]{0,8}")
NONE_THERE = ", and there is none"
# For each word that forbids a version how a reason says that.
FORBIDDEN = {"excluded": "{} is excluded", "unknown": "what {} needs is unknown"}


class Refused(Exception):
    """Why a certificate is refused, in a sentence."""


@dataclass
class Certificate:
    """A certificate of the index whose request is in the line `first`. A clause is a list of literals, of which one is
    true: a variable's number, or less than 0 if it is false.
    """

    first: int
    variables: list = field(default_factory=list)  # the words that say what each stands for
    clauses: list = field(default_factory=list)  # the line, the reason or none, and the literals of each
    steps: list = field(default_factory=list)  # the line, the literals, and whether the clause is dropped, not learnt

    def learnt(self):
        """How many clauses are learnt."""
        return sum(not is_dropped for _, _, is_dropped in self.steps)


class Lines:
    """The lines of a file of certificates, and how many were read."""

    def __init__(self, text):
        self.lines, self.number = text.splitlines(), 0

    def next(self):
        """The next line; none at the end."""
        return self.lines[self.number] if self.number < len(self.lines) else None

    def take(self, head, wanted):
        """What is behind the head, with which the next line has to begin."""
        line = self.next()
        if line is None or not line.startswith(head):
            there = "the file ends" if line is None else f"there is `{line[:60]}`"
            raise Refused(f"line {self.number + 1}: expected {wanted}, and {there}")
        self.number += 1
        return line.removeprefix(head)

    def count(self, head, wanted, pieces=1):
        """The numbers behind the head."""
        words = self.take(head, wanted).split()
        if len(words) != pieces or not all(word.isdecimal() and len(word) < 10 for word in words):
            raise Refused(f"line {self.number}: expected {wanted}")
        return [int(word) for word in words]

    def clause(self, variables, head=""):
        """The literals of the next line, behind the head."""
        *words, end = self.take(head, "a clause").split() or [""]
        literals = [int(word) for word in words if NUMBER.fullmatch(word) and abs(int(word)) <= variables]
        if end != "0" or len(literals) < len(words):
            raise Refused(f"line {self.number}: expected literals of the variables 1 to {variables}, and a 0")
        return literals


def certificates(text):
    """The certificates of a file."""
    lines = Lines(text)
    while lines.next() is not None or not lines.number:
        yield read(lines)


def read(lines):
    """The next certificate."""
    begin = lines.number
    first, count = lines.count(HEAD, f"`{HEAD}LINE LINES`", 2)
    certificate = Certificate(first)
    while (lines.next() or "").startswith("c var "):
        number, _, words = lines.take("c var ", "").partition(" ")
        certificate.variables.append(words)
        if number != str(len(certificate.variables)):
            raise Refused(f"line {lines.number}: variable {number} comes where {len(certificate.variables)} should")
    variables, clauses = lines.count("p cnf ", "`p cnf VARIABLES CLAUSES`", 2)
    if variables != len(certificate.variables):
        raise Refused(f"line {lines.number}: {len(certificate.variables)} variables are named, not {variables}")
    while not (lines.next() or "c learnt").startswith("c learnt"):
        read_block(lines, certificate)
    if clauses != len(certificate.clauses):
        raise Refused(f"line {lines.number}: {len(certificate.clauses)} clauses end here, not {clauses}")
    for _ in range(*lines.count("c learnt ", "`c because REASON`, `c by definition` or `c learnt COUNT`")):
        is_dropped = (lines.next() or "").startswith("d ")
        certificate.steps.append((lines.number + 1, lines.clause(variables, "d " * is_dropped), is_dropped))
    if not certificate.steps or certificate.steps[-1][1:] != ([], False):
        raise Refused(f"line {lines.number}: expected the empty clause `0` at the end")
    if lines.number - begin != count:
        raise Refused(f"line {begin + 1}: the certificate has {lines.number - begin} lines, not {count}")
    return certificate


def read_block(lines, certificate):
    """Reads what says something, and the clauses that follow from it."""
    reason = None
    if lines.next() == "c by definition":
        lines.take("", "")
    else:
        reason = lines.take("c because ", "`c because REASON`, `c by definition` or `c learnt COUNT`")
    begun = len(certificate.clauses)
    while not (lines.next() or "c").startswith("c"):
        certificate.clauses.append((lines.number + 1, reason, lines.clause(len(certificate.variables))))
    if begun == len(certificate.clauses):
        raise Refused(f"line {lines.number + 1}: expected a clause")


class Sayings:
    """What an index says: for each reason, in its words, tests of whether values contradict it. The values are a list
    of sets of versions, of each of which one is picked, and a set of versions that aren't picked.
    """

    def __init__(self, index):
        self.index, self.tests = index, {}
        for line, parent, spans, condition in index.all_needs():
            self.add(line, self.contradicts_need, parent, spans, condition)
        for line, parent, limit in index.all_limits():
            self.add(line, self.contradicts_limit, parent, limit)
        for word, words in FORBIDDEN.items():
            for version in index.marked[word]:
                self.add(words.format(said(version)), lambda trues, _, it: is_sure(trues, {it}), version)
        for name, locked in index.locked.items():
            others = set(index.of_name(name)) - {locked}
            self.add(f"{said(locked)} is locked", lambda trues, _, others: is_sure(trues, others), others)
        for name in index.versions:
            self.add(f"one version of {name}", has_two, set(index.of_name(name)))

    def add(self, reason, test, *values):
        self.tests.setdefault(reason, []).append((test, values))

    def contradicts(self, reason, trues, falses):
        """Whether the values contradict what these words say."""
        return any(test(trues, falses, *values) for test, values in self.tests.get(reason, ()))

    def contradicts_need(self, trues, falses, parent, spans, condition):
        holds = not condition or any(
            all(is_sure(trues, set(self.index.among([span]))) for span in spans) for spans in condition
        )
        is_needed = parent is None or is_sure(trues, {parent})
        return holds and is_needed and falses.issuperset(self.index.among(spans))

    def contradicts_limit(self, trues, _, parent, limit):
        outside = set(self.index.of_name(limit[0])) - set(self.index.among([limit]))
        return is_sure(trues, {parent}) and is_sure(trues, outside)


def is_sure(trues, versions):
    """Whether one of the versions has to be picked."""
    return any(true <= versions for true in trues)


def has_two(trues, _, versions):
    """Whether two of the versions have to be picked."""
    of_these = [true for true in trues if true <= versions]
    return any(not one & other for one in of_these for other in of_these)


class Meanings:
    """What the variables of a certificate stand for: sets of versions, of which one is picked."""

    def __init__(self, certificate, index):
        self.index = index
        self.sets = [None, *(frozenset(self.meaning(words, at)) for at, words in enumerate(certificate.variables, 1))]

    def meaning(self, words, variable):
        """The versions that make a variable true."""
        try:
            name, _, rest = words.partition(" ")
            low, dots, high = rest.partition("..")
            if dots:
                return self.index.among([(name, self.value(low), self.value(high))])
            version = name, self.value(rest)
            if version in self.index.asks:
                return [version]
        except Unreadable:
            pass
        raise Refused(f"variable {variable}: `{words}` is no version that has a line, and no `NAME LOW..HIGH`")

    def value(self, word):
        return self.index.kind.read(word, "version")

    def opposite(self, literals):
        """What is so if no literal is true: a list of sets of versions, of each of which one is picked, and a set of
        versions that aren't picked.
        """
        trues = [self.sets[-literal] for literal in literals if literal < 0]
        return trues, {version for literal in literals if literal > 0 for version in self.sets[literal]}


def fault_of_clause(sayings, meanings, reason, literals):
    """Why a clause doesn't follow from what the index says, or from what its variables mean; none if it does."""
    trues, falses = meanings.opposite(literals)
    if any(true <= falses for true in trues):
        return None
    if reason is None:
        return "it doesn't follow from what its variables stand for"
    reason = reason.removesuffix(NONE_THERE)
    if reason not in sayings.tests:
        return f"the index doesn't say: {reason}"
    return None if sayings.contradicts(reason, trues, falses) else f"it doesn't follow from: {reason}"


class Propagation:
    """Clauses, and what follows from them by unit propagation. Each clause watches two literals that aren't false. One
    that is dropped has no literals; what followed from it stays.
    """

    def __init__(self, variables):
        self.values, self.trail, self.watching, self.clauses = [0] * (variables + 1), [], {}, {}
        self.is_refuted = False  # without any assumption

    def value(self, literal):
        """1 if it is true, -1 if it is false, 0 if it isn't known."""
        return self.values[literal] if literal > 0 else -self.values[-literal]

    def add(self, literals):
        """Adds a clause, and what follows from it."""
        clause = sorted(dict.fromkeys(literals), key=lambda it: self.value(it) < 0)
        free = [literal for literal in clause if self.value(literal) >= 0]
        if len(free) > 1:
            self.clauses.setdefault(frozenset(clause), []).append(clause)
            for literal in clause[:2]:
                self.watching.setdefault(literal, []).append(clause)
        if not free:
            self.is_refuted = True
        elif len(free) == 1 and self.value(free[0]) == 0:
            self.is_refuted |= self.fails(free)

    def drop(self, literals):
        """Drops a clause, if there is one of these literals that something may still follow from."""
        for clause in self.clauses.get(frozenset(literals), [])[-1:]:
            self.clauses[frozenset(literals)].pop()
            clause.clear()

    def follows(self, literals):
        """Whether propagation finds a contradiction if all of these are false."""
        before = len(self.trail)
        found = self.is_refuted or any(self.value(it) > 0 for it in literals) or self.fails([-it for it in literals])
        for literal in self.trail[before:]:
            self.values[abs(literal)] = 0
        del self.trail[before:]
        return found

    def fails(self, literals):
        """Makes these true, and what follows; says whether that is a contradiction."""
        done = len(self.trail)
        if not all(map(self.makes_true, literals)):
            return True
        while done < len(self.trail):
            if self.visits_fail(-self.trail[done]):
                return True
            done += 1
        return False

    def makes_true(self, literal):
        if self.value(literal) == 0:
            self.values[abs(literal)] = 1 if literal > 0 else -1
            self.trail.append(literal)
        return self.value(literal) > 0

    def visits_fail(self, false):
        """Visits the clauses that watch a literal that became false; says whether one of them has no literal left."""
        clauses, kept = self.watching.get(false, []), []
        self.watching[false] = kept
        for place, clause in enumerate(clauses):
            if not clause:
                continue
            other = clause[1] if clause[0] == false else clause[0]
            spare = next((at for at in range(2, len(clause)) if self.value(clause[at]) >= 0), None)
            if self.value(other) <= 0 and spare is not None:
                clause[0], clause[1], clause[spare] = other, clause[spare], false
                self.watching.setdefault(clause[1], []).append(clause)
                continue
            kept.append(clause)
            if not self.makes_true(other):
                kept += clauses[place + 1 :]
                return True
        return False


def check(text, certificate):
    """Refuses a certificate that doesn't show that its index, which is in a text of bytes, has no solution."""
    listing = next((it for it in listings(text) if it.first == certificate.first), None)
    if listing is None or None not in listing.numbers:
        raise Refused(f"the text has no request in line {certificate.first}")
    if listing.faults:
        raise Refused(f"line {listing.faults[0].number} of the index isn't in the format: {listing.faults[0].why}")
    index = listing.index()
    sayings, meanings = Sayings(index), Meanings(certificate, index)
    propagation = Propagation(len(certificate.variables))
    for number, reason, literals in certificate.clauses:
        if fault := fault_of_clause(sayings, meanings, reason, literals):
            raise Refused(f"line {number}: {fault}")
        propagation.add(literals)
    for number, literals, is_dropped in certificate.steps:
        if is_dropped:
            propagation.drop(literals)
        elif propagation.follows(literals):
            propagation.add(literals)
        else:
            raise Refused(f"line {number}: the clause doesn't follow by unit propagation from those before it")
