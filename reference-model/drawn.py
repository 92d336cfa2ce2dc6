"""Lists of commands that a recurrence draws, each over small packages of its own.

They mostly name what is there, with ids, levels and fractions a bit outside now and then, and are weighted so that
decisions come about. A list follows from its number alone.
"""
import collections

from store import MOST, Packages, Store

COMMANDS = 60


class Recurrence:
    """A linear congruential recurrence of 64 bits, of which the upper ones are used."""

    def __init__(self, number):
        self.state = number * 0x9E3779B97F4A7C15 % 2**64
        self.below(1)

    def below(self, limit):
        """The next number below this one; 0 where there is none."""
        self.state = (self.state * 6364136223846793005 + 1442695040888963407) % 2**64
        return (self.state >> 33) % limit if limit else 0

    def happens(self, times):
        """Whether something happens that happens so often in a hundred times."""
        return self.below(100) < times

    def id(self, count):
        """The number of one of so many, or now and then one that is a bit beyond."""
        return count + self.below(2) if self.happens(3) else self.below(count)

    def one_of(self, things):
        return things[self.below(len(things))]


def catalogue(recurrence):
    """Two or three packages of three to five versions each, up to six version sets, two unions, conditions and a
    string. A version set may be empty, or of a package that has no version. Names are numbers, which are those that
    they get."""
    names, versions = recurrence.below(2) + 2, recurrence.below(3) + 3
    favored = recurrence.below(names * versions * 2)
    for name in range(names):
        listed = [f"{version}{'*' * (name * versions + version == favored)}" for version in range(versions)]
        yield f"package {name} {' '.join(listed)}"
    ranges = []
    for _ in range(6):
        name = names if recurrence.happens(5) else recurrence.below(names)
        low = recurrence.below(versions)
        span = 0 if recurrence.happens(10) else recurrence.below(3) + 1
        if (name, low, low + span) not in ranges:
            ranges.append((name, low, low + span))
    for name, low, high in ranges:
        yield f"set {name} {low} {high}"
    for count in (2, 3):
        yield f"union {' '.join(str(recurrence.below(len(ranges))) for _ in range(count))}"
    for number in range(len(ranges)):
        yield f"condition set {number}"
    yield "string x"


class List:
    """A drawn list: the lines of its catalogue, its commands, and what the reference model answers."""

    def set_out(self, name, draw, catalogue):
        """Keeps the catalogue that is drawn, and makes the reference model over it."""
        self.number, self.draw, self.catalogue = name, draw, list(catalogue)
        self.packages = Packages()
        for line in self.catalogue:
            kind, *words = line.split()
            self.packages.add(kind, words)
        self.store = Store(self.packages)

    def __init__(self, number):
        draw = Recurrence(number)
        self.set_out(number, draw, catalogue(draw))
        self.commands, self.answers, self.picks = [], [], []
        # how often in a hundred times a requires clause is the root's; in some lists none is meant to be
        self.of_root = self.draw.one_of([0, 30, 60])
        if self.draw.happens(70):
            self.begin()
        for _ in range(COMMANDS):
            self.give(self.command())
        if self.draw.happens(40):
            self.meet_together()

    def give(self, line):
        if line == "decide":
            self.picks += pick_kinds(self.store)
        self.answers.append(self.store.obey(line))
        self.commands.append(line)

    def begin(self):
        """The root is true, a helper variable 1 false and another 2 true, and a disjunction is met. Then version sets
        are loaded and required, packages get scores, and a decision is asked for."""
        helpers = "helper any-of 0;assign 1 false 0 2;helper any-of 1;assign 2 true 0 2"
        for line in f"root;assign 0 true 0 1;{helpers};disjunction 0 +1".split(";"):
            self.give(line)
        self.give(self.standard())
        for _ in range(self.draw.below(4) + 1):
            number = self.draw.below(len(self.packages.sets))
            parent = 0 if self.draw.happens(self.of_root) else 2
            self.give(f"load s{number}")
            self.give(f"requires {parent} s{number}{' 0' * self.draw.happens(30)}")
            self.give(f"bump {self.name()} {self.draw.below(4)}")
        self.give("decide")

    def meet_together(self):
        """A disjunction of nine to eleven literals of up to three variables, and a clause or two under it, where there
        may be some. Their variables become false together, and a decision is asked for, and another one where they are
        taken back."""
        trail, loaded = self.store.trail, list(self.store.loaded)
        decided = [variable for variable, *_ in trail]
        parents = [variable for variable, is_true, *_ in trail if is_true]
        free = [variable for variable in range(len(self.store.origins)) if variable not in decided]
        if not (parents and free and loaded):
            return
        variables = [self.draw.one_of(free) for _ in range(3)]
        literals = " ".join(f"+{self.draw.one_of(variables)}" for _ in range(9 + self.draw.below(3)))
        self.give(f"disjunction 0 {literals}")
        condition, level = len(self.store.disjunctions) - 1, trail[-1][3]
        for _ in range(self.draw.below(2) + 1):
            self.give(f"requires {self.draw.one_of(parents)} {self.draw.one_of(loaded)} {condition}")
        for variable in sorted(set(variables)):
            self.give(f"assign {variable} false 0 {level}")
        self.give("decide")
        for _ in set(variables):
            self.give("undo-last")
        self.give("decide")

    def trial(self, ways=""):
        """The lines of the list as a trial."""
        return [f"trial {self.number}{ways}", *self.catalogue, "begin", *self.commands]

    def told(self, ways=""):
        """The lines that are told of it: the answers, the literals of all clauses, the next decision, and how often
        the provider was asked for candidates, and whether to stop: once for each package of what was loaded."""
        decision = self.store.decide()
        literals = ["".join(map(written, clause)) for clause in self.store.clauses]
        sets = [number for requirement in self.store.loaded for number in self.packages.sets_of(requirement)]
        count = len({self.packages.sets[number][0] for number in sets})
        return [
            f"trial {self.number}{ways}",
            *self.answers,
            " ".join(["literals", *literals]),
            f"next {decision if decision.startswith('decided') else 'no decision'}",
            f"asked {count} {count}",
        ]

    def command(self):
        at, draw = self.draw.below(100), self.draw
        for end, line in (
            (12, lambda: f"load {self.requirement()}"),
            (27, self.requires),
            (45, self.assign),
            (60, lambda: "decide"),
            (64, lambda: f"undo-until {self.level()}"),
            (67, lambda: "undo-last"),
            (70, lambda: "unpropagated"),
            (75, lambda: f"at-most-once {self.name()} {self.variable()}"),
            (80, lambda: f"bump {self.name()} {self.amount()}"),
            (82, lambda: f"decay {self.amount()} {self.amount()}"),
            (83, self.standard),
            (88, self.rewatch),
            (91, lambda: f"watchers {self.literal()}"),
            (94, self.disjunction),
            (95, lambda: " ".join(["learnt"] + [self.literal() for _ in range(draw.below(5))])),
            (96, lambda: f"variable {draw.id(len(self.packages.solvables))}"),
            (97, self.helper),
            (100, self.seldom),
        ):
            if at < end:
                return line()

    def seldom(self):
        """A clause of one of the kinds that are drawn least."""
        first, second = self.variable(), self.variable()
        number = self.draw.id(len(self.packages.sets))
        return self.draw.one_of(
            [
                "root",
                f"constrains {first} {second} {number}",
                f"constrains-excluded {first} {second} {number}",
                f"constrains-parent {first} {second} {number}",
                f"lock {first} {second}",
                f"exclude {first} {self.draw.id(1)}",
                f"any-of {first} {second}",
            ]
        )

    def requires(self):
        parent = 0 if self.draw.happens(self.of_root) else self.variable()
        loaded = list(self.store.loaded)
        requirement = self.draw.one_of(loaded) if loaded and self.draw.happens(85) else self.requirement()
        count = len(self.store.disjunctions)
        condition = f" {self.draw.id(count)}" if self.draw.happens(50 if count else 3) else ""
        return f"requires {parent} {requirement}{condition}"

    def assign(self):
        value = "true" if self.draw.happens(60) else "false"
        return f"assign {self.variable()} {value} {self.clause()} {self.level()}"

    def rewatch(self):
        """Mostly moves a watch to a literal of its clause."""
        clause = self.clause()
        known = clause < len(self.store.clauses)
        watches = self.store.watches[clause] if known else None
        old = written(self.draw.one_of(watches)) if watches else self.literal()
        is_own = known and self.draw.happens(80)
        new = written(self.draw.one_of(self.store.clauses[clause])) if is_own else self.literal()
        return f"rewatch {clause} {old} {new}"

    def disjunction(self):
        """Up to two literals, mostly false ones, so that the condition is met."""
        words = [self.mostly_false() for _ in range(self.draw.below(3))]
        return " ".join(["disjunction", str(self.draw.id(len(self.packages.conditions)))] + words)

    def mostly_false(self):
        if self.store.trail and self.draw.happens(70):
            variable, value, *_ = self.draw.one_of(self.store.trail)
            return written((variable, not value))
        return self.literal()

    def helper(self):
        number = self.draw.id(len(self.packages.sets))
        return self.draw.one_of(
            [f"helper any-of {self.name()}", f"helper violation {number}", f"helper gate {self.requirement()}"]
        )

    def standard(self):
        return f"standard {'true' if self.draw.happens(50) else 'false'}"

    def requirement(self):
        if self.draw.happens(75):
            return f"s{self.draw.id(len(self.packages.sets))}"
        return f"u{self.draw.id(len(self.packages.unions))}"

    def name(self):
        return self.draw.below(len(self.packages.names))

    def variable(self):
        return self.draw.id(len(self.store.origins))

    def clause(self):
        return self.draw.id(len(self.store.clauses))

    def literal(self):
        return written((self.variable(), self.draw.happens(50)))

    def level(self):
        """Mostly a small one, now and then one at an end of the range, or outside it."""
        ends = {0: 0, 1: 2**31 - 1, 2: 2**31, 3: 2**32 - 1}
        at = self.draw.below(40)
        return ends[at] if at in ends else 1 + self.draw.below(5)

    def amount(self):
        """What is added to a score, or a part of a fraction."""
        at = self.draw.below(12)
        return {0: MOST, 1: MOST - self.draw.below(3), 2: 2**63}.get(at, self.draw.below(6))


def written(literal):
    variable, is_positive = literal
    return f"{'+' if is_positive else '-'}{variable}"


def pick_kinds(store):
    """What a decision shows of the rule, if one is made."""
    offers = [offer for state, offer in map(lambda one: store.state(*one), store.scan()) if state == "eligible"]
    told = store.decide().split()
    if told[0] == "decided":
        best = next(offer for offer in offers if str(offer[2]) == told[5])
        of_root = [offer for offer in offers if offer[1] == 0]
        first = (of_root or offers)[0]
        if best != first:
            yield f"decide: beats an earlier clause of {'the root' if of_root else 'another'}"
        if of_root and offers[0] != first:
            yield "decide: one of the root passes an earlier clause"
        if any(offer[3] > best[3] and offer[4] < best[4] for offer in offers):
            yield "decide: one of the root is kept"


def kinds(drawn):
    """What came in a list: of each command its answer, as far as it tells something of its own."""
    yield from drawn.picks
    for command, answer in zip(drawn.commands, drawn.answers):
        kind, told = command.split()[0], answer.split()
        if told[0] in ("refused", "tracked", "next", "undone"):
            told = told[:2] if told[0] in ("refused", "tracked") else [told[0], str(len(told))]
            yield f"{kind}: {' '.join(told)}"
        elif kind == "requires":
            condition = " under a condition" * (len(command.split()) > 3)
            yield f"requires{condition}: clause{' conflict' * (told[-1] == 'conflict')}"
        elif told[0] == "decided":
            score = {"0": "none", str(MOST): "the highest"}.get(told[7], "some")
            yield f"decide: of {'the root' if told[3] == '0' else 'another'}, score {score}"
        else:
            yield f"{kind}: {told[0]}{' conflict' * (told[-1] == 'conflict')}"


def counted(lists):
    return collections.Counter(kind for one in lists for kind in kinds(one))
