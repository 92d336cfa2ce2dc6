"""Lists of commands that a recurrence draws for their decisions: nearly each second command asks for one.

What is drawn next depends on what was decided, so that parents are made true, candidates that were answered get values,
and conditions are mostly met. No command is one that a store refuses. A list follows from its number alone.
"""
import collections

from drawn import List, Recurrence, written
from store import MOST, Packages

DRAWS = 80
# How many packages have versions (one more name has none), and how many version sets and unions there are.
NAMES, SETS, UNIONS = 4, 8, 3
# How many helper variables there are. They are 1, 2 and so on, and are no candidates.
HELPERS = 3


def catalogue(draw):
    """Packages of two to five versions each, of which one may be favored; version sets that overlap, a few of them
    empty; unions of two or three version sets, which may name one of them twice."""
    favored = draw.below(40)
    count = 0
    for name in range(NAMES):
        words = []
        for version in range(draw.below(4) + 2):
            words.append(f"{version}{'*' * (count == favored)}")
            count += 1
        yield f"package {name} {' '.join(words)}"
    ranges = []
    while len(ranges) < SETS:
        name = NAMES if draw.happens(5) else draw.below(NAMES)
        low = draw.below(4)
        one = (name, low, low + draw.below(3) + 1)
        if one not in ranges:
            ranges.append(one)
    for name, low, high in ranges:
        yield f"set {name} {low} {high}"
    for _ in range(UNIONS):
        yield f"union {' '.join(str(draw.below(SETS)) for _ in range(draw.below(2) + 2))}"
    yield "condition set 0"


class Decisions(List):
    """A list with many decisions, and what they show of the rule."""

    def __init__(self, number):
        draw = Recurrence(number)
        self.set_out(f"of decisions {number}", draw, catalogue(draw))
        self.commands, self.answers, self.shown = [], [], collections.Counter()
        # how often in a hundred times a clause is the root's; in some lists none is meant to be
        self.of_root = self.draw.one_of([0, 20, 50])
        self.begin()
        for _ in range(DRAWS):
            self.give_one()

    def give(self, line):
        if line == "decide":
            self.shown.update(shown(self.store))
        self.answers.append(self.store.obey(line))
        self.commands.append(line)

    def begin(self):
        """Helper variables, and all version sets and unions are loaded. Two parents are true, and there are some
        clauses and scores."""
        for line in ["root"] + ["helper any-of 0"] * HELPERS:
            self.give(line)
        for number in range(SETS):
            self.give(f"load s{number}")
        for number in range(UNIONS):
            self.give(f"load u{number}")
        self.give_value(0, True)
        self.give_value(1, True)
        for _ in range(5):
            self.require()
            self.bump()

    def give_one(self):
        at = self.draw.below(100)
        for end, give in (
            (12, self.require),
            (17, self.keep_condition),
            (35, self.give_some_value),
            (47, self.bump),
            (50, self.decay),
            (55, self.undo_last),
            (60, self.undo_until),
            (100, self.decide),
        ):
            if at < end:
                return give()

    def require(self):
        """A clause. Its condition, if it is given one, doesn't negate its parent."""
        parent, requirement = self.parent(), f"s{self.draw.below(SETS)}"
        if self.draw.happens(30):
            requirement = f"u{self.draw.below(UNIONS)}"
        kept = self.store.disjunctions
        place = self.draw.below(len(kept))
        has_one = self.draw.happens(40) and kept and (parent, False) not in kept[place]
        self.give(f"requires {parent} {requirement}{f' {place}' if has_one else ''}")

    def parent(self):
        """The root, a helper variable, or now and then some variable."""
        if self.draw.happens(self.of_root):
            return 0
        return 1 + self.draw.below(HELPERS) if self.draw.happens(80) else self.some_variable()

    def some_variable(self):
        return self.draw.below(len(self.store.origins))

    def keep_condition(self):
        """Up to three literals, most of which are false."""
        words = []
        for _ in range(self.draw.below(4)):
            if self.store.trail and self.draw.happens(70):
                variable, value, *_ = self.draw.one_of(self.store.trail)
                words.append(written((variable, not value)))
            else:
                words.append(written((self.some_variable(), self.draw.happens(50))))
        self.give(" ".join(["disjunction 0", *words]))

    def give_some_value(self):
        """Makes the parent of a clause true, or gives some variable a value."""
        if self.store.required and self.draw.happens(60):
            self.give_value(self.draw.one_of(self.store.required)[0], True)
        else:
            self.give_value(self.some_variable(), self.draw.happens(25))

    def give_value(self, variable, value):
        """Mostly at the level of the newest assignment or the next one."""
        newest = self.store.trail[-1][3] if self.store.trail else 0
        level = self.draw.below(6) + 1 if self.draw.happens(10) else max(newest, 1) + self.draw.below(2)
        self.give(f"assign {variable} {'true' if value else 'false'} 0 {level}")

    def bump(self):
        """Raises a score, mostly by little, and now and then as high as it can be."""
        amount = {0: MOST, 1: 2**63}.get(self.draw.below(60), self.draw.below(9) + 1)
        self.give(f"bump {self.draw.below(NAMES)} {amount}")

    def decay(self):
        """Multiplies all scores by a fraction of at most one."""
        numerator = self.draw.below(4)
        self.give(f"decay {numerator} {max(numerator + self.draw.below(3), 1)}")

    def undo_last(self):
        if self.store.trail:
            self.give("undo-last")

    def undo_until(self):
        """Takes back what is above a level that is one or two below that of the newest assignment."""
        newest = self.store.trail[-1][3] if self.store.trail else 0
        self.give(f"undo-until {max(newest - self.draw.below(2) - 1, 0)}")

    def decide(self):
        """The candidate often gets a value, and of what made a clause false the newest assignment is mostly taken
        back."""
        self.give("decide")
        told = self.answers[-1].split()
        if told[0] == "decided" and self.draw.happens(50):
            self.give_value(int(told[1]), self.draw.happens(30))
        elif told[0] == "falsified" and self.draw.happens(60):
            self.undo_last()


def shown(store):
    """What a decision shows of the rule."""
    told = store.decide().split()
    if told[0] != "decided":
        yield "nothing to decide" if told[0] == "no" else "falsified"
        return
    offers = [offer for state, offer in map(lambda one: store.state(*one), store.scan()) if state == "eligible"]
    best = next(offer for offer in offers if str(offer[2]) == told[5])
    is_root = best[1] == 0
    whose = "the root" if is_root else "another"
    yield f"of {whose}"
    if next(offer for offer in offers if (offer[1] == 0) == is_root) != best:
        yield f"beats an earlier one of {whose}"
    if is_root and offers[0][1] != 0:
        yield "one of the root passes an earlier one"
    for place, (_, parent, _, score, count) in enumerate(offers):
        if (parent == 0) != is_root:
            if score > best[3] and count < best[4]:
                yield "one of the root is kept"
        elif place > offers.index(best):
            if score > best[3] and count == best[4]:
                yield "an equal count stays"
            if score == best[3] and count < best[4]:
                yield "an equal score stays"


def counted(lists):
    total = collections.Counter()
    for one in lists:
        total.update(one.shown)
    return total
