"""Says the lines of a script in names."""
from store import literal


class Catalogue:
    """Says the lines of a catalogue that are listed already."""

    def __init__(self, names):
        self.names, self.packages = names, names.packages

    def of(self, kind, words):
        return getattr(self, kind)(*words)

    def package(self, _name, *versions):
        last = len(self.packages.solvables) - 1
        first = last - len(versions) + 1
        favored = [first + place for place, version in enumerate(versions) if version.endswith("*")]
        numbers = f"solvables {first} to {last}" if last > first else f"solvable {last}"
        return numbers + "".join(f", of which {number} is the favored one" for number in favored)

    def set(self, name, low, high):
        number = self.packages.sets.index((self.packages.name(name), int(low), int(high)))
        return f"s{number} is {self.names.set(number)}"

    def union(self, *_sets):
        number = len(self.packages.unions) - 1
        return f"u{number} is {self.names.requirement(f'u{number}')}"

    def condition(self, *words):
        number = self.packages.conditions.index([*words])
        return f"condition {number} is {self.names.condition(number)}"

    def string(self, word):
        return f"string {self.packages.strings.index(word)}"

    def begin(self):
        return "the catalogue ends"


class Commands:
    """Says commands that aren't refused."""

    def __init__(self, names):
        self.names = names

    def of(self, kind, words):
        say = getattr(self, kind.replace("-", "_"), None)
        return say(*words) if say else ""

    def variable(self, solvable):
        return f"the variable of {self.names.solvable(solvable)}"

    def helper(self, kind, word):
        if kind == "any-of":
            return f"a variable for some version of {self.names.name(word)}"
        if kind == "gate":
            return f"a variable for one of {self.names.requirement(word)}"
        return f"a variable for a version outside {self.names.set(word)}"

    def load(self, requirement):
        return self.names.requirement(requirement)

    def disjunction(self, condition, *words):
        return f"for {self.names.condition(condition)}: {self.names.literals(map(literal, words))}"

    def requires(self, parent, requirement, *disjunction):
        text = f"{self.names.variable(parent)} needs {self.names.requirement(requirement)}"
        literals = self.names.store.condition(disjunction)
        return f"{text}, unless {self.names.literals(literals)}" if literals else text

    def constrains(self, parent, forbidden, number):
        return f"{self.names.variable(parent)} limits {self.names.set(number)}, so not {self.names.variable(forbidden)}"

    def constrains_excluded(self, candidate, helper, number):
        outside = f"{self.names.variable(candidate)} is outside {self.names.set(number)}"
        return f"{outside}, so {self.names.variable(helper)} is true with it"

    constrains_parent = constrains

    def lock(self, locked, other):
        return f"{self.names.variable(locked)} is locked, so not {self.names.variable(other)}"

    def any_of(self, selected, other):
        return f"{self.names.variable(selected)} is true if {self.names.variable(other)} is"

    def exclude(self, variable, string):
        return f"{self.names.variable(variable)} is excluded: {self.names.packages.strings[int(string)]}"

    def learnt(self, *words):
        return self.names.literals(map(literal, words))

    def at_most_once(self, name, variable):
        return f"{self.names.variable(variable)} is one of those of {self.names.name(name)} that exclude each other"

    def assign(self, variable, value, clause, level):
        return self.names.entry((variable, value, clause, level))

    def bump(self, name, amount):
        return f"the score of {self.names.name(name)}, by {amount}"

    def rewatch(self, clause, old, new):
        old, new = (self.names.literal(literal(word)) for word in (old, new))
        return f"clause {clause} watches {new} in place of {old}"

    def watchers(self, word):
        return f"the clauses that watch {self.names.literal(literal(word))}"
