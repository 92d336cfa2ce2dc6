"""Names for the numbers in a script: what each of them stands for."""

# Conditions that are nested deeper than this are named by their numbers.
DEPTH = 3


class Names:
    """What the numbers of a script stand for so far."""

    def __init__(self, script):
        self.script, self.packages = script, script.packages

    @property
    def store(self):
        return self.script.store

    def name(self, number):
        return self.packages.names[int(number)]

    def solvable(self, number):
        listed = self.packages.solvables[int(number)]
        text = f"{self.name(listed[0])} {listed[1]}"
        return text if self.packages.solvables.count(listed) == 1 else f"{text} (solvable {number})"

    def set(self, number):
        name, low, high = self.packages.sets[int(number)]
        return f"{self.name(name)} {low}..{high}"

    def requirement(self, word):
        return " | ".join(map(self.set, self.packages.sets_of(word)))

    def condition(self, number, depth=DEPTH):
        """A condition, with brackets around one that joins others inside of another one."""
        kind, *parts = self.packages.conditions[int(number)]
        if kind == "set":
            return self.set(parts[0])
        if not depth:
            return f"condition {number}"
        text = f" {kind} ".join(self.condition(part, depth - 1) for part in parts)
        return text if depth == DEPTH else f"({text})"

    def variable(self, number):
        kind, word = self.store.origins[int(number)]
        if kind == "root":
            return "root"
        if kind == "solvable":
            return self.solvable(word)
        if kind == "violation":
            name, low, high = self.packages.sets[int(word)]
            return f"v{number} (a version of {self.name(name)} outside {low}..{high})"
        if kind == "gate":
            return f"v{number} (one of {self.requirement(word)})"
        what = {"any-of": "some version of {}", "forbid": "a bit for {}"}[kind]
        return f"v{number} ({what.format(self.name(word))})"

    def literal(self, literal):
        variable, is_true = literal
        return self.variable(variable) if is_true else f"not {self.variable(variable)}"

    def literals(self, literals):
        return ", or ".join(map(self.literal, literals)) or "no literal"

    def clause(self, number):
        return f"clause {number}: {self.literals(self.store.clauses[int(number)])}"

    def entry(self, entry):
        """An entry of the trail."""
        variable, value, clause, level = entry
        return f"{self.variable(variable)} is {str(value).lower()} (clause {clause}, level {level})"

    def value(self, variable):
        """A variable with its value, if it has one."""
        found = [entry for entry in self.store.trail if entry[0] == variable]
        return self.entry(found[0]) if found else f"{self.variable(variable)} is undecided"
