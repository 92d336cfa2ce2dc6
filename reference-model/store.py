"""A second clause store, naive on purpose, beside which the product's is tested.

It obeys the lines of a script (docs/FORMAT.md) by lists and plain loops, and answers each as docs/BEHAVIOUR.md says:
each list is read anew wherever it is asked for, nothing is indexed, and nothing is kept that could be reckoned. It has
no line in common with the product, nor a language. It reads well-formed lines alone (`reading.py` tells which are),
and is never refused memory or ids.
"""

MOST = 2**64 - 1


def literal(word):
    """A variable, and whether the literal is true where the variable is."""
    return int(word[1:]), word[0] == "+"


class Packages:
    """What a script's catalogue lists."""

    def __init__(self):
        self.names, self.solvables, self.sets, self.unions = [], [], [], []
        self.conditions, self.strings, self.favored = [], [], []

    def name(self, word):
        return number_in(self.names, word)

    def add(self, kind, words):
        if kind == "package":
            name = self.name(words[0])
            for version in words[1:]:
                if version.endswith("*"):
                    self.favored.append(len(self.solvables))
                self.solvables.append((name, int(version.rstrip("*"))))
        elif kind == "set":
            number_in(self.sets, (self.name(words[0]), int(words[1]), int(words[2])))
        elif kind == "union":
            self.unions.append([int(word) for word in words])
        elif kind == "condition":
            number_in(self.conditions, words)
        elif kind == "string":
            number_in(self.strings, words[0])

    def sets_of(self, requirement):
        number = int(requirement[1:])
        return [number] if requirement[0] == "s" else self.unions[number]

    def candidates(self, number):
        """The solvables that a version set holds, best first."""
        name, low, high = self.sets[number]
        held = [s for s, (of, version) in enumerate(self.solvables) if of == name and low <= version < high]
        return sorted(held, key=lambda s: (s not in self.favored, -self.solvables[s][1], s))


def number_in(things, thing):
    """The place of a thing, which is put behind the others if it isn't there."""
    if thing not in things:
        things.append(thing)
    return things.index(thing)


class Store:
    """A store over packages. What a variable stands for is a pair; a literal is a variable with a truth value."""

    def __init__(self, packages):
        self.packages = packages
        self.origins = [("root", None)]
        self.loaded = {}
        self.disjunctions = []
        self.clauses = []  # the literals of each
        self.watches = []  # the two that each watches, or none
        self.lists = {}  # of each literal, the clauses that watch it, front first
        self.required = []  # the requires clauses, by number: parent, requirement, disjunction, clause
        self.trail = []  # variable, value, clause, level
        self.place = 0
        self.scores = {}
        self.tracked = {}  # of each name, its variables and its helpers

    def obey(self, line):
        """The line that answers a command's line. A refused command changes nothing."""
        kind, *words = line.split()
        refusal = self.refusal(kind, words)
        if refusal:
            return f"refused {refusal}"
        return getattr(self, kind.replace("-", "_"))(*words)

    # What is read.

    def value(self, variable):
        for entry in self.trail:
            if entry[0] == variable:
                return entry[1]
        return None

    def is_false(self, literal):
        return self.value(literal[0]) is (not literal[1])

    def rows(self, requirement):
        """The candidates of a loaded requirement, each with its version set."""
        lists = zip(self.packages.sets_of(requirement), self.loaded[requirement])
        return [(number, variable) for number, variables in lists for variable in variables]

    def condition(self, disjunction):
        return self.disjunctions[int(disjunction[0])] if disjunction else []

    # What a command is refused for, in the order of the refusals' numbers.

    def refusal(self, kind, words):
        if not self.knows_all(kind, words):
            return 3
        if kind in ("assign", "saturate") and not 1 <= int(words[-1]) < 2**31:
            return 4
        if kind == "requires":
            if words[1] not in self.loaded:
                return 5
            if (int(words[0]), False) in self.condition(words[2:]):
                return 6
        if kind == "rewatch" and not self.can_rewatch(int(words[0]), literal(words[1]), literal(words[2])):
            return 7
        if kind == "learnt" and (not words or len(words) > 1 and literal(words[0]) == literal(words[-1])):
            return 8
        if kind == "undo-last" and not self.trail:
            return 9
        if kind == "decay" and (int(words[1]) == 0 or int(words[0]) > int(words[1])):
            return 10
        return None

    def knows_all(self, kind, words):
        """Whether each id that the command names is known."""
        return not self.first_unknown(kind, words) and not self.tracks_helper(kind, words)

    def first_unknown(self, kind, words):
        """The first id that a command names and that isn't known: of what, and its number. None if each is known."""
        known = self.known()
        for what, word in zip(operands(kind, words), words):
            if what == "requirement":
                what, word = {"s": "set", "u": "union"}[word[0]], word[1:]
            elif what == "literal":
                what, word = "variable", word[1:]
            if what in known and not int(word) < len(known[what]):
                return what, int(word)
        return None

    def known(self):
        """What there is of each kind that a command can name by a number."""
        return {
            "solvable": self.packages.solvables,
            "name": self.packages.names,
            "set": self.packages.sets,
            "union": self.packages.unions,
            "string": self.packages.strings,
            "condition": self.packages.conditions,
            "variable": self.origins,
            "clause": self.clauses,
            "disjunction": self.disjunctions,
        }

    def tracks_helper(self, kind, words):
        """Whether a command would track a helper of what is tracked."""
        return kind == "at-most-once" and self.origins[int(words[1])][0] == "forbid"

    def can_rewatch(self, clause, old, new):
        watches = self.watches[clause]
        return bool(watches) and old in watches and new not in watches and new in self.clauses[clause]

    # Variables, and what is loaded and kept.

    def new_variable(self, origin):
        self.origins.append(origin)
        return len(self.origins) - 1

    def variable_of(self, solvable):
        origin = ("solvable", solvable)
        return self.origins.index(origin) if origin in self.origins else self.new_variable(origin)

    def variable(self, solvable):
        return f"variable {self.variable_of(int(solvable))}"

    def helper(self, kind, word):
        return f"variable {self.new_variable((kind, word))}"

    def load(self, requirement):
        if requirement not in self.loaded:
            lists = [self.packages.candidates(number) for number in self.packages.sets_of(requirement)]
            self.loaded[requirement] = [[self.variable_of(s) for s in solvables] for solvables in lists]
        lists = [",".join(map(str, variables)) or "-" for variables in self.loaded[requirement]]
        return f"loaded {' '.join(lists)}"

    def disjunction(self, _condition, *words):
        self.disjunctions.append([literal(word) for word in words])
        return f"disjunction {len(self.disjunctions) - 1}"

    # Clauses, and what they watch.

    def add(self, literals, first=None, second=None):
        """Adds a clause, which comes to the front of the lists of what it watches: two different literals, or none."""
        self.clauses.append(literals)
        self.watches.append([first, second] if first and second and first != second else None)
        for watched in self.watches[-1] or []:
            self.list_of(watched).insert(0, len(self.clauses) - 1)
        return len(self.clauses) - 1

    def list_of(self, literal):
        return self.lists.setdefault(literal, [])

    def added(self, literals, first=None, second=None, is_conflict=False):
        clause = self.add(literals, first, second)
        return f"clause {clause} conflict" if is_conflict else f"clause {clause}"

    def root(self):
        return self.added([(0, True)])

    def requires(self, parent, requirement, *disjunction):
        parent = (int(parent), False)
        others = self.condition(disjunction) + [(variable, True) for _, variable in self.rows(requirement)]
        left = [other for other in others if not self.is_false(other)]
        watched = (left or others or [None])[0]
        is_conflict = bool(others) and not left and self.value(parent[0]) is not False
        answer = self.added([parent] + others, parent, watched, is_conflict)
        self.required.append((parent[0], requirement, disjunction, len(self.clauses) - 1))
        return answer

    def constrains(self, parent, forbidden, _set):
        first, second = (int(parent), False), (int(forbidden), False)
        is_conflict = self.is_false(second) and self.value(first[0]) is not False
        return self.added([first, second], first, second, is_conflict)

    constrains_parent = constrains

    def constrains_excluded(self, candidate, aux, _set):
        return self.of_two((int(candidate), False), (int(aux), True))

    def of_two(self, first, second):
        return self.added([first, second], first, second)

    def lock(self, _locked, other):
        first, second = (int(other), False), (0, False)
        return self.added([first, second], second, first)

    def any_of(self, selected, other):
        return self.of_two((int(selected), True), (int(other), False))

    def exclude(self, variable, _string):
        return self.added([(int(variable), False)])

    def learnt(self, *words):
        literals = [literal(word) for word in words]
        return self.added(literals, literals[0], literals[-1])

    def rewatch(self, clause, old, new):
        clause, old, new = int(clause), literal(old), literal(new)
        self.watches[clause] = [new if watched == old else watched for watched in self.watches[clause]]
        self.list_of(old).remove(clause)
        self.list_of(new).insert(0, clause)
        return "done"

    def watchers(self, word):
        return f"watchers {' '.join(map(str, self.list_of(literal(word)))) or '-'}"

    # At most one of a name's variables.

    def at_most_once(self, name, variable):
        variables, helpers = self.tracked.setdefault(int(name), ([], []))
        variable, before = int(variable), len(self.clauses)
        if variable in variables:
            return "tracked no 0"
        if variables and len(variables) >= 2 ** len(helpers):
            helpers.append(self.new_variable(("forbid", name)))
            for number, earlier in enumerate(variables):
                self.forbid(earlier, helpers, number, len(helpers) - 1)
        for bit in range(len(helpers)):
            self.forbid(variable, helpers, len(variables), bit)
        variables.append(variable)
        return f"tracked yes {len(self.clauses) - before}"

    def forbid(self, variable, helpers, number, bit):
        """The helper of a bit has the value that it has in the variable's number."""
        self.of_two((variable, False), (helpers[bit], number // 2**bit % 2 == 1))

    # The trail.

    def assign(self, variable, value, clause, level):
        variable, value = int(variable), value == "true"
        if self.value(variable) is not None:
            return "already" if self.value(variable) is value else "clash"
        self.trail.append((variable, value, int(clause), int(level)))
        return "assigned"

    def undo_last(self):
        entry = self.trail[-1]
        self.cut(len(self.trail) - 1)
        return f"undone {shown(entry)} {self.trail[-1][3] if self.trail else 0}"

    def undo_until(self, level):
        while self.trail and self.trail[-1][3] > int(level):
            self.cut(len(self.trail) - 1)
        return "undone"

    def cut(self, length):
        del self.trail[length:]
        self.place = min(self.place, length)

    def unpropagated(self):
        if self.place == len(self.trail):
            return "next none"
        self.place += 1
        return f"next {shown(self.trail[self.place - 1])}"

    # What follows from clauses. Each clause is looked at anew for each entry, and no watch is moved.

    def saturate(self, level):
        while not self.false_clauses():
            forced = [(literal, clause) for clause in range(len(self.clauses)) for literal in self.forced(clause)]
            if not forced:
                return "done"
            (variable, value), clause = forced[0]
            self.trail.append((variable, value, clause, int(level)))
        return f"conflict {self.false_clauses()[0]}"

    def false_clauses(self):
        return [clause for clause, literals in enumerate(self.clauses) if all(map(self.is_false, literals))]

    def forced(self, clause):
        """The literal that a clause forces, if it does: it is undecided, and all others of the clause are false."""
        left = {literal for literal in self.clauses[clause] if not self.is_false(literal)}
        return [literal for literal in left if len(left) == 1 and self.value(literal[0]) is None]

    # Scores.

    def bump(self, name, amount):
        self.scores[int(name)] = min(self.scores.get(int(name), 0) + int(amount), MOST)
        return "done"

    def decay(self, numerator, denominator):
        self.scores = {name: score * int(numerator) // int(denominator) for name, score in self.scores.items()}
        return "done"

    def standard(self, _setting):
        return "done"

    # What to decide: a scan of all requires clauses.

    def scan(self):
        """The requires clauses, parent by parent in the order of their first clauses."""
        parents = []
        for parent, *_ in self.required:
            number_in(parents, parent)
        return [one for parent in parents for one in self.required if one[0] == parent]

    def state(self, parent, requirement, disjunction, clause):
        """What a clause is, and what it offers: candidate, parent, clause, score and count."""
        rows = self.rows(requirement)
        is_asking = self.value(parent) is True and all(map(self.is_false, self.condition(disjunction)))
        if not is_asking or any(self.value(variable) is True for _, variable in rows):
            return "closed", None
        left = [row for row in rows if self.value(row[1]) is None]
        if not left:
            return "falsified", clause
        number, candidate = left[0]
        count = sum(of == number for of, _ in left)
        return "eligible", (candidate, parent, clause, self.scores.get(self.packages.sets[number][0], 0), count)

    def decide(self):
        states = [self.state(*one) for one in self.scan()]
        falsified = [clause for state, clause in states if state == "falsified"]
        if falsified:
            return f"falsified {falsified[0]}"
        offers = [offer for state, offer in states if state == "eligible"]
        of_root = [offer for offer in offers if offer[1] == 0]
        if not offers:
            return "no decision"
        return "decided {} by {} clause {} score {} count {}".format(*best_of(of_root or offers))


def best_of(offers):
    """The first, unless a later one has a higher score and a smaller count than the best so far."""
    best = offers[0]
    for offer in offers[1:]:
        if offer[3] > best[3] and offer[4] < best[4]:
            best = offer
    return best


def shown(entry):
    variable, value, clause, _ = entry
    return f"{variable} {str(value).lower()} {clause}"


def operands(kind, words):
    """What each word of a command stands for, as far as it can be unknown."""
    if kind in ("learnt", "disjunction"):
        return ["condition"] * (kind == "disjunction") + ["literal"] * len(words)
    if kind == "helper":
        return ["kind", {"any-of": "name", "violation": "set", "gate": "requirement"}[words[0]]]
    return {
        "variable": ["solvable"],
        "load": ["requirement"],
        "requires": ["variable", "requirement", "disjunction"],
        "constrains": ["variable", "variable", "set"],
        "constrains-excluded": ["variable", "variable", "set"],
        "constrains-parent": ["variable", "variable", "set"],
        "lock": ["variable", "variable"],
        "any-of": ["variable", "variable"],
        "exclude": ["variable", "string"],
        "at-most-once": ["name", "variable"],
        "assign": ["variable", "value", "clause", "level"],
        "bump": ["name"],
        "rewatch": ["clause", "literal", "literal"],
        "watchers": ["literal"],
    }.get(kind, [])
