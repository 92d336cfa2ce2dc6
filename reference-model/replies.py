"""Says in names what a store answered to a command that it didn't refuse."""
from store import literal

# The limit of the lines below an answer; how many more there are comes behind them.
TOLD = 12


class Replies:
    """Says the answer to the next command. It has to be made before the store obeys it."""

    def __init__(self, names):
        self.names, self.store = names, names.store
        self.trail, self.clauses = list(self.store.trail), len(self.store.clauses)

    def of(self, kind, words, answer):
        """What is behind the answer on its line, and lines below it."""
        say = getattr(self, kind.replace("-", "_"), None)
        if say is None:
            return self.clause(answer.split())
        first, *others = say(words, answer.split()) or [""]
        return first, others

    def clause(self, answer):
        """A clause, and in a conflict the values of its variables."""
        text = self.names.literals(self.store.clauses[int(answer[1])])
        return text, self.values(answer[1]) if answer[-1] == "conflict" else []

    def values(self, clause):
        variables = dict.fromkeys(variable for variable, _ in self.store.clauses[int(clause)])
        return some([self.names.value(variable) for variable in variables])

    def variable(self, _words, answer):
        return [self.names.variable(answer[1])]

    helper = variable

    def load(self, words, _answer):
        lists = self.store.loaded[words[0]]
        return [" | ".join(", ".join(map(self.names.variable, variables)) or "none" for variables in lists)]

    def disjunction(self, _words, answer):
        return [self.names.literals(self.store.disjunctions[int(answer[1])])]

    def at_most_once(self, words, answer):
        variables, _ = self.store.tracked[int(words[0])]
        if answer[1] == "no":
            return [f"{self.names.variable(words[1])} is tracked already"]
        clauses = [self.names.clause(number) for number in range(self.clauses, len(self.store.clauses))]
        return [f"of {self.names.name(words[0])} now {len(variables)}", *some(clauses)]

    def assign(self, words, answer):
        return [""] if answer[0] == "assigned" else [self.names.value(int(words[0]))]

    def undo_last(self, _words, _answer):
        return [f"taken back: {self.names.entry(self.trail[-1])}"]

    def undo_until(self, _words, _answer):
        undone = [self.names.entry(entry) for entry in self.trail[len(self.store.trail) :]]
        return [f"{len(undone)} taken back", *some(undone)]

    def unpropagated(self, _words, answer):
        if answer[-1] == "none":
            return ["each entry was handed out"]
        return [self.names.entry(self.store.trail[self.store.place - 1])]

    def bump(self, words, _answer):
        return [f"the score of {self.names.name(words[0])} is {self.store.scores[int(words[0])]}"]

    def decay(self, _words, _answer):
        scores = [f"{self.names.name(name)} {score}" for name, score in self.store.scores.items()]
        return [f"the scores are {', '.join(scores)}" if scores else "all scores are 0"]

    def standard(self, _words, _answer):
        return ["no answer depends on it"]

    def rewatch(self, words, _answer):
        watches = self.store.watches[int(words[0])]
        return [f"clause {words[0]} watches {' and '.join(map(self.names.literal, watches))}"]

    def watchers(self, words, _answer):
        return ["", *some([self.names.clause(number) for number in self.store.list_of(literal(words[0]))])]

    def saturate(self, _words, answer):
        added = [self.names.entry(entry) for entry in self.store.trail[len(self.trail) :]]
        lines = [f"{len(added)} added", *some(added)]
        if answer[0] == "conflict":
            lines += [f"{self.names.clause(answer[1])}: it is false", *self.values(answer[1])]
        return lines

    def decide(self, _words, answer):
        if answer[0] == "falsified":
            return [self.names.literals(self.store.clauses[int(answer[1])]), *self.values(answer[1])]
        if answer[0] == "no":
            return ["no clause is eligible", *some([self.closed(*one) for one in self.store.scan()])]
        _, variable, _, parent, _, clause, *_ = answer
        offers = [self.store.state(*one)[1] for one in self.store.scan() if self.store.state(*one)[0] == "eligible"]
        others = [self.offered(*offer, int(parent) == 0) for offer in offers if offer[2] != int(clause)]
        return [f"{self.names.variable(variable)}, for {self.names.variable(parent)}", *some(others)]

    def offered(self, candidate, parent, clause, score, count, is_of_root):
        """What a clause offers that is eligible too."""
        text = f"{self.names.variable(candidate)}, for {self.names.variable(parent)}"
        behind = " behind those of the root" if is_of_root and parent else ""
        return f"clause {clause} is eligible too{behind}: {text}, score {score}, count {count}"

    def closed(self, parent, requirement, disjunction, clause):
        """Why a clause needs no decision."""
        waits = [it for it in self.store.condition(disjunction) if not self.store.is_false(it)]
        picked = [variable for _, variable in self.store.rows(requirement) if self.store.value(variable) is True]
        text = f"clause {clause}, {self.names.variable(parent)} needs {self.names.requirement(requirement)}"
        if self.store.value(parent) is not True:
            return f"{text}: {self.names.variable(parent)} isn't true"
        if waits:
            return f"{text}: {self.names.literal(waits[0])} isn't false"
        return f"{text}: {self.names.variable(picked[0])} is true"


def some(lines):
    """The first ones of lines, and how many there are more."""
    return lines[:TOLD] + [f"and {len(lines) - TOLD} more"] * (len(lines) > TOLD)
