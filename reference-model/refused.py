"""Says in plain words why a store refuses a command (docs/BEHAVIOUR.md)."""
from notes import counted
from store import literal

WHYS = {4: "levels are 1 to 2147483647", 9: "the trail is empty"}
# What one and several of what a command can name by a number are called.
KINDS = {"set": "version set"}


def why(names, refusal, kind, words):
    """Why a command is refused, by the number of the refusal."""
    if refusal in WHYS:
        return WHYS[refusal]
    return {3: unknown, 5: not_loaded, 6: negates_parent, 7: bad_watch, 8: bad_learnt, 10: bad_fraction}[refusal](
        names, kind, words
    )


def unknown(names, kind, words):
    found = names.store.first_unknown(kind, words)
    if not found:
        return f"{names.variable(words[1])} is a helper of tracked variables, and can't be tracked itself"
    what, number = found
    count, what = len(names.store.known()[what]), KINDS.get(what, what)
    if not count:
        return f"there is no {what}"
    return f"there {'is' if count == 1 else 'are'} {counted(count, what)}"


def not_loaded(names, _kind, words):
    return f"{words[1]}, which is {names.requirement(words[1])}, isn't loaded"


def negates_parent(names, _kind, words):
    return f"disjunction {words[2]} has the negation of the parent, {names.variable(words[0])}"


def bad_watch(names, _kind, words):
    clause, old, new = int(words[0]), literal(words[1]), literal(words[2])
    watches = names.store.watches[clause]
    if not watches:
        return f"clause {clause} watches nothing"
    if old not in watches:
        watched = " and ".join(map(names.literal, watches))
        return f"clause {clause} doesn't watch {names.literal(old)}: it watches {watched}"
    if new in watches:
        return f"clause {clause} watches {names.literal(new)} already"
    return f"{names.literal(new)} isn't among the literals of {names.clause(clause)}"


def bad_learnt(_names, _kind, words):
    return "the last literal is the first one again" if words else "a learnt clause needs a literal"


def bad_fraction(_names, _kind, words):
    return "the denominator is 0" if int(words[1]) == 0 else f"{words[0]}/{words[1]} is more than 1"
