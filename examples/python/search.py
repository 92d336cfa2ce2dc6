#!/usr/bin/env python3
"""A small search over the clause store: it assigns what is decided, and goes back where a clause is false.

    examples/python/search.py [PROGRAM]

picks versions of the packages below, and prints a line for each. PROGRAM is the dialogue's, clause_store_dialog.
"""
import sys

from clause_store import PROGRAM, ClauseStore, Ended

# What each version needs: ranges, from the first number to below the last one.
INDEX = {
    ("web", 1): [("log", 1, 3)],
    ("web", 2): [("log", 2, 4), ("tls", 1, 3)],
    ("shop", 1): [("log", 1, 2)],
    ("shop", 2): [("log", 1, 3), ("tls", 3, 4)],
    ("shop", 3): [("log", 4, 5)],
    ("log", 1): [],
    ("log", 2): [],
    ("log", 3): [("tls", 1, 2)],
    ("tls", 1): [],
    ("tls", 2): [],
    ("tls", 3): [],
}
WANTED = [("web", 1, 9), ("shop", 1, 9)]
ROOT = 0


def catalogue(index, wanted):
    """The lines that list the packages and the version sets, and the number of each set."""
    names = list(dict.fromkeys(name for name, _ in index))
    versions = {name: [str(version) for of, version in index if of == name] for name in names}
    spans = list(dict.fromkeys(span for needs in (wanted, *index.values()) for span in needs))
    packages = [f"package {name} {' '.join(versions[name])}" for name in names]
    sets = ["set {} {} {}".format(*span) for span in spans]
    return packages + sets, {span: number for number, span in enumerate(spans)}


def encode(store, index, wanted, sets):
    """Tells the store the clauses. The version that each variable stands for."""
    names = list(dict.fromkeys(name for name, _ in index))
    for number in sets.values():
        store.ask(f"load s{number}")
    store.ask("root")
    for span in wanted:
        store.ask(f"requires {ROOT} s{sets[span]}")
    variables = {}
    for solvable, (version, needs) in enumerate(index.items()):
        variable = store.number(f"variable {solvable}")
        variables[variable] = version
        store.ask(f"at-most-once {names.index(version[0])} {variable}")
        for span in needs:
            store.ask(f"requires {variable} s{sets[span]}")
    return variables


def search(store):
    """The variables that are picked; none if there is no solution. The root is at level 1, each decision one above."""
    choices = []
    store.ask(f"assign {ROOT} true 0 1")
    while True:
        reply = store.ask(f"saturate {len(choices) + 1}")
        if reply == ["done"]:
            reply = store.ask("decide")
        if reply == ["no", "decision"]:
            return assigned_true(store)
        if reply[0] == "decided":
            choices.append(int(reply[1]))
            store.ask(f"assign {choices[-1]} true {reply[5]} {len(choices) + 1}")
        elif not go_back(store, choices):
            return None


def go_back(store, choices):
    """Takes the last choice back: with those before it it can't stand, which is learnt."""
    if not choices:
        return False
    store.ask(f"undo-until {len(choices)}")
    learnt = store.number("learnt " + " ".join(f"-{choice}" for choice in choices))
    store.ask(f"assign {choices.pop()} false {learnt} {len(choices) + 1}")
    return True


def assigned_true(store):
    """The variables that are true, oldest first."""
    found = []
    while (reply := store.ask("unpropagated")) != ["next", "none"]:
        if reply[2] == "true":
            found.append(int(reply[1]))
    return found


def main():
    if {"-h", "--help"} & {*sys.argv[1:]}:
        print(__doc__.strip())
        return
    if len(sys.argv) > 2:
        sys.exit("search.py takes a program at most: --help tells the usage")
    lines, sets = catalogue(INDEX, WANTED)
    with ClauseStore(lines, *sys.argv[1:2] or [PROGRAM]) as store:
        variables = encode(store, INDEX, WANTED, sets)
        picked = search(store)
    if picked is None:
        print("none")
    for variable in picked or ():
        if variable in variables:
            print(*variables[variable])


if __name__ == "__main__":
    try:
        main()
    except Ended as fault:
        sys.exit(str(fault))
    except (LookupError, ValueError) as fault:
        sys.exit(f"{' '.join(sys.argv[1:]) or PROGRAM} doesn't answer as docs/FORMAT.md says: {fault}")
    except OSError as fault:
        sys.exit(f"{fault.filename}: {fault.strerror}")
