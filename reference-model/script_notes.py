"""Annotates scripts (docs/FORMAT.md): each line in names, with its answer."""
import reading
from meanings import Catalogue, Commands
from names import Names
from notes import Notes, shown
from reading import Unreadable
from refused import why
from replies import Replies
from scripts import Script


def annotated(text):
    """The notes on a script, up to its first line that can't be read."""
    notes, script = Notes(), Script()
    for number, line in reading.lines(text):
        try:
            cut = reading.words(line)
            words = script.read(cut) if cut else None
        except Unreadable as fault:
            notes.add(f"line {number}: {shown(line)}: {fault}", False)
            notes.add(f"    line {number} unreadable")
            break
        if words:
            head, *others = told(script, words)
            notes.add(f"line {number}: {' '.join(cut)}{': ' * bool(head)}{head}")
            notes.lines += [f"    {other}" for other in others]
    return notes


def told(script, words):
    """What a line says in names, and the lines below it."""
    if script.store:
        return told_command(script, words[0], words[1:])
    script.obey(words)
    names = Names(script)
    said = Catalogue(names).of(words[0], words[1:])
    return [said, *(empty_sets(names) if words[0] == "begin" else [])]


def told_command(script, kind, words):
    names = Names(script)
    refusal = script.store.refusal(kind, words)
    if refusal:
        return [why(names, refusal, kind, words), *script.obey([kind, *words])]
    said, replies = Commands(names).of(kind, words), Replies(names)
    (answer,) = script.obey([kind, *words])
    first, others = replies.of(kind, words, answer)
    return [said, f"{answer}{': ' * bool(first)}{first}", *(f"    {other}" for other in others)]


def empty_sets(names):
    """What is said of the version sets that hold no version."""
    listed = {name for name, _ in names.packages.solvables}
    for number, (name, *_) in enumerate(names.packages.sets):
        if not names.packages.candidates(number):
            reason = "" if name in listed else f": there is no package line of {names.name(name)}"
            yield f"s{number}, {names.set(number)}, holds no version{reason}"
