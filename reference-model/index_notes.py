"""Annotates indexes (docs/INDEX.md): what can't be read, and which ranges have no version."""
from answer_notes import judge
from index_reading import listings
from indexes import span_text
from notes import Notes, counted, shown


def annotated(text, answers=None):
    """The notes on the indexes of a text, and on the answers to them if there are any."""
    notes, found = Notes(), listings(text)
    for place, listing in enumerate(found):
        tell(notes, listing)
        if answers is not None and place < len(answers):
            notes.add("its answer:")
            judge(notes, listing, answers[place])
        elif answers is not None:
            notes.add("no answer to it", False)
    if answers is not None and len(answers) > len(found):
        notes.add(f"{len(answers)} answers, and {len(found)} indexes", False)
    return notes


def tell(notes, listing):
    """What can't be read of an index; if all can, which ranges have no version."""
    index = listing.index()
    packages, versions = counted(len(index.versions), "package"), counted(len(index.asks), "version")
    notes.add(f"line {listing.first}: an index of {packages}, {versions}")
    for fault in listing.faults:
        notes.add(f"line {fault.number}, column {fault.column}: {fault.why}", False)
        notes.add("    " + shown(fault.line))
        notes.add(" " * (3 + fault.column) + "^")
    for number, column, span in [] if listing.faults else listing.sets:
        if span[0] not in index.versions:
            notes.add(f"line {number}, column {column}: no line has the package {span[0]}")
        elif not index.among([span]):
            versions = ", ".join(map(str, index.versions[span[0]]))
            notes.add(f"line {number}, column {column}: {span_text(span)} has no version: {span[0]} has {versions}")
