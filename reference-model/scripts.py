"""A script that is read and answered line by line."""
import reading
from reading import Unreadable
from store import Packages, Store


class Script:
    """The packages of a script, and behind its `begin` a store."""

    def __init__(self):
        self.packages, self.store = Packages(), None
        self.listed = set()

    def answer(self, words):
        """The lines that answer a line, which is one that isn't skipped."""
        return self.obey(self.read(words))

    def read(self, words):
        """The words of a line, if it is in the format and can be listed."""
        words = reading.read_line(words, self.store is not None)
        if not self.store:
            self.check(words)
        return words

    def obey(self, words):
        if self.store:
            return [self.store.obey(" ".join(words))]
        if words[0] == "begin":
            self.store = Store(self.packages)
        else:
            self.packages.add(words[0], words[1:])
        return []

    def check(self, words):
        """Refuses a line of the catalogue that can't be listed."""
        if words[0] == "package":
            if sum(word.endswith("*") for word in words[2:]) > 1:
                raise Unreadable("two versions with a `*`: one is the favored one at most")
            if words[1] in self.listed:
                raise Unreadable(f"a second `package` line of {words[1]}")
            self.listed.add(words[1])
        elif words[0] == "union":
            there("version set", words[1:], self.packages.sets)
        elif words[0] == "condition":
            is_set = words[1] == "set"
            what, things = ("version set", self.packages.sets) if is_set else ("condition", self.packages.conditions)
            there(what, words[2:], things)


def there(what, words, things):
    """Refuses a number of which nothing is there."""
    for word in words:
        if int(word) >= len(things):
            raise Unreadable(f"no {what} has the number {word}: there are {len(things)} before this line")
