"""Small scenarios of apt that are drawn, and their text."""
import itertools

from debian import Scenario

NAMES = "abcdef"
# What is only provided.
VIRTUAL = "vw"
VERSIONS = ("1", "1-1", "1-01", "1.5~rc1", "2", "2-1", "2-1+b1", "1:0.5")
KINDS = ("no", "same", "foreign", "allowed")
SIGNS = ("<<", "<=", "=", ">=", ">>", "<", ">")
# Relations that can't be read.
FAULTY = ("b (>= 1", "c ()", "(= 1)", "d e", "a (~ 1)", ":any", "b:", "b (= )")
REQUESTS = ("Upgrade", "Dist-Upgrade", "Upgrade-All", "Autoremove", "Forbid-New-Install", "Forbid-Remove")


class DrawnScenario(Scenario):
    """A scenario with up to six names, some of them in two architectures, and up to three versions of each."""

    def __init__(self, drawn):
        self.drawn = drawn
        self.is_faulty = drawn.random() < 0.1
        self.has_architectures = drawn.random() < 0.5
        stanzas, count = [], drawn.randint(1, 6) if drawn.random() < 0.98 else 0
        for name in NAMES[:count]:
            where = ["amd64"] + ["i386"] * (self.has_architectures and drawn.random() < 0.4)
            for architecture in where:
                stanzas += self.versions_of(name, architecture)
        drawn.shuffle(stanzas)
        names = sorted({(it["Package"], it["Architecture"]) for it in stanzas})
        super().__init__(self.drawn_request(names), stanzas)

    def some(self, chance, choices, default=""):
        return self.drawn.choice(choices) if self.drawn.random() < chance else default

    def versions_of(self, name, architecture):
        """The stanzas of a name. One version is installed at most, and one is the candidate; mostly it is the last."""
        drawn = self.drawn
        versions = drawn.sample(VERSIONS, drawn.choice((1, 1, 2, 2, 3)))
        installed = drawn.choice(versions) if drawn.random() < 0.5 else None
        candidate = drawn.choice(versions) if drawn.random() < 0.9 else None
        state = {field: "yes" for field, chance in (("Hold", 0.06), ("APT-Automatic", 0.3)) if drawn.random() < chance}
        essential = drawn.random() < 0.06
        stanzas = []
        for version in versions:
            stanza = {"Package": name, "Architecture": architecture, "Version": version}
            if architecture == "amd64" and drawn.random() < 0.2:
                stanza["Architecture"] = "all"
            if version == installed:
                stanza |= {"Installed": "yes"} | state
            if version == candidate:
                stanza["APT-Candidate"] = "yes"
            if essential:
                stanza["Essential"] = "yes"
            stanza["Multi-Arch"] = drawn.choice(KINDS if self.has_architectures else ("no", "no", "no", "same"))
            stanzas.append(stanza | self.relations())
        return stanzas

    def relations(self):
        """The fields of relations, each with up to three entries."""
        fields = {}
        for field, chance in (("Depends", 0.6), ("Pre-Depends", 0.1), ("Conflicts", 0.2), ("Breaks", 0.1)):
            if self.drawn.random() < chance:
                most = 3 if field == "Depends" else 1
                fields[field] = self.listed([self.entry(most) for _ in range(self.drawn.choice((1, 1, 2, 3)))])
        if self.drawn.random() < 0.25:
            fields["Provides"] = self.listed([self.provided() for _ in range(self.drawn.choice((1, 1, 2)))])
        if self.drawn.random() < 0.3:
            fields["Recommends"] = self.listed([self.entry(2)])
        return fields

    def listed(self, entries):
        """Entries with commas between them, and now and then a blank one."""
        return ", ".join([*entries, *[""] * (self.drawn.random() < 0.05)]) or ","

    def entry(self, most):
        """Up to so many alternatives."""
        return " | ".join(self.relation() for _ in range(self.drawn.randint(1, most)))

    def relation(self):
        if self.is_faulty and self.drawn.random() < 0.1:
            return self.drawn.choice(FAULTY)
        qualifiers = (0.25, (":any", ":i386", ":amd64")) if self.has_architectures else (0.03, (":any",))
        bound = f" ({self.drawn.choice(SIGNS)} {self.drawn.choice(VERSIONS)})" if self.drawn.random() < 0.35 else ""
        return self.drawn.choice(NAMES + VIRTUAL) + self.some(*qualifiers) + bound

    def provided(self):
        name = self.drawn.choice(VIRTUAL + VIRTUAL + NAMES)
        return name + (f" (= {self.drawn.choice(VERSIONS)})" if self.drawn.random() < 0.4 else "")

    def drawn_request(self, names):
        """A request: some of these names to install and to remove, now and then one that isn't there; perhaps more."""
        drawn = self.drawn
        request = {"Request": "EDSP 0.5", "Architecture": "amd64"}
        for field, chance in (("Install", 0.7), ("Remove", 0.3)):
            if drawn.random() < chance:
                some = drawn.sample(names, min(len(names), drawn.choice((1, 1, 2))))
                words = [name + self.some(0.9, (f":{where}",)) for name, where in some]
                request[field] = " ".join([*words, *["g:amd64"] * (drawn.random() < 0.02)])
        for field in REQUESTS:
            if drawn.random() < (0.05 if field.startswith("Forbid") else 0.1):
                request[field] = "yes"
        if drawn.random() < 0.15:
            request["Strict-Pinning"] = "no"
        return request

    def text(self):
        """The scenario's text. The number of a package's stanza is its id."""
        stanzas = [self.request, *({**it.fields, "APT-ID": it.place} for it in self.packages)]
        return "".join("".join(f"{field}: {value}\n" for field, value in it.items()) + "\n" for it in stanzas)

    def choices(self):
        """Every choice of none or one of the packages of each name that may be picked; one of each that is needed."""
        names = {}
        for package in filter(self.may_be_picked, self.packages):
            names.setdefault(package.full_name, []).append(package)
        needed = self.needed()
        if needed - names.keys():
            return
        versions = [found if name in needed else [None, *found] for name, found in names.items()]
        for choice in itertools.product(*versions):
            yield [it for it in choice if it]

    def answers(self):
        return filter(self.is_answer, self.choices())
