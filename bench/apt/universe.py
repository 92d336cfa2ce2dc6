"""The packages of a scenario, for judges that know nothing of scenarios: bench/debian/judge and dose-debcheck."""
import collections
import os
import re
import subprocess
import tempfile

from scenarios import fields_of, stanzas

JUDGE = os.path.join(os.path.dirname(os.path.abspath(__file__)), "../debian/judge")
FIELDS = ("Package", "Version", "Architecture", "Multi-Arch", "Pre-Depends", "Depends", "Conflicts", "Breaks")


def paragraph(fields):
    """A package for both judges. It provides a name that means it alone, and not what provides its name."""
    provides = ", ".join(filter(None, [fields.get("Provides"), f"is-{fields['Package']}"]))
    return "".join(f"{name}: {fields[name]}\n" for name in FIELDS if name in fields) + f"Provides: {provides}\n\n"


def request(number, names, absent=()):
    """A package that depends on these names, and conflicts with those."""
    fields = {"Package": f"request-{number}", "Version": "1", "Architecture": "all"}
    fields |= {"Depends": ", ".join(f"is-{name}" for name in sorted(names))}
    return paragraph({**fields, "Conflicts": ", ".join(f"is-{name}" for name in sorted(absent))} if absent else fields)


class Universe:
    """The packages of a scenario."""

    def __init__(self, scenario, folder):
        self.packages, self.folder = [fields_of(stanza) for stanza in stanzas(scenario.packages)], folder
        self.by_name = collections.defaultdict(dict)
        for fields in self.packages:
            self.by_name[fields["Package"]][fields["Version"]] = fields
        self.held = {fields["Package"] for fields in self.packages if fields.get("Hold") == "yes"}
        essential = {it["Package"] for it in self.installed() if it.get("Essential") == "yes"}
        self.staying = essential | {it["Package"] for it in self.installed() if it["Package"] in self.held}

    def installed(self):
        return [fields for fields in self.packages if fields.get("Installed") == "yes"]

    def may_be_new(self, name, version):
        """Whether a package that isn't installed may be picked. A held one is never asked for here."""
        return self.by_name[name][version].get("APT-Candidate") == "yes" and name not in self.held

    def may_be_picked(self, fields):
        return fields.get("Installed") == "yes" or self.may_be_new(fields["Package"], fields["Version"])

    def write(self, paragraphs):
        """A new file of these."""
        handle, path = tempfile.mkstemp(dir=self.folder)
        with open(handle, "w", encoding="utf-8") as file:
            file.writelines(paragraphs)
        return path

    def broken(self, asked, packages=None):
        """The numbers of the requests that can't be met, each by the names that it needs and those that may not be."""
        known = packages if packages is not None else filter(self.may_be_picked, self.packages)
        known = self.write(map(paragraph, known))
        wanted = self.write(request(number, *names) for number, names in asked.items())
        words = ["dose-debcheck", "--quiet", "--failures", "--deb-native-arch=amd64", "--deb-ignore-essential"]
        said = subprocess.run([*words, f"--bg={known}", f"--fg={wanted}"], capture_output=True, text=True)
        if "background-packages" not in said.stdout:
            raise SystemExit(f"dose-debcheck says {said.stdout[-500:]}{said.stderr[-500:]}")
        return {int(number) for number in re.findall(r"package: request-(\d+)", said.stdout)}

    def faults(self, there):
        """What the two judges say of packages that are there."""
        found = [self.by_name[name][version] for (name, _), version in there.items()]
        packages = self.write(map(paragraph, found))
        text = f"request:{found[0]['Package']}:\n" + "".join(f"{it['Package']} {it['Version']}\n" for it in found)
        said = subprocess.run([JUDGE, packages], input=text, capture_output=True, text=True)
        if said.returncode:
            yield said.stdout
        if self.broken({0: ({it["Package"] for it in found}, ())}, found):
            yield "dose-debcheck says that this can't be there"
