"""The promises, as the pages docs/PROMISES*.md have them."""
import re

import mutants

NAMES = "PROMISES.md PROMISES-OF-PARTS.md PROMISES-OF-PICKING.md PROMISES-OF-DEBIAN.md"
PAGES = [mutants.HERE.parent / "docs" / name for name in NAMES.split()]


def chapters():
    """The pages' headings, each with the titles of the promises under it."""
    for page in PAGES:
        for chapter in re.split(r"^## ", page.read_text(), flags=re.M)[1:]:
            heading = chapter.partition("\n")[0]
            yield heading, re.findall(r"^- \*\*(.*?)\*\*", chapter, re.M)


def titles():
    return [title for _, its in chapters() for title in its]
