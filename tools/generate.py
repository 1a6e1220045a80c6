#!/usr/bin/env python3
"""Writes the pages that are generated from the sources, and the parts of others between `<!-- generated: NAME -->` and `<!-- end -->`.

`tools/generate.py` writes what differs, and says so; `tools/generate.py --check` writes nothing, and its status is 1 where something
differs. `make docs` checks the same."""

import functools
import re
import sys

sys.dont_write_bytecode = True
import generate_claims  # noqa: E402
import generate_rules  # noqa: E402
import generate_tables  # noqa: E402
from sources import ROOT  # noqa: E402

# Whole pages, and how each begins: a note for anyone who opens one to edit it.
NOTE = "<!-- Written by tools/generate.py: don't edit. -->\n"
MAN_NOTE = '.\\" Written by tools/generate.py from the sources: don\'t edit.\n'
PAGES = {
    "docs/use/rules.md": lambda: NOTE + generate_rules.page(),
    "docs/dev/claims.md": lambda: NOTE + generate_claims.page(),
    "clients/man/mqserve-rules.7": lambda: MAN_NOTE + generate_rules.man(),
}
PARTS = {
    "requests": generate_tables.requests,
    "answers": generate_tables.answers,
    "server-options": generate_tables.server_options,
    "mqctl-usage": generate_tables.usage,
    "commands": generate_tables.commands,
    "metrics": generate_tables.metrics,
    "limits": generate_tables.limits,
    "scripts": generate_tables.scripts,
    "rules": generate_rules.table,
}
PART = re.compile(r"(?ms)^<!-- generated: ([\w-]+) -->\n(.*?)^<!-- end -->$")


def documents():
    """Each page that a reader may open, by its path from the top."""
    pages = [*ROOT.glob("*.md"), *ROOT.glob("docs/**/*.md"), *ROOT.glob("*/README.md")]
    return sorted(str(page.relative_to(ROOT)) for page in pages)


@functools.lru_cache(maxsize=None)
def part(name):
    """A part of this name, with its marks."""
    if name not in PARTS:
        raise KeyError(f"there is no generated part {name}: {', '.join(PARTS)}")
    return f"<!-- generated: {name} -->\n{PARTS[name]()}<!-- end -->"


def filled(page):
    """The page with its parts as they must be."""
    return PART.sub(lambda found: part(found[1]), page)


def stale():
    """The paths of pages that differ from what they must be, and their text as it must be."""
    for path, made in PAGES.items():
        wanted, file = made(), ROOT / path
        if not file.exists() or file.read_text(encoding="utf-8") != wanted:
            yield path, wanted
    for path in documents():
        page = (ROOT / path).read_text(encoding="utf-8")
        if path not in PAGES and filled(page) != page:
            yield path, filled(page)


def main(words):
    is_check, count = words == ["--check"], 0
    for path, wanted in stale():
        count += 1
        print(f"{path} {'is stale: make generate writes it' if is_check else 'is written'}")
        if not is_check:
            (ROOT / path).parent.mkdir(parents=True, exist_ok=True)
            (ROOT / path).write_text(wanted, encoding="utf-8")
    return 1 if is_check and count else 0


if __name__ == "__main__":
    sys.exit(main(sys.argv[1:]))
