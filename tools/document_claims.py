"""The names in pages on the proof compared with the code: each function, clause, definition and wrong body that they name has to be there."""

import re

# A function by its type, or by itself; a clause, a definition or a variant. Other words in backquotes are commands and files.
NAME = re.compile(r"(?:(\w+)::)?(\w+)")
# Names of others: commands, and the tools of the standard library and the kit.
OTHERS = {"rt", "make", "mqserve", "mqctl", "HANDLES", "From", "clap", "writes_back", "stat"}


class Code:
    """What the crates have, by name."""

    def __init__(self, crates):
        self.functions, self.others = {}, {path.name for path in crates.iterdir()}
        for path in crates.glob("*/src/**/*.rt"):
            self.read(path.stem, path.read_text(encoding="utf-8"))
        for path in [*crates.glob("*/specs/**/*.antt"), *crates.glob("*/proofs/**/*.antt")]:
            text = path.read_text(encoding="utf-8")
            self.others |= {path.stem, *re.findall(r"(?m)^ *(?:abbrev |unfoldable )?(?:pub )?(?:data |record )?(\w+)\b.* :", text)}

    def read(self, module, text):
        """The functions of each `impl`, `trait` or module, the clauses, and the names of types, fields and variants."""
        owner = module
        for line in text.splitlines():
            if head := re.match(r"(?:pub )?(?:unsafe )?(?:impl|trait)(?:<.*?>)? (?:\w+(?:<[^{]*>)? for )?(\w+)", line):
                owner = head[1]
            elif line == "}":
                owner = module
            if function := re.search(r"\b(?:fn|ghost) (\w+)", line):
                self.functions.setdefault(function[1], set()).add(owner)
        self.others |= set(re.findall(r"\b(?:ensures|requires|invariant|ghost) (\w+) (?:=|\{)", text))
        self.others |= set(re.findall(r"\b(?:struct|enum|trait|type|mod|static|const) (\w+)", text))
        self.others |= set(re.findall(r"(?m)^ +(?:pub )?(\w+)(?:\(.*\)| \{|: .*)?,?$", text))

    def has(self, owner, name):
        if owner is None:
            return name in self.functions or name in self.others
        return owner in self.functions.get(name, ()) or (name[0].isupper() and {owner, name} <= self.others)


def compare(it, pages, crates, edits):
    """Each name in the pages, which are given as texts by their paths."""
    code = Code(crates)
    for path, page in pages.items():
        names = sorted(name for name in set(re.findall(r"`([^`\n]+)`", page)) if NAME.fullmatch(name) and name not in OTHERS)
        it.there(f"names of functions and clauses in {path}", len(names) >= 20)
        for name in names:
            it.there(f"{name}, named in {path},", name in edits or code.has(*NAME.fullmatch(name).groups()))
