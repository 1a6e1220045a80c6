"""docs/dev/claims.md: what the contract of each public function says by name, crate by crate, from the sources alone; the wrong bodies that the
prover refuses; and the developers' table of rules."""

import re

import generate_rules
from programs import NAMES, below, uses
from sources import CRATES

HEAD = """# Claims by crate

For reviewers of the proof: each public function whose contract promises something, with the names
of its clauses. `requires` names conditions that callers meet; a clause without a name isn't listed.
The gate proves each function against its contract, and each caller by that contract alone.
[Guarantees](../ref/guarantees.md) explains the claims that matter.
"""

OWNER = re.compile(r"(?:pub )?(?:unsafe )?(?:impl|trait)(?:<.*?>)? (?:(\w+)(?:<[^{]*>)? for )?(\w+)")
FUNCTION = re.compile(r" *pub (?:const )?(?:ghost )?fn (\w+)")
CLAUSE = re.compile(r" *(requires|ensures) (?:(\w+) )?\{")


def first_sentence(comment):
    """The first sentence of a comment, without the words that a page of Markdown would take for a link."""
    words = " ".join(comment).split("# Errors")[0].strip()
    sentence = re.match(r"(.*?\.)(?: (?=[A-Z`])|$)", words)
    return (sentence[1] if sentence else words).rstrip(":").replace("[", "\\[")


class Contract:
    """A public function's name with its type or module, the first sentence of its comment, and its clauses."""

    def __init__(self, name, comment):
        self.name, self.says = name, first_sentence(comment)
        self.clauses = {"requires": [], "ensures": []}

    def line(self):
        """The contract as an item of a list."""
        said = [f"`{name}`" for name in self.clauses["ensures"] if name]
        if self.clauses["requires"]:
            said.append(f"requires {', '.join(f'`{name}`' for name in self.clauses['requires'] if name)}".strip())
        return f"- `{self.name}`" + (f" ({', '.join(said)})" if said else "") + (f": {self.says}" if self.says else "") + "\n"


def contracts(path):
    """The contracts of the public functions of a file that ensure something."""
    found, current, comment, owner = [], None, [], path.stem
    for line in path.read_text(encoding="utf-8").splitlines():
        bare = line.strip()
        if bare.startswith("///"):
            comment.append(bare[3:].strip())
            continue
        if head := OWNER.match(line):
            owner = head[2]
        elif line == "}":
            owner = path.stem
        if function := FUNCTION.match(line):
            current = Contract(f"{owner}::{function[1]}", comment)
            found.append(current)
        elif clause := CLAUSE.match(line):
            if current:
                current.clauses[clause[1]].append(clause[2] or "")
        elif bare == "{" or bare.startswith("{}") or re.search(r"\bfn \w+", bare):
            current = None
        if not bare.startswith("#["):
            comment = []
    return [contract for contract in found if contract.clauses["ensures"]]


def purpose(crate):
    """What the crate is for: the first sentence of its library or program."""
    files = [CRATES / crate / "src" / name for name in ("lib.rt", "main.rt")]
    [file] = [file for file in files if file.is_file()]
    comment = [line[3:].strip() for line in file.read_text(encoding="utf-8").splitlines() if line.startswith("//!")]
    return first_sentence(comment)


def crates():
    """The crates that the programs stand on, and these, in the order of crates.txt."""
    lines = uses()
    wanted = set().union(*(below(name, lines) for name in NAMES))
    return [name for name in lines if name in wanted]


def section(crate):
    """A crate's claims."""
    files = sorted((CRATES / crate / "src").rglob("*.rt"))
    lines = [contract.line() for file in files for contract in contracts(file)]
    return f"\n## {crate}\n\n{purpose(crate)}\n\n" + ("".join(lines) or "No public function promises anything.\n")


def wrong_bodies():
    """The names of the wrong bodies, by crate and by which command tries them."""
    gate, more = (len(list(CRATES.glob(f"*/{folder}/*.edit"))) for folder in ("must-fail", "more-edits"))
    said = ["\n## Wrong bodies\n\nEach is a change of a function's body that the prover must refuse. There are "]
    said.append(f"{gate} wrong bodies\nof the gate, and {more} others, which `make edits` tries.\n\n")
    said.append("| Crate | Gate | `make edits` |\n|---|---|---|\n")
    for crate in sorted(path.name for path in CRATES.iterdir()):
        names = [[edit.stem for edit in sorted((CRATES / crate / folder).glob("*.edit"))] for folder in ("must-fail", "more-edits")]
        if any(names):
            said.append(f"| {crate} | {' | '.join(', '.join(f'`{name}`' for name in part) for part in names)} |\n")
    return "".join(said)


def page():
    """docs/dev/claims.md."""
    rules = (
        "\n## Rules\n\nThe definition stands in `crates/ipc_policy/specs/Decides/Rules.antt`, and the function of the\nsame name in "
        "`crates/ipc_rules`. The row shows the rule refusing; the edit is a wrong body of it that\nthe prover refuses. "
        "[Rules](../use/rules.md) says what each refuses.\n\n"
    )
    return HEAD + "".join(section(crate) for crate in crates()) + wrong_bodies() + rules + generate_rules.table()
