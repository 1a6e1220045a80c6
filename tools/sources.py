"""The sources, as the tools that write and compare documents read them: enumerations, words of rules, and the rules themselves."""

import re
from collections import namedtuple
from pathlib import Path

ROOT = Path(__file__).resolve().parent.parent
CRATES = ROOT / "crates"

RULE_FILE = "crates/ipc_terms/src/rule.rt"
OP_FILE = "crates/ipc_terms/src/op.rt"
DEFINITIONS = "crates/ipc_policy/specs/Decides/Rules.antt"

# A rule: its number, its name, its error, what it refuses, its definition, and the function that asks for it.
Rule = namedtuple("Rule", "number name error cause definition function")


def text(path):
    return (ROOT / path).read_text(encoding="utf-8")


def variants(enum, path):
    """The numbers of an enumeration's variants, by their names."""
    body = text(path).split(f"pub enum {enum} {{", 1)[1].split("\n}", 1)[0]
    return {name: int(number) for name, number in re.findall(r"^    (\w+) = (\d+),$", body, re.M)}


def arms(function):
    """Each rule's word, by the arms of `errno` or `name`."""
    body = text(RULE_FILE).split(f"pub fn {function}", 1)[1].split("pub fn ", 1)[0]
    found = re.findall(r"((?:Rule::\w+\s*\|?\s*)+)=> \"(\w+)\"", body)
    return {rule: word for heads, word in found for rule in re.findall(r"Rule::(\w+)", heads)}


def definitions():
    """Of each rule's number the definition, and what its comment says that it refuses."""
    found = {}
    for comment, name in re.findall(r"(?m)^((?:-- .*\n)+)unfoldable pub (\w+) :", text(DEFINITIONS)):
        words = " ".join(line[3:] for line in comment.splitlines())
        if numbered := re.match(r"(\d+): (.*)", words):
            found[int(numbered[1])] = (name, numbered[2])
    return found


def rules():
    """All rules, in the order of their numbers."""
    numbers, errors, names, defined = variants("Rule", RULE_FILE), arms("errno"), arms("name"), definitions()
    asked = dict(re.findall(r"^        (\w+) => (\w+),$", text("crates/ipc_rules/src/rules.rt"), re.M))
    return [
        Rule(number, names[rule], errors[rule], defined[number][1], defined[number][0], asked[rule])
        for rule, number in sorted(numbers.items(), key=lambda it: it[1])
    ]


def constant(name, path):
    """The number of a constant, without underscores."""
    [value] = re.findall(rf"(?m)^(?:pub )?const {name}: \w+ = (\w+);$", text(path))
    return int(value.replace("_", ""), 0)
