"""The fields of docs/ref/protocol.md compared with those of the definitions, its greatest body, and the frames of its exchange: a part of
documents.py."""

import re
from pathlib import Path

CRATES = Path(__file__).resolve().parent.parent / "crates"

# Kinds of field that the definitions name, as the page writes them.
KINDS = {
    "sid_field": "u64", "desc_field": "u64", "uid_field": "u32", "gid_field": "u32", "mode_field": "u16", "rule_field": "u16",
    "access_field": "access", "family_field": "family", "flags_field": "flags", "attributes_field": "attributes",
    "target_field": "target", "line_field": "line", "boolean": "bool", "byte": "u8",
}
SIZES = {"u8": 1, "u16": 2, "u32": 4, "u64": 8, "bool": 1, "access": 1, "family": 1, "flags": 1, "attributes": 8}
BEFORE = {"optional": "opt ", "counted": "list "}


def definitions():
    files = ("ipc_wire/specs/Requests", "ipc_wire/specs/Answers", "ipc_fields/specs/Terms", "ipc_fields/specs/Frame")
    return "\n".join((CRATES / f"{file}.antt").read_text(encoding="utf-8") for file in files)


def kinds_in_code(body, named):
    """The kinds of field that a definition joins by ⊗, as `opt u32`, `list text` or `rest`."""
    kinds, before = [], ""
    words = re.findall(r"\w+", body)
    for word in words:
        if word in BEFORE:
            before = BEFORE[word]
        elif word in named:
            kinds += named[word]
        elif word not in ("nothing", "only", "then_rest") and not word.endswith("_flags"):
            kinds.append(before + KINDS.get(word, word))
            before = ""
    return kinds + ["rest"] * ("then_rest" in words)


def fields_in_code(texts):
    """The kinds of each request and answer, and of a line and of attributes."""
    records = re.findall(r"(?m)^(\w+_field) = seen .* (\(\w+ ⊗ .*)$", texts)
    parts = {name: kinds_in_code(body, {}) for name, body in records}
    named = {name: kinds for name, kinds in parts.items() if name not in KINDS}
    bodies = re.findall(r"(?m)^(?:request|answer)_with k .*?\.(\w+)[ )][^.]*= k _ (nothing|\(.*?\)) ", texts.replace("request.Do (call", "(call")
                        .replace("request.Do call", "call"))
    return {name: kinds_in_code(body, named) for name, body in bodies}, {"line": parts["line_field"], "attributes": parts["attributes_field"]}


def kinds_in_page(words):
    """The kinds of the fields that the page lists, without the fields' names."""
    known, kinds = {*SIZES, "text", "rest", "target", "line"}, []
    for *before, kind in (part.split() for part in words.split(",") if part.strip()):
        if kind in known:
            kinds.append(f"{before[-1]} {kind}" if before and before[-1] in ("opt", "list") else kind)
    return kinds


def tables_of(blocks):
    """The page's tables: name and kinds by number."""
    return [{int(number): (name, kinds_in_page(words)) for number, name, words in re.findall(r"(?m)^ *(\d+) (\w+) *(.*)$", block)}
            for block in blocks]


def size_of(kind, body):
    """How many of the body's bytes a field takes, or None where it has no such size."""
    if kind.startswith("opt "):
        inner = {b"\0": 0, b"\1": size_of(kind[4:], body[1:])}.get(body[:1])
        return None if inner is None else 1 + inner
    if kind in ("text", "rest"):
        return len(body) if kind == "rest" else 2 + int.from_bytes(body[:2], "big")
    return SIZES.get(kind)


def is_frame(frame, name, tables):
    """Whether the bytes are a whole frame of this name: its length, its opcode and its fields."""
    number, kinds = {word: (number, kinds) for table in tables for number, (word, kinds) in table.items()}.get(name, (0, []))
    body = frame[5:]
    for kind in kinds:
        size = size_of(kind, body)
        if size is None or size > len(body):
            return False
        body = body[size:]
    return frame[:5] == len(frame[4:]).to_bytes(4, "big") + bytes([number]) and not body


def compare(it, page, blocks):
    texts, tables = definitions(), tables_of(blocks)
    code, parts = fields_in_code(texts)
    for name, kinds in (row for table in tables for row in table.values()):
        it.same(f"fields of {name} in protocol.md", kinds, code.get(name))
    for word, kinds in parts.items():
        [said] = re.findall(rf"(?m)^- `{word}`: ([^.\n]*)|. `{word}`: ([^.\n]*)", page)
        it.same(f"fields of {word} in protocol.md", kinds_in_page("".join(said)), kinds)
    [greatest] = re.findall(r"(?m)^max_body = (\d+)$", texts)
    it.same("greatest body in protocol.md", {*re.findall(r"\b16,\d{3},\d{3}\b", page)}, {f"{int(greatest):,}"})
    exchange = re.findall(r"(?m)^[<>] ([0-9a-f ]+?)  +(\w+)", page)
    it.there("an exchange in protocol.md", exchange)
    for figures, name in exchange:
        it.there(f"a frame of {name} in {figures}", is_frame(bytes.fromhex(figures.replace(" ", "")), name, tables))
