"""Tables that are parts of pages: opcodes, the server's options, the samples of its metrics, limits, commands, and the scripts of rows."""

import re

import document_frames
from sources import CRATES, OP_FILE, constant, rules, text, variants

ARGUMENTS = "crates/ipc_program/src/arguments.rt"
# In this order the program has its options.
OPTION_GROUPS = ["thread_options", "server_options", "metrics_options", "trail_options", "limits"]
# Fields of requests and answers, where the page calls them by another word than the definitions.
FIELDS = {"desc": "description", "sid": "session", "uid": "user", "size": "length", "names": "", "lines": ""}
LABELS = {"Objects": '{family="mq"}, {family="sem"}', "Refused": "{rule, name, error}"}


def table(heads, rows):
    """A table in Markdown."""
    lines = [heads, ["---"] * len(heads), *rows]
    return "".join(f"| {' | '.join(str(cell) for cell in line)} |\n" for line in lines)


# ---- Opcodes ----


def records(texts):
    """The names of the fields of each record that a definition spells, as name, access and flags of a queue's open."""
    found = re.findall(r"(?m)^(\w+)_parts \w+ = (.*)$", texts)
    return {f"{name}_field": re.findall(r"\w\.(\w+)", parts) for name, parts in found}


def names_of(value, body, texts):
    """The names of a message's fields: those of the value that is spelled, or of the record that it is."""
    for field, names in records(texts).items():
        if field in body:
            return names
    return re.findall(r"\w+", value)


def spelled(name, kind, opcode):
    """A field as the page has it: its name, if that says more than its kind, and its kind."""
    if kind == "rest":
        return "message rest"
    name = FIELDS.get(name, name)
    bare = kind.split()[-1]
    if kind.startswith("list") or name == bare:
        return kind
    return f"{name} {kind}" + (f", 1 to {len(rules())}" if bare == "u16" and opcode == "Refused" else "")


def bodies(texts):
    """Of each message its definition's body and value."""
    pattern = r"(?m)^(?:request|answer)_with k .*?\.(\w+)[ )][^.]*= k _ (nothing|\(.*?\)) (.*)$"
    plain = texts.replace("request.Do (call", "(call").replace("request.Do call", "call")
    return {name: (body, value) for name, body, value in re.findall(pattern, plain)}


def opcodes(numbers):
    """A block with a line for each message: number, name, fields."""
    texts = document_frames.definitions()
    kinds, bodied = document_frames.fields_in_code(texts)[0], bodies(texts)
    width, lines = max(map(len, numbers)) + 2, []
    for name, number in sorted(numbers.items(), key=lambda it: it[1]):
        body, value = bodied[name]
        named = names_of(value, body, texts) if kinds[name] else []
        fields = ", ".join(spelled(field, kind, name) for field, kind in zip(named, kinds[name]))
        lines.append(f"{number:2} {name:{width}}{fields}".rstrip() + "\n")
    return "```text\n" + "".join(lines) + "```\n"


def requests():
    return opcodes({"Hello": constant("HELLO_NUMBER", OP_FILE), **variants("CallOp", OP_FILE)})


def answers():
    return opcodes(variants("AnswerOp", OP_FILE))


# ---- Options and commands ----


def options():
    """Each option of the server: its name, the word for its value, and what its help says."""
    code = text(ARGUMENTS)
    helps = {name: words for name, words in re.findall(r'const (\w+_HELP): &str =\s*"(.*?)";', code)}
    for group in OPTION_GROUPS:
        body = code.split(f"fn with_{group}<", 1)[1].split("\n}\n", 1)[0]
        for name, value, said in re.findall(r'\.arg\((?:flag|value)\(alloc, "([\w-]+)"(?:, "(\w+)")?, (\w+)\)', body):
            yield name, value, helps[said]


def server_options():
    rows = []
    for name, value, said in options():
        words = re.fullmatch(r"(.*?)(?: \[default: (.*)\])?", said)
        meaning = re.sub(r"(?<![\w-])(--[\w-]+)", r"`\1`", words[1])
        meaning = re.sub(r"(?<![\d:.])\d{4,}\b", lambda found: grouped(found[0]), meaning)
        rows.append([f"`--{name}{' ' + value if value else ''}`", meaning, grouped(words[2] or "")])
    return table(["Option", "Meaning", "Default"], rows)


def grouped(number):
    """A number of over three digits with commas; other words as they are."""
    return f"{int(number):,}" if number.isdigit() and not number.startswith("0") else number


def commands():
    """The commands as `mqctl --help` lists them."""
    listed = text("rows/mqctl/help.out").split("\nCommands:\n", 1)[1].split("\n\nValues:", 1)[0]
    return "```text\n" + re.sub(r"(?m)^  ", "", listed) + "\n```\n"


def usage():
    """How `mqctl` is called."""
    listed = text("rows/mqctl/help.out").split("\nUsage:\n", 1)[1].split("\nKEY ", 1)[0]
    return "```text\n" + re.sub(r"(?m)^  ", "", listed).rstrip("\n") + "\n```\n"


def metrics():
    families = re.findall(r'name: "(\w+)",\s*help: "(.*?)",\s*kind: Kind::(\w+),\s*samples: Samples::(\w+)', text("crates/ipc_metrics/src/families.rt"))
    rows = [[f"`{name}{LABELS.get(samples, '')}`", kind.lower(), said] for name, said, kind, samples in families]
    return table(["Sample", "Kind", "Meaning"], rows)


# ---- Limits ----


def standard(name):
    """A limit where none is given."""
    body = text("crates/ipc_policy/src/config.rt").split("pub const STANDARD: Limits", 1)[1]
    return int(re.findall(rf"{name}: (\w+),", body)[0])


def refused_by(*numbers):
    """The rules of these numbers, as the last cell names them."""
    return ", ".join(f"[{rule.number} {rule.name}](../use/rules.md#rule-{rule.number}), {rule.error}" for rule in rules() if rule.number in numbers)


def policy_limits():
    """Limits that a rule watches."""
    config, terms = "crates/ipc_policy/src/config.rt", "crates/ipc_terms/src/limits.rt"
    most_value, descriptions = constant("SEM_VALUE_MAX", "crates/ipc_terms/src/object.rt"), constant("DESCRIPTIONS_MAX", config)
    charged, priority = constant("DEFAULT_LIMIT", "crates/ipc_access/src/line.rt"), constant("MQ_PRIO_MAX", terms) - 1
    return [
        ["messages of a queue", standard("msg_max"), f"1 to {constant('HARD_MSG_MAX', config):,}", "`--msg-max`", refused_by(20)],
        ["bytes of a message", standard("msgsize_max"), f"1 to {constant('HARD_MSGSIZE_MAX', config):,}", "`--msgsize-max`", refused_by(20)],
        ["queues that are alive", standard("queues_max"), f"0 to {constant('HARD_QUEUES_MAX', config):,}", "`--queues-max`", refused_by(22)],
        ["bytes of a user's queues", charged, f"0 to {constant('LIMIT_MAX', terms):,}", "the user file, `set-limit`", refused_by(23)],
        ["descriptions of a session", descriptions, "fixed", "", refused_by(24)],
        ["greatest priority", priority, "fixed", "", refused_by(25)],
        ["greatest value of a semaphore", most_value, "fixed", "", refused_by(21, 30)],
    ]


def server_limits():
    """Limits of the server itself."""
    program, loop = "crates/ipc_program/src/arguments.rt", "crates/ipc_loop/src"
    segment = f"{constant('SMALLEST_SEGMENT', 'crates/ipc_program/src/trails.rt'):,} or more"
    return [
        ["connections, on one thread", constant("STANDARD_CONNECTIONS", program), "1 to 4,294,967,295", "`--connections`", ""],
        ["connections, by workers", constant("STANDARD_WORKERS", program), f"1 to {constant('MOST_WORKERS', program)}", "`--workers`", ""],
        ["records kept", constant("STANDARD_RECORDS", program), f"{constant('FEWEST_RECORDS', program):,} or more", "`--keep-records`", ""],
        ["bytes of records kept", constant("STANDARD_BYTES", program), "any", "`--keep-bytes`", ""],
        ["bytes of a trail's file", "no limit", segment, "`--trail-segment`", ""],
        ["bytes of all unfinished requests", constant("MOST_UNFINISHED", f"{loop}/turns.rt"), "fixed", "", ""],
        ["users", constant("MOST_USERS", "crates/ipc_access/src/file.rt"), "fixed", "", ""],
        ["groups of a user", constant("MOST_GROUPS", "crates/ipc_access/src/line.rt"), "fixed", "", ""],
        ["connections that read metrics", constant("MOST_SCRAPERS", "crates/ipc_sockets/src/scrapers.rt"), "fixed", "", ""],
    ]


def limits():
    rows = [[what, f"{value:,}" if isinstance(value, int) else value, *rest] for what, value, *rest in policy_limits() + server_limits()]
    return table(["Limit", "Default", "Range", "Set by", "Refused by rule"], rows)


# ---- Rows ----


def refusals(script):
    """The rules that refuse a step of the script."""
    out = CRATES / f"test_rows/data/scripts/{script}.out"
    numbers = re.findall(rb"(?m)^\S+ refused (\d+) ", out.read_bytes()) if out.exists() else []
    return ", ".join(str(number) for number in sorted({int(number) for number in numbers}))


def shown():
    """What each script shows, by its name."""
    return dict(re.findall(r"(?m)^(\w+): (.*)$", text("rows/scripts.txt")))


def scripts():
    """The scripts of test_rows, what they show, and the rules that refuse a step of each."""
    rows = [[f"`{name}`", words, refusals(name)] for name, words in shown().items()]
    return table(["Script", "Shows", "Rules that refuse"], rows)
