#!/usr/bin/env python3
"""Compares the documents with what they speak of:

- the rules: each definition, function, row and edit that the developers' table names, and that each has a way to be fixed
- the functions, clauses and definitions that docs/ref/guarantees.md and docs/dev/proofs.md name, and how many wrong bodies there are
- that each text which an edit of more-edits turns stands once in its file: `rt fmt` looks at those of must-fail alone
- the files that the developers' pages name, and docs/dev/recipes.md's recipe for a call with what the newest calls touched
- the numbers of rules, calls and laws, wherever a document states how many there are
- docs/ref/protocol.md's opcodes, their fields, the greatest body and the frames of its exchange; docs/use/commands.md's commands with what
  each takes
- the rules and opcodes that the clients in C and Python have
- the options of `mqserve --help` and their defaults, in its page and in docs/run/operate.md; the samples of its metrics
- the version, in the program, its row and CHANGELOG.md
- the speeds in README.md, with those of bench/README.md
- the unit's command line and limits, with those that docs/run/service.md gives by hand
- what document_pages.py finds in every page: links, words, sentences; and whether what generate.py and pictures.py write is as they write it

Prints what differs, and how many things were compared. That README.md names another kit than `rt version` is said, and is no
fault; so are words that a native editor would replace."""

import re
import shutil
import subprocess
import sys

sys.dont_write_bytecode = True
import document_claims  # noqa: E402
import document_frames  # noqa: E402
import document_pages  # noqa: E402
import generate  # noqa: E402
import generate_rules  # noqa: E402
import generate_tables  # noqa: E402
import recipes  # noqa: E402
from sources import CRATES, OP_FILE, ROOT, RULE_FILE, arms, rules, text, variants  # noqa: E402

PROTOCOL, COMMANDS = "docs/ref/protocol.md", "docs/use/commands.md"
# Pages whose names of functions, clauses and wrong bodies must be there. That a page is missing is told by document_pages.py.
CLAIMING = ["docs/ref/guarantees.md", "docs/dev/proofs.md"]
OPERATE, SERVICE, POLICY = "docs/run/operate.md", "docs/run/service.md", "docs/dev/policy.md"
# Pages whose paths of files must be there.
NAMING_FILES = ["CONTRIBUTING.md", "docs/dev/recipes.md", "docs/dev/architecture.md", "docs/dev/clients.md"]
# The steps of a script that are no calls.
STEPS = {"hello", "hangup", "tick"}
WORDS = "one two three four five six seven eight nine ten eleven twelve thirteen fourteen fifteen sixteen seventeen eighteen nineteen"
TENS = "twenty thirty forty fifty sixty seventy eighty ninety"
# How documents state a whole number of rules, calls or laws. A small number is of some of them.
STATED = [
    r"policy of ([\w-]+) (rules)",
    r"\ball ([\w-]+) (rules|calls|laws)",
    r"\bthe ([\w-]+) \[?(rules|calls|laws)\b",
    r"any of the ([\w-]+)(), by all",
]
LEAST_STATED = 15
# Whose speeds README.md has, as bench/README.md calls them.
SPEEDS = ["mqserve --one-thread", "Redis", "beanstalkd", "kernel's queues, no server"]


class Comparison:
    """What was compared, and what differs."""

    def __init__(self):
        self.wrong, self.compared = [], 0

    def same(self, what, found, wanted):
        self.compared += 1
        if found != wanted:
            self.wrong.append(f"{what}: {found}, and not {wanted}")

    def there(self, what, is_there):
        self.compared += 1
        if not is_there:
            self.wrong.append(f"{what} is missing")

    def none(self, wrong, looked_at=1):
        """Faults that were found among so many things."""
        self.compared += looked_at
        self.wrong += wrong


def refuses(row, number):
    """Whether a step of the row is refused by the rule of this number."""
    outs = [path.with_suffix(".out") for path in CRATES.glob(f"*/data/*/{row}.in")]
    return any(re.search(rb"\brefused %d " % number, out.read_bytes()) for out in outs if out.exists())


def compare_rules(it, edits):
    defined = set(re.findall(r"^(?:abbrev |unfoldable )?pub (\w+) :", text("crates/ipc_policy/specs/Decides/Rules.antt"), re.M))
    shown, fixes, numbers = generate_rules.shown(), generate_rules.fixes(), variants("Rule", RULE_FILE)
    asked = dict(re.findall(r"^        (\w+) => (\w+),$", text("crates/ipc_rules/src/rules.rt"), re.M))
    it.same("numbers of rules in tools/rules.txt", sorted(shown), sorted(numbers.values()))
    it.same("numbers of rules in docs/use/rules-fix.txt", sorted(fixes), sorted(numbers.values()))
    for rule in rules():
        row, edit = shown.get(rule.number, ("", ""))
        it.same(f"number of {rule.name}", rule.number, numbers.get(rule.name))
        it.same(f"error of {rule.name}", rule.error, arms("errno").get(rule.name))
        it.same(f"function of {rule.name}", rule.definition, asked.get(rule.name))
        it.there(f"definition {rule.function}", rule.function in defined)
        it.there(f"a step of row {row} that rule {rule.number} refuses", refuses(row, rule.number))
        it.there(f"edit {edit}", edit in edits)


def compare_edits_left_out(it):
    for edit in sorted(CRATES.glob("*/more-edits/*.edit")):
        lines = edit.read_text(encoding="utf-8").splitlines()
        [file] = [line[len("file: ") :] for line in lines if line.startswith("file: ")]
        turned = (edit.parent.parent / file).read_text(encoding="utf-8")
        for line in lines:
            if line.startswith("old: "):
                it.same(f"how often the text of {edit.relative_to(ROOT)} stands", turned.count(line[len("old: ") :]), 1)


def compare_edit_counts(it, pages):
    """How many wrong bodies the gate tries, and how many `make edits` does, wherever a document says so."""
    gate, more = (len(list(CRATES.glob(f"*/{folder}/*.edit"))) for folder in ("must-fail", "more-edits"))
    stated = {path: page for path, page in pages.items() if re.search(r"\d\s+wrong\s+bodies\s+of\s+the\s+gate", page)}
    it.there("a statement of the number of wrong bodies", stated)
    for path, page in stated.items():
        it.same(f"wrong bodies of the gate in {path}", set(re.findall(r"(\d+)\s+wrong\s+bodies\s+of\s+the\s+gate", page)), {str(gate)})
        it.same(f"wrong bodies of make edits in {path}", set(re.findall(r"(\d+)\s+others", page)), {str(more)})


def paths():
    """Each file and folder, from the top, but for what is built."""
    for path in ROOT.rglob("*"):
        short = path.relative_to(ROOT)
        if not {"out", ".git"} & set(short.parts):
            yield str(short)


def compare_files(it, pages):
    """Each file and folder that a developers' page names, by its path or the end of it."""
    ends = "".join(f"/{path}\n" for path in paths())
    for page in filter(pages.get, NAMING_FILES):
        named = set(re.findall(r"`([\w.-]+(?:/[\w.-]+)+/?|[\w.-]+\.(?:rt|antt|py))`", pages[page]))
        it.there(f"a file that {page} names", named)
        for name in sorted(named):
            if not re.search(r"NAME|FILE|FUNCTION|^\.git/", name):
                it.there(f"{name}, named in {page},", f"/{name}\n" in ends or f"/{name.rstrip('/')}\n" in ends)


def compare_recipe(it):
    """Each file that a new call touched stands in the recipe for a call."""
    tracked, names = recipes.tracked(), recipes.recipe()
    for call in recipes.NEWEST:
        for path in recipes.files_of(call, tracked):
            it.there(f"{path}, which names {call}, in {recipes.PAGE}'s recipe for a call,", recipes.is_named(path, names))


def number_of(word):
    """The number that the word says, in digits or letters, or nothing."""
    said = dict(zip(WORDS.split(), range(1, 20)))
    for ten, word_of_ten in enumerate(TENS.split(), 2):
        said[word_of_ten] = 10 * ten
        said.update({f"{word_of_ten}-{one}": 10 * ten + n for n, one in enumerate(WORDS.split()[:9], 1)})
    return int(word) if word.isdigit() else said.get(word.lower())


def compare_counts(it, pages):
    laws = "".join(text(f"crates/ipc_policy/src/{file}.rt") for file in ("laws", "messages"))
    counts = {
        "rules": len(variants("Rule", RULE_FILE)),
        "calls": len(variants("CallOp", OP_FILE)),
        "laws": len(re.findall(r"^pub fn ", laws, re.M)),
    }
    stated = dict.fromkeys(counts, 0)
    for path, page in pages.items():
        for pattern in STATED:
            for word, what in re.findall(pattern, page.replace("\n", " ")):
                what, number = what or "calls", number_of(word)
                if number and number >= LEAST_STATED:
                    it.same(f"number of {what} in {path}", number, counts[what])
                    stated[what] += 1
    for what, times in stated.items():
        it.there(f"a statement of the number of {what}", times > 0)
    listed = text(POLICY).split("## Laws", 1)[1].split("\n## ", 1)[0]
    heads = [line.split(":", 1)[0] for line in listed.splitlines() if line.startswith("- ")]
    names = {name for head in heads for name in re.findall(r"`(\w+)`", head.split(" [")[0])}
    it.same(f"laws that {POLICY} has and the code hasn't, or the other way", names ^ {*re.findall(r"(?m)^pub fn (\w+)", laws)}, set())


def compare_frames(it):
    frames = text(PROTOCOL)
    blocks = [block for block in re.findall(r"(?ms)^```(?:text)?\n(.*?)^```", frames) if re.match(r" *\d+ [A-Z]", block)]
    tables = [dict(re.findall(r"^ *(\d+) (\w+)", block, re.M)) for block in blocks]
    others = dict(re.findall(r"(?m)^(\w+)_number = (\d+)$", text("crates/ipc_terms/specs/Ops.antt")))
    it.same(f"tables of opcodes in {PROTOCOL}", len(tables), 2)
    calls = {"Hello": int(others["hello"]), **variants("CallOp", OP_FILE)}
    for table, wanted in zip(tables, (calls, variants("AnswerOp", OP_FILE))):
        named = {str(number): name for name, number in wanted.items()}
        for number in sorted({*table, *named}, key=int):
            it.same(f"opcode {number} in {PROTOCOL}", table.get(number), named.get(number))
    for word, name in (("hang-up", "hang_up"), ("tick", "tick")):
        it.same(f"number of a {word} in {PROTOCOL}", re.findall(rf"(\d+)\s+for\s+a\s+{word}", frames), [others[name]])
    document_frames.compare(it, frames, blocks)
    greatest = max(variants("Rule", RULE_FILE).values())
    it.same(f"greatest rule in {PROTOCOL}", re.findall(r"rule u16, 1 to (\d+)", frames), [str(greatest)])


def enumerated(enum):
    """The numbers of an enumeration of C, by its names without underscores and in lower case."""
    [body] = re.findall(rf"enum {enum} {{(.*?)}}", text("clients/c/connection.h"), re.S)
    found, number = {}, 0
    for name, given in re.findall(r"([A-Z]\w+)(?: = (\d+))?", body):
        number = int(given) if given else number + 1
        found[name.replace("_", "").lower()] = number
    return found


def opcodes_in_python(first):
    """The opcodes that the module in Python names, from `first` to 63 further on, by their names in lower case."""
    [lines] = re.findall(r"(?s)# Requests and answers.*?\n(.*?)SIZES", text("clients/python/mqserve/_wire.py"))
    named = {}
    exec(lines, {"range": range}, named)     # lines of names and numbers alone
    return {name.replace("_", "").lower(): number for name, number in named.items() if first <= number < first + 64}


def compare_clients(it):
    """The rules and opcodes that the libraries in C and Python have."""
    number, error, name = variants("Rule", RULE_FILE), arms("errno"), arms("name")
    wanted = [(error.get(rule), name.get(rule)) for rule in sorted(number, key=number.get)]
    it.same("rules of clients/c/rules.c", re.findall(r'{ (E\w+), "(\w+)" }', text("clients/c/rules.c")), wanted)
    [names] = re.findall(r"(?s)NAMES = \((.*?)\)\.split", text("clients/python/mqserve/_errors.py"))
    it.same("rules of clients/python/mqserve", re.findall(r"\w+", names), [word for _, word in wanted])
    for enum, op in (("request_op", "CallOp"), ("answer_op", "AnswerOp")):
        code = {word.lower(): value for word, value in variants(op, OP_FILE).items()}
        for word, value in enumerated(enum).items():
            it.same(f"opcode {word} of clients/c/connection.h", value, 1 if word == "hello" else code.get(word))
        for word, value in opcodes_in_python(1 if op == "CallOp" else 65).items():
            it.same(f"opcode {word} of clients/python/mqserve", value, 1 if word == "hello" else code.get("names" if word == "page" else word))


def ordered(arguments):
    """Values in their order, and then flags and options with a value, which may stand anywhere."""
    return sorted(arguments, key=lambda it: (it[0], it[1]) if it[0] in ("Flag", "Valued") else ("", ""))


def commands_in_code():
    """What stands behind each command's word: the required values, the optional ones, flags and options with a value."""
    forms = text("crates/ipc_words/src/commands.rt").split("pub static FORMS", 1)[1].split("\n];", 1)[0]
    found = {}
    for word, behind in re.findall(r'word: "([\w-]+)".*?arguments: &\[(.*?)\]', forms, re.S):
        found[word] = ordered(re.findall(r'(Required|Optional|Flag|Valued)\("(\w+)"\)', behind))
    return found


def commands_in_page():
    """The same, as the page's table of steps has it."""
    found = {}
    for cell in re.findall(r"^\| (`[^|]*`) \|", text(COMMANDS), re.M):
        for command in re.findall(r"`([^`]+)`", cell):
            word, *behind = command.split()
            found[word] = ordered(arguments_of(behind))
    return found


def arguments_of(words):
    """Reads words as NAME, [NAME], [--NAME] and [--NAME N], where brackets may stand around several."""
    plain = [word.strip("[]") for word in words]
    for at, word in enumerate(plain):
        follows = plain[at + 1] if at + 1 < len(plain) and not words[at].endswith("]") else "--"
        if word.startswith("--"):
            yield ("Flag" if follows.startswith("--") else "Valued", word[2:])
        elif at == 0 or not plain[at - 1].startswith("--") or words[at - 1].endswith("]"):
            yield ("Optional" if words[at].startswith("[") else "Required", word.lower())


def compare_commands(it):
    code, page = commands_in_code(), commands_in_page()
    it.same(f"commands in {COMMANDS}", sorted({*page} - STEPS), sorted(code))
    for word in sorted({*code} & {*page}):
        it.same(f"{word} in {COMMANDS}", page[word], code[word])


# The options for which `limits` stands in the page's synopsis.
LIMITS = {"msg-max", "msgsize-max", "queues-max"}


def compare_options(it):
    """The options of `mqserve --help`: in the page's synopsis, and each by itself; those of a server in the operator's page."""
    usage, page = text("rows/mqserve/help.out").split("\n\nA script", 1)[0], text("clients/man/mqserve.1")
    options = set(re.findall(r"--([a-z-]+)", usage))
    synopsis = page.split(".Sh SYNOPSIS\n", 1)[1].split("\n.Sh ", 1)[0]
    items = "\n".join(re.findall(r"(?m)^\.It (.*)$", page))
    for where, words, wanted in (("the synopsis of mqserve.1", synopsis, options - LIMITS), ("the list of mqserve.1", items, options)):
        it.same(f"options in {where}", sorted(set(re.findall(r"Fl -([a-z-]+)", words))), sorted(wanted))
    served = set(re.findall(r"--([a-z-]+)", usage.split("mqserve serve ", 1)[1].split("mqserve replay ", 1)[0]))
    it.same("options of a server in its help", {name for name, _, _ in generate_tables.options()}, served)
    firsts = "\n".join(re.findall(r"(?m)^\| ([^|]*) \|", text(OPERATE)))
    it.same(f"options in the table of {OPERATE}", sorted(set(re.findall(r"--([a-z][a-z-]*)", firsts))), sorted(served))


def compare_defaults(it):
    """The default of each option of a server, in the item of mqserve(1) that tells of it."""
    items = re.split(r"(?m)^\.It ", text("clients/man/mqserve.1"))
    for name, _, said in generate_tables.options():
        if default := re.search(r"\[default: (\d+)\]", said):
            number = generate_tables.grouped(default[1])
            told = [item for item in items if re.match(rf"Fl -{name}\b(?!-)", item)]
            it.there(f"default {number} of --{name} in mqserve.1", any(re.search(rf"(?<![\d,]){number}(?![\d,]\d)", item) for item in told))


def compare_metrics(it, pages):
    """The samples that the pages name, and each of them in the operator's page."""
    samples = set(re.findall(r'name: "(\w+)"', text("crates/ipc_metrics/src/families.rt")))
    for path, page in pages.items():
        for name in sorted(set(re.findall(r"\bmqserve_[a-z_]+(?:_total|_kept|_bytes|s)\b", page)) - {"mqserve_jobs"}):
            it.there(f"sample {name}, named in {path},", name in samples)
    for name in sorted(samples):
        it.there(f"sample {name} in {OPERATE}", name in text(OPERATE))


# Where the clients tell their version, and how.
CLIENT_VERSIONS = {
    "clients/Makefile": r"(?m)^VERSION = ([\d.]+)$",
    "clients/c/mqserve.h": r'(?m)^#define MQS_VERSION "([\d.]+)"$',
    "clients/python/mqserve/__init__.py": r'(?m)^VERSION = "([\d.]+)"$',
    "clients/python/pyproject.toml": r'(?m)^version = "([\d.]+)"$',
}


def compare_versions(it):
    [program] = re.findall(r'\.version\("([\d.]+)"\)', text("crates/ipc_program/src/arguments.rt"))
    it.same("version in rows/mqserve/version.out", text("rows/mqserve/version.out"), f"mqserve {program}\n")
    it.same("newest version in CHANGELOG.md", re.findall(r"(?m)^## ([\d.]+)", text("CHANGELOG.md"))[:1], [program])
    for path, told in CLIENT_VERSIONS.items():
        it.same(f"version in {path}", re.findall(told, text(path)), [program])


def measured_speeds():
    """Messages a second of bench/README.md: of each job, by who did it."""
    figures = text("bench/README.md").split("## Figures", 1)[1].split("\n![", 1)[0]
    jobs = re.split(r"(?m)^\| \*\*(.*?)\*\* \|.*\n", figures)[1:]
    return [dict(re.findall(r"(?m)^\| ([^|]+?) \| ([\d,]+) \|", rows)) for rows in jobs[1::2]]


def compare_speeds(it):
    readme, jobs = text("README.md"), measured_speeds()
    [row] = re.findall(r"(?m)^\| messages a second, one by one; by 8 \| (.*) \|$", readme)
    wanted = [f"{jobs[0].get(who)}; {jobs[1].get(who)}" for who in SPEEDS]
    it.same("speeds in README.md", row.split(" | "), wanted)
    number = lambda job, who: int(job[who].replace(",", ""))
    ratios = [number(job, SPEEDS[-1]) / number(job, SPEEDS[0]) for job in jobs]
    times = [(f"{min(ratios):.0f}", f"{max(ratios):.0f}")]
    it.same("how fast the kernel's queues are, in README.md", re.findall(r"(?<![\d.])(\d+) to (\d+) times as fast", readme), times)


def compare_service(it):
    unit, page = dict(re.findall(r"(?m)^(\w+)=(.*)$", text("service/mqserve.service"))), text(SERVICE)
    [options] = re.findall(r'^"OPTIONS=(.*)"$', unit["Environment"])
    size = int(unit["LimitAS"].replace("G", "")) * 2**30
    limits = f"prlimit --nofile={unit['LimitNOFILE']} --as={size} --core={unit['LimitCORE']}"
    user = f"setpriv --reuid {unit['User']} --regid {unit['Group']}"
    folder = f"install -d -o {unit['User']} -g {unit['Group']} -m {unit['RuntimeDirectoryMode'][1:]} /run/{unit['RuntimeDirectory']}"
    for words in (unit["ExecStart"].replace("$OPTIONS", options), limits, user, folder, f"umask {unit['UMask'][1:]}"):
        it.there(f"{words}, of the unit, in {SERVICE},", words in page)


def say_kit():
    """Says where README.md names another kit than the one that is here."""
    named = re.findall(r"`(rattle-kit-[^`]+)`", text("README.md"))
    if shutil.which("rt"):
        here = subprocess.run(["rt", "version"], stdout=subprocess.PIPE, check=False).stdout.decode().strip()
        if here not in named:
            print(f"note: the kit here is {here}, and README.md names {', '.join(named) or 'none'}")


def compare_scripts(it):
    """Whether rows/scripts.txt says of each script what it shows."""
    names = {path.stem for path in CRATES.glob("test_rows/data/scripts/*.in")}
    it.same("scripts that rows/scripts.txt has and the data hasn't, or the other way", names ^ {*generate_tables.shown()}, set())


def compare_generated(it):
    """What is generated from the sources, and the pictures that are generated from figures, is as it would be written now."""
    it.none([f"{path} is stale: make generate writes it" for path, _ in generate.stale()], len(generate.PAGES) + len(generate.PARTS))
    pictures = subprocess.run([ROOT / "tools/pictures.py", "--check"], stdout=subprocess.PIPE, stderr=subprocess.STDOUT, text=True, check=False)
    it.none((pictures.stdout.splitlines() or ["tools/pictures.py --check fails"]) if pictures.returncode else [])


def checks(it, pages):
    """Every comparison."""
    edits = {path.stem for folder in ("must-fail", "more-edits") for path in CRATES.glob(f"*/{folder}/*.edit")}
    yield lambda: compare_rules(it, edits)
    yield lambda: compare_edits_left_out(it)
    yield lambda: compare_edit_counts(it, pages)
    yield lambda: document_claims.compare(it, {path: pages[path] for path in CLAIMING if path in pages}, CRATES, edits)
    yield lambda: compare_files(it, pages)
    yield lambda: compare_recipe(it)
    yield lambda: compare_counts(it, pages)
    yield lambda: compare_frames(it)
    yield lambda: compare_clients(it)
    yield lambda: compare_commands(it)
    yield lambda: compare_options(it)
    yield lambda: compare_defaults(it)
    yield lambda: compare_metrics(it, pages)
    yield lambda: compare_versions(it)
    yield lambda: compare_speeds(it)
    yield lambda: compare_service(it)
    yield lambda: compare_scripts(it)
    yield lambda: compare_generated(it)
    yield lambda: document_pages.compare(it, pages, lambda path: (ROOT / path).exists())


def main():
    it = Comparison()
    for check in checks(it, {path: text(path) for path in generate.documents()}):
        try:
            check()
        except (FileNotFoundError, IndexError, KeyError, ValueError) as error:
            # A page is missing, or hasn't what is compared: the other comparisons go on.
            it.wrong.append(f"{check.__code__.co_names[0]}: {type(error).__name__}: {error}")
    say_kit()
    for line in it.wrong:
        print(line)
    print(f"{it.compared} things compared, {len(it.wrong)} wrong")
    sys.exit(1 if it.wrong else 0)


if __name__ == "__main__":
    main()
