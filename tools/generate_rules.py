"""The pages of rules: docs/use/rules.md and mqserve-rules(7) for users, and the table of docs/dev/claims.md for developers. How to fix a
refusal is written by hand, in docs/use/rules-fix.txt; which row shows a rule and which wrong body of it is refused, in tools/rules.txt."""

import re

from sources import rules, text

INTRODUCTION = """# Rules

For anyone whose call was refused: the cause, and how to fix it. The server tests each call against
these rules in order, and the first that applies refuses it. `mqctl` prints it as
`refused NUMBER ERROR RULE`; in C, `errno` has the error and `mqs_rule()` the number; in Python, the
exception has the number as `rule`. The man page mqserve-rules(7) has the same list.

A *named call* is an open, an unlink, or a `stat`, `chmod` or `chown` of a name. A *creating open*
is an open with CREAT of a name that nothing has. A name is *bound* if a queue or a semaphore has
it. A session is *parked* while its call waits. User 0 is the administrator.

| No | Rule | Error | Cause | Fix |
|--:|---|---|---|---|
"""

MAN_HEAD = r""".Dd December 1, 2026
.Dt MQSERVE-RULES 7
.Os
.Sh NAME
.Nm mqserve-rules
.Nd why mqserve refuses a call, and how to fix it
.Sh DESCRIPTION
The server tests each call against these rules in order, and the first that applies refuses it.
.Xr mqctl 1
prints it as
.Ql refused NUMBER ERROR RULE ;
in C,
.Va errno
has the error and
.Fn mqs_rule
the number.
.Pp
A named call is an open, an unlink, or a stat, chmod or chown of a name.
A creating open is an open with CREAT of a name that nothing has.
A name is bound if a queue or a semaphore has it.
A session is parked while its call waits.
User 0 is the administrator.
.Sh RULES
.Bl -tag -width Ds
"""

MAN_TAIL = r""".El
.Sh SEE ALSO
.Xr mqctl 1 ,
.Xr mqserve 1 ,
.Xr mqserve 3 ,
.Xr mqserve-preload 7
"""


def fixes():
    """How each refusal is fixed, by the rule's number."""
    lines = re.findall(r"(?m)^(\d+)(?:: *|\t)(\S.*)$", text("docs/use/rules-fix.txt"))
    return {int(number): words.strip() for number, words in lines}


def sentence(words):
    """The words with a capital and a full stop."""
    return f"{words[0].upper()}{words[1:]}".rstrip(".") + "."


def cell(words):
    """The words as a cell of a table, where a bar would end it."""
    return words.replace("|", "\\|")


def page():
    """docs/use/rules.md."""
    fix, rows = fixes(), []
    for rule in rules():
        cause = f'<a id="rule-{rule.number}"></a>{cell(sentence(rule.cause))}'
        rows.append(f"| {rule.number} | {rule.name} | {rule.error} | {cause} | {cell(fix.get(rule.number, ''))} |\n")
    return INTRODUCTION + "".join(rows)


def plain(words):
    """Markdown as a line of a man page: no links, no quotes, and each sentence on a line of its own."""
    words = re.sub(r"\[([^\]]*)\]\([^)]*\)", r"\1", words).replace("`", "").replace("\\", "\\e")
    words = re.sub(r"(?<![\w-])-+(?=\w)", lambda found: "\\-" * len(found[0]), words)
    lines = re.sub(r"\. (?=[A-Z])", ".\n", words).splitlines()
    return "".join(f"\\&{line}\n" if line[0] in ".'" else f"{line}\n" for line in lines)


def man():
    """clients/man/mqserve-rules.7."""
    fix, items = fixes(), []
    for rule in rules():
        items.append(f".It {rule.number} {rule.name} , Er {rule.error}\n{plain(sentence(rule.cause))}.br\n{plain(fix.get(rule.number, '?'))}")
    return MAN_HEAD + "".join(items).replace(" , Er ", " Pq Er ") + MAN_TAIL


def shown():
    """Of each rule's number the row that shows it refusing, and the wrong body of it that is refused."""
    return {int(number): (row, edit) for number, row, edit in re.findall(r"(?m)^(\d+) (\w+) (\w+)$", text("tools/rules.txt"))}


def table():
    """The developers' table."""
    by_number = shown()
    rows = ["| No | Rule | Error | Definition, function | Row | Edit |\n|--:|---|---|---|---|---|\n"]
    for rule in rules():
        row, edit = by_number.get(rule.number, ("", ""))
        rows.append(f"| {rule.number} | {rule.name} | {rule.error} | `{rule.definition}` | `{row}` | `{edit}` |\n")
    return "".join(rows)
