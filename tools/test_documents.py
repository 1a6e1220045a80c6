#!/usr/bin/env python3
"""The tests of what looks at documents: each check finds a fault that is planted for it, and nothing where there is none. The last line has the
counts."""

import os
import pathlib
import socket
import sys
import tempfile

sys.dont_write_bytecode = True
import blocks  # noqa: E402
import document_pages  # noqa: E402
import generate  # noqa: E402
import generate_claims  # noqa: E402
import generate_rules  # noqa: E402
import install_pages  # noqa: E402
import recipes  # noqa: E402

LONG = "This sentence has " + "far " * 33 + "too many words, `as code` too."
GOOD = """# A page

One sentence. [Another](b.md#two-words) and [a named one](#named), <a id="named"></a>a [file](c.txt).

- an item that ends without a full stop
- `who` and `behind`, in code

```text
[no link](nowhere.md)
```
"""
OTHER = "# B\n\n## Two `words`\n\n## Two words\n"
PAGES = {"docs/use/a.md": GOOD, "docs/use/b.md": OTHER}


class Checks:
    """How many checks there were, and how many failed."""

    def __init__(self):
        self.count = self.failed = 0

    def same(self, what, got, wanted):
        self.count += 1
        if got != wanted:
            self.failed += 1
            print(f"{what}: {got!r}, and not {wanted!r}")


def broken(page):
    pages = {**PAGES, "docs/use/a.md": page}
    return sorted(document_pages.broken_links("docs/use/a.md", pages, lambda path: path in {*pages, "docs/use/c.txt"}))


def test_links(it):
    it.same("links of a good page", broken(GOOD), [])
    it.same("a link to no file", broken(GOOD + "[x](d.md)"), ["docs/use/a.md: d.md leads nowhere"])
    it.same("a picture that isn't there", broken(GOOD + "![x](d.svg)"), ["docs/use/a.md: d.svg leads nowhere"])
    it.same("an anchor of no heading", broken(GOOD + "[x](b.md#three)"), ["docs/use/a.md: b.md#three: docs/use/b.md has no such anchor"])
    it.same("an anchor of its own that isn't there", broken(GOOD + "[x](#b)"), ["docs/use/a.md: #b: docs/use/a.md has no such anchor"])
    it.same("the second heading of a name", broken(GOOD + "[x](b.md#two-words-1)"), [])
    it.same("a link in a table", broken(GOOD + "| [x](d.md) |\n"), ["docs/use/a.md: d.md leads nowhere"])


def test_words(it):
    page = "<!-- a note of five words -->\n| one | two |\n|---|---|\n<!-- generated: limits -->\nnone of these\n<!-- end -->\nthree `four`\n"
    it.same("words of a page", document_pages.words_of(page), 4)


def test_sentences(it):
    found = lambda page: [line.split(":")[1] for line in document_pages.long_sentences("a.md", page)]
    it.same("sentences of a good page", found(GOOD), [])
    it.same("a long sentence", found(f"{GOOD}\n{LONG}\n"), ["12"])
    it.same("a long sentence over lines", found(f"{GOOD}\n" + LONG.replace("far far", "far\nfar")), ["12"])
    it.same("a long item", found(f"- short\n- {LONG}\n"), ["2"])
    it.same("a long sentence in a cell", found(f"| short | {LONG} |\n"), ["1"])
    it.same("a long sentence in code", found(f"```\n{LONG}\n```\n"), [])
    it.same("a long sentence that is generated", found(f"<!-- generated: limits -->\n{LONG}\n<!-- end -->\n"), [])
    it.same("one word less", found(LONG.replace("far ", "", 1)), [])


def test_discouraged(it):
    words = document_pages.discouraged
    it.same("words of a good page", words(GOOD), {})
    it.same("words to replace", words("Who asks, and for whom. It stands behind it. Whoever comes anew."), {"who": 1, "whom": 1, "behind": 1, "whoever": 1, "anew": 1})
    it.same("words with a noun", words("Anyone who asks. The user whose key it is."), {})


def test_generated(it):
    page = "# Limits\n\n<!-- generated: limits -->\n<!-- end -->\n"
    filled = generate.filled(page)
    it.same("a part that is filled", "| messages of a queue | 10 |" in filled, True)
    it.same("a part that is as it must be", generate.filled(filled), filled)
    it.same("a part with a wrong number", generate.filled(filled.replace("| 10 |", "| 11 |")), filled)
    it.same("a page without parts", generate.filled(GOOD), GOOD)
    try:
        it.same("a part of no such name", generate.filled(page.replace("limits", "limit")), "refused")
    except KeyError:
        it.same("a part of no such name", "refused", "refused")


CODE = """//! A module.

/// Takes one. And more.
pub fn take(n: u8) -> u8
    requires small { n < 9 }
    ensures left { result < n }
    ensures { result < 8 }
{
    n
}

/// Private.
fn hide() -> u8
    ensures hidden { result < 8 }
{
    0
}

impl Model for Core<'_> {
    /// Gives
    /// two, e.g. these.
    #[inline]
    pub fn give(&self)
        ensures { true }
    {}

    pub fn nothing(&self) {}
}
"""


def test_claims(it):
    with tempfile.TemporaryDirectory() as room:
        file = pathlib.Path(room) / "taking.rt"
        file.write_text(CODE, encoding="utf-8")
        lines = [contract.line() for contract in generate_claims.contracts(file)]
    it.same("claims", lines, ["- `taking::take` (`left`, requires `small`): Takes one.\n", "- `Core::give`: Gives two, e.g. these.\n"])


def test_installed(it):
    known = {"docs/use/a.md": "use/a.md", "docs/run/b.md": "run/b.md", "SECURITY.md": "SECURITY.md"}
    page = "[b](../run/b.md#x), [it](../../SECURITY.md), [what](../dev/c.md), [here](#y), [there](https://x.org)"
    wanted = "[b](../run/b.md#x), [it](../SECURITY.md), what, [here](#y), [there](https://x.org)"
    it.same("links of an installed page", install_pages.adapted(page, "docs/use/a.md", known), wanted)
    it.same("links of one at the top", install_pages.adapted("[b](docs/run/b.md)", "SECURITY.md", known), "[b](run/b.md)")


def test_man(it):
    it.same("a line of a man page", generate_rules.plain("See [it](x.md). Use `--all`, or .x"), "See it.\nUse \\-\\-all, or .x\n")
    it.same("a line that begins with a full stop", generate_rules.plain("`.x` is one"), "\\&.x is one\n")


def test_recipe(it):
    names = {"rows/mqserve", "docs/use/commands.md", "word.rt"}
    it.same("a file that is named", recipes.is_named("rows/mqserve/help.out", names), True)
    it.same("a file that isn't", recipes.is_named("crates/ipc_terms/src/call.rt", names), False)


def outcome(page):
    """How many blocks of the page ran and were passed over, and what was wrong, without its path."""
    with tempfile.TemporaryDirectory() as room:
        path = pathlib.Path(room) / "page.md"
        path.write_text(page, encoding="utf-8")
        ran, passed, wrong = blocks.run(path, {**os.environ})
    return ran, passed, [said.split("page.md:", 1)[1] for said in wrong]


def test_blocks(it):
    it.same("a good block", outcome("```sh\necho a b\n```\n\n```text\na ...\n```\n"), (1, 0, []))
    it.same("lines of any number", outcome("```sh\nseq 9\n```\n```text\n1\n...\n9\n```\n"), (1, 0, []))
    it.same("a wrong output", [len(part) if isinstance(part, list) else part for part in outcome("```sh\necho a\n```\n```text\nb\n```\n")], [1, 0, 1])
    it.same("an output too much", len(outcome("```sh\necho a; echo b\n```\n```text\na\n```\n")[2]), 1)
    it.same("a command that fails", outcome("```sh\nfalse\necho a\n```\n"), (1, 0, ["1: a command failed:\na\n"]))
    it.same("one that fails and is expected to", outcome("```sh\ncat none\n```\n```text\ncat: none...\n```\n"), (1, 0, []))
    it.same("blocks that are passed over", outcome("<!-- not run: why -->\n```sh\nfalse\n```\n```text\nb\n```\n"), (0, 1, []))
    it.same("a file", outcome("<!-- file: x -->\n```c\nint a;\n```\n\n```sh\ncat x\n```\n```text\nint a;\n```\n"), (1, 0, []))
    it.same("text that follows nothing directly", outcome("```sh\ntrue\n```\nSo:\n```text\nb\n```\n"), (1, 0, []))
    it.same("one shell for all", outcome("```sh\nx=1; f() { echo $x; }\n```\n```sh\nf\n```\n```text\n1\n```\n"), (2, 0, []))
    it.same("a command that isn't here", [len(blocks.missing(blocks.steps(f"```sh\n{words}\n```\n")[0])) for words in ("true | curl", "echo curl")],
            [0 if blocks.shutil.which("curl") else 1, 0])
    it.same("a shell that ends", outcome("```sh\nexit\n```\n```sh\ntrue\n```\n"), (1, 0, ["1: the shell ended; it printed:\n"]))


def test_time(it):
    seconds, blocks.PAGE_SECONDS = blocks.PAGE_SECONDS, 1
    it.same("a page that takes too long", outcome("```sh\nsleep 30\n```\n```sh\ntrue\n```\n"), (1, 0, ["1: the page took 1 seconds; it printed:\n"]))
    blocks.PAGE_SECONDS = seconds


def test_servers(it):
    """What a block leaves running is ended, and a port that is in use is told."""
    with tempfile.TemporaryDirectory() as room:
        outcome(f"```sh\nsleep 100 & echo $! > {room}/number\n```\n")
        number = int((pathlib.Path(room) / "number").read_text())
    stat = pathlib.Path(f"/proc/{number}/stat")
    state = stat.read_text().rsplit(") ", 1)[1][0] if stat.exists() else "X"
    it.same("a process of a block, which has ended", state in "ZX", True)
    seconds, blocks.PORT_SECONDS = blocks.PORT_SECONDS, 0.1
    with socket.create_server(("127.0.0.1", 0)) as listener:
        port = listener.getsockname()[1]
        it.same("a port in use", outcome(f"```sh\necho 127.0.0.1:{port}\n```\n"), (0, 0, [f" somebody listens at port {port}"]))
    blocks.PORT_SECONDS = seconds


def main():
    it, blocks.OUTPUT_SECONDS = Checks(), 0.2
    for name, test in sorted(globals().items()):
        if name.startswith("test_"):
            test(it)
    print(f"documents: {it.count} checks, {it.failed} failed")
    return 1 if it.failed else 0


if __name__ == "__main__":
    sys.exit(main())
