"""What holds of every page, whatever it is about: a part of documents.py. Links and anchors lead somewhere, no page has more words than it may,
no sentence of a user's page is too long, and generated parts are as the sources want them. Words that a native editor would replace are told,
and are no fault."""

import posixpath
import re

# The most words of a page, generated parts left out.
MOST_WORDS = {
    "README.md": 800, "SECURITY.md": 1400, "CONTRIBUTING.md": 1200, "CHANGELOG.md": 400,
    "docs/index.md": 250, "docs/use/start.md": 600, "docs/use/clients.md": 1000, "docs/use/jobs.md": 500, "docs/use/posix.md": 1500,
    "docs/use/commands.md": 1300, "docs/use/faq.md": 700, "docs/use/waiting.md": 550, "docs/use/restarts.md": 450,
    "docs/use/conformance.md": 450, "docs/use/rules.md": 900,
    "docs/run/service.md": 1000, "docs/run/operate.md": 1500, "docs/run/limits.md": 800, "docs/run/trail.md": 900, "docs/run/upgrade.md": 400,
    "docs/run/compact.md": 900, "docs/run/change.md": 600, "docs/run/network.md": 600,
    "docs/ref/protocol.md": 1400, "docs/ref/trail-format.md": 700, "docs/ref/guarantees.md": 1000,
    "docs/dev/architecture.md": 2000, "docs/dev/recipes.md": 2000, "docs/dev/policy.md": 2800, "docs/dev/decisions.md": 3000,
    "docs/dev/speed.md": 1000, "docs/dev/proofs.md": 2050, "docs/dev/clients.md": 1710,
    "bench/README.md": 1500, "rows/README.md": 600,
}
# So many has another page for users and operators.
MOST_ELSEWHERE = 1000
# Pages whose tables are figures, and no words.
OF_FIGURES = {"bench/README.md"}
# Pages of which no sentence may have more than so many words.
SHORT_SENTENCES = re.compile(r"docs/(use|run|ref)/.*\.md|README\.md|SECURITY\.md|CONTRIBUTING\.md")
MOST_IN_A_SENTENCE = 40

GENERATED = re.compile(r"(?ms)^<!-- generated: [\w-]+ -->\n.*?^<!-- end -->\n?")
FENCED = re.compile(r"(?ms)^( *)(```+|~~~+).*?^\1\2[ \t]*$")
INDENTED = re.compile(r"(?m)(?:\A|(?<=\n\n))(?:    .*\n|\n(?=    ))+")
COMMENT = re.compile(r"(?s)<!--.*?-->")
LINK = re.compile(r"!?\[(?:[^\]\[]|\[[^\]]*\])*\]\(\s*<?([^)\s>]+)>?[^)]*\)|(?:src|href)=\"([^\"]+)\"|(?m:^\[[^\]]+\]:\s*(\S+))")
# An item of a list, a heading, a line of a table or a quotation begins something new, and so does an empty line.
BEGINS = re.compile(r"\s*(?:[-*+] |\d+[.)] |#|\||>|$)")

DISCOURAGED = re.compile(
    r"(?i)(?:^|[.!?:;] ?|\b(?:for|by|to|of|with|from|and|or|but|if|when|where|as|than|is|are|on|in|at|that|says?|tells?|knows?) )(who|whom|whose)\b"
    r"|\b(behind|beside|whoever|anew)\b"
)


def without_code(page):
    """The page without blocks of code, which have no links and no sentences; lines keep their numbers."""
    blank = lambda found: re.sub(r"[^\n]", "", found[0])
    return INDENTED.sub(blank, FENCED.sub(blank, page))


def slug(heading, used):
    """The anchor of a heading, as hosts of repositories make it."""
    words = re.sub(r"!?\[([^\]]*)\]\([^)]*\)", r"\1", re.sub(r"<[^>]*>", "", heading)).replace("`", "").replace("*", "")
    name = re.sub(r"[^\w\- ]", "", words.strip().lower()).replace(" ", "-")
    times = used.get(name, 0)
    used[name] = times + 1
    return f"{name}-{times}" if times else name


def anchors(page):
    """All anchors of a page: its headings', and those that it names."""
    used, plain = {}, without_code(page)
    named = set(re.findall(r"<a (?:id|name)=\"([^\"]+)\"", plain))
    return named | {slug(heading, used) for heading in re.findall(r"(?m)^#{1,6} +(.*?)#*$", plain)}


def broken_links(path, pages, is_there):
    """Each link of the page that leads nowhere. Whether there is a file or a folder, `is_there` tells."""
    text = re.sub(r"`[^`\n]*`", "", COMMENT.sub("", without_code(pages[path])))
    for target in {next(filter(None, found)) for found in LINK.findall(text)}:
        if re.match(r"[a-z][a-z+.-]*:", target):
            continue
        name, _, anchor = target.partition("#")
        other = posixpath.normpath(posixpath.join(posixpath.dirname(path), name)) if name else path
        if not is_there(other):
            yield f"{path}: {target} leads nowhere"
        elif anchor and other in pages and anchor not in anchors(pages[other]):
            yield f"{path}: {target}: {other} has no such anchor"


def words_of(page):
    """How many words a page has by hand, in code and tables too; comments, generated parts and a table's bars are none."""
    return len([word for word in COMMENT.sub("", GENERATED.sub("", page)).split() if re.search(r"\w", word)])


def pieces(page):
    """The paragraphs, items, headings and cells of a page, each as one line, with the number of its first line."""
    piece, first = [], 0
    blank = lambda found: re.sub(r"[^\n]", "", found[0])
    for number, line in enumerate([*COMMENT.sub(blank, GENERATED.sub(blank, without_code(page))).splitlines(), ""], 1):
        if BEGINS.match(line):
            yield first, " ".join(piece)
            piece = []
        first = first if piece else number
        if line.lstrip().startswith("|"):
            yield from ((number, cell) for cell in line.split("|"))
        elif line.strip():
            piece.append(re.sub(r"^\s*(?:[-*+]|\d+[.)]|#+|>) +", "", line).strip())


def sentences(page):
    """Each sentence of a page, with the number of a line. A word in backquotes, and a link's text, count as they are read."""
    for number, piece in pieces(page):
        plain = re.sub(r"`[^`]*`", "code", re.sub(r"!?\[([^\]]*)\]\([^)]*\)", r"\1", piece)).replace("*", "")
        for sentence in re.split(r"(?<=[.!?])[\")]?\s+(?=[\"(]?[A-Z0-9]|code\b|--)", plain):
            if sentence.strip():
                yield number, sentence.strip()


def long_sentences(path, page):
    """The sentences of a page that are too long."""
    for number, sentence in sentences(page):
        count = len([word for word in sentence.split() if re.search(r"\w", word)])
        if count > MOST_IN_A_SENTENCE:
            yield f"{path}:{number}: a sentence of {count} words: {sentence[:60]}.."


def discouraged(page):
    """How often a page has each of the words that a native editor would replace."""
    counts = {}
    for _, sentence in sentences(page):
        for found in DISCOURAGED.findall(sentence):
            word = next(filter(None, found)).lower()
            counts[word] = counts.get(word, 0) + 1
    return counts


def compare(it, pages, is_there):
    """All of these checks over all pages, given as texts by their paths."""
    for path, page in pages.items():
        it.none(list(broken_links(path, pages, is_there)), len(LINK.findall(page)))
        is_written = page.startswith("<!-- Written by tools/generate.py")
        if (path in MOST_WORDS or SHORT_SENTENCES.fullmatch(path)) and not is_written:
            counted = re.sub(r"(?m)^\|.*$", "", page) if path in OF_FIGURES else page
            words, most = words_of(counted), MOST_WORDS.get(path, MOST_ELSEWHERE)
            it.none([f"{path}: {words} words, and not at most {most}"] if words > most else [])
        if SHORT_SENTENCES.fullmatch(path):
            it.none(list(long_sentences(path, page)))
        if not is_written and (counts := discouraged(page)):
            print(f"note: {path}: {', '.join(f'{word} {count}' for word, count in sorted(counts.items()))}")
    for path in MOST_WORDS:
        it.there(path, path in pages)
