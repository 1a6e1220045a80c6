#!/usr/bin/env python3
"""Installs the pages for users and operators: `tools/install_pages.py FOLDER` puts docs/use, docs/run and docs/ref with their pictures, and
SECURITY.md, into the folder, and `--remove FOLDER` takes them back. Links among them fit there; a link to anything else, as to a page for
developers, becomes its words."""

import os
import pathlib
import posixpath
import re
import sys

TOP = pathlib.Path(__file__).resolve().parent.parent
PAGES = ["docs/index.md", "docs/use/*.md", "docs/run/*.md", "docs/ref/*.md", "docs/pictures/*.svg", "SECURITY.md"]
LINK = re.compile(r"(!?)\[((?:[^\]\[]|\[[^\]]*\])*)\]\(([^)\s]+)\)")


def places():
    """Where each file goes in the folder, by its path from the top."""
    files = [str(path.relative_to(TOP)) for pages in PAGES for path in sorted(TOP.glob(pages))]
    return {file: re.sub("^docs/", "", file) for file in files}


def adapted(page, file, known):
    """The page as it is installed, where `known` says which files are, and where."""
    def link(found):
        picture, words, target = found.groups()
        name, hash_sign, anchor = target.partition("#")
        if not name or re.match(r"[a-z][a-z+.-]*:", target):
            return found[0]
        other = posixpath.normpath(posixpath.join(posixpath.dirname(file), name))
        if other not in known:
            return words
        return f"{picture}[{words}]({posixpath.relpath(known[other], posixpath.dirname(known[file]) or '.')}{hash_sign}{anchor})"

    return LINK.sub(link, page)


def install(folder):
    known = places()
    for file, place in known.items():
        text = (TOP / file).read_text(encoding="utf-8")
        path = folder / place
        path.parent.mkdir(parents=True, exist_ok=True)
        path.write_text(adapted(text, file, known) if file.endswith(".md") else text, encoding="utf-8")
        path.chmod(0o644)


def main(words):
    if words[:1] == ["--remove"] and len(words) == 2:
        for place in places().values():
            if os.path.lexists(path := os.path.join(words[1], place)):
                os.remove(path)
    elif len(words) == 1:
        os.umask(0o022)
        install(pathlib.Path(words[0]))
    else:
        sys.exit(__doc__)


if __name__ == "__main__":
    main(sys.argv[1:])
