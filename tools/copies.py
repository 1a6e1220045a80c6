"""Copies of some crates' sources below .git, over which a command runs that takes every crate that it finds."""

import shutil

from programs import CRATES, TOP

PARTS = ["src", "specs", "proofs"]


def room(name):
    """The folder of a copy: below .git, or below out where .git is no folder."""
    return (TOP / ".git" if (TOP / ".git").is_dir() else TOP / "out") / name


def listed(names):
    """The lines of crates.txt without those of other crates."""
    lines = (TOP / "crates.txt").read_text(encoding="utf-8").splitlines(keepends=True)
    return "".join(line for line in lines if line.startswith(("#", "\n")) or line.partition(":")[0].split()[0] in names)


def copy(names, folder):
    """Puts the sources of these crates, and of no others, into the folder. What was built there stays."""
    crates = folder / "crates"
    crates.mkdir(parents=True, exist_ok=True)
    for other in {path.name for path in crates.iterdir()} - names:
        shutil.rmtree(crates / other)
    for name in names:
        for part in PARTS:
            shutil.rmtree(crates / name / part, ignore_errors=True)
            if (CRATES / name / part).is_dir():
                shutil.copytree(CRATES / name / part, crates / name / part)
    (folder / "crates.txt").write_text(listed(names), encoding="utf-8")
    shutil.copy2(TOP / "HANDLES", folder / "HANDLES")
