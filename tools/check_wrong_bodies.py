#!/usr/bin/env python3
"""Checks docs/WRONG_BODIES.md against the crates: usage: check_wrong_bodies.py

Every row of a table headed "Wrong body | Refused by" names in backticks the edits and tests that refuse it. The check
asks that each is there (an edit under some crate's must-fail/, held/ or planted/, a test function, a row of a table program; or a script
of tools/ or bench/, and behind it words of the lines that it tells, which have to stand in it), and that each edit of the crates is
named; that no two edits of a crate have one name; and that each names a file of its crate, in which each
`old:` text stands exactly once, behind what the pairs before it have made; and that each planted body names one thing that can be run
and has to refuse it. It prints what is wrong, and its status is then 1.
"""
import re
import sys

from edits import changed, refusers
from sources import TOP, known_examples, listed_crates

PAGE = TOP / "docs" / "WRONG_BODIES.md"
FOLDERS = ("must-fail", "held", "planted")


def rows():
    """The number and the two cells of each row."""
    inside = False
    for number, line in enumerate(PAGE.read_text().split("\n"), 1):
        cells = [cell.strip() for cell in line.strip().strip("|").split("|")]
        if not line.startswith("|"):
            inside = False
        elif cells == ["Wrong body", "Refused by"]:
            inside = True
        elif inside and not set("".join(cells)) <= set("-: "):
            yield number, cells


def unrefused(path):
    """What is wrong with what a planted body says of who refuses it, if something is."""
    found = refusers(path)
    return found[0].problem() if len(found) == 1 else f"it has {len(found)} lines refused by:, and not one"


def lacking(names, known):
    """Those names that aren't known, nor are scripts, nor words of the script that is named before them."""
    script = ""
    for name in names:
        if re.fullmatch(r"(tools|bench)(/\w+)+(\.\w+)?", name) and (TOP / name).is_file():
            script = (TOP / name).read_text()
        elif not any(name in some for some in known) and name not in script:
            yield name


def main():
    crates = listed_crates()
    tests, told = known_examples(crates)
    found = [path for crate in crates for folder in FOLDERS for path in (TOP / "crates" / crate / folder).glob("*.edit")]
    edits = {path.stem: path.relative_to(TOP) for path in found}
    named, problems = set(), []
    for number, cells in rows():
        place = f"docs/WRONG_BODIES.md:{number}"
        names = re.findall(r"`([^`]+)`", cells[-1])
        named |= set(names)
        if len(cells) != 2 or not names:
            problems.append(f"{place}: names no edit or test in backticks")
        problems += [f"{place}: no edit, test, row or check is called `{name}`" for name in lacking(names, (edits, tests, told))]
    problems += [f"docs/WRONG_BODIES.md: no row names {path}" for name, path in sorted(edits.items()) if name not in named]
    problems += [f"{path.relative_to(TOP)}: {why}" for path in sorted(found) if (why := changed(path)[1])]
    problems += [f"{path.relative_to(TOP)}: {why}" for path in sorted(found) if path.parent.name == "planted" and (why := unrefused(path))]
    of_crates = [(path.parent.parent.name, path.stem) for path in found]
    problems += [f"crates/{crate}: two edits are called {name}" for crate, name in sorted(set(of_crates)) if of_crates.count((crate, name)) > 1]
    for problem in problems:
        print(problem)
    counts = [sum(path.parent.name == folder for path in found) for folder in FOLDERS]
    print(f"{counts[0]} must-fail edits, {counts[1]} held ones, {counts[2]} planted bodies, {len(problems)} problems")
    return 1 if problems else 0


if __name__ == "__main__":
    sys.exit(main())
