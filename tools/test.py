#!/usr/bin/env python3
"""The whole test: the pages and the rows that are made of others, then every proof, edit, test and program (rt ci), then make try over
the programs that were proved.

usage: test.py [--proofs], with --proofs rt ci alone

As many checks run side by side as there are processors ($RT_JOBS), each in one job: a check that is given a second one repeats a
tenth to a third of its work. What each part says comes as it is said; the last line is `N passed, M failed`, of all parts, and the
status is 1 where one failed.
"""
import os
import re
import subprocess
import sys

from programs import NAMES, OVER_HANDLERS, TOP, kit, note, proved

PAGES = ["definitions.py", "contracts.py", "check_wrong_bodies.py", "check_sources.py"]


def said(words):
    """Runs a command, shows what it says as it comes, and gives its status and its last line."""
    print(f"== {' '.join(map(str, words)).replace(f'{sys.executable} -B ', '')}", flush=True)
    last = ""
    with subprocess.Popen(words, cwd=TOP, stdout=subprocess.PIPE, text=True, errors="replace") as running:
        for line in running.stdout:
            print(line, end="", flush=True)
            last = line.strip() or last
    return running.returncode, last


def counted(words):
    """How many passed and how many failed, by the last line that a command says. A bad status is a failure."""
    status, last = said(words)
    counts = re.match(r"(\d+) passed, (\d+) failed", last)
    passed, failed = map(int, counts.groups()) if counts else (0, 0)
    return passed, max(failed, 1) if status else failed


def page(name):
    """Whether a page is as it is to be."""
    status, _ = said([sys.executable, "-B", f"tools/{name}"])
    return (0, 1) if status else (1, 0)


def proofs():
    """Every proof, edit, test and program. The programs that it leaves are noted as proved."""
    os.environ.setdefault("RT_JOBS", str(os.cpu_count()))
    kit()
    passed, failed = counted(["rt", "ci"])
    if not failed:
        for crate in [*NAMES, *OVER_HANDLERS]:
            if (TOP / "crates" / crate / "out" / crate).is_file():
                note(crate)
    return passed, failed


def tries():
    """make try, over the programs that were proved alone."""
    lacking = [crate for crate in [*NAMES, *OVER_HANDLERS] if not proved(crate)]
    for crate in lacking:
        print(f"crates/{crate}/out/{crate} is no program that was proved as the sources stand")
    return (0, len(lacking)) if lacking else counted([sys.executable, "-B", "tools/try_all.py"])


def main():
    parts = [proofs()] if "--proofs" in sys.argv else []
    if not parts:
        parts = [page(name) for name in PAGES]
        parts.append(counted([sys.executable, "-B", "tools/rows.py"]))
        parts.append(proofs())
        if not parts[-1][1]:
            parts.append(tries())
    passed, failed = (sum(counts) for counts in zip(*parts))
    print(f"{passed} passed, {failed} failed")
    return 1 if failed else 0


if __name__ == "__main__":
    sys.exit(main())
