#!/usr/bin/env python3
"""Tries the edits that the gate leaves out, which stand under a crate's held/, and records what refused each.

usage: held_edits.py [--list] [CRATE[/EDIT]..], with no name for all crates that hold edits, CRATE/EDIT for one edit of a crate; --list
tells what is left to try

tools/held_edits.tsv is the record, a line for each edit that was refused: its crate, its name, the checksum of what it was tried on,
and what refused it. The checksum is of src/, specs/ and proofs/ of the crate and of all below, their lines of crates.txt, the kit's
logic, and the edit; so an edit is tried again where one of these has changed, and else not. Each crate is tried in a copy of what is
committed, where its edits stand under must-fail/, by the command $RT (rt), and recorded as soon as it is done. A crate's proof
comes before its edits. The last line is `N passed, M failed`, of the edits that were tried; the status is 1 where one failed.
"""
import hashlib
import os
import pathlib
import re
import shutil
import subprocess
import sys
import tempfile

from programs import TOP, kit, lines_of_crates, stop, with_all_below

RECORD = TOP / "tools/held_edits.tsv"
HEAD = "# crate\tedit\tchecksum of what it was tried on\twhat refused it (python3 tools/held_edits.py)\n"
TOLD = re.compile(r"(?:rt: )?must-fail (\w+)/(\S+)\.edit: (refused, as it must be|NOT REFUSED|BAD EDIT|NOT TRIED)(.*)")


def holding():
    """The crates that hold edits, in the order of crates.txt."""
    return [crate for crate in lines_of_crates() if any((TOP / "crates" / crate / "held").glob("*.edit"))]


def edits_of(crate):
    return sorted((TOP / "crates" / crate / "held").glob("*.edit"))


def sum_of_crate(crate):
    """A sum of what the crate's check reads beside the kit, and of the kit's logic."""
    told, lines = hashlib.sha256(), lines_of_crates()
    told.update(re.search(r"logic \w+", (kit() / "KIT-ID").read_text())[0].encode())
    for name in with_all_below(crate):
        told.update(lines[name][0].encode() + b"\n")
        for part in ("src", "specs", "proofs"):
            for path in sorted((TOP / "crates" / name / part).rglob("*")):
                if path.is_file():
                    told.update(f"{path.relative_to(TOP)}\0".encode() + hashlib.sha256(path.read_bytes()).digest())
    return told


def sum_of(crate_sum, edit):
    told = crate_sum.copy()
    told.update(hashlib.sha256(edit.read_bytes()).digest())
    return told.hexdigest()[:16]


def recorded():
    """What is recorded: of each crate and edit the checksum and what refused it."""
    if not RECORD.is_file():
        return {}
    rows = [line.split("\t", 3) for line in RECORD.read_text().split("\n") if line and not line.startswith("#")]
    return {(crate, edit): (checksum, why) for crate, edit, checksum, why in rows}


def record(found):
    """Stores the record, without the edits that are no more."""
    there = {(crate, edit.stem) for crate in holding() for edit in edits_of(crate)}
    rows = ["\t".join((*key, *found[key])) for key in sorted(found) if key in there]
    RECORD.write_text(HEAD + "".join(row + "\n" for row in rows))


def clause_of(why, room, crate):
    """The clause or the goal that refused an edit, as a check names it: its place, its name, and the function."""
    told = re.sub(r"^: |^ \(|^[\s:]+", "", why).strip()
    return re.sub(r"\s+", " ", told.replace(f"{room}/", "")) or "refused"


def tried(crate, edits):
    """What a check says of each of these edits of a crate: the word for its outcome, and the rest of its line."""
    with tempfile.TemporaryDirectory() as room:
        subprocess.run(["git", "clone", "-q", TOP, f"{room}/copy"], check=True)
        folder = pathlib.Path(room) / "copy/crates" / crate
        shutil.rmtree(folder / "must-fail", ignore_errors=True)
        (folder / "must-fail").mkdir()
        for edit in edits:
            shutil.copy(edit, folder / "must-fail")
        words = [os.environ.get("RT", "rt"), "must-fail", crate]
        done = subprocess.run(words, cwd=f"{room}/copy", stdout=subprocess.PIPE, stderr=subprocess.STDOUT, text=True, check=False)
        found = {match[2]: (match[3], clause_of(match[4], room, crate)) for match in map(TOLD.match, done.stdout.split("\n")) if match}
        if len(found) < len(edits):
            print(f"{done.stdout[-2000:]}rt must-fail ended with status {done.returncode}", flush=True)
        return found


def is_committed():
    """Whether the crates stand as they are committed, as the copy has them."""
    return not subprocess.run(["git", "status", "--porcelain", "crates", "crates.txt"], cwd=TOP, capture_output=True, check=True).stdout


def main():
    names = [word for word in sys.argv[1:] if word != "--list"]
    there = {crate: {edit.stem for edit in edits_of(crate)} for crate in holding()}
    wanted = {}
    for name in names or there:
        crate, slash, edit = name.partition("/")
        if crate not in there or slash and edit not in there[crate]:
            stop(f"{name} is held by no crate" if slash else f"{name} holds no edits")
        wanted.setdefault(crate, set()).update({edit} if slash else there[crate])
    if "--list" not in sys.argv and not is_committed():
        stop("crates/ has changes that aren't committed: edits are tried on what is committed")
    found, passed, failed = recorded(), 0, 0
    for crate, edits in wanted.items():
        base = sum_of_crate(crate)
        sums = {edit.stem: sum_of(base, edit) for edit in edits_of(crate) if edit.stem in edits}
        left = [edit for edit in edits_of(crate) if edit.stem in sums and found.get((crate, edit.stem), ("",))[0] != sums[edit.stem]]
        if not left:
            continue
        print(f"{crate}: {len(left)} of {len(sums)} edits to try", flush=True)
        if "--list" in sys.argv:
            continue
        outcomes = tried(crate, left)
        # (another run may have recorded some meanwhile)
        found = recorded()
        for edit in left:
            outcome, why = outcomes.get(edit.stem, ("NOT TRIED", "no line told of it"))
            if outcome == "refused, as it must be":
                found[crate, edit.stem], passed = (sums[edit.stem], why), passed + 1
            else:
                found.pop((crate, edit.stem), None)
                failed += 1
                print(f"{crate}/{edit.stem}: {outcome}: {why}", flush=True)
        record(found)
    if "--list" not in sys.argv:
        print(f"{passed} passed, {failed} failed")
    return 1 if failed else 0


if __name__ == "__main__":
    sys.exit(main())
