#!/usr/bin/env python3
"""Tries all that can be seen without a proof: usage: quick.py [CRATE..], with no name all of it

- Each program, built unproved (tools/build_unproved), on its own stdin, args and data: what it wrote and its status, beside its files
  stdout and status. What is built is kept under .built/, so a second run builds what changed. `rt try` would check each of its steps,
  but the larger tables don't come to their end under these checks.
- Each test, as `rt try --test` runs it, with these checks.
- The scripts of make try over the programs.

As many run side by side as there are processors, or JOBS. What fails is shown. The last line is `N passed, M failed`.
"""
import concurrent.futures
import os
import re
import resource
import shutil
import subprocess
import sys
import tempfile
import time

from programs import TOP, kit, lines_of_crates, unproved

SECONDS = 600


def stored(crate, name):
    """A file beside a crate's src/, or nothing."""
    path = TOP / "crates" / crate / name
    return path.read_bytes() if path.is_file() else b""


def words_of(crate):
    return stored(crate, "args").decode().splitlines()


def kit_without_prover(room):
    """A copy of the kit by links, in which rt try has no prover: it would only look at names, on a processor of its own."""
    for folder in ("bin", "toolchain"):
        os.makedirs(f"{room}/{folder}")
        for name in os.listdir(kit() / folder):
            os.symlink(kit() / folder / name, f"{room}/{folder}/{name}")
    for name in os.listdir(kit()):
        if name not in ("bin", "toolchain"):
            os.symlink(kit() / name, f"{room}/{name}")
    for name in ("rt", "rtlib.py"):
        os.remove(f"{room}/bin/{name}")
        shutil.copy(kit() / "bin" / name, f"{room}/bin/{name}")
    os.remove(f"{room}/bin/rattle")
    os.symlink("/bin/true", f"{room}/bin/rattle")
    return f"{room}/bin/rt"


def compared(crate, done):
    """What is wrong with what a program wrote and with its status, if something is."""
    status = int(stored(crate, "status") or b"0")
    said = done.stderr.decode(errors="replace")[-2000:]
    if done.returncode != status:
        return f"status {done.returncode}, and not {status}\n{said}"
    if done.stdout != stored(crate, "stdout"):
        pairs = zip(done.stdout.split(b"\n") + [b"(end)"], stored(crate, "stdout").split(b"\n") + [b"(end)"])
        place, (one, other) = next((place, pair) for place, pair in enumerate(pairs, 1) if pair[0] != pair[1])
        return f"line {place} is {one.decode(errors='replace')}\n  and not {other.decode(errors='replace')}\n{said}"
    return None


def tried_tests(rt, crate):
    """Runs the tests of a crate under rt try."""
    words = [rt, "try", "--test", "--seconds", str(SECONDS)]
    done = subprocess.run(words, cwd=TOP / "crates" / crate, stdin=subprocess.DEVNULL, capture_output=True, check=False)
    return None if done.returncode == 0 else (done.stdout + done.stderr).decode(errors="replace")[-2000:]


def tried_program(_, crate):
    """Builds a program unproved and runs it, in a folder with its data."""
    program = unproved(crate)
    with tempfile.TemporaryDirectory() as room:
        for path in (TOP / "crates" / crate / "data").glob("*"):
            shutil.copy(path, room)
        words = [program, *words_of(crate)]
        return compared(crate, subprocess.run(words, cwd=room, input=stored(crate, "stdin"), capture_output=True, check=False))


def things():
    """What is tried: its name, how, and its crate."""
    found = []
    for crate in reversed(lines_of_crates()):
        source = TOP / "crates" / crate / "src"
        if (source / "main.rt").is_file():
            found.append((crate, tried_program, crate))
        if any("#[test]" in path.read_text() for path in source.rglob("*.rt")):
            found.append((f"{crate} (tests)", tried_tests, crate))
    return found


def timed(rt, how, crate):
    begin = time.monotonic()
    try:
        why = how(rt, crate)
    except SystemExit as told:
        why = str(told)
    return why, time.monotonic() - begin


def main():
    names, passed, failed, begun = sys.argv[1:], 0, 0, time.monotonic()
    wanted = [thing for thing in things() if not names or thing[2] in names]
    jobs = int(os.environ.get("JOBS") or os.cpu_count())
    with tempfile.TemporaryDirectory() as room, concurrent.futures.ThreadPoolExecutor(jobs) as pool:
        rt = kit_without_prover(room)
        running = {pool.submit(timed, rt, how, crate): name for name, how, crate in wanted}
        for one in concurrent.futures.as_completed(running):
            why, seconds = one.result()
            print(f"{'WRONG' if why else 'ok   '} {running[one]}, {seconds:.0f} s{': ' + why if why else ''}", flush=True)
            passed, failed = passed + (not why), failed + bool(why)
    if not names:
        done = subprocess.run([sys.executable, "-B", TOP / "tools/try_all.py", "--unproved"], stdout=subprocess.PIPE, text=True, check=False)
        print(done.stdout, end="")
        counts = re.search(r"^(\d+) passed, (\d+) failed\n\Z", done.stdout, re.M)
        more = [int(count) for count in counts.groups()] if counts else [0, 1]
        passed, failed = passed + more[0], failed + more[1]
    used = resource.getrusage(resource.RUSAGE_CHILDREN)
    print(f"{(used.ru_utime + used.ru_stime) / 60:.1f} minutes of processor time, {(time.monotonic() - begun) / 60:.1f} by the clock")
    print(f"{passed} passed, {failed} failed")
    return 1 if failed else 0


if __name__ == "__main__":
    sys.exit(main())
