#!/usr/bin/env python3
"""Runs the scripts that try the programs, and tells how many passed: usage: try_all.py [--unproved] [NAME..]

With --unproved the programs are built unproved, whether or not they were proved. A script whose commands or modules aren't installed,
or whose program crates.txt doesn't list, is told as skipped. The last line is `N passed, M failed`, and the status is 1 where one failed.
"""
import os
import shutil
import subprocess
import sys
import time

from programs import NAMES, OVER_HANDLERS, TOP, lines_of_crates, program

# The system's own Python, and its modules that scripts need.
PYTHON = "/usr/bin/python3"
MODULES = ["psycopg"]
# Each script by its name, with the commands and modules that it needs.
SCRIPTS = {
    "psql": ("tools/try_psql.sh", ["psql"]),
    "keys": ("tools/try_keys", []),
    "limits": ("tools/try_limits", []),
    "hostile": ("tools/try_hostile", []),
    "statuses": ("tools/try_statuses", []),
    "halves": ("tools/try_halves", []),
    "large": ("tools/try_large", []),
    "soak": ("tools/try_soak", []),
    "rotas": ("tools/try_rota.sh", []),
    "cursors": ("tools/try_cursor.sh", ["psql"]),
    "replay": ("tools/try_replay", []),
    "examples": ("tools/check_examples.py", []),
    "clients": ("tools/try_clients", []),
    "schedule": ("tools/try_schedule", ["psql", "psycopg"]),
    "handlers": ("tools/try_handlers.py", ["psql", "pgbench"]),
}
# Those that run none of the programs below.
ALONE = ["handlers"]
# Those that run one program alone, by its crate.
ONE = {"schedule": "schedule_server"}


def is_installed(need):
    """Whether a command is installed, or a module."""
    if need not in MODULES:
        return shutil.which(need) is not None
    told = [PYTHON, "-c", f"import {need}"]
    return shutil.which(PYTHON) is not None and subprocess.run(told, stderr=subprocess.DEVNULL, check=False).returncode == 0


def why_skipped(name, needs):
    """Why a script is skipped, or nothing where it isn't."""
    lacking = [need for need in needs if not is_installed(need)]
    if lacking:
        return f"{', '.join(lacking)} is not installed"
    return f"crates.txt has no crate {ONE[name]}" if name in ONE and ONE[name] not in lines_of_crates() else ""


def is_passed(name, script):
    """Runs a script, and tells whether it ended well."""
    print(f"== {name}", flush=True)
    begun = time.monotonic()
    status = subprocess.run([TOP / script], cwd=TOP, env={**os.environ, "PYTHONDONTWRITEBYTECODE": "1"}, check=False).returncode
    print(f"{name}: {'passed' if status == 0 else f'failed, status {status}'}, {time.monotonic() - begun:.0f} s", flush=True)
    return status == 0


def main():
    words = [word for word in sys.argv[1:] if word != "--unproved"]
    if unknown := [word for word in words if word not in SCRIPTS]:
        sys.exit(f"there is nothing to try by the name {unknown[0]}: there are {', '.join(SCRIPTS)}")
    if "--unproved" in sys.argv:
        os.environ["UNPROVED"] = "1"
    if not words or set(words) - {*ALONE, *ONE}:
        for crate in [*NAMES, *OVER_HANDLERS]:
            program(crate)
    passed, failed, skipped = 0, [], []
    for name in words or SCRIPTS:
        script, needs = SCRIPTS[name]
        if why := why_skipped(name, needs):
            skipped.append(f"skipped {name}: {why}")
        elif is_passed(name, script):
            passed += 1
        else:
            failed.append(name)
    for line in skipped:
        print(line)
    for name in failed:
        print(f"failed: {name}")
    print(f"{passed} passed, {len(failed)} failed")
    return 1 if failed else 0


if __name__ == "__main__":
    sys.exit(main())
