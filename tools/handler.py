#!/usr/bin/env python3
"""Copies the example of handlers of one's own, crates/styles and crates/styles_server, under another name.

usage: handler.py NAME, as: handler.py dates

It makes crates/NAME and crates/NAME_server, whose type is the name in capitals (`Dates`), lists both in crates.txt, and makes the
pages that tell of each crate anew. They check and run as they are; docs/HANDLERS.md says what to change.
"""
import pathlib
import re
import shutil
import subprocess
import sys

from programs import TOP, kit, lines_of_crates, stop

CRATES = TOP / "crates"
# Words of the language and of its contracts, which name no crate.
WORDS = set("""abstract as async await become box break const continue crate do dyn else enum extern false final fn for ghost if impl in let
loop macro match mod move mut override priv pub ref requires ensures return self static struct super trait true try type typeof unsafe
unsized use virtual where while yield record ruleset data open ground assumption gen test tests src main""".split())


def taken_by_kit(name):
    """Whether a library of the kit has the name."""
    libraries = re.search(r'^TAKEN = "([^"]*)"', (kit() / "bin/rt").read_text(), re.M)
    return name in (libraries[1].split() if libraries else ()) or (kit() / f"rlibs/{name}.rlib").exists()


def capitals_of(name):
    """The name of the type: `some_dates` is `SomeDates`."""
    return "".join(part.capitalize() for part in name.split("_"))


def used_by_example(name):
    """A name that the copy would have twice, since the example's code has it already."""
    paths = [path for part in ("*.rt", "*.antt") for path in (CRATES / "styles").rglob(part) if "out" not in path.parts]
    words = set(re.findall(r"\w+", re.sub(r"(?m)^\s*(//|--).*$|//.*$", "", "\n".join(path.read_text() for path in paths))))
    capitals = capitals_of(name)
    return next((word for word in (name, f"told_{name}", capitals, f"{capitals}Statement") if word in words), None)


def refused(name):
    """Why no handler can have the name, if none can."""
    if not re.fullmatch("[a-z][a-z0-9]*(_[a-z0-9]+)*", name, re.ASCII) or len(name) > 40:
        return f"NAME={name}: a name is words of lowercase letters and digits, with _ between them"
    if name in WORDS:
        return f"NAME={name}: this is a word of the language"
    for crate in (name, f"{name}_server"):
        if (CRATES / crate).exists() or crate in lines_of_crates():
            return f"NAME={name}: there is a crate {crate}"
        if taken_by_kit(crate):
            return f"NAME={name}: {crate} is a library of the kit"
    if used := used_by_example(name):
        return f"NAME={name}: the example that is copied uses the name {used} itself"
    return None


def renamed(text, name):
    """The text, with the example's names turned into this one."""
    capitals = capitals_of(name)
    text = re.sub(r"\bStyles(?=[A-Z]\w|\b)", capitals, text)
    text = re.sub(r"\bstyles_server\b", f"{name}_server", text)
    text = re.sub(r"\btold_styles\b", f"told_{name}", text)
    return re.sub(r"(?<=\bRattle\.)styles\b|\bstyles(?=::)|(?<=\bqueries of )styles\b|(?<=\bhandlers of )styles\b", name, text)


def copy(crate, other, name):
    """Copies a crate, its files' names and texts renamed, without what was made of it."""
    tracked = subprocess.run(["git", "ls-files", "-z", f"crates/{crate}"], cwd=TOP, capture_output=True, text=True, check=False).stdout
    paths = [TOP / path for path in tracked.split("\0") if path] or [p for p in (CRATES / crate).rglob("*") if p.is_file()]
    for path in paths:
        inside = path.relative_to(CRATES / crate)
        if inside.parts[0] == "out" or not path.is_file():
            continue
        to = CRATES / other / renamed(str(inside), name)
        to.parent.mkdir(parents=True, exist_ok=True)
        if path.suffix in (".rt", ".antt", ".edit"):
            to.write_text(renamed(path.read_text(), name))
        else:
            shutil.copyfile(path, to)


def listed(name):
    """Lists both crates in crates.txt, behind the example's."""
    lines, new = (TOP / "crates.txt").read_text().split("\n"), []
    last = max(place for place, line in enumerate(lines) if line.startswith("styles_server"))
    for line in lines:
        if re.match(r"styles\b|styles_server\b", line):
            new.append(re.sub(r"\bstyles(_server)?\b", lambda found: name + (found[1] or ""), line))
    (TOP / "crates.txt").write_text("\n".join(lines[:last + 1] + new + lines[last + 1:]))


def told(name):
    """Gives the crate a head in docs/CONTRACTS.md, and makes the pages that are made from the crates."""
    heads = TOP / "tools/contracts_heads.md"
    example = re.search(r"^## styles\n(.*?)\n\n", heads.read_text() + "\n", re.M | re.S)
    head = f"## {name}\n{example[1]}\n\n".replace("An example of handlers of one's own, which", "Handlers that make handler copied from styles, which")
    heads.write_text(heads.read_text().replace(example[0], example[0] + head, 1))
    for page in ("definitions.py", "contracts.py"):
        subprocess.run([sys.executable, "-B", TOP / "tools" / page, "--write"], stdout=subprocess.DEVNULL, check=False)


def main():
    name = sys.argv[1] if len(sys.argv) == 2 else ""
    if why := refused(name):
        stop(why)
    for crate, other in (("styles", name), ("styles_server", f"{name}_server")):
        copy(crate, other, name)
    listed(name)
    for crate in (name, f"{name}_server"):
        done = subprocess.run([kit() / "bin/rt", "fmt"], cwd=CRATES / crate, capture_output=True, text=True, check=False)
        if done.returncode:
            stop(f"crates/{crate}: {(done.stdout + done.stderr).strip()}")
    told(name)
    print(f"crates/{name} and crates/{name}_server are made, and stand in crates.txt. docs/HANDLERS.md says what to change.")
    print("Next, built unproved in about a minute:")
    print(f"  make serve HANDLER={name} PORT=5434")
    print("  psql -h 127.0.0.1 -p 5434 -c '1 mon -2 days'")


if __name__ == "__main__":
    main()
