#!/usr/bin/env python3
"""Makes docs/DEFINITIONS.md from the crates, or compares it with them: usage: definitions.py [--write]

What has to be believed is every definition under specs/ that a public clause cites, and those which it stands on. A comment
in specs/ tells the definitions behind it, up to the next comment: they are one row of the page, if a public clause cites
one of them or tools/worked_examples.tsv names one; the others are named below their file's table. That file has, by files of
specs/, between tabs: definitions, what they say where no comment tells them (they are a row of their own then), where in the
public standards they come from, and the worked examples that pass through them. tools/definitions_heads.md has what stands
in front of a crate's tables.

Without --write it compares the page, and prints what is wrong: a definition that a clause cites and no comment tells; a
line of the data whose definition isn't there, isn't needed or has two lines; an example that is no test function, row of a
table program or file; a page that isn't the one that is made. Its status is then 1.
"""
import re
import sys

from heads import heads_of
from sources import NAME, TOP, closure, known_examples, listed_crates, public_citations, specs_of, stands_on

PAGE = TOP / "docs" / "DEFINITIONS.md"
DATA = TOP / "tools" / "worked_examples.tsv"
HEADS = TOP / "tools" / "definitions_heads.md"
DECLARED = re.compile(r"(?:abbrev|unfoldable|foldable|opaque|inline|pub|mutual|ghost|record|data)\b")


class Group:
    """A comment of a specs file, and the definitions behind it."""

    def __init__(self, sentence):
        self.sentence, self.names = sentence, []


def groups_of(path, names):
    """What the file's first comment says, and its groups, whose definitions are among these names."""
    head, section, notes, groups, is_first = "", "", [], [Group("")], True
    for line in path.read_text().split("\n"):
        if line.startswith("--"):
            notes.append(line[2:].strip())
            continue
        text = " ".join(notes)
        if notes and is_first and not DECLARED.match(line):
            head = text
        elif notes and text.startswith("----"):
            section = text.strip("- ")
            groups.append(Group(section))
        elif notes and DECLARED.match(line) and not line.startswith("pub mod"):
            groups.append(Group(f"{section} {text}" if section and re.match(r"of (?!the )", text) else text))
        is_first, notes = is_first and not notes, []
        if DECLARED.match(line):
            words = [word.rstrip(":") for word in line.split() if not DECLARED.fullmatch(word)]
            if words and words[0] in names:
                groups[-1].names.append(words[0])
    return head, [group for group in groups if group.names]


class Needed:
    """The definitions that have to be believed, and what a public clause cites of them."""

    def __init__(self, crates, problems):
        self.all = {}
        for crate in crates:
            self.all.update(specs_of(crate))
        self.parents = {(d.crate, d.file, name): d.key for d in self.all.values() for name in d.constructors}
        below = {key: {self.parents.get(k, k) for k in keys} for key, keys in stands_on(self.all).items()}
        self.cited = {}
        for crate in crates:
            if not (TOP / "crates" / crate / "src" / "lib.rt").is_file():
                continue
            for key, where in public_citations(crate, {**self.all, **{k: None for k in self.parents}}).items():
                key = self.parents.get(key, key)
                if key in self.all:
                    self.cited.setdefault(key, where)
                else:
                    problems.append(f"{where}: {'.'.join(key)} isn't a definition that this check can find")
        self.keys = closure(self.cited, below)

    def files_of(self, crate):
        return sorted({key[1] for key in self.all if key[0] == crate})


class Line:
    """A line of the data: definitions of one file, what they say where no comment tells it, their source and examples."""

    def __init__(self, place, file, fields):
        self.place, self.file, self.names = place, file, fields[0].split(" ")
        self.sentence, self.source, self.examples = [*fields[1:3], "", ""][0], [*fields[1:3], "", ""][1], fields[3:]


def lines_of_data():
    file = ""
    for number, text in enumerate(DATA.read_text().split("\n"), 1):
        if text.startswith("crates/") and "\t" not in text:
            file = text
        elif text and not text.startswith("#"):
            yield Line(f"{DATA.relative_to(TOP)}:{number}", file, text.split("\t"))


def data_by_definition(needed, crates, problems):
    """The line of each definition that the data names, after what is wrong with the lines was noted."""
    tests, told = known_examples(crates)
    lines = {}
    for line in lines_of_data():
        inside = {d.name: d.key for d in needed.all.values() if d.path == line.file}
        inside.update({key[2]: parent for key, parent in needed.parents.items() if needed.all[parent].path == line.file})
        for name in line.names:
            if name not in inside:
                problems.append(f"{line.place}: {line.file} has no definition `{name}`")
            elif inside[name] not in needed.keys:
                problems.append(f"{line.place}: no public clause needs `{name}` of {line.file}")
            elif lines.setdefault(inside[name], line) is not line:
                problems.append(f"{line.place}: `{name}` has a line before, {lines[inside[name]].place}")
        if not line.source:
            problems.append(f"{line.place}: names no source")
        for example in line.examples:
            if example not in tests and example not in told and not (TOP / example).exists():
                problems.append(f"{line.place}: no test, row or file is called `{example}`")
    return lines


def joined(parts):
    """The parts that aren't empty, each once, in their order."""
    return "; ".join(dict.fromkeys(part for part in parts if part))


def quoted(names):
    return ", ".join(f"`{name}`" for name in names)


def table(rows):
    """The table of a file. A source or examples that are those of the row above are told as such."""
    made, above = ["| Definition | Sentence | Source | Worked example |", "|---|---|---|---|"], ("", "")
    for keys, sentence, lines in rows:
        examples = quoted(dict.fromkeys(example for line in lines for example in line.examples))
        last = (joined(line.source for line in lines), examples or ("none yet" if lines else "none of its own"))
        shown = ["as above" if one == before and len(one) > 8 else one for one, before in zip(last, above)]
        names, told, above = quoted(key[2] for key in keys), sentence.replace("|", "\\|"), last
        made.append(f"| {names} | {told} | {' | '.join(shown)} |")
    return made


def table_of(path, needed, lines, problems):
    """The part of one file: its rows, and the names below them. Answers nothing where none has to be believed."""
    inside = {d.name: d.key for d in needed.all.values() if d.path == path}
    head, groups = groups_of(TOP / path, inside)
    rows, below, told = [], [], set()
    for group in groups:
        keys = [inside[name] for name in group.names if inside[name] in needed.keys]
        plain, apart = [], []
        for key in keys:
            line = lines.get(key)
            if line and line.sentence and line not in told:
                told.add(line)
                apart.append(([inside[name] for name in line.names], line.sentence, [line]))
            elif not line and key not in needed.cited:
                below.append(key[2])
            elif not line or not line.sentence:
                plain.append(key)
        if plain:
            rows.append((plain, group.sentence, list(dict.fromkeys(lines[key] for key in plain if key in lines))))
        rows += apart
        problems += [f"{path}: no comment tells `{key[2]}` ({needed.cited[key]})" for key in plain
                     if not group.sentence and key in needed.cited]
    if not rows and not below:
        return []
    made = [f"### {path.split('/specs/')[1]}", "", head, ""]
    if rows:
        made += [*table(rows), ""]
    if below:
        made += [f"Below: {quoted(below)}.", ""]
    return made


def page(needed, lines, crates, problems):
    heads, parts = heads_of(HEADS), []
    parts += ["# Definitions", "", *heads.pop("", []), ""]
    for crate in crates:
        files = needed.files_of(crate)
        tables = [table_of(f"crates/{crate}/specs/{file.replace('.', '/')}.antt", needed, lines, problems) for file in files]
        idle = [f"{file.replace('.', '/')}.antt" for file, table in zip(files, tables) if not table]
        if any(tables):
            parts += [f"## {crate}", "", *heads.pop(crate, []), ""]
            parts += [line for table in tables for line in table]
            if idle:
                parts += [f"No public contract needs {quoted(idle)}.", ""]
    problems += [f"{HEADS.relative_to(TOP)}: no crate `{crate}` has definitions" for crate in heads]
    return re.sub(r"\n{3,}", "\n\n", "\n".join(parts)).rstrip() + "\n"


def main():
    crates, problems = listed_crates(), []
    needed = Needed(crates, problems)
    lines = data_by_definition(needed, crates, problems)
    made = page(needed, lines, crates, problems)
    if "--write" in sys.argv[1:]:
        PAGE.write_text(made)
    elif not PAGE.is_file() or PAGE.read_text() != made:
        problems.append("docs/DEFINITIONS.md isn't the page that tools/definitions.py --write makes")
    for problem in problems:
        print(problem)
    lacking = sum(not line.examples for line in set(lines.values()))
    print(f"{len(needed.cited)} definitions in public clauses, {len(needed.keys)} with those that they stand on, "
          f"{lacking} lines without a worked example, {len(problems)} problems")
    return 1 if problems else 0


if __name__ == "__main__":
    sys.exit(main())
