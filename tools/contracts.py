#!/usr/bin/env python3
"""Makes docs/CONTRACTS.md from the crates, or compares it with them: usage: contracts.py [--write]

For each library of crates.txt, in its order, file by file: each public type, trait and call with the first sentence of its
documentation and its clauses: the names of those that have one, and else the clause itself where it is short. An
implementation of a trait is told by what it says beside the trait. tools/contracts_heads.md has what stands in front of a
crate's tables: what it promises the crate above.

Without --write it compares the page, and prints what is wrong: a page that isn't the one that is made, or a head whose
words in backticks are no names of its crates. Its status is then 1.
"""
import re
import sys

from heads import heads_of
from sources import ITEM, NAME, TOP, blanked, end_of_braces, end_of_pair, exported, listed_crates, specs_of

PAGE = TOP / "docs" / "CONTRACTS.md"
HEADS = TOP / "tools" / "contracts_heads.md"
# What every value may do; it says nothing of its own.
PLAIN = {"Clone", "Copy", "Debug", "Drop", "Error"}
SHORT = 100


def squeezed(text):
    return re.sub(r"\s+", " ", text).strip()


def sentence_of(note):
    """The first sentence of a documentation."""
    text = re.sub(r"\[(`[^`]*`)\](?:\([^)]*\))?", r"\1", squeezed(note))
    found = re.match(r"(.*?\.)(?=\s+[A-Z`0-9(]|$)", text)
    return found.group(1) if found else text


class Item:
    """A type, a trait, a call or an implementation, with its documentation and its clauses."""

    def __init__(self, kind, name, note):
        self.kind, self.name, self.note = kind, name, note
        self.clauses, self.meanings, self.calls, self.trait, self.target = [], [], [], "", ""

    @property
    def sentence(self):
        return sentence_of(self.note)


class File:
    """The items of a source file."""

    def __init__(self, path):
        self.text, self.items = path.read_text(), []
        self.code = blanked(self.text)
        self.head = " ".join(re.findall(r"(?m)^//!\s?(.*)$", self.text.split("\nuse ")[0]))
        self.block(0, len(self.code), self.items)

    def note_before(self, at):
        """The documentation above the item at this place, and the comment where it has none."""
        lines, notes = self.text[:self.text.rfind("\n", 0, at) + 1].split("\n")[:-1], []
        while lines and lines[-1].strip().startswith(("#[", "///", "//")):
            line = lines.pop().strip()
            if not line.startswith("#["):
                notes.insert(0, line.lstrip("/").strip())
        return " ".join(notes)

    def block(self, at, end, items):
        skips = False
        while found := ITEM.search(self.code, at, end):
            if found["attribute"]:
                at = end_of_pair(self.code, found.end() - 1, "[]")
                skips = skips or "cfg(test)" in self.code[found.start():at]
            else:
                at = self.item(found, end, [] if skips else items)
                skips = False

    def item(self, found, end, items):
        if found["ghost"]:
            stop = self.end_of_statement(found.end(), end)
            told = re.match(r"\s*[:=]\s*\{(.*)\}\s*[;,]?\s*$", self.text[found.end():stop], re.S)
            items.append(Item("ghost", found["ghost_name"], self.note_before(found.start())))
            items[-1].clauses.append(("", "", squeezed(told.group(1)) if told else ""))
            return stop
        if found["fn"]:
            return self.function(found, end, items)
        if found["impl"]:
            return self.implementation(found, items)
        if found["trait"] or found["type"]:
            return self.declared(found, end, items)
        if found["other"] and (const := re.match(r"\bconst\s+([A-Z]\w*)\s*:[^=]*=\s*([^;]*);", self.code[found.start():end])):
            value = squeezed(self.text[found.start():found.start() + const.end()].split("=", 1)[1].rstrip(";"))
            items.append(Item("pub const" if self.code[:found.start()].rstrip().endswith("pub") else "const", const[1],
                              self.note_before(found.start())))
            items[-1].clauses.append(("", "", value))
        if found["mod"] and self.code[found.end():].lstrip().startswith("{"):
            return end_of_braces(self.code, self.code.index("{", found.end()))
        return self.end_of_statement(found.end(), end)

    def end_of_statement(self, at, end):
        while at < end and self.code[at] not in ";}":
            pair = {"{": "{}", "(": "()", "[": "[]"}.get(self.code[at])
            at = end_of_pair(self.code, at, pair) if pair else at + 1
        return at + 1

    def function(self, found, end, items):
        item = Item("pub fn" if found["pub"] else "fn", found["fn_name"], self.note_before(found.start()))
        items.append(item)
        at, part = found.end(), re.compile(r"\b(requires|ensures|ghost|decreases)\b([^{};]*)\{|(\{)|(;)|([(\[])")
        names = None
        while clause := part.search(self.code, at, end):
            if clause.group(5):
                stop = end_of_pair(self.code, clause.start(), "()" if clause.group(5) == "(" else "[]")
                if names is None and clause.group(5) == "(":
                    names = re.findall(r"(?:^|,)\s*(?:mut\s+)?(\w+)\s*:(?!:)", flat(self.code[clause.end():stop - 1]))
                at = stop
                continue
            if clause.group(4):
                at = clause.end()
                break
            close = end_of_braces(self.code, clause.end() - 1)
            if clause.group(3):
                at = close
                break
            item.clauses.append((clause.group(1), clause.group(2).strip("* \n"), squeezed(self.text[clause.end():close - 1])))
            at = close
        item.calls = names or []
        return at

    def implementation(self, found, items):
        brace = self.code.index("{", found.end())
        close = end_of_braces(self.code, brace)
        head = squeezed(self.code[found.end():brace])
        if head.startswith("<"):
            head = head[end_of_angles(head):].strip()
        trait, _, target = head.split(" where ")[0].rpartition(" for ")
        item = Item("impl", "", self.note_before(found.start()))
        item.trait, item.target = trait.strip(), target.strip()
        inside = []
        self.block(brace + 1, close - 1, inside)
        item.meanings = [one for one in inside if one.kind == "ghost"]
        item.calls = [one for one in inside if one.kind in ("fn", "pub fn")]
        items.append(item)
        return close

    def declared(self, found, end, items):
        kind = "trait" if found["trait"] else "type"
        item = Item(("pub " if found["pub_" + kind] else "") + kind, found[kind + "_name"], self.note_before(found.start()))
        items.append(item)
        part = re.compile(r"[;{(]").search(self.code, found.end(), end)
        if not part or part.group() != "{":
            return self.end_of_statement(found.end(), end)
        close, inside = end_of_braces(self.code, part.start()), []
        if kind == "trait":
            self.block(part.end(), close - 1, inside)
        item.meanings = [one for one in inside if one.kind == "ghost"]
        item.calls = [one for one in inside if one.kind in ("fn", "pub fn")]
        return close


def flat(text):
    """A list of parameters without what their types have in brackets."""
    while (less := re.sub(r"<[^<>]*>|\([^()]*\)|\[[^\[\]]*\]", "", text.replace("->", ""))) != text:
        text = less
    return text


def end_of_angles(text):
    depth = 0
    for place, sign in enumerate(text.replace("->", "  ")):
        depth += {"<": 1, ">": -1}.get(sign, 0)
        if depth == 0:
            return place + 1
    return len(text)


def base(name):
    """A type or trait without its parameters and references."""
    words = re.findall(r"\w+", re.sub(r"<.*", "", re.sub(r"&?'\w+|&(?:mut )?", "", name)))
    return words[-1] if words else name


class Crate:
    def __init__(self, name):
        self.name, self.source = name, TOP / "crates" / name / "src"
        self.names, _ = exported(name)
        self.files = {path.relative_to(self.source).as_posix(): File(path) for path in sorted(self.source.rglob("*.rt"))
                      if "tests" not in path.stem}
        every = [item for file in self.files.values() for item in file.items]
        self.own = {item.name for item in every if item.kind in ("pub type", "type", "pub trait", "trait")}
        self.names |= {item.name for item in self.files["lib.rt"].items if item.kind.startswith("pub ")}
        self.traits = {item.name: item for item in every if item.kind == "pub trait" and item.name in self.names}
        self.views = {base(item.target): item.meanings for item in every if item.kind == "impl" and item.trait == "Model"}

    def lent(self):
        """The names that the root lends of other crates, by crate."""
        text, found = self.files["lib.rt"].code, {}
        inside = set(re.findall(r"\bmod (\w+)", text))
        for crate, names in re.findall(r"\bpub use (\w+)::([^;]*);", text):
            if crate not in inside and crate not in ("crate", "self", "std"):
                found.setdefault(crate, []).extend(word for word in re.findall(r"\w+", names))
        return found


# What is told of an item.

def code(text):
    return "`" + text.replace("|", "\\|") + "`"


def clauses_told(clauses, without=()):
    """The conditions and promises, by their names, or as they are where they have none and are short."""
    told = []
    for word, begin in (("requires", "needs "), ("ensures", "")):
        names = [code(name) for kind, name, _ in clauses if kind == word and name and name not in without]
        bare = [text for kind, name, text in clauses if kind == word and not name]
        names += [code(text) if len(text) <= SHORT else "one clause" for text in bare]
        if names:
            told.append(begin + ", ".join(dict.fromkeys(names)))
    return "; ".join(told)


def signature(owner, item):
    return code(f"{owner}{item.name}({', '.join(item.calls)})" if item.calls else owner + item.name)


def meanings_told(meanings):
    """What contracts see of a value: each meaning with the comment above it."""
    return "; ".join(code(one.name) + (f" ({one.note.rstrip('.')})" if one.note else "") for one in meanings)


def view_told(meanings):
    value = next((one.clauses[0][2] for one in meanings if one.name == "Value"), "")
    return f"seen as {code(value)}" if value and len(value) <= SHORT else ""


def rows_of_type(crate, item):
    yield code(item.name), item.sentence, view_told(crate.views.get(item.name, [])) if item.kind == "pub type" else ""


def rows_of_trait(item):
    yield code(item.name), item.sentence, meanings_told(item.meanings)
    for call in item.calls:
        yield signature(f"{item.name}::", call), call.sentence, clauses_told(call.clauses)


def rows_of_impl(crate, item, traits):
    """The calls of a type; or what an implementation of a trait says beside the trait."""
    target = base(item.target)
    if not item.trait:
        if target in crate.names:
            for call in item.calls:
                if call.kind == "pub fn":
                    yield signature(f"{target}::", call), call.sentence, clauses_told(call.clauses)
        return
    trait = base(item.trait)
    hidden = trait in crate.own and trait not in crate.names or target in crate.own and target not in crate.names
    if hidden or trait in PLAIN or trait == "Model" or target not in crate.own and trait not in crate.own and target not in crate.names:
        return
    if trait == "From" and "Alloc" in item.trait:
        return
    known = {call.name: {clause[1] for clause in call.clauses} for call in (traits[trait].calls if trait in traits else [])}
    parts = [code(one.name) + (f": {code(one.clauses[0][2])}" if 0 < len(one.clauses[0][2]) <= SHORT else "")
             for one in item.meanings]
    for call in item.calls:
        told = [clause for clause in call.clauses if clause[0] == "ensures" or trait not in traits]
        more = clauses_told(told, known.get(call.name, ()))
        parts += [f"{code(call.name)}: {more}" if len(item.calls) > 1 else more] if more else []
    calls = item.calls if len(item.calls) == 1 or trait not in traits else []
    sentences = dict.fromkeys(one for one in [item.sentence, *(call.sentence for call in calls)] if one)
    yield code(f"{squeezed(item.trait)} for {squeezed(item.target)}"), " ".join(sentences), "; ".join(parts)


def rows_of(crate, file, traits):
    for item in file.items:
        if item.kind == "pub type" and item.name in crate.names:
            yield from rows_of_type(crate, item)
        elif item.kind == "pub trait" and item.name in crate.names:
            yield from rows_of_trait(item)
        elif item.kind == "pub fn" and item.name in crate.names:
            yield signature("", item), item.sentence, clauses_told(item.clauses)
        elif item.kind == "pub const" and item.name in crate.names:
            yield code(item.name), item.sentence, code(item.clauses[0][2]) if len(item.clauses[0][2]) <= SHORT else ""
        elif item.kind == "impl":
            yield from rows_of_impl(crate, item, traits)


def joined_rows(rows):
    """Rows that say the same are one row; where a type has several calls of one sentence, each keeps its own clauses."""
    told = {}
    for name, sentence, clauses in rows:
        told.setdefault((sentence, clauses), []).append(name)
    return [(", ".join(dict.fromkeys(names)), sentence, clauses) for (sentence, clauses), names in told.items()]


def tables_of(crate, traits):
    for name, file in crate.files.items():
        rows = joined_rows(rows_of(crate, file, traits))
        if not rows:
            continue
        yield from [f"### {name}", "", sentence_of(file.head) if name != "lib.rt" else "", ""]
        yield from ["| Item | What it is | Clauses |", "|---|---|---|"]
        yield from (f"| {names} | {sentence.replace('|', chr(92) + '|')} | {clauses} |" for names, sentence, clauses in rows)
        yield ""
    for other, names in crate.lent().items():
        yield f"It lends of {other}: {', '.join(code(name) for name in names)}."
        yield ""


def names_of(crate):
    """What a head may name: the crate's items, clauses, meanings and definitions."""
    definitions = specs_of(crate.name)
    names = set(crate.own) | crate.names | {key[2] for key in definitions}
    names |= {field for one in definitions.values() for field in re.findall(r"(?m)^ {2,4}pub (\w+) :", one.body)}
    for file in crate.files.values():
        for item in file.items:
            names |= {item.name, base(item.trait), base(item.target)}
            for one in [item, *item.meanings, *(call for call in item.calls if isinstance(call, Item))]:
                names |= {one.name, *(clause[1] for clause in one.clauses)}
        names |= set(re.findall(r"\b[A-Z]\w*", file.code))
    return names


def check_head(crate, lines, known, problems):
    for word in re.findall(r"`([^`]*)`", "\n".join(lines)):
        for name in re.findall(NAME, word):
            if name not in known and not (name.endswith("_") and any(one.startswith(name) for one in known)):
                problems.append(f"{HEADS.relative_to(TOP)}: {crate} has no `{name}`")


def main():
    problems, heads = [], heads_of(HEADS)
    crates = [Crate(name) for name in listed_crates()
              if (TOP / "crates" / name / "src" / "lib.rt").is_file() and not name.endswith("_tests")]
    traits = {name: trait for crate in crates for name, trait in crate.traits.items()}
    known = set()
    parts = ["# Contracts", "", *heads.pop("", []), ""]
    for crate in crates:
        known |= names_of(crate)
        head = heads.pop(crate.name, [])
        if not head:
            problems.append(f"{HEADS.relative_to(TOP)}: no head for {crate.name}")
        check_head(crate.name, head, known, problems)
        parts += [f"## {crate.name}", "", *head, "", *tables_of(crate, traits)]
    problems += [f"{HEADS.relative_to(TOP)}: no library {name}" for name in heads]
    made = re.sub(r"\n{3,}", "\n\n", "\n".join(parts)).rstrip() + "\n"
    if "--write" in sys.argv[1:]:
        PAGE.write_text(made)
    elif not PAGE.is_file() or PAGE.read_text() != made:
        problems.append("docs/CONTRACTS.md isn't the page that tools/contracts.py --write makes")
    for problem in problems:
        print(problem)
    print(f"{made.count(chr(10) + '| `')} rows of public items in {len(crates)} libraries, {len(problems)} problems")
    return 1 if problems else 0


if __name__ == "__main__":
    sys.exit(main())
