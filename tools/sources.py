"""Reads the sources of the crates: the definitions under specs/, the public clauses that cite them, tests and rows.

The pages and checks of tools/ stand on it. A public clause is a `requires`, `ensures` or `ghost` of a public function, of a
public trait, or of an implementation for a public type; what a type keeps in itself (an invariant) is none.
"""
import re
from pathlib import Path

TOP = Path(__file__).resolve().parent.parent
NAME = r"[^\W\d][\w']*"


# Sources, without what isn't code.

def blanked(text):
    """The same text with comments, strings and character literals blanked, so that braces and names are code's."""
    pattern = r'//[^\n]*|"(?:\\.|[^"\\])*"|\'(?:\\.[^\']*|[^\\\'\n])\''
    return re.sub(pattern, lambda m: re.sub(r"[^\n]", " ", m.group()), text, flags=re.S)


def without_notes(text):
    """A specs file without its comments and strings."""
    text = re.sub(r'"(?:\\.|[^"\\])*"', lambda m: " " * len(m.group()), text)
    return re.sub(r"(?m)(^|(?<=\s))--(?=\s|$)[^\n]*", "", text)


def end_of_pair(text, at, pair):
    """The place behind the bracket that closes the one at this place."""
    depth = 0
    for place in range(at, len(text)):
        if text[place] == pair[0]:
            depth += 1
        elif text[place] == pair[1]:
            depth -= 1
            if depth == 0:
                return place + 1
    return len(text)


def end_of_braces(text, at):
    return end_of_pair(text, at, "{}")


def bound_names(text):
    """The variables that a text binds: by a lambda, a quantifier, a `let`, or as a field of a record."""
    binders = re.findall(r"λ([^.λ]*)\.", text) + re.findall(r"[({]\s*([^(){}:=]+?)\s*:(?!:)", text)
    binders += re.findall(r"\blet\s+(\S+)", text) + re.findall(r"(?m)^\s+pub\s+(\S+)\s*:", text)
    return {name for binder in binders for name in re.findall(NAME, binder) if name[0].islower() or not name[0].isascii()}


def parts_of(body, name):
    """A definition's type, and each of its equations as its right side without what its left side binds."""
    starts = [m.start() for m in re.finditer(r"(?m)^" + re.escape(name) + r"(?=\s)", body)]
    yield body[:starts[0]] if starts else body, set()
    for start, end in zip(starts, starts[1:] + [len(body)]):
        left, _, right = body[start:end].partition(" =")
        yield right, {word for word in re.findall(NAME, left) if word[0].islower()}


# The definitions of specs/.

class Definition:
    def __init__(self, crate, file, name, body):
        self.crate, self.file, self.name, self.body = crate, file, name, body
        self.constructors = []

    @property
    def path(self):
        return f"crates/{self.crate}/specs/{self.file}.antt"

    @property
    def key(self):
        return (self.crate, self.file, self.name)


class Scope:
    """What the names of a place in the sources mean, as far as they come from specs/ of this repository."""

    def __init__(self, names=None, modules=None):
        self.names, self.modules = dict(names or {}), dict(modules or {})

    def copy(self):
        return Scope(self.names, self.modules)

    def use(self, text, definitions):
        """Takes in an import: Rattle.CRATE.specs.FILE, of names in braces, of all (`*`), of one name, or as a module."""
        found = re.match(r"\s*Rattle\.(\w+)\.specs\.([\w.]+?)(?:\.\{(.*)\}|\.(\*)|\s+as\s+(\w+)|)\s*$", text, re.S)
        if not found:
            return
        crate, file, listed, everything, alias = found.groups()
        if file.split(".")[0] in ("declared", "contracts") or not any(key[0] == crate for key in definitions):
            return      # what Rattle writes of the Rust types, or another repository's
        if alias:
            self.modules[alias] = (crate, file)
        elif everything:
            self.names.update({key[2]: key for key in definitions if key[:2] == (crate, file)})
        elif listed is not None:
            for item in re.split(r",", listed):
                parts = re.split(r"\s+as\s+", item.strip())
                if parts[0]:
                    self.names[parts[-1].strip()] = (crate, file, parts[0].strip())
        elif "." in file:
            file, name = file.rsplit(".", 1)
            self.names[name] = (crate, file, name)
        else:
            self.modules[file] = (crate, file)

    def cited(self, text):
        """The definitions that a text names, and not what it calls by such a name itself."""
        keys, bound = set(), bound_names(text)
        for name, key in self.names.items():
            if name in bound:
                continue
            if "◌" in name:
                parts = [part for part in re.split(r"◌", name) if part]
                if all(re.search(r"(?<!\S)" + re.escape(part) + r"(?!\S)", text) for part in parts):
                    keys.add(key)
            elif re.search(r"(?<![\w'.])" + re.escape(name) + r"(?![\w'])", text):
                keys.add(key)
        for alias, (crate, file) in self.modules.items():
            for name in re.findall(r"(?<![\w'.])" + re.escape(alias) + r"\.(" + NAME + ")", text):
                keys.add((crate, file, name))
        return keys


def specs_of(crate):
    """The definitions of a crate by their keys, each constructor of a `data` as another name of it."""
    found = {}
    for path in sorted((TOP / "crates" / crate / "specs").rglob("*.antt")):
        file = ".".join(path.relative_to(TOP / "crates" / crate / "specs").with_suffix("").parts)
        text = without_notes(path.read_text())
        starts = [m.start() for m in re.finditer(r"(?m)^\S", text)] + [len(text)]
        for start, end in zip(starts, starts[1:]):
            item = text[start:end]
            head = re.match(r"(?:(?:abbrev|unfoldable|foldable|opaque|inline|pub|mutual|ghost)\s+)*(?:(record|data)\s+)?(\S+)\s", item)
            if not head or not re.match(r"(?:abbrev|unfoldable|foldable|opaque|inline|pub)\b", item) or item.startswith("pub mod"):
                # an equation or a constructor of what was declared before
                begun = re.match(r"(\S+)", item)
                if begun and (crate, file, begun.group(1)) in found:
                    found[(crate, file, begun.group(1))].body += item
                elif found and not re.match(r"(use|pub|infix\w*|mod|syntax)\b", item):
                    last = list(found.values())[-1]
                    if last.file == file:
                        last.body += item
                continue
            kind, name = head.groups()
            name = name.rstrip(":")
            one = found[(crate, file, name)] = Definition(crate, file, name, item)
            if kind == "data":
                one.constructors = re.findall(r"(?m)^\s+(" + NAME + r")\s*:", item)
    return found


def stands_on(definitions):
    """For each definition, those that its body names."""
    scopes = {}
    for (crate, file, name) in definitions:
        if (crate, file) in scopes:
            continue
        scope = Scope({key[2]: key for key in definitions if key[:2] == (crate, file)})
        for one in [d for d in definitions.values() if (d.crate, d.file) == (crate, file)]:
            scope.names.update({constructor: one.key for constructor in one.constructors})
        path = TOP / "crates" / crate / "specs" / (file.replace(".", "/") + ".antt")
        for line in re.findall(r"(?m)^(?:pub )?use (.*)$", without_notes(path.read_text())):
            scope.use(line, definitions)
        scopes[(crate, file)] = scope
    below = {}
    for key, one in definitions.items():
        scope, below[key] = scopes[key[:2]], set()
        for text, bound in parts_of(one.body, one.name):
            below[key] |= {other for other in scope.cited(text) if other[2] not in bound or other[:2] != key[:2]} - {key}
    return below


# The public clauses of a crate.

def exported(crate):
    """The names that the crate's root gives out, and its modules that can be seen whole."""
    source = TOP / "crates" / crate / "src"
    names, modules, todo = set(), set(), [source / "lib.rt"]
    while todo:
        path = todo.pop()
        text = blanked(path.read_text())
        inside = re.findall(r"(?m)^\s*pub mod (\w+)", text)
        for use in re.findall(r"(?m)^\s*pub use ([^;]*);", text):
            names |= {re.split(r"\s+as\s+", item)[0] for item in re.findall(r"\w+(?:\s+as\s+\w+)?(?=\s*[,}]|\s*$)", use.strip())}
            if use.rstrip().endswith("*"):
                inside.append(use.strip().split("::")[-2])
        modules |= set(inside)
        folder = path.parent if path.stem in ("lib", "mod") else path.parent / path.stem
        todo += [file for module in inside for file in (folder / f"{module}.rt", folder / module / "mod.rt") if file.is_file()]
    return names, modules


ITEM = re.compile(r"(?P<attribute>#!?\[)|(?P<use>\bghost use\b)|(?P<ghost>\bghost\s+(?P<ghost_name>\w+))"
                  r"|(?P<fn>(?P<pub>\bpub\s+)?(?:const\s+|unsafe\s+)*\bfn\s+(?P<fn_name>\w+))"
                  r"|(?P<impl>\bimpl\b)|(?P<trait>(?P<pub_trait>\bpub\s+)?\btrait\s+(?P<trait_name>\w+))"
                  r"|(?P<type>(?P<pub_type>\bpub\s+)?\b(?:struct|enum)\s+(?P<type_name>\w+))"
                  r"|(?P<mod>\bmod\s+\w+)|(?P<other>\b(?:use|const|static|type)\b)")


class Place:
    """Where items stand: in a file, an `impl` or a trait (or its implementation), and whether that can be seen."""

    def __init__(self, kind, is_public, name):
        self.kind, self.is_public, self.name = kind, is_public, name


class Reader:
    """Goes through one source file and collects what its public clauses cite."""

    def __init__(self, text, own, names, is_open, definitions):
        self.text, self.own, self.names, self.is_open = text, own, names, is_open
        self.definitions, self.cited = definitions, {}

    def is_given(self, name):
        """Whether this crate's item of that name can be seen from outside."""
        return self.is_open or name in self.names

    def note(self, scope, clause, where):
        for key in scope.cited(clause):
            self.cited.setdefault(key, where)

    def block(self, start, end, scope, place):
        """The items of a file or of a block in braces."""
        scope, at = scope.copy(), start
        for use in re.finditer(r"\bghost use ([^;]*);", self.text[start:end]):
            before = self.text[start:start + use.start()]
            if before.count("{") == before.count("}"):
                scope.use(use.group(1), self.definitions)
        while found := ITEM.search(self.text, at, end):
            at = self.item(found, end, scope, place)

    def item(self, found, end, scope, place):
        """One item, whose first words were found. Answers the place behind it."""
        if found["attribute"]:
            return end_of_pair(self.text, found.end() - 1, "[]")
        if found["ghost"]:
            stop = self.end_of_statement(found.end(), end)
            if place.is_public and found["ghost_name"] != "invariant":
                self.note(scope, self.text[found.end():stop], f"{place.name}, ghost {found['ghost_name']}")
            return stop
        if found["fn"]:
            name = found["fn_name"]
            seen = place.is_public and (place.kind == "trait" or bool(found["pub"]) and (place.kind == "impl" or self.is_given(name)))
            return self.function(found.end(), end, scope, seen, place.name + name)
        if found["impl"]:
            return self.implementation(found.end(), scope)
        if found["trait"]:
            name, brace = found["trait_name"], self.text.index("{", found.end())
            stop = end_of_braces(self.text, brace)
            self.block(brace + 1, stop - 1, scope, Place("trait", bool(found["pub_trait"]) and self.is_given(name), f"{name}::"))
            return stop
        if found["type"]:
            return self.declared_type(found, end, scope)
        if found["mod"] and self.text[found.end():].lstrip().startswith("{"):
            brace = self.text.index("{", found.end())
            stop = end_of_braces(self.text, brace)
            self.block(brace + 1, stop - 1, scope, place)
            return stop
        return self.end_of_statement(found.end(), end)

    def end_of_statement(self, at, end):
        while at < end and self.text[at] != ";":
            pair = {"{": "{}", "(": "()", "[": "[]"}.get(self.text[at])
            at = end_of_pair(self.text, at, pair) if pair else at + 1
        return at + 1

    def function(self, at, end, scope, seen, where):
        """The clauses between a function's name and its body."""
        part = re.compile(r"\b(requires|ensures|ghost|decreases)\b([^{};]*)\{|(\{)|(;)|([(\[])")
        while True:
            found = part.search(self.text, at, end)
            if not found:
                return end
            if found.group(5):
                at = end_of_pair(self.text, found.start(), "()" if found.group(5) == "(" else "[]")
                continue
            if found.group(4):
                return found.end()
            close = end_of_braces(self.text, found.end() - 1)
            if found.group(3):
                return close
            if seen:
                name = " ".join([found.group(1)] + found.group(2).split())
                self.note(scope, self.text[found.end():close - 1], f"{where}, {name}")
            at = close

    def implementation(self, at, scope):
        """An `impl` block: of a type that can be seen, and of a trait that can be seen or comes from elsewhere."""
        brace = self.text.index("{", at)
        close = end_of_braces(self.text, brace)
        head = re.sub(r"<(?:[^<>]|<(?:[^<>]|<[^<>]*>)*>)*>", " ", self.text[at:brace])
        head = head.split(" where ")[0]
        trait, _, target = head.rpartition(" for ")
        target_name = (re.findall(r"\w+", re.sub(r"'\w+", "", target or head)) or [""])[-1]
        trait_name = (re.findall(r"\w+", trait) or [""])[-1]
        seen = self.sees(target_name) and (not trait_name or self.sees(trait_name))
        name = f"{trait_name} for {target_name}::" if trait_name else f"{target_name}::"
        self.block(brace + 1, close - 1, scope, Place("trait" if trait_name else "impl", seen, name))
        return close

    def sees(self, name):
        return name not in self.own or self.is_given(name)

    def declared_type(self, found, end, scope):
        """A struct or enum: facts about fields that are all public are a promise, and others are kept inside."""
        part = re.compile(r"[;{(]").search(self.text, found.end(), end)
        if not part or part.group() != "{":
            return self.end_of_statement(found.end(), end)
        close = end_of_braces(self.text, part.start())
        body = self.text[part.end():close - 1]
        fields = re.findall(r"(?m)^\s*(pub\s+|pub\([^)]*\)\s+|)(\w+)\s*:(?!:)", re.sub(r"\bghost\b[^{]*\{[^}]*\}", "", body))
        if found["pub_type"] and self.is_given(found["type_name"]) and fields and all(pub.strip() == "pub" for pub, _ in fields):
            for fact in re.finditer(r"\bghost\s+(\w+)\s*:\s*\{", body):
                stop = end_of_braces(body, fact.end() - 1)
                self.note(scope, body[fact.end():stop - 1], f"{found['type_name']}, ghost {fact.group(1)}")
        return close


def public_citations(crate, definitions):
    """The definitions that the public clauses of a crate cite, each with a place that does."""
    source = TOP / "crates" / crate / "src"
    names, modules = exported(crate)
    texts = {path: blanked(path.read_text()) for path in sorted(source.rglob("*.rt"))}
    own = set()
    for text in texts.values():
        own |= set(re.findall(r"\b(?:struct|enum|trait|type)\s+(\w+)", text))
    cited = {}
    for path, text in texts.items():
        module = path.stem if path.stem != "mod" else path.parent.name
        is_open = path.name == "lib.rt" or module in modules
        reader = Reader(text, own, names, is_open, definitions)
        reader.block(0, len(text), Scope(), Place("file", True, ""))
        for key, where in reader.cited.items():
            cited.setdefault(key, f"crates/{crate}/{path.relative_to(source.parent)}: {where}")
    return cited


# The repository.

def listed_crates():
    """The crates of crates.txt."""
    return [line.split(":")[0].split()[0] for line in (TOP / "crates.txt").read_text().split("\n")
            if line.strip() and not line.startswith("#")]


def known_examples(crates):
    """The names of tests, and those of the rows of table programs: texts in the code; lines of standard input and output,
    what stands behind the word `row`, their fields between tabs or bars, and their beginnings up to a colon or an arrow."""
    tests, told = set(), []
    for crate in crates:
        folder = TOP / "crates" / crate
        for path in folder.rglob("src/**/*.rt"):
            text = path.read_text()
            tests |= set(re.findall(r"#\[test\]\s*(?:#\[[^\]]*\]\s*)*(?:pub\s+)?fn\s+(\w+)", text))
            told += re.findall(r'"((?:\\.|[^"\\\n])*)"', text)
        for name in ("stdin", "stdout"):
            if (folder / name).is_file():
                lines = (folder / name).read_bytes().decode("utf-8", "replace").split("\n")
                told += [line[4:] for line in lines if line.startswith("row ")]
                told += [part for line in lines for part in [line, re.split(r":| =>| ->", line)[0], *re.split(r"\t|\|", line)]]
    return tests, {text.strip() for text in told}


def closure(roots, below):
    """Those definitions, and all that they stand on."""
    found, todo = set(), list(roots)
    while todo:
        key = todo.pop()
        if key not in found and key in below:
            found.add(key)
            todo += below[key]
    return found
