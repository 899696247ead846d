"""Reads the specs and the sources: what each defines, with its comment, where it stands and what it rests on."""
import pathlib
import re

ROOT = pathlib.Path(__file__).resolve().parent.parent
USE = re.compile(r"\buse Rattle\.((?:ws_|t5250)\w*)\.specs\.([\w.]+?)(?:\.\{([^}]*)\}| as (\w+))")
WORD = re.compile(r"(?<![\w.])[A-Za-z_]\w*(?:\.[A-Za-z_]\w*)?")
DEFINED = re.compile(r" *(?:abbrev pub|abbrev|unfoldable pub|pub record|pub data) (\w+)")
DECLARED = re.compile(r"(?:pub(?:\(\w+\))? )?(enum|struct|trait|const|type) (\w+)")


class Definition:
    """A definition of a spec, or a type, a trait or a constant of a source; `text` is what its reader has to know."""

    def __init__(self, source, name, comment, text):
        self.source, self.name, self.comment, self.text = source, name, comment, text

    @property
    def place(self):
        return self.source.path.relative_to(ROOT / "crates").as_posix()

    @property
    def is_public(self):
        """Whether it is more than a helper of its spec."""
        return self.source.path.suffix == ".rt" or re.search(r"^ *(\w+ )?pub ", self.text, re.M) is not None


class Source:
    """A file: what it defines, and which names it takes from elsewhere.

    `names` has for a word of the file the crate, the module and the name there; `modules` for an alias the crate and
    the module; `rust` for a word of a source the crate that it is used from.
    """

    def __init__(self, path):
        self.path, self.text = path, path.read_text()
        self.crate = path.relative_to(ROOT / "crates").parts[0]
        self.lines = self.text.split("\n")
        self.names, self.modules, self.rust = {}, {}, {}
        for crate, module, listed, alias in USE.findall(self.text):
            if alias:
                self.modules[alias] = (crate, module)
            for entry in filter(None, (part.strip() for part in listed.split(","))):
                defined, _, used = entry.partition(" as ")
                self.names[used or defined] = (crate, module, defined)
        for crate, listed in re.findall(r"^(?:pub )?use (ws_\w+)::([^;]*);", self.text, re.M):
            self.rust.update((word, crate) for word in re.findall(r"\w+", listed))
        found = self.defined() if path.suffix == ".antt" else self.declared()
        self.definitions = {definition.name: definition for definition in found}

    def comment_above(self, at, mark):
        """The comment right above a line, up to its first empty line."""
        first = at
        while first and self.lines[first - 1].strip().startswith(mark):
            first -= 1
        lines = [line.strip().removeprefix(mark).strip() for line in self.lines[first:at]]
        return " ".join(lines[:lines.index("")] if "" in lines else lines)

    @property
    def head(self):
        """The comment that the file begins with."""
        mark = "--" if self.path.suffix == ".antt" else "//!"
        last = next((at for at, line in enumerate(self.lines) if not line.startswith(mark)), 0)
        return self.comment_above(last, mark)

    def parameters(self, at):
        """The parameters of the modules that a line of a spec stands in."""
        found, indent = [], len(self.lines[at]) - len(self.lines[at].lstrip())
        for above in range(at, -1, -1):
            line = self.lines[above]
            here = len(line) - len(line.lstrip())
            if line.strip() and here < indent and not line.lstrip().startswith("--"):
                indent = here
                head = re.match(r" *module _(.*?)\bwhere$", "\n".join(self.lines[above:above + 4]), re.S | re.M)
                found += [head[1]] if head else []
        return "\n".join(found)

    def defined(self):
        """The definitions of a spec."""
        for at, line in enumerate(self.lines):
            found = DEFINED.match(line)
            if found:
                body = "\n".join(re.sub(r"-- .*", "", line) for line in self.lines[at:self.lines.index("", at)])
                yield Definition(self, found[1], self.comment_above(at, "--"), f"{self.parameters(at)}\n{body}")

    def declared(self):
        """The types, traits and constants of a source."""
        for at, line in enumerate(self.lines):
            found = DECLARED.match(line)
            if found:
                ends = (end for end in range(at, len(self.lines)) if re.match(r"[^ ].*[;}]$|}$", self.lines[end]))
                lines = self.lines[at:next(ends, at) + 1]
                body = "\n".join(line for line in lines if not line.lstrip().startswith("//"))
                above = at
                while self.lines[above - 1].startswith("#["):
                    above -= 1
                yield Definition(self, found[2], self.comment_above(above, "///"), self.seen(found[1], found[2], body))

    def seen(self, kind, name, body):
        """What contracts see of a type or a trait."""
        model = re.search(rf"^impl[^\n]* Model for {name}\b.*?^}}", self.text, re.M | re.S)
        if model:
            return "\n".join(re.findall(r"ghost Value = .*", model[0]))
        if kind == "struct":
            return "\n".join(re.findall(r"^ +pub .*", body, re.M))
        if kind == "trait":
            return "\n".join(re.findall(r"^ *ghost [^;]*;", body, re.M))
        return re.sub(r"^    \w+", "", body, flags=re.M)


def bound(text):
    """The names that a definition or a clause binds itself."""
    names = set()
    for listed in re.findall(r"λ ([\w ]+)\.", text) + re.findall(r"[({]([a-z_][\w ]*?) : ", text):
        names.update(listed.split())
    names.update(re.findall(r"\blet (\w+)\b", text))
    for left in re.findall(r"^ *\w+ ([^=:\n]*?) =(?: |$)", text, re.M):
        names.update(word for word in WORD.findall(left) if word[0].islower() and "." not in word)
    return names


class Index:
    """All specs and sources of the libraries, and what a name in one of them means."""

    def __init__(self):
        found = sorted([*ROOT.glob("crates/*/specs/**/*.antt"), *ROOT.glob("crates/*/src/**/*.rt")])
        paths = (path for path in found if not path.relative_to(ROOT / "crates").parts[0].startswith("rows_"))
        self.sources = {path: Source(path) for path in paths}
        self.types, self.makers = {}, {}
        for source in self.sources.values():
            for definition in source.definitions.values():
                if source.path.suffix == ".rt":
                    self.types.setdefault(definition.name, {})[source.crate] = definition
                elif re.search(r"^ *pub data ", definition.text, re.M):
                    made = re.findall(r"^ +(\w+) : ", definition.text, re.M)
                    self.makers.update(((source.path, maker), definition) for maker in made)

    def in_order(self):
        """All definitions, as they stand in their files."""
        return [definition for source in self.sources.values() for definition in source.definitions.values()]

    def type_named(self, name, crate):
        """A type or a constant of a crate, or the only one of that name, which the crate hands on."""
        homes = self.types.get(name, {})
        return homes.get(crate) or (next(iter(homes.values())) if len(homes) == 1 else None)

    def only(self, name):
        """The one definition of the specs that has a name."""
        found = [definition for definition in self.in_order() if definition.name == name]
        if len(found) != 1:
            raise SystemExit(f"docs/definitions.head.md: {name} is of {len(found)} definitions")
        return found[0]

    def at(self, crate, module, name):
        """What a module of a crate's specs gives by a name: a constructor gives its type."""
        parts = module.split(".")
        if parts[0] == "declared":
            inner = next((at for at, part in enumerate(parts) if part.startswith("The")), len(parts))
            constant = inner < len(parts) and parts[inner] == "TheConstants"
            return self.type_named(name if constant else parts[inner - 1], crate)
        path = ROOT / "crates" / crate / "specs" / ("/".join(parts) + ".antt")
        if path not in self.sources:
            return self.at(crate, ".".join(parts[:-1]), parts[-1]) if len(parts) > 1 else None
        source = self.sources[path]
        found = source.definitions.get(name) or self.makers.get((path, name))
        return found or (self.at(*source.names[name]) if name in source.names else None)

    def meaning(self, source, word):
        """What a word of a file means, if it is a definition's name there."""
        first, _, second = word.partition(".")
        if first in source.names:
            return self.at(*source.names[first])
        if first in source.modules and second:
            crate, module = source.modules[first]
            return self.at(crate, module, second)
        own = source.definitions.get(first) or self.makers.get((source.path, first))
        if own or source.path.suffix == ".antt" or not first[0].isupper():
            return own
        handed_on = self.sources.get(ROOT / "crates" / source.crate / "src/lib.rt", source).rust
        crate = source.rust.get(first) or handed_on.get(first)
        own = self.types.get(first, {}).get(source.crate)
        return own if own or not crate else self.type_named(first, crate)

    def named(self, source, text):
        """The definitions that a text of a file names, in order, but for the names of a record's fields."""
        text = re.sub(r'"[^"]*"|(?<=[{;])\s*\w+ =|^ +pub \w+ :', " ", text, flags=re.M)
        binders, found = bound(text), {}
        for word in WORD.findall(text):
            definition = self.meaning(source, word)
            if definition and (word not in binders or definition.name != word):
                found[definition] = None
        return list(found)

    def rests_on(self, definition):
        """The other definitions that a definition names."""
        return [other for other in self.named(definition.source, definition.text) if other is not definition]

    def walk(self, roots, met):
        """These definitions and those on which they rest, breadth first, without those that were met before."""
        waiting, order = [definition for definition in roots if definition not in met], []
        met.update(waiting)
        while waiting:
            definition = waiting.pop(0)
            order.append(definition)
            further = [other for other in self.rests_on(definition) if other not in met]
            met.update(further)
            waiting += further
        return order
