#!/usr/bin/env python3
"""Makes docs/DEFINITIONS.md of the comments of the specs: `make docs` calls it with `--write`.

Without that word it writes no page, and prints what would be wrong with it: a definition that a public contract cites
isn't listed, one is listed where it isn't declared or has no comment, a name is nowhere, or two definitions of the
crates have one name.
Its last line counts what it looked at, and its status is 1 where something is wrong.

What stands by hand is docs/definitions.head.md. There `<!-- reading: FILE FUNCTION; NAMES -->` is where a reading goes:
the definitions that the function's contract cites, and these names, and all on which they rest, but for those of the
readings before. `<!-- others -->` is where the others go that public contracts cite.
"""
import re
import sys

from specs import ROOT, WORD, Index

PAGE = ROOT / "docs/DEFINITIONS.md"
HEAD = ROOT / "docs/definitions.head.md"
MARK = re.compile(r"^<!-- (reading|others)(?:: (\S+) (\w+)(?:; ([\w, ]+))?)? -->$", re.M)
FUNCTION = re.compile(r"(pub )?(const )?(unsafe )?(extern \"C\" )?fn (\w+)")


def exported(crate):
    """The names that a crate hands out; None for a program, each of whose public functions counts."""
    root = ROOT / "crates" / crate / "src/lib.rt"
    if not root.exists():
        return None
    text = root.read_text()
    names = set(re.findall(r"^pub mod (\w+);", text, re.M))
    for listed in re.findall(r"^pub use [^;]*;", text, re.M):
        names.update(WORD.findall(listed))
    return names


def head_at(lines, at):
    """A function's head with its contract: up to the brace of its body, or to the semicolon where it has none."""
    head = []
    for line in lines[at:]:
        head.append(re.sub(r" *//.*", "", line).rstrip())
        bare = not re.search(r"\b(?:requires|ensures)\b", "\n".join(head))
        if head[-1].strip() == "{" or head[-1].endswith((";", "{}")) or bare and head[-1].endswith("{"):
            break
    return "\n".join(head)


def functions(source):
    """The functions of a source: what `FUNCTION` finds, the type or the trait that it is of, and its head."""
    holder = None
    for at, line in enumerate(source.lines):
        of_type = re.match(r"impl(?:<.*?>)? (?:.* for )?(\w+)", line) or re.match(r"pub (?:unsafe )?trait (\w+)", line)
        if of_type or line.rstrip() == "}":
            holder = of_type[1] if of_type else None
        found = FUNCTION.match(line.strip())
        if found:
            yield found, holder, head_at(source.lines, at)


def public_contracts(source):
    """The name and the contract of each public function of a source, and of each that a trait asks for."""
    handed_out = exported(source.crate)
    if handed_out is not None and source.path.stem in handed_out:
        handed_out = None
    traits = set(re.findall(r"^pub (?:unsafe )?trait (\w+)", source.text, re.M))
    for found, holder, head in functions(source):
        name = found[5]
        shown = handed_out is None or found[4] or holder in traits or (holder or name) in handed_out
        contract = re.search(r"\b(?:requires|ensures)\b.*", head, re.S)
        if shown and (found[1] or holder in traits) and contract:
            yield name, contract[0]


def libraries(index):
    """The sources of the libraries and the program, without their tests."""
    return [source for source in index.sources.values()
            if source.path.suffix == ".rt" and not source.path.stem.endswith(("tests", "rows"))]


def sentence(definition):
    """What a definition says: its comment; of a constant its value too."""
    value = re.match(r"(?:pub(?:\(\w+\))? )?const \w+: .*? = (.*);$", definition.text, re.S)
    parts = ([value[1]] if value else []) + ([definition.comment] if definition.comment else [])
    text = ": ".join(parts)
    return text if text.endswith(".") or not text else f"{text}."


def in_words(definitions):
    """The names of definitions as a list in a sentence."""
    names = [f"`{definition.name}`" for definition in definitions if definition.source.path.suffix == ".antt"]
    return " and ".join(filter(None, [", ".join(names[:-1]), names[-1]]))


class Page:
    """The page as it should stand: `met` are the definitions that it lists, `told` the files whose sentence it has."""

    def __init__(self, index):
        self.index, self.met, self.told = index, set(), set()

    def listed(self, definitions, heading, number=0):
        """Definitions by their files, each file under the heading that is made of its number and its place."""
        crates = list(dict.fromkeys(definition.source.crate for definition in definitions))
        files = {}
        for definition in sorted(definitions, key=lambda one: (one.source.path.suffix, crates.index(one.source.crate))):
            if definition.is_public:
                files.setdefault(definition.source, []).append(definition)
        for source, held in files.items():
            number += 1
            yield "\n" + heading(number, held[0].place) + "\n"
            if source.head and source not in self.told:
                yield source.head.rstrip(".") + ".\n"
            self.told.add(source)
            yield from (f"- `{definition.name}`: {sentence(definition)}" for definition in held)

    def reading(self, place, function, names):
        """The lines of a reading: what the contract names with what that rests on, then what stands behind `;`."""
        source = self.index.sources[ROOT / "crates" / place]
        holder, head = next((holder, head) for found, holder, head in functions(source) if found[5] == function)
        cited = self.index.named(source, f"{holder or ''} {head}")
        cited.sort(key=lambda definition: definition.source.path.suffix)
        behind = [self.index.only(name.strip()) for name in (names or "").split(",") if name.strip()]
        walks = [self.index.walk(cited, self.met), self.index.walk(behind, self.met)]
        files = [len({definition.source for definition in walk}) for walk in walks]
        then = f", then read {in_words(behind)}" if behind else ""
        yield (f"The contract stands in `{place}`. Begin from {in_words(cited)}{then}. With what they rest on, and no "
               f"reading before this has, these are {sum(map(len, walks))} definitions.")
        yield from self.listed(walks[0], lambda number, path: f"### {number}. `{path}`")
        yield from self.listed(walks[1], lambda number, path: f"### {number}. `{path}`", files[0])

    def others(self):
        """The lines of the definitions that public contracts cite and no reading has, by crate."""
        cited = set()
        for source in libraries(self.index):
            for _name, contract in public_contracts(source):
                cited.update(self.index.named(source, contract))
        further = [found for found in self.index.in_order() if found in cited and found not in self.met]
        for crate in re.findall(r"^(\w+)(?: \w+)?:", (ROOT / "crates.txt").read_text(), re.M):
            held = [found for found in further if found.source.crate == crate]
            if held:
                yield f"\n### `{crate}`"
                yield from self.listed(held, lambda _number, path: f"#### `{path}`")

    def text(self):
        """The whole page: what is written by hand, with what is printed at its marks."""
        by_hand, lines, at = HEAD.read_text(), [], 0
        for mark in MARK.finditer(by_hand):
            lines.append(by_hand[at:mark.start()].strip("\n") + "\n")
            lines += self.reading(*mark.groups()[1:]) if mark[1] == "reading" else self.others()
            lines.append("")
            at = mark.end()
        whole = "\n".join([*lines, by_hand[at:].strip("\n")])
        return re.sub(r"\n{3,}", "\n\n", whole).strip("\n") + "\n"


def cited_by_name(index):
    """The names of definitions that public contracts cite, and for each a place where one does."""
    places, count = {}, 0
    for source in libraries(index):
        names = {used: named for used, named in source.names.items() if "declared" not in named[1]}
        for function, contract in public_contracts(source):
            cited = {names[word] for word in re.findall(r"\w+", contract) if word in names}
            for alias, (crate, module) in source.modules.items():
                words = re.findall(rf"\b{alias}\.([A-Za-z_]\w*)", contract) if "declared" not in module else []
                cited.update((crate, module, word) for word in words)
            count += len(cited)
            for named in cited:
                definition = index.at(*named)
                name = definition.name if definition else named[2]
                places.setdefault(name, f"{source.path.relative_to(ROOT)}: {function}")
    return places, count


def declared_in(path, name):
    """Whether a file declares a definition, a constructor of one, or a type."""
    text = path.read_text()
    if path.suffix == ".rt":
        return re.search(rf"\b(?:enum|struct|trait|const|static|type|fn) {name}\b", text) is not None
    lines = (line for line in text.splitlines() if not re.match(r"\s*(?:--|(?:pub )?use\b)", line))
    return any(re.match(rf"\s*(?:[a-z]+ )*{name}\b[^=]* ?:(?: |$)", line) for line in lines)


def misplaced(text):
    """How many definitions a page lists, and what is wrong with their places."""
    count, wrong, path = 0, [], None
    for line in text.splitlines():
        heading = re.match(r"#+ (?:\d+\. )?`(\w+/[\w/.]+)`$", line)
        row = re.match(r"- `(\w+)`: (.*)", line)
        if heading:
            path = ROOT / "crates" / heading[1]
        elif row and path:
            count += 1
            if not path.exists() or not declared_in(path, row[1]):
                wrong.append(f"DEFINITIONS.md puts {row[1]} into {path.relative_to(ROOT)}, where it isn't declared")
            if not row[2]:
                wrong.append(f"{path.relative_to(ROOT)}: {row[1]} has no comment")
    return count, wrong


def told_twice(index):
    """The names of public definitions that stand in two specs: one name says one thing."""
    homes = {}
    for source in index.sources.values():
        if source.path.suffix == ".antt":
            for name, definition in source.definitions.items():
                if definition.is_public:
                    homes.setdefault(name, []).append(definition.place)
    return [f"{name} is defined in {' and in '.join(places)}" for name, places in sorted(homes.items()) if len(places) > 1]


def main():
    index = Index()
    text = Page(index).text()
    if "--write" in sys.argv[1:]:
        PAGE.write_text(text)
    named = set(re.findall(r"`([A-Za-z_0-9]+)`", text))
    defined = set(re.findall(r"\w+", "\n".join(source.text for source in index.sources.values())))
    places, citations = cited_by_name(index)
    of_rows, wrong = misplaced(text)
    wrong += [f"not in DEFINITIONS.md: {name} ({place})" for name, place in sorted(places.items()) if name not in named]
    wrong += [f"DEFINITIONS.md names what is nowhere: {name}" for name in sorted(named - defined)]
    wrong += told_twice(index)
    for line in wrong:
        print(line)
    print(f"{citations} citations, {of_rows} rows")
    print(f"{max(citations + of_rows - len(wrong), 0)} passed, {len(wrong)} failed")
    return 1 if wrong or not citations or not of_rows else 0


if __name__ == "__main__":
    sys.exit(main())
