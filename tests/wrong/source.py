"""The functions of a .rt file: where each stands, and the name by which the checker tells of it."""

import re
from dataclasses import dataclass

# Comments, strings and characters; in a clause a name may end in an apostrophe, which begins no character.
HIDDEN = re.compile(r'//[^\n]*|/\*.*?\*/|b?"(?:\\.|[^"\\])*"|(?<!\w)b?\'(?:\\[^\n]*?|[^\'\\\n])\'', re.S)
HEAD = re.compile(r"(?<![\w.])(?:(?:pub(?:\([a-z ]+\))?|const|unsafe|final)\s+)*fn\s+(\w+)")
BLOCK = re.compile(r"^[ \t]*(?:pub(?:\([a-z ]+\))?\s+)?(?:unsafe\s+)?(impl|trait|mod)\b([^{;]*)\{", re.M)
CLAUSE = re.compile(r"(?:requires|ensures)\*?(?:\s+\w+)?\s*$|ghost\s+\w+\s*:\s*$")


@dataclass(frozen=True)
class Function:
    """A function: its path as `rattle check --only` takes it, and the places of its first and last character."""

    path: str
    start: int
    end: int


def blanked(text: str) -> str:
    """The text with comments, strings and characters as blanks, each line as long as it was."""
    return HIDDEN.sub(lambda found: re.sub(r"[^\n]", " ", found[0]), text)


def closing(text: str, at: int) -> int:
    """The place after the brace that closes the one at this place."""
    depth = 0
    for found in re.finditer(r"[{}]", text[at:]):
        depth += 1 if found[0] == "{" else -1
        if depth == 0:
            return at + found.end()
    return len(text)


def end_of_function(text: str, at: int) -> int:
    """The place after a function whose parameters come after this place: its clauses have braces too."""
    begun = at
    for found in re.finditer(r"[{;]", text[at:]):
        place = at + found.start()
        if place < begun:
            continue
        if found[0] == ";" and not inside_brackets(text[at:place]):
            return place + 1
        if found[0] == "{":
            end = closing(text, place)
            if not CLAUSE.search(text[begun:place]):
                return end
            begun = end
    return len(text)


def inside_brackets(text: str) -> bool:
    """Whether a bracket of this text is open at its end."""
    return any(text.count(opening) > text.count(end) for opening, end in ("()", "[]"))


def words_of(name: str) -> list[str]:
    """The names of a type in the order of its text, each path by its last word: `A<b::C, D::E>` gives A, C, E."""
    name = re.sub(r"\s*::\s*", "::", re.sub(r"'\w+", "", name))
    return [it.split("::")[-1] for it in re.findall(r"[A-Za-z_]\w*(?:::[A-Za-z_]\w*)*", name)]


def split_parameters(head: str) -> tuple[set[str], str]:
    """The parameters of an `impl`, and its head without them."""
    if not head.startswith("<"):
        return set(), head
    depth = 0
    for place, sign in enumerate(head):
        depth += {"<": 1, ">": -1}.get(sign, 0) if head[place - 1 : place] != "-" else 0
        if depth == 0:
            break
    found, depth = {""}, 0
    for part in re.split(r"([<>,])", head[1:place]):
        depth += {"<": 1, ">": -1}.get(part, 0)
        if depth == 0 and part not in "<>,":
            found.add(re.sub(r"^const\s+", "", part.split(":")[0].strip()))
    return found, head[place + 1 :].strip()


def block_name(kind: str, head: str) -> tuple[str, bool]:
    """What the checker calls the block that has this head, and whether it is a type's own: `Type`, `Type+Of+Others` where
    it is of that type alone, `TypeOfTraitOf`, `Trait` or a module."""
    head = re.sub(r"\s+", " ", head).strip()
    if kind != "impl":
        return words_of(head.split(":")[0].split("<")[0])[-1], False
    parameters, head = split_parameters(head)
    trait, _, of = head.split(" where ")[0].partition(" for ")
    if of:
        return "".join(it for it in words_of(of) + words_of(trait) if it not in parameters), False
    own = words_of(trait)
    is_plain = all(it in parameters for it in own[1:])
    return own[0] if is_plain else "+".join(own), True


def module_of(path: str) -> str:
    """The module of a file of src/, as `live` of `src/live.rt`; the root's is empty."""
    return "" if path in ("src/lib.rt", "src/main.rt") else path[len("src/") : -len(".rt")].replace("/", "::")


def homes_of(texts: dict[str, str]) -> dict[str, str]:
    """The module in which each type of a crate is declared."""
    declared = re.compile(r"^\s*(?:pub(?:\([a-z ]+\))?\s+)?(?:struct|enum)\s+(\w+)", re.M)
    return {name: module_of(path) for path, text in texts.items() if path.endswith(".rt") for name in declared.findall(blanked(text))}


def functions(path: str, text: str, homes: dict[str, str]) -> dict[str, Function]:
    """The functions of a file by their paths. A type's own stand in the module that declares it, but where the block is
    for some of its arguments alone."""
    hidden, found = blanked(text), {}
    blocks = [(it.end() - 1, closing(hidden, it.end() - 1), block_name(it[1], it[2])) for it in BLOCK.finditer(hidden)]
    for head in HEAD.finditer(hidden):
        around = [name for start, end, name in blocks if start < head.start() < end]
        is_own = len(around) == 1 and around[0][1]
        module = homes.get(around[0][0], module_of(path)) if is_own else module_of(path)
        full = "::".join(it for it in [module, *(name for name, _ in around), head[1]] if it)
        end = end_of_function(hidden, head.end())
        if not any(it.start < head.start() < it.end for it in found.values()):
            found[full] = Function(full, head.start(), end)
    return found


def outside(path: str, text: str, homes: dict[str, str]) -> list[str]:
    """The words and signs that stand in a file beside its functions and comments."""
    rest, last = "", 0
    for it in sorted(functions(path, text, homes).values(), key=lambda it: it.start):
        rest, last = rest + text[last : it.start], it.end
    rest = HIDDEN.sub(lambda found: "" if found[0].startswith("/") else found[0], rest + text[last:])
    return re.findall(r"\w+|[^\w\s]", rest)
