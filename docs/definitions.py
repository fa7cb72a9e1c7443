"""Reads the definitions of all crates, and which of them each one uses.

A definition is a name with its type, a record or a data type of a file in `specs/`, a type, constant or trait member of the code, or
what the code says a type's value is (`impl Model`). Names resolve as the kit resolves them: by the file itself, its `use` lines with
their renamings, and the names that a file or a crate hands on. A name that a parameter, a binder, a pattern or a field binds is no use
of a definition. Names of the kit are none either.
"""

from __future__ import annotations

import re
from collections.abc import Iterable, Iterator
from dataclasses import dataclass, field
from pathlib import Path

TOKEN = re.compile(r"\[\]|[(){}\[\],;]|[^\s(){}\[\],;]+")
HEAD = re.compile(r"(?:(?:unfoldable|abbrev|pub) )*(data |record |ruleset )?([^\s:(){}]+)(?: (?:[({].*[)}] )?:(?= |$)| =(?= |$))")
USE = re.compile(r"^ *(?:pub )?(?:ghost )?use (Rattle\.[^\s{;]+?)(?:\.\{([^}]*)\})?(?: as (\S+?))?;?$", re.M)
HANDED_ON = re.compile(r"^pub use (Rattle\.[^\s{]+?)(?:\.\{([^}]*)\})?$", re.M)
RUST_USE = re.compile(r"^(?:pub )?use ([\w:]+?)(?:::\{([^}]*)\})?(?: as (\w+))?;", re.M)
TYPE = re.compile(r"^(?:pub(?:\(\w+\))? )?(?:struct|enum) (\w+)[^;{(]*([;{(])", re.M)
CONSTANT = re.compile(r"^(?:pub(?:\(\w+\))? )?const (\w+): ([^;]*);", re.M)
TRAIT = re.compile(r"^(?:pub(?:\(\w+\))? )?trait (\w+)[^{]*\{", re.M)
IMPL = re.compile(r"^impl(?:<[^\n{]*?>)? (?:([\w:]+)(?:<[^\n{]*?>)? for )?(Box<dyn |\()?(\w+)[^\n{]*\{", re.M)
MEMBER = re.compile(r"^    ghost (\w+)(?::| =) \{", re.M)
FUNCTION = re.compile(r"^( *)(pub )?(?:const )?fn (\w+)", re.M)
CLAUSE = re.compile(r"\s*(requires|ensures)\*?\s*(\w*)\s*\{")
NOT_CODE = re.compile(r"//[^\n]*|\"(?:\\.|[^\"\\])*\"|'(?:\\.|[^'\\])'")
BODY = re.compile(r"\{|;(?![^\[\]]*\])")
OF_INSTANCE = re.compile(r"⟦<(?:Box<dyn |\()?(\w+)[^⟧]*? as (\w+)>⟧")


@dataclass(frozen=True, order=True)
class Key:
    """A definition by its file, from `crates/` on, and its name there."""

    file: str
    name: str

    @property
    def crate(self) -> str:
        return self.file.partition("/")[0]


@dataclass
class Definition:
    """Antt that opens a scope of its own, part by part, and words of Rust."""

    parts: list[list[str]] = field(default_factory=list)
    rust: set[str] = field(default_factory=set)


@dataclass
class Clause:
    """A clause of a public call: what it says, and the types and bounds of the names in it."""

    label: str
    tokens: list[str]
    rust: set[str]


@dataclass
class Call:
    """A function with clauses. A row is worked by hand: it has no parameter, an empty body, and says so."""

    owner: str
    name: str
    is_open: bool
    is_row: bool
    bounds: dict[str, set[str]]
    names: set[str]
    clauses: list[Clause]


@dataclass
class File:
    """What a file defines, and what its names stand for: a module, and a name in it or all of it."""

    definitions: dict[str, Definition] = field(default_factory=dict)
    constructors: dict[str, str] = field(default_factory=dict)
    names: dict[str, tuple[str, str]] = field(default_factory=dict)
    handed_on: dict[str, tuple[str, str]] = field(default_factory=dict)
    rust_names: dict[str, tuple[str, str]] = field(default_factory=dict)
    modules: list[str] = field(default_factory=list)
    calls: list[Call] = field(default_factory=list)


def words(text: str) -> list[str]:
    return TOKEN.findall(re.sub(r'"[^"]*"|(?<!\S)--.*', "", text))


def imported(matches: Iterable[tuple[str, ...]]) -> Iterator[tuple[str, tuple[str, str]]]:
    """Each name that use lines bring, with its module and its name there; a whole module has no name there."""
    for module, names, renamed in matches:
        if not names and "::" in module:
            module, _, names = module.rpartition("::")
            names += f" as {renamed}" if renamed else ""
        if not names:
            yield renamed or module.rpartition(".")[2], (module, "")
        for name in filter(None, (each.strip() for each in names.split(","))):
            there, _, here = name.partition(" as ")
            yield here or there, (module, there)


def whole(matches: Iterable[tuple[str, str]]) -> Iterator[tuple[str, str, str]]:
    return ((module, names, "") for module, names in matches)


# Definitions in `specs/`.


def pieces(text: str) -> Iterator[tuple[str, str, list[str]]]:
    """Each definition's kind and name, and its lines from the margin of its module on; the parameters of that module come first."""
    found: list[str] = []
    kind = name = margin = before = ""
    for line in text.splitlines():
        if line.strip() and margin and not line.startswith(margin):
            margin = before = ""
        line = line[len(margin) :]
        if line.startswith("module _"):
            margin, before = margin + "  ", line
            continue
        head = HEAD.match(line)
        if head and head[2] != name or re.match(r"use |pub use |pub mod |infix", line):
            if name:
                yield kind, name, found
            kind, name, found = ((head[1] or "").strip(), head[2], [before] if before else []) if head else ("", "", [])
        if name and line.strip() and not line.startswith("--"):
            found.append(line)
    if name:
        yield kind, name, found


def scopes(kind: str, name: str, lines: list[str]) -> Iterator[list[str]]:
    """The parts of a definition: of a name its type and each equation, of a data type each constructor, of a record the whole."""
    begins = re.compile(r"  \S+ :" if kind == "data" else re.escape(name) + " ")
    part: list[str] = []
    for line in lines:
        if kind != "record" and begins.match(line):
            yield part
            part = []
        if not line.lstrip().startswith("unfolding "):
            part.append(line)
    yield part


def definition_of(kind: str, name: str, lines: list[str]) -> Definition:
    given = words(lines[0]) if lines[0].startswith("module _") else []
    return Definition([given + words("\n".join(part)) for part in scopes(kind, name, lines)])


def read_antt(text: str) -> File:
    file = File(names=dict(imported(USE.findall(text))), handed_on=dict(imported(whole(HANDED_ON.findall(text)))))
    for kind, name, lines in pieces(text):
        file.definitions[name] = definition_of(kind, name, lines)
        if kind == "data":
            file.constructors.update((found[1], name) for line in lines if (found := re.match(r"  (?:pub )?(\S+) :", line)))
    return file


# The code.


def closing(text: str, start: int) -> int:
    """The place after the bracket that closes the one before the start."""
    depth, place = 1, start
    while depth:
        depth += (text[place] in "({[") - (text[place] in ")}]")
        place += 1
    return place


def blank(found: re.Match[str]) -> str:
    return " " * len(found[0]) if found[0].startswith("//") else '"' + " " * (len(found[0]) - 2) + '"'


def rust_words(text: str) -> set[str]:
    return set(re.findall(r"\b[A-Z]\w*", text))


def members(block: str) -> Iterator[tuple[str, str]]:
    for found in MEMBER.finditer(block):
        yield found[1], block[found.end() : closing(block, found.end()) - 1]


def clauses_at(text: str, place: int, types: dict[str, set[str]]) -> tuple[list[Clause], int]:
    """The clauses from a place on, with the types of what each of them names, and where they end."""
    found = []
    while clause := CLAUSE.match(text, place):
        place = closing(text, clause.end())
        tokens = words(OF_INSTANCE.sub(r"\1◁\2", text[clause.end() : place - 1]))
        named = {token.partition(".")[0] for token in tokens}
        rust = set().union(*(kinds for name, kinds in types.items() if name in named))
        found.append(Clause(clause[2] or clause[1], tokens, rust))
    return found, place


def bounds_of(text: str) -> dict[str, set[str]]:
    """The traits that bound each type parameter."""
    return {name: rust_words(traits) for name, traits in re.findall(r"\b([A-Z]\w*): ((?:[\w:]+(?:<[^>]*>)?(?: \+ )?)+)", text)}


def types_in(parameters: str) -> dict[str, set[str]]:
    """What the type of each parameter names."""
    each = (part.partition(": ") for part in re.split(r",\s*(?=(?:mut )?\w+: )", parameters))
    return {name.split()[-1]: rust_words(kind) for name, _, kind in each if name.strip()}


def call_at(text: str, head: re.Match[str]) -> Call:
    """The function whose head was found."""
    start = text.index("(", head.end()) + 1
    close = closing(text, start)
    ends = [found.start() for mark in (CLAUSE, BODY) if (found := mark.search(text, close))]
    generics = text[head.end() : start] + text[close : min(ends)]
    types = {**types_in(text[start : close - 1]), "result": rust_words(text[close : min(ends)])}
    clauses, after = clauses_at(text, min(ends), types)
    is_law = not text[start : close - 1].strip() and re.match(r"\s*\{\s*\}", text[after:]) is not None
    return Call("", head[3], False, is_law, bounds_of(generics), {*types, "self"}, clauses)


def doc_before(text: str, place: int) -> str:
    """The comment lines above a place."""
    lines = text[:place].split("\n")[:-1]
    found = []
    while lines and re.match(r" *(///|#\[)", lines[-1]):
        found.append(lines.pop())
    return " ".join(found)


@dataclass
class Block:
    """A trait, or what is implemented for a type: of a trait, or of the type itself where there is no trait."""

    start: int
    end: int
    owner: str
    trait: str
    is_trait: bool


def blocks_of(text: str) -> list[Block]:
    traits = [Block(found.end(), closing(text, found.end()), found[1], "", True) for found in TRAIT.finditer(text)]
    impls = [
        Block(found.end(), closing(text, found.end()), found[3], (found[1] or "").rpartition(":")[2], False) for found in IMPL.finditer(text)
    ]
    return traits + impls


def calls_in(source: str, text: str, blocks: list[Block]) -> Iterator[Call]:
    """The functions with clauses of a file."""
    by_hand = re.search(r"^//!.*\bby hand\b", source, re.M) is not None
    for found in FUNCTION.finditer(text):
        call = call_at(text, found)
        place_in(call, next((block for block in blocks if block.start <= found.start() < block.end), None), bool(found[2]))
        call.is_row = call.is_row and (by_hand or "by hand" in doc_before(source, found.start()))
        if call.clauses:
            yield call


def place_in(call: Call, block: Block | None, is_public: bool) -> None:
    """Gives a call the type or trait of its block; a function of a trait is as open as the trait."""
    call.is_open = is_public or (block is not None and (block.is_trait or block.trait not in ("", "Model")))
    call.owner = block.owner if block else ""
    for clause in call.clauses:
        clause.rust |= {call.owner} if any(token.startswith("self") for token in clause.tokens) else set()


def with_traits(tokens: list[str], bounds: dict[str, set[str]]) -> list[str]:
    """Tokens in which what a type parameter says of a ghost member is what its traits declare."""
    parted = [(token, *token.partition(".")) for token in tokens]
    return [each for token, first, _, name in parted for each in ([f"{trait}◁{trait}.{name}" for trait in sorted(bounds.get(first, set()))] or [token])]


def ghost_members(text: str, blocks: list[Block]) -> Iterator[tuple[str, Definition]]:
    """What traits declare as ghost, and what types say of it. What `impl Model` says of a value is the type's own."""
    for block, name, body in ((block, name, body) for block in blocks for name, body in members(text[block.start : block.end])):
        if block.is_trait:
            yield f"{block.owner}.{name}", Definition([words(body)])
        elif block.trait == "Model" and name in ("Value", "view"):
            yield block.owner, Definition([words(body)])
        elif (block.trait, name) != ("Model", "coded"):
            bounds = bounds_of(text[text.rfind("impl", 0, block.start) : block.start])
            yield f"{block.owner}◁{block.trait}.{name}", Definition([with_traits(words(body), bounds)], {block.trait, block.owner})


def types_and_constants(text: str) -> Iterator[tuple[str, Definition]]:
    for found in TYPE.finditer(text):
        body = text[found.end() : closing(text, found.end())] if found[2] != ";" else ""
        yield found[1], Definition([], rust_words(body))
    yield from ((found[1], Definition([], rust_words(found[2]))) for found in CONSTANT.finditer(text))


def read_rust(source: str) -> File:
    text = NOT_CODE.sub(blank, source)
    blocks = blocks_of(text)
    file = File(names=dict(imported(USE.findall(text))), rust_names=dict(imported(RUST_USE.findall(text))))
    for name, definition in (*types_and_constants(text), *ghost_members(text, blocks)):
        known = file.definitions.setdefault(name, definition)
        known.parts += definition.parts if known is not definition else []
    file.modules = re.findall(r"^pub mod (\w+);", text, re.M)
    file.calls = list(calls_in(source, text, blocks))
    return file


# Which definition a name stands for.


def bound_names(tokens: list[str], place: int) -> list[str]:
    """The names of a group `(a b : T)` or `{a : T}` whose bracket is at the place."""
    names: list[str] = []
    for token in tokens[place + 1 :]:
        if token == ":":
            return names
        if token in "(){}[],;" or token in ("→", "="):
            return []
        names.append(token)
    return []


class Tree:
    """All files, and what each of their names stands for."""

    def __init__(self, root: Path) -> None:
        self.root = root
        self.files: dict[str, File] = {}
        for path in sorted([*root.glob("crates/*/specs/**/*.antt"), *root.glob("crates/*/src/**/*.rt")]):
            text = path.read_text(encoding="utf-8")
            self.files[str(path.relative_to(root / "crates"))] = read_antt(text) if path.suffix == ".antt" else read_rust(text)
        self.keys = {Key(name, each): body for name, file in self.files.items() for each, body in file.definitions.items()}
        self.direct_uses: dict[Key, set[Key]] = {}

    def calls(self) -> Iterator[tuple[str, Call]]:
        """Every function with clauses, and its file."""
        for name, file in self.files.items():
            yield from ((name, call) for call in file.calls)

    def is_handed_on(self, file: str, name: str) -> bool:
        """Whether users of a library can name what a file has: the library hands it on, or the file is a public module."""
        crate = file.partition("/")[0]
        library = f"{crate}/src/lib.rt"
        if library not in self.files:
            return False
        shown = {f"{crate}/src/{module}.rt" for module in self.files[library].modules} | {library}
        # A library may hand on a module of a module, as `pub use sys::engine`.
        shown |= {f"{crate}/src/{path.replace('::', '/')}/{there}.rt" for path, there in self.files[library].rust_names.values()}
        return file in shown or any(name in self.files[each].rust_names for each in shown if each in self.files)

    def public_clauses(self) -> Iterator[tuple[bool, set[Key]]]:
        """Of each clause that users of a library meet, whether it is a row, and what it names."""
        for file, call in self.calls():
            if call.is_open and self.is_handed_on(file, call.owner or call.name):
                yield from ((call.is_row, self.uses_of(file, call, clause)) for clause in call.clauses)

    def public_members(self) -> set[Key]:
        """The ghost members of traits and types that users of a library meet, and the invariants of its types."""
        owners = {key: re.split(r"[◁.]", key.name)[0] for key in self.keys if key.file.endswith(".rt")}
        return {key for key, owner in owners.items() if owner != key.name and self.is_handed_on(key.file, owner)}

    # Names of definitions.

    def item(self, module: str, name: str) -> list[Key]:
        """The definition that a module has of a name, its own, a constructor's or one that it hands on."""
        _, crate, *rest = module.split(".")
        if rest[:1] != ["specs"]:
            return []
        if rest[1:2] in (["declared"], ["contracts"]):
            return self.declared(crate, rest[2:], name)
        file = f"{crate}/specs/{'/'.join(rest[1:])}.antt"
        if file in self.files:
            return self.of_file(file, name)
        library = self.files.get(f"{crate}/specs/Lib.antt", File())
        there = library.handed_on.get(rest[-1])
        return self.item(there[0], name) if there and not there[1] else []

    def of_file(self, file: str, name: str) -> list[Key]:
        """The definition of a name in a file, where an operator has a circle on each side, and a trait is all of its members."""
        here = self.files[file]
        for each in (name, f"◌{name}◌"):
            if each in here.definitions:
                return [Key(file, each)]
            if each in here.handed_on:
                return self.item(*here.handed_on[each])
        if name in here.constructors:
            return [Key(file, here.constructors[name])]
        return [Key(file, each) for each in here.definitions if each.startswith(f"{name}.")]

    def declared(self, crate: str, path: list[str], name: str) -> list[Key]:
        """The type or the constant of the code that a module `declared` stands for."""
        *path, last = [word for word in path if word not in ("TheVariants", "TheInside")]
        wanted = name if last == "TheConstants" else last
        file = f"{crate}/src/{'/'.join(path)}.rt"
        return (self.of_file(file, wanted) if file in self.files else []) or self.in_crate(crate, wanted)

    # Names of the code.

    def in_crate(self, crate: str, name: str) -> list[Key]:
        """A type of a library, its own or one that it hands on."""
        library = f"{crate}/src/lib.rt"
        there = self.files.get(library, File()).rust_names.get(name)
        if there and self.is_foreign(crate, there[0]):
            return self.of_path(crate, *there)
        found = (self.of_file(file, name) for file in self.files if file.startswith(f"{crate}/src/"))
        return next((keys for keys in found if keys), [])

    def is_foreign(self, crate: str, path: str) -> bool:
        first = path.partition("::")[0]
        return first != "crate" and not {f"{crate}/src/{first}{end}" for end in (".rt", "/mod.rt")} & self.files.keys()

    def of_path(self, crate: str, path: str, name: str) -> list[Key]:
        """What a path of the code in a crate leads to."""
        first, *rest = path.split("::")
        there = crate if first == "crate" else first
        *rest, name = rest if not name else [*rest, name]
        file = f"{there}/src/{'/'.join(rest)}.rt"
        return (self.of_file(file, name) if file in self.files else []) or self.in_crate(there, name)

    def rust(self, file: str, name: str) -> list[Key]:
        """The type, trait or constant that a word of the code stands for."""
        there = self.files[file].rust_names.get(name)
        return self.of_file(file, name) or (self.of_path(file.partition("/")[0], *there) if there else [])

    def member(self, file: str, trait: str, name: str) -> list[Key]:
        """A ghost member of a trait."""
        return [key for key in self.rust(file, trait) if key.name.rpartition(".")[2] == name]

    def instance(self, file: str, token: str) -> list[Key]:
        """What a type says of a ghost member of a trait, written `Type◁Trait.member`; else the member."""
        first, name = token.split(".")[:2]
        owner, trait = first.split("◁")
        found = [key for key in self.keys if key.name == f"{first}.{name}"]
        crates = {key.crate for key in self.rust(file, owner)}
        return [key for key in found if len(found) == 1 or key.crate in crates] or self.member(file, trait, name)

    # What uses what.

    def named(self, file: str, token: str) -> list[Key]:
        """What a token names at the top of a file: its first word, or what stands in the module that its first word is."""
        names = self.files[file].names
        first, _, rest = token.partition(".")
        for each in (first, f"◌{first}◌"):
            if each in names:
                module, name = names[each]
                return self.item(module, name or rest.partition(".")[0])
        if "◁" in first:
            return self.instance(file, token)
        return self.of_file(file, first) or self.rust(file, first.removesuffix("-box"))

    def uses(self, key: Key) -> set[Key]:
        """The definitions that stand in one."""
        body = self.keys[key]
        found = {each for name in body.rust for each in self.rust(key.file, name)}
        for part in body.parts:
            found |= Walk(self, key.file, part, set()).found
        return found - {key}

    def uses_of(self, file: str, call: Call, clause: Clause) -> set[Key]:
        """The definitions that stand in a clause, with the types of what it names."""
        found = {each for name in clause.rust for each in self.rust(file, name)}
        found |= {each for token in clause.tokens for each in self.members_named(file, call, token)}
        return found | Walk(self, file, clause.tokens, call.names).found

    def members_named(self, file: str, call: Call, token: str) -> list[Key]:
        """The ghost members that a token of a clause names: of the traits that bound its first word, and of the call's own trait."""
        first, _, name = token.partition(".")
        own = self.member(file, call.owner, first) if call.owner else []
        return own + [key for trait in call.bounds.get(first, set()) for key in self.member(file, trait, name)]

    def fields(self, key: Key) -> Iterator[tuple[str, set[Key]]]:
        """The fields of a record, each with the definitions that stand in its type; none for what is no record."""
        tokens = self.keys[key].parts[0] if self.keys[key].parts else []
        if "record" not in tokens[:2] or "where" not in tokens:
            return
        head = tokens.index("where")
        bound = set().union(*Walk(self, key.file, tokens[:head], set()).scopes)
        starts = [place for place in range(head, len(tokens) - 2) if tokens[place] == "pub" and tokens[place + 2] == ":"]
        for start, end in zip(starts, [*starts[1:], len(tokens)]):
            bound.add(tokens[start + 1])
            yield tokens[start + 1], Walk(self, key.file, tokens[start + 3 : end], bound).found

    def below(self, starts: Iterable[Key]) -> set[Key]:
        """These definitions, and all that they use."""
        seen: set[Key] = set()
        left = list(starts)
        while left:
            key = left.pop()
            if key not in seen:
                seen.add(key)
                left.extend(self.direct(key))
        return seen

    def direct(self, key: Key) -> set[Key]:
        if key not in self.direct_uses:
            self.direct_uses[key] = self.uses(key)
        return self.direct_uses[key]


class Walk:
    """Goes over the tokens of one scope, and finds what they name that is not bound."""

    def __init__(self, tree: Tree, file: str, tokens: list[str], bound: set[str]) -> None:
        self.tree, self.file, self.tokens = tree, file, tokens
        self.scopes: list[set[str]] = [set(bound)]
        self.later: list[list[str]] = []
        self.found: set[Key] = set()
        equals = self.equation()
        place = 0
        while place < len(tokens):
            place = self.pattern(place) if place < equals else self.step(place)

    def equation(self) -> int:
        """Where the right side of an equation begins, or 0 for any other scope."""
        depth = 0
        for place, token in enumerate(self.tokens):
            depth += (token in ("(", "{", "[")) - (token in (")", "}", "]"))
            if depth == 0 and token in (":", "→", "λ", "record", "data"):
                return 0
            if depth == 0 and token == "=":
                return place + 1
        return 0

    def pattern(self, place: int) -> int:
        """A constructor in a pattern is a use of its type; any other name is bound. The first word is what is defined."""
        token = self.tokens[place]
        if place > 0 and token not in "(){}[],;=":
            found = self.constructor(token)
            self.found.update(found)
            if not found:
                self.scopes[-1].add(token)
        return place + 1

    def constructor(self, token: str) -> list[Key]:
        is_plain = "." not in token and not token[:1].isupper()
        return [] if is_plain and token not in self.tree.files[self.file].constructors else self.tree.named(self.file, token)

    def step(self, place: int) -> int:
        """Takes the token at the place, and answers where the next one is."""
        token, after = self.tokens[place], self.tokens[place + 1 : place + 3]
        if token in ("(", "{", "["):
            return self.open(place)
        if token in (")", "}", "]"):
            self.scopes.pop()
            self.scopes[-1].update(self.later.pop())
        elif token == "λ":
            return self.binder(place + 1)
        elif token == "|":
            return self.case(place + 1)
        elif token == "let" or after[:1] == ["←"]:
            self.scopes[-1].add(after[0] if token == "let" else token)
            return place + 2
        elif after[:1] == ["="] and self.tokens[place - 1] in ("{", ";"):
            return place + 2
        elif token == "pub" and after[1:] == [":"]:
            self.scopes[-1].add(after[0])
            return place + 2
        else:
            self.use(token)
        return place + 1

    def open(self, place: int) -> int:
        """A bracket; what it binds is bound after it closes."""
        token = self.tokens[place]
        names = bound_names(self.tokens, place) if token != "[" else []
        self.later.append(names)
        self.scopes.append(set())
        return self.case(place + 1) if token == "[" else place + 1 + len(names)

    def binder(self, place: int) -> int:
        """The names between a λ and its dot."""
        while self.tokens[place] not in ("(", "{"):
            name = self.tokens[place]
            self.scopes[-1].add(name.removesuffix("."))
            place += 1
            if name.endswith("."):
                break
        return place

    def case(self, place: int) -> int:
        """The pattern of a case, before its arrow."""
        end = place
        while end < len(self.tokens) and self.tokens[end] not in ("↦", "|", "]", "["):
            end += 1
        if self.tokens[end : end + 1] != ["↦"]:
            return place
        for each in range(place, end):
            self.pattern(each)
        return end + 1

    def use(self, token: str) -> None:
        first = token.partition(".")[0]
        if first and not any(first in scope for scope in self.scopes):
            self.found.update(self.tree.named(self.file, token))
