"""The definitions of a spec module, and which others each of them names."""

from __future__ import annotations

import re
from collections.abc import Iterator
from dataclasses import dataclass
from pathlib import Path

USE = re.compile(r"\buse\s+Rattle\.(\w+)\.specs\.([\w.]+?)(?:\.\{([^}]*)\}|\s+as\s+(\w+))")
COMMENT = re.compile(r"(?m)(?:^|\s)--.*$")
KEYWORDS = {"abbrev", "unfoldable", "pub", "data", "record"}
# A constructor of a `data`, or the fields of a `record` that share a type.
MEMBERS = re.compile(r"\s+(?:pub )?([^\s(){}:]+(?: [^\s(){}:]+)*)\s*:")
WORD = re.compile(r"[^\s(){}\[\],;:λ]+")


@dataclass(frozen=True, order=True)
class Module:
    crate: str
    name: str


@dataclass(frozen=True, order=True)
class Definition:
    module: Module
    name: str


@dataclass(frozen=True)
class Scope:
    """The modules that names come from, and those that an alias stands for."""

    names: dict[str, Module]
    aliases: dict[str, Module]

    def over(self, other: Scope) -> Scope:
        return Scope({**other.names, **self.names}, {**other.aliases, **self.aliases})


def scope_of(text: str) -> Scope:
    names: dict[str, Module] = {}
    aliases: dict[str, Module] = {}
    for crate, module, used, alias in USE.findall(text):
        if alias:
            aliases[alias] = Module(crate, module)
        names |= {name.strip(): Module(crate, module) for name in used.split(",") if name.strip()}
    return Scope(names, aliases)


def named(text: str, scope: Scope) -> Iterator[Definition]:
    """What a text names, by itself or behind an alias with a dot."""
    for word in WORD.findall(text):
        parts = word.split(".")
        yield from (Definition(scope.names[part], part) for part in parts if part in scope.names)
        yield from (Definition(scope.aliases[alias], part) for alias, part in zip(parts, parts[1:]) if alias in scope.aliases)


class SpecModule:
    """The texts of a module's definitions by name, and the definition that each name belongs to: a constructor to its `data`, a field to
    its `record`."""

    def __init__(self, module: Module, text: str) -> None:
        self.head = text.partition("\n")[0]
        text = COMMENT.sub("", text)
        self.texts: dict[str, str] = {}
        self.owners: dict[str, str] = {}
        for name, body, members in definitions(text.split("\n"), ""):
            self.texts[name] = f"{self.texts.get(name, '')}\n{body}"
            self.owners |= {member: name for member in members if member not in self.owners}
        self.owners |= {name: name for name in self.texts}
        self.scope = Scope({name: module for name in self.owners}, {}).over(scope_of(text))

    def named_by(self, name: str) -> Iterator[Definition]:
        return named(self.texts[name], self.scope)


def definitions(lines: list[str], context: str) -> Iterator[tuple[str, str, list[str]]]:
    """Each definition with its text and the names of its members. The head of a `module` belongs to the text of all that stand in it."""
    for block in blocks(lines):
        words = [word for word in block[0].split() if word not in KEYWORDS]
        if words[0] == "mutual":
            yield from definitions(block[1:], context)
        elif words[0] == "module":
            ends = next(place for place, line in enumerate(block, 1) if line.rstrip().endswith("where"))
            yield from definitions(block[ends:], "\n".join([context, *block[:ends]]))
        elif words[0] != "use":
            members = [name for line in block[1:] if (found := MEMBERS.match(line)) for name in found[1].split()]
            yield words[0].rstrip(":"), "\n".join([context, *block]), members


def blocks(lines: list[str]) -> Iterator[list[str]]:
    """The lines, cut before each that is indented least."""
    lines = [line for line in lines if line.strip()]
    depths = [len(line) - len(line.lstrip()) for line in lines]
    starts = [place for place, depth in enumerate(depths) if depth == min(depths)]
    yield from (lines[start:end] for start, end in zip(starts, [*starts[1:], len(lines)]))


def spec_modules(top: Path) -> dict[Module, SpecModule]:
    """All but the lists of modules."""
    paths = [path for path in sorted(top.glob("crates/*/specs/*.antt")) if path.stem != "Lib"]
    found = {Module(path.parts[-3], path.stem): path.read_text(encoding="utf-8") for path in paths}
    return {module: SpecModule(module, text) for module, text in found.items()}
