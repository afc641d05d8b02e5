"""The public clauses of the crates: what the contracts that a caller sees name."""

from __future__ import annotations

import re
from collections.abc import Iterator
from dataclasses import dataclass
from pathlib import Path

from definitions import WORD, Scope, scope_of

SKIPPED = re.compile(r'//[^\n]*|"(?:\\.|[^"\\])*"|\'(?:\\.|[^\'\\])\'')
FILE_USES = re.compile(r"^ghost use[^;]*;", re.MULTILINE)
# The start of the line, `pub`, the kind of the item, and its head behind the generic parameters.
ITEM = re.compile(
    r"^( *)(?:#\[[^\]]*\]\s*)*(pub(?:\(crate\))? )?(impl|trait|fn)\b\s*(?:<(?:[^<>]|<[^<>]*>)*>)?((?:[^{;\[]|\[[^\]]*\])*)", re.MULTILINE
)
CLAUSE = re.compile(r"(?:requires|ensures)(?:\s+\w+)?\s*$")
BRACE = re.compile(r"[{}]")
MEMBER = re.compile(r"ghost (\w+)\s*([:=])\s*\{")
EXPORTED = re.compile(r"pub use ([\w:]+)(?:::\{([^}]*)\})?;")
PUBLIC_FILE = re.compile(r"pub mod (\w+);")
TRAIT = re.compile(r"^( *)(?:pub(?:\(crate\))? )?trait (\w+)", re.MULTILINE)
# What the contracts of std's own traits name, for a value of a model, `from`, `next` and `==`.
NAMED_BY_STD = {"Value", "from_gives", "next_gives", "remaining", "eq"}


@dataclass(frozen=True)
class Clause:
    """A clause, or what an impl gives for a member of its trait."""

    file: str
    text: str
    scope: Scope
    trait: str = ""
    member: str = ""


@dataclass(frozen=True)
class Surface:
    """What a crate shows: the names that its lib.rt exports, the files that are public whole, and the traits that it keeps to itself."""

    names: set[str]
    files: set[str]
    hidden_traits: set[str]


def public_clauses(top: Path) -> Iterator[Clause]:
    """Without those members of impls that no clause names."""
    found = [clause for library in sorted(top.glob("crates/*/src/lib.rt")) for clause in crate_clauses(library)]
    members = {name for clause in found if not clause.member for name in names_of_members(clause)}
    return (it for it in found if not it.member or it.member in NAMED_BY_STD or members & {("", it.member), (it.trait, it.member)})


def names_of_members(clause: Clause) -> Iterator[tuple[str, str]]:
    """What may be a member of a trait: a name behind a type or its letter, and each name in a clause of the trait, with the trait."""
    for word in WORD.findall(clause.text):
        before, _, name = word.rpartition(".")
        if before.rpartition(".")[2][:1].isupper():
            yield "", name
        elif clause.trait:
            yield clause.trait, name


def crate_clauses(library: Path) -> Iterator[Clause]:
    texts = {path.stem: without_texts(path.read_text(encoding="utf-8")) for path in sorted(library.parent.glob("*.rt"))}
    names = {name for used in EXPORTED.findall(texts["lib"]) for name in exported(*used)}
    traits = {name for text in texts.values() for _, name in TRAIT.findall(text)}
    surface = Surface(names, set(PUBLIC_FILE.findall(texts["lib"])), traits - names)
    crate = library.parts[-3]
    for stem, text in texts.items():
        yield from file_clauses(f"{crate}/{stem}.rt", text, surface, stem in surface.files)


def without_texts(source: str) -> str:
    """Without comments and literals, which may have braces."""
    return SKIPPED.sub("", source)


def exported(path: str, names: str) -> list[str]:
    return [name.split(" as ")[0].strip() for name in names.split(",")] if names else [path.rpartition(":")[2]]


def file_clauses(file: str, text: str, surface: Surface, is_public: bool) -> Iterator[Clause]:
    scope = scope_of("\n".join(FILE_USES.findall(text)))
    for item in (it for it in ITEM.finditer(text) if not it[1]):
        if item[3] != "fn":
            yield from block_clauses(file, text, item, scope, surface, is_public)
        elif item[2] == "pub " and (is_public or first_word(item[4]) in surface.names):
            yield from (Clause(file, it, scope) for it in clauses_of(text, item))


def block_clauses(file: str, text: str, block: re.Match[str], scope: Scope, surface: Surface, is_public: bool) -> Iterator[Clause]:
    """The clauses of a trait or an impl, if its name is public, with what stands there of members."""
    of_trait, _, name = block[4].rpartition(" for ")
    trait = first_word(name if block[3] == "trait" else of_trait)
    if not is_public and first_word(name) not in surface.names or trait in surface.hidden_traits:
        return
    body = text[block.end() : end_of_braces(text, block.end())]
    inner = scope_of(body).over(scope)
    functions = [it for it in ITEM.finditer(body) if it[3] == "fn" and (trait or it[2] == "pub ")]
    yield from (Clause(file, it, inner, trait) for function in functions for it in clauses_of(body, function))
    for member in MEMBER.finditer(body):
        value = body[member.end() : end_of_braces(body, member.end() - 1)]
        yield Clause(file, value, inner, trait, member[1] if member[2] == "=" else "")


def first_word(text: str) -> str:
    found = re.search(r"\w+", text)
    return found[0] if found else ""


def clauses_of(text: str, function: re.Match[str]) -> Iterator[str]:
    """Those between the head of a function and its body."""
    start = function.end()
    while text[start : start + 1] == "{" and CLAUSE.search(text, function.start(), start):
        end = end_of_braces(text, start)
        yield text[start:end]
        start = min((place for mark in "{;" if (place := text.find(mark, end)) >= 0), default=end)


def end_of_braces(text: str, start: int) -> int:
    """Where the braces that open here are closed."""
    depth = 0
    for brace in BRACE.finditer(text, start):
        depth += 1 if brace[0] == "{" else -1
        if depth == 0:
            return brace.end()
    return len(text)
