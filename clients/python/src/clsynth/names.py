"""Names: which ones the language has, and how foreign ones are written in it."""

from __future__ import annotations

import re
from collections.abc import Iterable

from clsynth.errors import BadName
from clsynth.limits import MAX_NAME_BYTES
from clsynth.terms import Term

__all__ = ["Names", "check_name"]

_NAME = re.compile(r"[A-Za-z_][A-Za-z0-9_]*", re.ASCII)
_FOREIGN = re.compile(r"[^A-Za-z0-9_]", re.ASCII)
_RESERVED = "omega"


def check_name(name: str) -> str:
    """The name, if the language has it. Otherwise `BadName` says what is allowed."""
    if name == _RESERVED:
        raise BadName("'omega' is the type of every term, and no name for anything else")
    if not _NAME.fullmatch(name):
        raise BadName(f"{name!r} is no name: a letter of ASCII or `_`, then letters, digits and `_`. `Names` writes others in this way")
    if len(name) > MAX_NAME_BYTES:
        raise BadName(f"{name!r} has {len(name)} bytes, and a name may have {MAX_NAME_BYTES}. `Names` shortens such names")
    return name


class Names:
    """Writes foreign names, such as `List.map` or `to-upper`, as names of the language, and back.

        names = Names()
        repository.component(names.allowed("List.map"), ...)
        for term in session.terms(goal):
            print(names.restore(term))

    A foreign name is written with `_` for each character that isn't allowed, and with a number behind it where two would be the same.
    Which name one gets depends on those that came before it.
    """

    def __init__(self, foreign: Iterable[str] = ()) -> None:
        self._allowed: dict[str, str] = {}
        self._foreign: dict[str, str] = {}
        for name in foreign:
            self.allowed(name)

    def allowed(self, foreign: str) -> str:
        """How the foreign name is written. It is the same each time, and another one for each foreign name."""
        if foreign not in self._allowed:
            allowed = self._free(foreign)
            self._allowed[foreign] = allowed
            self._foreign[allowed] = foreign
        return self._allowed[foreign]

    def foreign(self, allowed: str) -> str:
        """The foreign name that is written so. A name that stands for no foreign one is given back."""
        return self._foreign.get(allowed, allowed)

    def restore(self, term: Term) -> Term:
        """The term with the foreign names of its components. It is for people: the program doesn't read such names."""
        return Term.of_spine((self.foreign(component), count) for component, count in term.spine())

    def _free(self, foreign: str) -> str:
        name = _FOREIGN.sub("_", foreign)
        if not name or name[0].isdigit() or name == _RESERVED:
            name = f"_{name}"
        allowed, number = name[:MAX_NAME_BYTES], 1
        while allowed in self._foreign:
            number += 1
            end = f"_{number}"
            allowed = name[: MAX_NAME_BYTES - len(end)] + end
        return allowed
