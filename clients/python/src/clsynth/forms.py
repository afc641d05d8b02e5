"""The forms of lines, and where a line fits none of them.

A form is written as in docs/LANGUAGE.md. Words in capitals stand for something: NAME, N and K (numbers), TYPE, TERM, `TYPE | TYPE ..` (types, at least
one, or none behind `=`), `I J ..` (any number of numbers), F (the name of a filter), Q (a state), `Q Q ..` (states, at least one), P (a state or `_`),
S (a state or `none`) and REST (anything). What stands in brackets, at the end of a form, may be left out.
"""

from __future__ import annotations

from dataclasses import dataclass

from clsynth.tokens import Token, tokens_of

__all__ = ["CERTIFICATE", "QUERIES", "REPOSITORY", "Misfit", "first_words", "forms_of", "misfit"]

REPOSITORY = (
    "sub NAME NAME", "variance NAME contra", "variance NAME inv", "kind NAME = TYPE | TYPE ..", "comp NAME : TYPE", "text NAME = REST",
    "cost NAME N", "filter F accepts Q Q ..", "leaf F NAME -> S", "app F P P -> S", "other F Q", "end",
)
"""The lines of a repository."""

QUERIES = (
    "sub TYPE <= TYPE", "paths NAME", "typed TERM : TYPE", "inhabit TYPE", "batch TYPE | TYPE ..", "list TYPE max N take K [after TERM]",
    "texts TYPE max N take K [after TERM]", "filtered F TYPE max N take K [after TERM]", "grammar TYPE", "audit TYPE", "certify TYPE",
    "verify TYPE", "finite TYPE", "add NAME : TYPE", "drop NAME",
)
"""The lines behind a repository, but for those of a certificate."""

CERTIFICATE = (
    "inhabited", "row TYPE by NAME N : I J ..", "qed", "empty", "member TYPE", "block NAME N", "layer", "set I J ..",
)
"""The lines of a certificate."""

_END = "the end of the line"
_SET_ASIDE = frozenset({"none", "_"})
"""Names that no state has."""


@dataclass(frozen=True)
class Misfit:
    """Where a line fits no form: the first token with which none goes on, or the end of the line if there is none."""

    token: Token | None
    place: int
    """The character at which it stands."""
    wanted: tuple[str, ...]
    """What could stand there."""

    @property
    def is_reserved(self) -> bool:
        """Whether `omega` stands where a name could stand."""
        return self.token is not None and self.token.text == "omega" and any(it.startswith("a name") for it in self.wanted)


def first_words(forms: tuple[str, ...]) -> list[str]:
    """The words with which a line of these forms begins, each once."""
    return list(dict.fromkeys(form.split()[0] for form in forms))


def forms_of(line: str, forms: tuple[str, ...]) -> tuple[str, ...]:
    """The forms with the line's first word."""
    tokens = tokens_of(line)
    return tuple(form for form in forms if tokens and form.split()[0] == tokens[0].text)


def misfit(line: str, forms: tuple[str, ...]) -> Misfit | None:
    """Where the line fits none of the forms, and None if it fits one."""
    tokens = tokens_of(line)
    wanted: dict[str, None] = {}
    furthest = -1
    for form in forms:
        reader = _Reader(tokens)
        if reader.reads(_words(form)):
            return None
        if reader.next > furthest:
            furthest, wanted = reader.next, {}
        if reader.next == furthest:
            wanted |= dict.fromkeys(reader.wanted)
    token = tokens[furthest] if furthest < len(tokens) else None
    return Misfit(token, token.place if token else len(line), tuple(wanted))


def _words(form: str) -> list[str]:
    """The words of a form, with one word for what may stand any number of times, and brackets as words of their own."""
    words = ("= TYPE | TYPE ..", "= KIND"), ("TYPE | TYPE ..", "TYPES"), ("I J ..", "NUMBERS"), ("Q Q ..", "STATES"), ("[", "[ "), ("]", " ]")
    for many, word in words:
        form = form.replace(many, word)
    return form.split()


class _Reader:
    """Reads tokens by a form. It stops at the first token that doesn't fit, and knows what would have."""

    def __init__(self, tokens: list[Token]) -> None:
        self._tokens = tokens
        self.next = 0
        self.wanted: list[str] = []

    def reads(self, words: list[str]) -> bool:
        """Whether the tokens are of the form that has these words."""
        while words:
            word, *words = words
            if word == "REST":
                return True
            if word == "[":
                # What is in brackets stands at the end of a form, and begins with a word of its own.
                if not self._takes(words[0]):
                    break
                words = words[1:-1]
            elif not self._item(word):
                return False
        return self._is_at_end()

    def _item(self, word: str) -> bool:
        match word:
            case "NAME":
                return self._name("a name")
            case "F":
                return self._name("a name of a filter")
            case "Q":
                return self._state()
            case "P":
                return self._state("_")
            case "S":
                return self._state("none")
            case "STATES":
                return self._states()
            case "N" | "K":
                return self._number()
            case "TYPE":
                return self._type()
            case "TERM":
                return self._term()
            case "TYPES":
                return self._types()
            case "KIND":
                return self._kind()
            case "NUMBERS":
                while self._number():
                    pass
                return True
        return self._takes(word)

    def _kind(self) -> bool:
        self.wanted.append("a type")
        if self.next == len(self._tokens):
            return True
        self.wanted.clear()
        return self._types()

    def _types(self) -> bool:
        while self._type():
            if not self._takes("|"):
                return True
        return False

    def _type(self) -> bool:
        depth = 0
        while True:
            token = self._token()
            if self._meets("("):
                depth += 1
                continue
            if not (self._variable() if token and token.text == "$" else self._name("a type", ("omega",))):
                return False
            if token and token.kind == "name" and token.text != "omega" and self._takes("("):
                depth += 1
                continue
            while depth and self._takes(")"):
                depth -= 1
            if not any(self._takes(sign) for sign in ("->", "&", "*")):
                return depth == 0

    def _term(self) -> bool:
        depth = 0
        while self._name("a name of a component"):
            if self._takes("("):
                depth += 1
                continue
            while depth and self._takes(")"):
                depth -= 1
            if not (depth and self._takes(",")):
                return depth == 0
        return False

    def _states(self) -> bool:
        if not self._state():
            return False
        while self._state():
            pass
        return True

    def _state(self, also: str = "") -> bool:
        """A name of a state, or the word that may stand in its place."""
        token = self._token()
        refused = _SET_ASIDE - {also} | {"omega"}
        if self._advance(token is not None and token.kind == "name" and token.text not in refused, "a name of a state"):
            return True
        if also:
            self.wanted.append(f"`{also}`")
        return False

    def _variable(self) -> bool:
        self._meets("$")
        return self._name("a name of a variable")

    def _name(self, wanted: str, also: tuple[str, ...] = ()) -> bool:
        token = self._token()
        return self._advance(token is not None and token.kind == "name" and (token.text != "omega" or "omega" in also), wanted)

    def _number(self) -> bool:
        token = self._token()
        return self._advance(token is not None and token.kind == "number", "a number")

    def _takes(self, text: str) -> bool:
        return self._advance(self._is_next(text), f"`{text}`")

    def _meets(self, text: str) -> bool:
        """The same for a sign that isn't worth a word of its own among what is wanted."""
        is_next = self._is_next(text)
        if is_next:
            self._advance(True, "")
        return is_next

    def _is_next(self, text: str) -> bool:
        token = self._token()
        return token is not None and token.text == text

    def _is_at_end(self) -> bool:
        if self.next < len(self._tokens):
            self.wanted.append(_END)
        return self.next == len(self._tokens)

    def _advance(self, fits: bool, wanted: str) -> bool:
        if fits:
            self.next += 1
            self.wanted.clear()
        else:
            self.wanted.append(wanted)
        return fits

    def _token(self) -> Token | None:
        return self._tokens[self.next] if self.next < len(self._tokens) else None
