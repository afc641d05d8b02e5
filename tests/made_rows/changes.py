"""Sessions in which components come and go. What they should write comes from a model of the repository as it stands."""

from __future__ import annotations

from collections.abc import Iterator
from dataclasses import dataclass, field, replace
from itertools import product
from random import Random

from made_rows.filters import Filter, Term, shown
from made_rows.listings import declarations
from row import Row, stored

# The types of components: what they take, and what they make.
TYPES = [((), "A"), ((), "B"), (("A",), "A"), (("A",), "B"), (("B",), "A"), (("A", "B"), "A")]
NAMES = [f"c{number}" for number in range(9)]
GREATEST = 4
TAKE = 20
STEPS = 300


def rows() -> Iterator[Row]:
    yield from (session(seed) for seed in range(5))
    yield one_more_than_all()
    yield one_that_is_too_heavy()


@dataclass
class Component:
    """What a component takes and makes, what it costs, and what is written before the text of its first argument."""

    takes: tuple[str, ...]
    makes: str
    cost: int = 1
    template: str | None = None

    def type(self) -> str:
        return " -> ".join((*self.takes, self.makes))


@dataclass
class Model:
    """A repository as it stands: its components in their order, and a filter."""

    components: dict[str, Component] = field(default_factory=dict)
    filter: Filter = field(default_factory=lambda: Filter(("P",), {}, ("P", "Q", "Q"), "P"))

    def lines(self) -> str:
        made = "".join(f"comp {name} : {it.type()}\n" for name, it in self.components.items())
        made += "".join(f"text {name} = {it.template}{{1}}\n" for name, it in self.components.items() if it.template)
        made += "".join(f"cost {name} {it.cost}\n" for name, it in self.components.items() if it.cost > 1)
        return f"{made}{self.filter.lines('F')}end\n"

    def added(self, name: str, takes: tuple[str, ...], makes: str) -> str:
        if name in self.components:
            return f"error duplicate {name}\n"
        self.components[name] = Component(takes, makes)
        return "added\n"

    def dropped(self, name: str) -> str:
        if name not in self.components:
            return f"error unknown {name}\n"
        del self.components[name]
        self.filter = replace(self.filter, leaves={leaf: state for leaf, state in self.filter.leaves.items() if leaf != name})
        return "dropped\n"

    def page(self, type: str, is_shown: str) -> str:
        """The page of `list`, `texts` or `filtered`."""
        terms = [term for size in range(1, GREATEST + 1) for term in sorted(self.terms(type, size), key=self.code)]
        if is_shown == "filtered":
            terms = [term for term in terms if self.filter.accepts(term)]
        lines = [f"term {shown(term)}\n" + (self.text_lines(term) if is_shown == "texts" else "") for term in terms[:TAKE]]
        return "".join(lines) + ("more\n" if len(terms) > TAKE else "done\n")

    def terms(self, type: str, size: int) -> Iterator[Term]:
        """The terms of the type that have this size."""
        for name, it in self.components.items():
            if it.makes == type:
                for sizes in product(range(1, size), repeat=len(it.takes)):
                    if sum(sizes) + it.cost == size:
                        for arguments in product(*(list(self.terms(taken, part)) for taken, part in zip(it.takes, sizes))):
                            yield (name, *arguments)

    def code(self, term: Term) -> list[int]:
        head, *arguments = term
        return [list(self.components).index(str(head)), len(arguments), *(number for it in arguments for number in self.code(tuple(it)))]

    def text_lines(self, term: Term) -> str:
        text = self.text(term)
        return f"text {len(text)}\n{text}\n"

    def text(self, term: Term) -> str:
        head, *arguments = term
        template = self.components[str(head)].template
        texts = [self.text(tuple(it)) for it in arguments]
        text = str(head) if template is None else template + (texts.pop(0) if texts else "_")
        return text + "".join(f"({it})" for it in texts)

    def has_terms(self, type: str) -> bool:
        """Whether the type has a term of any size."""
        inhabited: set[str] = set()
        for _ in self.components:
            inhabited |= {it.makes for it in self.components.values() if inhabited >= set(it.takes)}
        return type in inhabited


def session(seed: int) -> Row:
    """A session of many steps, each of them drawn by the seed."""
    draw = Random(seed)
    model = Model()
    for name in NAMES[:6]:
        takes, makes = draw.choice(TYPES)
        model.components[name] = Component(takes, makes, draw.randint(1, 2), draw.choice([None, f"[{name}]"]))
        if draw.random() < 0.6:
            model.filter.leaves[name] = draw.choice(["P", "Q", "none"])
    given, wanted = model.lines(), ""
    for _ in range(STEPS):
        line, reply = step(draw, model)
        given += f"{line}\n"
        wanted += reply
    return Row(f"changes/session_{seed}", given.encode(), wanted.encode())


def step(draw: Random, model: Model) -> tuple[str, str]:
    """A line, and its reply."""
    name, type = draw.choice(NAMES), draw.choice("AB")
    match draw.choice(["add", "add", "drop", "list", "texts", "filtered", "inhabit"]):
        case "add":
            takes, makes = draw.choice(TYPES)
            return f"add {name} : {Component(takes, makes).type()}", model.added(name, takes, makes)
        case "drop":
            return f"drop {name}", model.dropped(name)
        case "inhabit":
            return f"inhabit {type}", "inhabited\n" if model.has_terms(type) else "uninhabited\n"
        case word:
            named = f"{word} F" if word == "filtered" else word
            return f"{named} {type} max {GREATEST} take {TAKE}", model.page(type, word)


def one_more_than_all() -> Row:
    """There may be 1,000 components."""
    lines = ["add y : A", "list omega max 1 take 1", "drop c0", "add y : A", "list omega max 1 take 1", "add z : $z"]
    wanted = "error refused components\nterm c0\nmore\ndropped\nadded\nterm c1\nmore\nerror refused components\n"
    return Row("changes/more_than_1000_components", f"{declarations(1_000)}end\n{line_text(lines)}".encode(), wanted.encode())


def one_that_is_too_heavy() -> Row:
    """76 heavy components may be there, and not 77."""
    library, _, _ = stored("limits/library_of_76_heavy_components", ".in").decode().partition("\nend\n")
    heavy = [line for line in library.splitlines() if line.startswith("comp ")][-1]
    _, last, _, type = heavy.split(" ", 3)
    lines = [f"add one_more : {type}", f"drop {last}", f"add one_more : {type}", f"add {last} : {type}"]
    wanted = "error refused library\ndropped\nadded\nerror refused library\n"
    return Row("changes/more_than_76_heavy_components", f"{library}\nend\n{line_text(lines)}".encode(), wanted.encode())


def line_text(lines: list[str]) -> str:
    return "".join(f"{line}\n" for line in lines)
