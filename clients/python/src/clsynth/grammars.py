"""Tree grammars, as the program answers them."""

from __future__ import annotations

from collections.abc import Iterable
from dataclasses import dataclass

from clsynth.terms import Term

__all__ = ["Goal", "Grammar", "Rule", "parse_grammar"]


@dataclass(frozen=True)
class Rule:
    """A component over argument goals. Without a component: any term of the first goal, applied to any term of the second."""

    component: str | None
    arguments: tuple[int, ...]


@dataclass(frozen=True)
class Goal:
    """A goal of a grammar. Its rank is the least height of a term by the rules, and None if no term has the type."""

    type: str
    rank: int | None
    rules: tuple[Rule, ...]


@dataclass(frozen=True)
class Grammar:
    """A tree grammar. Goals are numbered by their places, and goal 0 is the one that was asked for."""

    goals: tuple[Goal, ...]

    def least_rule(self, goal: Goal) -> Rule | None:
        """The first rule of the goal all of whose arguments have a lower rank, and None if no term has its type."""
        return next((rule for rule in goal.rules if self._is_lower(rule, goal)), None)

    def least_term(self, number: int = 0) -> Term | None:
        """A term of least height of the goal with this number, and None if there is none. No bound stops it: it may be much longer than a
        term of a page, and its size isn't the least one."""
        made: dict[int, Term] = {}
        waiting = [number]
        while waiting:
            current = waiting[-1]
            rule = self.least_rule(self.goals[current])
            if rule is None:
                return None
            needed = [argument for argument in rule.arguments if argument not in made]
            waiting.extend(needed)
            if not needed:
                made[current] = _applied(rule, [made[argument] for argument in rule.arguments])
                waiting.pop()
        return made[number]

    def _is_lower(self, rule: Rule, goal: Goal) -> bool:
        ranks = (self.goals[argument].rank for argument in rule.arguments)
        return goal.rank is not None and all(rank is not None and rank < goal.rank for rank in ranks)

    def _repr_html_(self) -> str:
        from clsynth.html import grammar_html
        return grammar_html(self)


def _applied(rule: Rule, arguments: list[Term]) -> Term:
    if rule.component is not None:
        return Term(rule.component, tuple(arguments))
    function, argument = arguments
    return Term(function.component, (*function.arguments, argument))


def parse_grammar(lines: Iterable[str]) -> Grammar:
    """The grammar that the lines of a reply say."""
    goals: list[tuple[str, int | None, list[Rule]]] = []
    for line in lines:
        word, _, rest = line.partition(" ")
        if word == "goal":
            _, kind, told = rest.split(" ", 2)
            rank, _, goal = told.partition(" ") if kind == "rank" else ("", "", told)
            goals.append((goal, int(rank) if rank else None, []))
        elif word in ("rule", "any"):
            words = rest.split(" ")
            component = words.pop(0) if word == "rule" else None
            goals[-1][2].append(Rule(component, tuple(map(int, words))))
    return Grammar(tuple(Goal(goal, rank, tuple(rules)) for goal, rank, rules in goals))
