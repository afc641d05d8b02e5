"""What a page shows, asked from a session: values that JSON has."""

from __future__ import annotations

from collections.abc import Callable, Iterable

from clsynth.errors import ClosureTooLarge, QueryError, TooManyTerms, TypeTooLarge, WideGoal
from clsynth.grammars import Goal, Grammar
from clsynth.lacking import Lacking
from clsynth.limits import MAX_SIZE
from clsynth.paging import text_paging
from clsynth.replies import Sizes
from clsynth.repository import Repository
from clsynth.session import Session
from clsynth.types import TypeLike
from clsynth.view.proofs import Json, certificate_content

__all__ = ["MOST_TERMS", "content_of"]

MOST_TERMS = 200
"""How many terms stand in a page."""

_SHOWN_CHOICES = 6
# What the type is answered with if it is right and over a bound. Another error says that the type itself is wrong.
_Bound = (ClosureTooLarge, TooManyTerms, TypeTooLarge, WideGoal)


def content_of(session: Session, repository: Repository, goal: TypeLike, name: str) -> Json:
    """What the page of a type shows. An error of the type itself is raised; one of a bound stands in the content."""
    content = _answered(session, repository, goal)
    return {"repository": f"{name}." if name else "", "type": str(goal), **content}


def _answered(session: Session, repository: Repository, goal: TypeLike) -> Json:
    try:
        grammar = session.grammar(goal)
    except _Bound as error:
        told = _error(error)
        return {"grammar": told, "terms": told, "certificate": told, "components": {}, "kinds": {}, "inhabited": "", "sizes": ""}
    lacking = Lacking(repository, [it.type for it in grammar.goals if it.rank is None])
    return {
        "inhabited": "No term has the type." if grammar.goals[0].rank is None else "Some term has the type.",
        "sizes": _sizes(session.sizes(goal)),
        "grammar": {"goals": [_goal(it, lacking) for it in grammar.goals]},
        "components": {it: str(repository.components[it].type) for it in _components(grammar)},
        "kinds": {it: _kinds(repository, it) for it in _components(grammar)},
        "terms": _or_error(lambda: _terms(session, repository, goal)),
        "certificate": _or_error(lambda: certificate_content(session, session.certify(goal), grammar, lacking)),
    }


def _or_error(ask: Callable[[], Json]) -> Json:
    try:
        return ask()
    except _Bound as error:
        return _error(error)


def _error(error: QueryError) -> Json:
    return {"error": f"{error.word} {error.detail}".strip(), "advice": error.advice}


def _components(grammar: Grammar) -> Iterable[str]:
    """The components of its rules, each once."""
    return dict.fromkeys(rule.component for goal in grammar.goals for rule in goal.rules if rule.component is not None)


def _kinds(repository: Repository, component: str) -> list[str]:
    """What the variables of its type stand for, with no more types than one reads."""
    told = []
    for name in dict.fromkeys(repository.components[component].type.variables()):
        types = repository.kinds[name]
        rest = f" | .. ({len(types):,} types)" if len(types) > _SHOWN_CHOICES else ""
        told.append(f"${name} = {' | '.join(map(str, types[:_SHOWN_CHOICES]))}{rest}")
    return told


def _goal(goal: Goal, lacking: Lacking) -> Json:
    return {
        "type": goal.type, "rank": goal.rank, "lacks": lacking.of(goal.type) if goal.rank is None else [],
        "rules": [{"component": rule.component, "arguments": rule.arguments} for rule in goal.rules],
    }


def _sizes(sizes: Sizes) -> str:
    if sizes.is_infinite:
        return "The sizes of its terms have no bound."
    if sizes.is_over:
        return "Its largest term has a size of over 1,000,000,000."
    return f"Its largest term has size {sizes.greatest:,}." if sizes.greatest else ""


def _terms(session: Session, repository: Repository, goal: TypeLike) -> Json:
    costs = repository.costs
    page = next(session.pages(text_paging(goal, MOST_TERMS, MAX_SIZE, None)))
    entries = [{"term": str(entry.term), "size": entry.term.size(costs), "text": entry.text} for entry in page.entries]
    return {"entries": entries, "more": page.more}
