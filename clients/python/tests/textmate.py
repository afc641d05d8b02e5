"""A small stand-in for an editor that has grammars of TextMate: enough for grammars whose expressions Python has too."""

from __future__ import annotations

import json
import re
from collections.abc import Iterator
from dataclasses import dataclass
from pathlib import Path
from typing import Any

Rule = dict[str, Any]


@dataclass(frozen=True)
class Open:
    """A rule that has begun and not ended."""

    rule: Rule
    patterns: list[Rule]


class Grammar:
    """A grammar. All its expressions are compiled at once."""

    def __init__(self, path: Path) -> None:
        self._grammar: Rule = json.loads(path.read_text())
        self.name: str = self._grammar["scopeName"]
        self.expressions = {text: re.compile(text) for text in _expressions(self._grammar)}

    def scopes(self, line: str) -> list[str]:
        """The innermost scope of each character of a line. Rules end with their line."""
        found = [""] * len(line)
        opened = [Open({}, self._grammar["patterns"])]
        place = 0
        while match := self._first(line, place, opened[-1]):
            rule, at = match
            self._mark(found, opened[-1], place, at.start())
            if rule is opened[-1].rule:
                opened.pop()
            else:
                self._take(found, rule, at)
                if "begin" in rule:
                    opened.append(Open(rule, rule.get("patterns", [])))
            if at.end() == place == len(line):
                break
            place = at.end()
        return found

    def _mark(self, found: list[str], opened: Open, start: int, end: int) -> None:
        if "contentName" in opened.rule:
            found[start:end] = [opened.rule["contentName"]] * (end - start)

    def _take(self, found: list[str], rule: Rule, at: re.Match[str]) -> None:
        if "name" in rule:
            found[at.start() : at.end()] = [rule["name"]] * (at.end() - at.start())
        for group, capture in rule.get("captures" if "match" in rule else "beginCaptures", {}).items():
            start, end = at.span(int(group))
            if start >= 0:
                found[start:end] = [capture["name"]] * (end - start)

    def _first(self, line: str, place: int, opened: Open) -> tuple[Rule, re.Match[str]] | None:
        """The rule that begins first, or the end of the one that is open. Of two at one place the end counts, and then the earlier one."""
        candidates: list[tuple[Rule, str]] = [(opened.rule, opened.rule["end"])] if "end" in opened.rule else []
        candidates += [(rule, rule.get("match") or rule["begin"]) for rule in self._rules(opened.patterns)]
        found = [(rule, at) for rule, text in candidates if (at := self.expressions[text].search(line, place))]
        return min(found, key=lambda it: it[1].start()) if found else None

    def _rules(self, patterns: list[Rule]) -> Iterator[Rule]:
        for rule in patterns:
            if "include" in rule:
                yield from self._rules([self._grammar["repository"][rule["include"].removeprefix("#")]])
            elif "match" in rule or "begin" in rule:
                yield rule
            else:
                yield from self._rules(rule["patterns"])


def _expressions(part: Any) -> Iterator[str]:
    if isinstance(part, dict):
        for name, value in part.items():
            if name in ("match", "begin", "end") and isinstance(value, str):
                yield value
            else:
                yield from _expressions(value)
    elif isinstance(part, list):
        for value in part:
            yield from _expressions(value)
