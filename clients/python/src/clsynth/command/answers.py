"""Replies as values that JSON has."""

from __future__ import annotations

from typing import Any

from clsynth.diagnostics import Diagnostic
from clsynth.grammars import Goal, parse_grammar
from clsynth.tokens import text_of
from clsynth.transcripts import Asked, Exchange, Fault

__all__ = ["answer_of", "asked_of", "fault_of"]

_WORDS = {"yes": True, "no": False, "inhabited": True, "uninhabited": False, "added": True, "dropped": True}


def asked_of(asked: Asked) -> dict[str, Any]:
    """The query, and the certificate behind it if there is one."""
    made: dict[str, Any] = {"query": asked.text}
    if len(asked.lines) > 1:
        made["certificate"] = [text_of(line) for line in asked.lines[1:]]
    return made


def fault_of(fault: Fault, found: Diagnostic) -> dict[str, Any]:
    """A refusal or an error with its explanation."""
    sentences = [found.words.removeprefix(f"{fault.word}: "), *(note.rstrip(".") for note in found.notes)]
    made: dict[str, Any] = {"word": fault.word, "detail": fault.detail, "explanation": ". ".join(sentences) + "."}
    if found.byte is not None:
        made["byte"] = found.byte
    return made


def answer_of(exchange: Exchange) -> Any:
    """The answer to a query that has no error."""
    assert exchange.asked
    lines = [piece.decode() for piece in exchange.pieces]
    match exchange.asked.word:
        case "batch":
            return [_WORDS[line] for line in lines[:-1]]
        case "list" | "filtered":
            return {"terms": [line.removeprefix("term ") for line in lines[:-1]], "more": lines[-1] == "more"}
        case "texts":
            return {"terms": _texts(lines[:-1]), "more": lines[-1] == "more"}
        case "paths":
            return [line.removeprefix("path ") for line in lines[:-1]]
        case "grammar":
            return [_goal(goal) for goal in parse_grammar(lines).goals]
        case "audit":
            return [dict(zip(("event", "worker", "row"), (word, int(worker), int(row)))) for word, worker, row in map(str.split, lines[:-1])]
        case "certify":
            return lines
        case "finite":
            return _sizes(lines)
        case "verify":
            return _verdict(lines[0])
    return _WORDS.get(lines[0], lines)


def _texts(lines: list[str]) -> list[dict[str, str | None]]:
    made: list[dict[str, str | None]] = []
    waiting = iter(lines)
    for line in waiting:
        text = None if next(waiting) == "long" else next(waiting)
        made.append({"term": line.removeprefix("term "), "text": text})
    return made


def _goal(goal: Goal) -> dict[str, Any]:
    rules = [{"component": rule.component, "arguments": list(rule.arguments)} for rule in goal.rules]
    return {"type": goal.type, "rank": goal.rank, "rules": rules}


def _sizes(lines: list[str]) -> dict[str, Any]:
    steps = [line.split(" ") for line in lines[1:-1]]
    walk = [{"goal": int(goal), "rule": int(rule), "argument": int(place)} for _, goal, _, rule, _, place in steps]
    told = lines[0].removeprefix("finite ")
    return {"greatest": int(told) if told.isdigit() else None, "over": told == "over", "walk": walk}


def _verdict(line: str) -> dict[str, Any]:
    word, *told = line.split(" ")
    return {"accepted": True} if word == "accepted" else {"accepted": False, "row": int(told[0]), "reason": told[1]}
