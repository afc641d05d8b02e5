"""`cls run` and `cls explain`: the program over files."""

from __future__ import annotations

import json
import sys
from argparse import Namespace
from typing import Any

from clsynth.command.answers import answer_of, asked_of, fault_of
from clsynth.command.options import options_of
from clsynth.command.process import END_WORDS, Run
from clsynth.command.sources import Sources
from clsynth.command.statuses import FOUND, REFUSED
from clsynth.explain import diagnose
from clsynth.transcripts import Exchange

__all__ = ["explain", "run"]


def run(given: Namespace) -> int:
    """Prints the replies, as the program writes them or as objects of JSON."""
    sources = Sources(given.files)
    process = Run(sources, options_of(given))
    has_error = False
    for exchange in process.exchanges():
        if given.json:
            print(json.dumps(_object(sources, exchange)), flush=True)
        else:
            sys.stdout.buffer.write(exchange.written())
            sys.stdout.buffer.flush()
        has_error = has_error or exchange.error is not None
        if exchange.asked is None:
            print(_explained(sources, exchange), file=sys.stderr)
    return _status(process, FOUND if has_error and given.strict else 0)


def explain(given: Namespace) -> int:
    """Prints what is wrong, and nothing else. A certificate that is refused is no error of its query."""
    sources = Sources(given.files)
    process = Run(sources, options_of(given))
    has_error = False
    for exchange in process.exchanges():
        has_error = has_error or exchange.error is not None
        explained = _explained(sources, exchange)
        if explained:
            print(explained, flush=True)
    return _status(process, FOUND if has_error else 0)


def _explained(sources: Sources, exchange: Exchange) -> str:
    found = diagnose(sources.input, exchange)
    return found.shown(*sources.place(found.line)) if found else ""


def _object(sources: Sources, exchange: Exchange) -> dict[str, Any]:
    found = diagnose(sources.input, exchange)
    line = exchange.asked.line if exchange.asked else found.line if found else 0
    file, number = sources.place(line)
    made: dict[str, Any] = {"file": file, "line": number}
    if exchange.asked is None:
        assert exchange.refusal and found
        return {**made, "refused": fault_of(exchange.refusal[1], found)}
    made |= asked_of(exchange.asked)
    if exchange.error and found:
        return {**made, "error": fault_of(exchange.error, found)}
    return {**made, "answer": answer_of(exchange)}


def _status(process: Run, status: int) -> int:
    """The status of the program, if it isn't 0, and otherwise this one."""
    if process.status in END_WORDS:
        print(f"cls: the program ended with status {process.status}: {END_WORDS[process.status]}", file=sys.stderr)
    elif process.status not in (0, REFUSED):
        print(f"cls: the program ended with status {process.status}", file=sys.stderr)
    return process.status if process.status >= 0 and process.status else 128 - process.status if process.status else status
