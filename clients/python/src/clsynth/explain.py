r"""Explains refusals and errors: a sentence, the line with a caret, what could stand there, and what may be done.

    print(explain("comp x : A\nend\ninhabit A &\n", "error syntax 11\n"))

    input:3:12: error: syntax: from here on the line fits no form
        inhabit A &
                   ^
        Here may stand a type.
        The line has the form `inhabit TYPE`.
"""

from __future__ import annotations

from clsynth.diagnostics import Diagnostic, Severity
from clsynth.errors import QueryError, RepositoryRefused
from clsynth.explanations import ERRORS, REASONS, REFUSALS, Detail, Explanation
from clsynth.forms import CERTIFICATE, QUERIES, REPOSITORY
from clsynth.remedies import Case
from clsynth.tokens import bytes_of, first_word, text_of
from clsynth.transcripts import Asked, Exchange, Fault, Input, exchanges

__all__ = ["diagnose", "diagnose_line", "explain", "explain_error"]

_UNKNOWN = Explanation("docs/LANGUAGE.md of the program says what this is", "")


def explain(session_text: str, reply: str, file: str = "input") -> str:
    """Explains each refusal and each error of a reply. The text is what was asked: a repository and queries. The reply is all that the
    program wrote for it. The answer is an empty text if nothing is wrong. `file` is the name that stands before the lines."""
    text = bytes_of(session_text)
    given = Input(text)
    found = (diagnose(given, exchange) for exchange in exchanges(text, bytes_of(reply)))
    return "\n".join(it.shown(file) for it in found if it)


def explain_error(error: RepositoryRefused | QueryError, repository: str | Input = "", file: str = "input") -> str:
    """Explains what a session raised. The repository is that of the session. The line of a query is counted from 1 on its own."""
    given = repository if isinstance(repository, Input) else Input(bytes_of(repository))
    if isinstance(error, RepositoryRefused):
        word, _, detail = error.words.partition(" ")
        return _of_repository(given, error.line, Fault(word, detail)).shown(file)
    return _of_query(given, Asked(1, (bytes_of(error.query),)), Fault(error.word, error.detail)).shown(file)


def diagnose(given: Input, exchange: Exchange) -> Diagnostic | None:
    """What is wrong, if something is: a refusal of the repository, an error of the query, or a certificate that is refused."""
    if exchange.error and exchange.asked:
        return _of_query(given, exchange.asked, exchange.error)
    if exchange.refusal is None:
        return None
    number, fault = exchange.refusal
    return _of_repository(given, number, fault) if exchange.asked is None else _of_certificate(exchange.asked, number, fault)


def diagnose_line(given: Input, number: int, fault: Fault) -> Diagnostic:
    """The fault of a line with this number."""
    if number <= len(given.repository):
        return _of_repository(given, number, fault)
    return _of_query(given, Asked(number, (given.lines[number - 1],)), fault)


def _of_repository(given: Input, number: int, fault: Fault) -> Diagnostic:
    line = text_of(given.lines[number - 1]) if 0 < number <= len(given.lines) else ""
    return _diagnostic(Case(given, number, line, fault, REFUSALS.get(fault.word, _UNKNOWN), REPOSITORY))


def _of_query(given: Input, asked: Asked, fault: Fault) -> Diagnostic:
    explanation = ERRORS.get(fault.word, _UNKNOWN)
    if explanation.detail is Detail.WORDS:
        # A component is refused for what a repository is refused for.
        word, _, detail = fault.detail.partition(" ")
        return _diagnostic(Case(given, asked.line, asked.text, Fault(word, detail), REFUSALS.get(word, _UNKNOWN), QUERIES))
    place = int(fault.detail) if explanation.detail is Detail.LINE and fault.detail.isdecimal() else len(asked.lines)
    if place < len(asked.lines):
        return _diagnostic(Case(given, asked.line + place, text_of(asked.lines[place]), fault, explanation, CERTIFICATE))
    return _diagnostic(Case(given, asked.line, asked.text, fault, explanation, QUERIES))


def _of_certificate(asked: Asked, number: int, fault: Fault) -> Diagnostic:
    """The row or member of this number is shown, or else the query: the test `goal` fails for the certificate as a whole."""
    heads = [place for place, line in enumerate(asked.lines) if first_word(line) in ("row", "member")]
    place = heads[number - 1] if 0 < number <= len(heads) and fault.word != "goal" else 0
    explanation = REASONS.get(fault.word, _UNKNOWN)
    words = f"{fault.word}: {explanation.says}"
    return Diagnostic(Severity.WARNING, asked.line + place, text_of(asked.lines[place]), None, words, (explanation.remedy,))


def _diagnostic(case: Case) -> Diagnostic:
    words = f"{case.fault.word}: {case.explanation.says.replace('{}', case.fault.detail)}"
    return Diagnostic(Severity.ERROR, case.number, case.line, case.place, words, tuple(case.notes()))
