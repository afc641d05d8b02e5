"""A client for clsynth. It starts the program, asks queries, and gives the replies as Python values.

    from clsynth import Session

    with Session("comp x : A\\ncomp f : A -> A\\n") as session:
        print(session.inhabited("A"), [str(term) for term in session.page("A", 3).entries])

- `Session`, `SessionPool`, `aio.AsyncSession` and `map_queries` ask queries.
- `Repository` is a repository as an object, with `numbers`, `pairs` and `steps` for kinds by rule, and `Names` for foreign names.
- `Type` and `Term` are types and terms as values, and `evaluate` runs a term with functions of Python.

It needs nothing but the standard library of Python 3.11, and the program.
"""

from clsynth import aio, queries
from clsynth._version import __version__
from clsynth.aio import AsyncSession
from clsynth.certificates import Block, Certificate, Empty, Inhabited, Member, Row, parse_certificate
from clsynth.cluster import map_queries
from clsynth.errors import (
    ERRORS, AmbiguousType, BadCertificate, BadCost, BadName, BadReply, BadTemplate, ClosureTooLarge, ClsynthError, ComponentRefused,
    DuplicateComponent, DuplicateName, EmptyKind, FilteredTooLarge, InputFull, KindTooLarge, LimitExceeded, LineTooLong, MissingFunction,
    NoQed, NotUtf8, NumberOutOfRange, ParseFault, PlacedError, ProcessFault, ProgramNotFound, QueryCancelled, QueryError, QueryStopped,
    QueryTimeout, RepositoryFault, RepositoryLineTooLong, RepositoryRefused, RepositoryTooLong, ReservedName, SessionClosed, Status,
    SyntaxFault, TooDeep, TooManyComponents, TooManyNodes, TooManyStates, TooManyTerms, TypeTooDeep, TypeTooLarge, TypeTooLong,
    UnknownComponent, UnknownInTerm, UsageFault, VariableInKind, VariableInQuery, WideGoal,
)
from clsynth.evaluation import Curried, curry, evaluate
from clsynth.filters import EVERY, Filter
from clsynth.grammars import Goal, Grammar, Rule, parse_grammar
from clsynth.kinds import numbers, pairs, steps
from clsynth.limits import MAX_INPUT_BYTES, MAX_LINE_BYTES, MAX_SIZE
from clsynth.names import Names, check_name
from clsynth.program import find_program
from clsynth.queries import Query
from clsynth.replies import Event, Page, Sizes, Step, TermText, Verdict
from clsynth.repository import Component, Repository
from clsynth.session import Session
from clsynth.sessions import SessionPool
from clsynth.terms import Term, TermLike, as_term
from clsynth.types import (
    Arrow, Constructor, Intersection, Omega, Product, Type, TypeLike, Variable, arrow, as_type, constructor, intersection, omega, product, var,
)

__all__ = [
    "ERRORS", "EVERY", "MAX_INPUT_BYTES", "MAX_LINE_BYTES", "MAX_SIZE", "AmbiguousType", "Arrow", "AsyncSession", "BadCertificate",
    "BadCost", "BadName", "BadReply", "BadTemplate", "Block", "Certificate", "ClosureTooLarge", "ClsynthError", "Component",
    "ComponentRefused", "Constructor", "Curried", "DuplicateComponent", "DuplicateName", "Empty", "EmptyKind", "Event", "Filter",
    "FilteredTooLarge", "Goal", "Grammar", "Inhabited", "InputFull", "Intersection", "KindTooLarge", "LimitExceeded", "LineTooLong",
    "Member", "MissingFunction", "Names", "NoQed", "NotUtf8", "NumberOutOfRange", "Omega", "Page", "ParseFault", "PlacedError",
    "ProcessFault", "Product", "ProgramNotFound", "Query", "QueryCancelled", "QueryError", "QueryStopped", "QueryTimeout", "Repository",
    "RepositoryFault", "RepositoryLineTooLong", "RepositoryRefused", "RepositoryTooLong", "ReservedName", "Row", "Rule", "Session",
    "SessionClosed", "SessionPool", "Sizes", "Status", "Step", "SyntaxFault", "Term", "TermLike", "TermText", "TooDeep",
    "TooManyComponents", "TooManyNodes", "TooManyStates", "TooManyTerms", "Type", "TypeLike", "TypeTooDeep", "TypeTooLarge", "TypeTooLong",
    "UnknownComponent", "UnknownInTerm", "UsageFault", "Variable", "VariableInKind", "VariableInQuery", "Verdict", "WideGoal",
    "__version__", "aio", "arrow", "as_term", "as_type", "check_name", "constructor", "curry", "evaluate", "find_program", "intersection",
    "map_queries", "numbers", "omega", "pairs", "parse_certificate", "parse_grammar", "product", "queries", "steps", "var",
]
