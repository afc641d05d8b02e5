"""The command `cls` and its subcommands."""

from __future__ import annotations

import os
import sys
from argparse import ArgumentParser, Namespace, RawDescriptionHelpFormatter
from collections.abc import Callable, Sequence
from io import TextIOWrapper

from clsynth._version import __version__
from clsynth.command.asking import show_missing, show_why
from clsynth.command.check import check
from clsynth.command.listing import list_terms
from clsynth.command.options import Parser, add_program_options, number, size
from clsynth.command.run import explain, run
from clsynth.command.sources import repository_in
from clsynth.command.statuses import FOUND, INTERRUPTED, READ_FAULT, REFUSED, USAGE, WRITE_FAULT
from clsynth.command.viewing import write_page
from clsynth.errors import ClsynthError, ProcessFault, ProgramNotFound, QueryError, RepositoryRefused
from clsynth.explain import explain_error
from clsynth.limits import MAX_SIZE

__all__ = ["check_main", "main"]

_STATUSES = """\
The status is that of the program: 0 if all is well, 1 for words of no form and if there is no program, 2 if the repository is refused,
3 if a file can't be read or written, 4 if nobody takes the output, 5 if memory runs out, 6 if the input is too long; and 7 if a query has
an error or there is something to warn of. The program is what the variable CLSYNTH of the environment names, or else `clsynth` on the PATH."""

_FILE = "a file, or - for standard input"
_REPOSITORY = "a file with a repository; queries behind it are left out"


def main(arguments: Sequence[str] | None = None) -> int:
    """Runs `cls`, and answers its status."""
    given = _parser().parse_args(arguments)
    return _guarded(lambda: _command_of(given)(given), given)


def check_main(arguments: Sequence[str] | None = None) -> int:
    """Runs `clsynth-check`, which is `cls check`."""
    parser = Parser("clsynth-check", description=_CHECK)
    _add_version(parser)
    _add_files(parser)
    given = parser.parse_args(arguments)
    return _guarded(lambda: check(given), given)


_RUN = "Answer the queries of files. The repository may stand in a file of its own; then its line `end` may be left out."
_EXPLAIN = "Run files as `cls run` does, and explain each error and each refusal in place of the replies."
_CHECK = "Warn of what is wanted and made by nothing, of what is of no use, and of lines that fit no form. The program isn't asked."
_LIST = "List terms of a type, small ones first."
_WHY = "Say whether a term has a type, and if not, which part of it lacks what."
_MISSING = "Say which constructors are wanted and made by nothing, if no term has a type."
_VIEW = "Write a page for a browser that shows what is known of a type."


def _parser() -> ArgumentParser:
    parser = Parser(
        "cls", description="clsynth for people: answers, explanations and warnings.", epilog=_STATUSES, formatter_class=RawDescriptionHelpFormatter,
    )
    _add_version(parser)
    commands = parser.add_subparsers(metavar="COMMAND", required=True)

    def add(name: str, description: str, call: Callable[[Namespace], int]) -> ArgumentParser:
        command = commands.add_parser(name, description=description, help=description, allow_abbrev=False)
        command.set_defaults(call=call)
        return command

    _add_run(add("run", _RUN, run))
    explaining = add("explain", _EXPLAIN, explain)
    _add_files(explaining)
    add_program_options(explaining)
    _add_files(add("check", _CHECK, check))
    _add_list(add("list", _LIST, list_terms))
    asking = add("why", _WHY, show_why)
    _add_repository(asking)
    asking.add_argument("term", metavar="TERM")
    _add_type(asking)
    lacking = add("missing", _MISSING, show_missing)
    _add_repository(lacking)
    _add_type(lacking)
    showing = add("view", _VIEW, write_page)
    showing.add_argument("-o", "--output", metavar="PAGE", help="the file that is written; standard output if it isn't given")
    _add_repository(showing)
    _add_type(showing)
    return parser


def _add_version(parser: ArgumentParser) -> None:
    parser.add_argument("--version", action="version", version=f"{parser.prog} {__version__}")


def _add_files(parser: ArgumentParser) -> None:
    parser.add_argument("files", nargs="+", metavar="FILE", help=_FILE)


def _add_run(parser: ArgumentParser) -> None:
    _add_files(parser)
    parser.add_argument("--json", action="store_true", help="write an object of JSON for each query, with the query and its answer")
    parser.add_argument("--strict", action="store_true", help="end with status 7 if a query has an error")
    add_program_options(parser)


def _add_list(parser: ArgumentParser) -> None:
    _add_repository(parser)
    parser.add_argument("type", metavar="TYPE")
    parser.add_argument("-n", dest="count", type=number(10**9), default=20, metavar="N", help="how many terms, 20 if it isn't given")
    forms = parser.add_mutually_exclusive_group()
    forms.add_argument("--text", action="store_true", help="write the text of each term in place of it")
    forms.add_argument("--filter", metavar="NAME", help="list what this filter of the repository accepts")
    parser.add_argument("--after", metavar="TERM", help="begin behind this term")
    parser.add_argument("--max", type=size, default=MAX_SIZE, metavar="N", help=f"the greatest size of a term, {MAX_SIZE:,} if it isn't given")
    add_program_options(parser)


def _add_repository(parser: ArgumentParser) -> None:
    parser.add_argument("repository", metavar="REPO", help=_REPOSITORY)


def _add_type(parser: ArgumentParser) -> None:
    parser.add_argument("type", metavar="TYPE")
    add_program_options(parser)


def _command_of(given: Namespace) -> Callable[[Namespace], int]:
    call: Callable[[Namespace], int] = given.call
    return call


def _guarded(command: Callable[[], int], given: Namespace) -> int:
    """The status of a command. What it can't do is said on standard error."""
    if isinstance(sys.stdout, TextIOWrapper):
        # Characters that the terminal or the file can't have are written as numbers.
        sys.stdout.reconfigure(errors="backslashreplace")
    try:
        return command()
    except KeyboardInterrupt:
        return INTERRUPTED
    except BrokenPipeError:
        # Python would write what is left to the broken pipe at its end.
        os.dup2(os.open(os.devnull, os.O_WRONLY), sys.stdout.fileno())
        return WRITE_FAULT
    except ProgramNotFound as error:
        return _said(str(error), USAGE)
    except OSError as error:
        return _said(f"{error.filename}: {error.strerror}", READ_FAULT)
    except (RepositoryRefused, QueryError) as error:
        is_refused = isinstance(error, RepositoryRefused)
        print(explain_error(error, repository_in(given), given.repository if is_refused else "query"), file=sys.stderr)
        return REFUSED if is_refused else FOUND
    except (ClsynthError, ValueError) as error:
        return _said(str(error), error.code if isinstance(error, ProcessFault) and error.code > 0 else FOUND)


def _said(words: str, status: int) -> int:
    print(f"cls: {words}", file=sys.stderr)
    return status
