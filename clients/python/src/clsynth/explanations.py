"""What each refusal and each error of docs/LANGUAGE.md says, and what may be done about it. One table for each place in which words stand."""

from __future__ import annotations

from dataclasses import dataclass
from enum import Enum

__all__ = ["ERRORS", "REASONS", "REFUSALS", "Detail", "Explanation"]


class Detail(Enum):
    """What stands behind a word."""

    NOTHING = "nothing"
    BYTE = "a byte of the line"
    NAME = "a name"
    WORDS = "what a repository would be refused for"
    LINE = "the number of a line of a certificate"
    TYPE = "a type"


@dataclass(frozen=True)
class Explanation:
    """A sentence and a remedy. `{}` in the sentence is what stands behind the word."""

    says: str
    remedy: str
    detail: Detail = Detail.NOTHING


_LONG = "the line has more than 65,536 bytes"
_UTF8 = "the line isn't UTF-8"
_SAVE_AS_UTF8 = "Save the file as UTF-8."
_DEEP = "more than 64 parentheses are open at once"
_FEWER_PARENTHESES = "`->` groups to the right, `&` and `*` to the left: leave out the parentheses that say the same."
_NODES = "a type has more than 1,024 nodes"
_SYNTAX = "from here on the line fits no form"
_RESERVED = "`omega` stands where a name has to stand"
_RENAME = "`omega` is the type of every term and stands for nothing else. Take another name."
_SHARED_KIND = (
    "An intersection may be split: with `kind k = A -> B | C -> D` the line `comp f : $k` "
    "has the same meaning as one long intersection."
)

REFUSALS: dict[str, Explanation] = {
    "long": Explanation(_LONG, _SHARED_KIND),
    "utf8": Explanation(_UTF8, _SAVE_AS_UTF8),
    "directive": Explanation("no line of a repository begins like this", ""),
    "deep": Explanation(_DEEP, _FEWER_PARENTHESES),
    "syntax": Explanation(_SYNTAX, "", Detail.BYTE),
    "reserved": Explanation(_RESERVED, _RENAME, Detail.BYTE),
    "nodes": Explanation(_NODES, _SHARED_KIND),
    "duplicate-component": Explanation(
        "the component `{}` was declared before",
        "A component with several types has their intersection: `comp f : (A -> B) & (C -> D)`.",
        Detail.NAME,
    ),
    "duplicate-kind": Explanation(
        "the variable `{}` has its kind from an earlier line",
        "Put all its types into one line: `kind a = A | B`.",
        Detail.NAME,
    ),
    "empty-kind": Explanation("the kind `{}` has no type", "Put at least one type behind the `=`: `kind a = A | B`.", Detail.NAME),
    "kind-variable": Explanation(
        "a kind has a variable",
        "The types of a kind have no variables. Write out each type that it may stand for.",
        Detail.BYTE,
    ),
    "unknown-component": Explanation(
        "no component `{}` was declared before this line",
        "Put this line behind the `comp` line.",
        Detail.NAME,
    ),
    "hole": Explanation(
        "the template goes wrong here",
        "A brace that is no hole is written `{{` or `}}`, a backslash `\\\\`, a line feed `\\n`. A hole is `{1}` to `{16}`.",
        Detail.BYTE,
    ),
    "hole-zero": Explanation("a hole has the number 0", "Arguments are counted from 1: the first one is `{1}`.", Detail.BYTE),
    "hole-over": Explanation(
        "a hole has a number over 16",
        "A template has holes for the arguments 1 to 16. The arguments behind the greatest hole follow in parentheses.",
        Detail.BYTE,
    ),
    "cost": Explanation(
        "the cost of `{}` isn't from 1 to 255",
        "A cost is a number from 1 to 255. Scale all costs so that the greatest is at most 255.",
        Detail.NAME,
    ),
    "duplicate-variance": Explanation("the constructor `{}` has a `variance` line already", "Keep one of the two lines.", Detail.NAME),
    "unknown-filter": Explanation(
        "no filter `{}` was declared before this line",
        "Put this line behind the `filter` line.",
        Detail.NAME,
    ),
    "duplicate-filter": Explanation(
        "the filter `{}` was declared before",
        "Put all its accepting states into one line: `filter f accepts P Q`.",
        Detail.NAME,
    ),
    "states": Explanation(
        "the filter `{}` has more than 16 states",
        "Take one state for what may stand in the same places. What need not be told apart needs no state of its own.",
        Detail.NAME,
    ),
    "cycle": Explanation(
        "the constructor `{}` is below another one that is below it",
        "Drop one of these lines, or use one name for both constructors.",
        Detail.NAME,
    ),
    "variance-mix": Explanation(
        "`{}` stands in a `sub` line with a constructor of another variance",
        "Both constructors of a `sub` line have one variance: give the other one the same `variance` line.",
        Detail.NAME,
    ),
    "components": Explanation(
        "there are more than 1,000 components",
        "Use one component with a variable, or an intersection, in place of several with the same use.",
    ),
    "variable": Explanation("the variable `{}` has no kind", "Say which types it stands for: `kind {} = A | B`.", Detail.NAME),
    "instances": Explanation(
        "the type of `{}` has more than 4,096 choices for its variables",
        "Use fewer variables in one type, or kinds with fewer types.",
        Detail.NAME,
    ),
    "instance": Explanation(
        "a choice for the variables of `{}` makes a type that is too large",
        "Use smaller types in the kinds, or a variable less often.",
        Detail.NAME,
    ),
    "arity": Explanation(
        "a type of `{}` has more than 32 arguments",
        "Take several arguments at once as a product: `A * B * C -> D`.",
        Detail.NAME,
    ),
    "library": Explanation(
        "the types of all components up to this one come to too much",
        "Use kinds with fewer types, and fewer variables in one type. The spreads of all instances may come to 1,000,000.",
    ),
    "no-end": Explanation("the repository doesn't end", "Put the line `end` behind the last declaration, before the first query."),
}
"""Behind `refused LINE`."""

ERRORS: dict[str, Explanation] = {
    "long": Explanation(_LONG, "Ask for a shorter type."),
    "utf8": Explanation(_UTF8, _SAVE_AS_UTF8),
    "deep": Explanation(_DEEP, _FEWER_PARENTHESES),
    "syntax": Explanation(_SYNTAX, "", Detail.BYTE),
    "reserved": Explanation(_RESERVED, _RENAME, Detail.BYTE),
    "nodes": Explanation(_NODES, "Ask for a smaller type."),
    "variable": Explanation(
        "a type of a query has a variable",
        "Variables stand in the types of components alone. Write the type that is meant.",
        Detail.BYTE,
    ),
    "number": Explanation(
        "a number is out of range",
        "`max` takes 1 to 1,024, and `take` takes 1 to 10,000. Longer listings go on with `after` and the last term. `batch` takes at most "
        "64 types.",
    ),
    "unknown": Explanation("nothing that may stand here has the name `{}`", "", Detail.NAME),
    "duplicate": Explanation(
        "there is a component `{}` already",
        "Take another name, or `drop` the component first. With both types it has their intersection: `add f : (A -> B) & (C -> D)`.",
        Detail.NAME,
    ),
    "token": Explanation("this name in the term is none of a component", "", Detail.BYTE),
    "refused": Explanation("the component can't be added: {}", "", Detail.WORDS),
    "certificate": Explanation(
        "line {} behind the `verify` line is no line that can stand there",
        "A certificate has the lines that `certify` prints, in their order, with components of this repository.",
        Detail.LINE,
    ),
    "no-qed": Explanation("the certificate doesn't end", "Put the line `qed` behind its last line."),
    "size": Explanation(
        "the type is too large to be taken apart",
        "Ask for fewer types at once. Arrows that lead to intersections, one inside the other, cost most.",
    ),
    "too-large": Explanation(
        "more goals or rules are needed than the bounds allow",
        "`--max-goals` (up to 20,000) and `--max-rules` (up to 1,000,000) allow more. Fewer types in a kind, or fewer arrows in a"
        " component, need less.",
    ),
    "wide": Explanation(
        "the type `{}` can be met in more than 1,024 ways, and so isn't looked at",
        "If it comes from states that are products or arguments of a constructor, such as `St(A * B)`, add `variance St inv`, or "
        "take a name for each state: then no term has two states at once.",
        Detail.TYPE,
    ),
    "filter-large": Explanation(
        "the rules that the filter leaves are more than the bound allows",
        "`--max-rules` (up to 1,000,000) allows more. A filter with fewer states needs less.",
    ),
    "too-many-terms": Explanation(
        "more terms count for this page than the bound allows",
        "`--pool N` allows more, up to 1,000,000. A smaller `max`, a smaller `take` or a narrower type needs less. `inhabit`, "
        "`finite`, `grammar` and `certify` have no such bound.",
    ),
}
"""Behind `error`."""

REASONS: dict[str, Explanation] = {
    "arrow": Explanation(
        "the row names arrows that its component doesn't have",
        "`paths` shows the component's paths. Positions count from 0 those with at least N arrows, and ascend.",
    ),
    "target": Explanation(
        "the arrows of the row don't lead to its type",
        "Each path of the row's type is above the target of one of its arrows.",
    ),
    "argument": Explanation(
        "an argument of the row has no earlier row",
        "Put a row before it whose type is below all that its arrows take in that place.",
    ),
    "layers": Explanation(
        "a block doesn't fit its component or its member",
        "It has one `layer` for each path of the member, with positions of arrows that ascend, and stands once for each number of"
        " arguments.",
    ),
    "unblocked": Explanation(
        "nothing says why a component makes no term of the member",
        "Each set of arrows that leads to it needs an argument below a member. Add the member or the set that is missing.",
    ),
    "goal": Explanation(
        "the certificate doesn't show this of the asked type",
        "The last row has a type below the asked one, or the asked type is below a member.",
    ),
}
"""Behind `refused ROW`, as an answer to `verify`."""
