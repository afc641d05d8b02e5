"""Replies that are as long as may be."""

from __future__ import annotations

from collections.abc import Iterator

from row import Row


def rows() -> Iterator[Row]:
    yield paths_of_4096_instances()
    yield text_of_65536_bytes()
    yield five_texts_of_30000_bytes()
    yield grammar_of_900_rules()
    yield certificate_of_700_members()
    yield certificate_of_700_rows()


def paths_of_4096_instances() -> Row:
    """Three variables of 16 types each make 4,096 instances, none of which is above another. Numbers of names go up as they stand here."""
    kinds = {variable: [f"{variable.upper()}{number}" for number in range(16)] for variable in "abc"}
    lines = [f"kind {variable} = {' | '.join(types)}" for variable, types in kinds.items()]
    given = "\n".join([*lines, "comp f : $a -> $b -> $c", "end", "paths f", ""])
    paths = [f"path {a} -> {b} -> {c}\n" for a in kinds["a"] for b in kinds["b"] for c in kinds["c"]]
    return Row("limits/4096_instances", given.encode(), ("".join(paths) + "done\n").encode())


def text_of_65536_bytes() -> Row:
    """A text of two bytes is doubled by each of 15 applications. With one more it is too long."""
    cursor = "f(" * 14 + "x" + ")" * 14
    given = f"comp x : A\ncomp f : A -> A\ntext x = ab\ntext f = {{1}}{{1}}\nend\ntexts A max 17 take 2 after {cursor}\n"
    wanted = f"term f({cursor})\ntext 65536\n{'ab' * 32_768}\nterm f(f({cursor}))\nlong\ndone\n"
    return Row("limits/text_of_65536_bytes", given.encode(), wanted.encode())


def five_texts_of_30000_bytes() -> Row:
    """A page of 150,000 bytes, of which a portion has two terms."""
    texts = {f"x{number}": letter * 30_000 for number, letter in enumerate("abcde")}
    declared = "".join(f"comp {name} : A\ntext {name} = {text}\n" for name, text in texts.items())
    wanted = "".join(f"term {name}\ntext 30000\n{text}\n" for name, text in texts.items())
    return Row("limits/five_texts_of_30000_bytes", f"{declared}end\ntexts A max 1 take 5\n".encode(), f"{wanted}done\n".encode())


def grammar_of_900_rules() -> Row:
    """A goal whose rules have over 50,000 bytes, and one behind it."""
    names = [f"f{number:03}".ljust(48, "x") for number in range(899)]
    declared = "".join(f"comp {name} : B -> A\n" for name in names)
    rules = "".join(f"rule {name} 1\n" for name in names)
    wanted = f"grammar 2 900\ngoal 0 rank 2 A\n{rules}goal 1 rank 1 B\nrule y\ndone\n"
    return Row("limits/grammar_of_900_rules", f"{declared}comp y : B\nend\ngrammar A\n".encode(), wanted.encode())


def chain_of_700_goals() -> tuple[list[str], list[str], str]:
    """Types and components, each of which makes one type of the next."""
    types = [f"A{number:03}".ljust(48, "y") for number in range(700)]
    names = [f"f{number:03}".ljust(48, "x") for number in range(699)]
    declared = "".join(f"comp {name} : {lower} -> {upper}\n" for name, upper, lower in zip(names, types, types[1:]))
    return types, names, declared


def certificate_of_700_members() -> Row:
    """No term has the last type of the chain, so none has the first."""
    types, names, declared = chain_of_700_goals()
    members = "".join(f"member {upper}\nblock {name} 1\nlayer\nset 0\n" for name, upper in zip(names, types))
    wanted = f"empty\n{members}member {types[-1]}\nqed\n"
    return Row("limits/certificate_of_700_members", f"{declared}end\ncertify {types[0]}\n".encode(), wanted.encode())


def certificate_of_700_rows() -> Row:
    """A component has the last type of the chain, so each type has a term. The last row is that of the first type."""
    types, names, declared = chain_of_700_goals()
    rows = "".join(f"row {upper} by {name} 1 : 0\n" for name, upper in reversed(list(zip(names, types))))
    wanted = f"inhabited\nrow {types[-1]} by z 0 : 0\n{rows}qed\n"
    given = f"{declared}comp z : {types[-1]}\nend\ncertify {types[0]}\n"
    return Row("limits/certificate_of_700_rows", given.encode(), wanted.encode())
