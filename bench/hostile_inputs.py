"""Inputs that are short or within all limits, and were found to take long, or much memory. bench/hostile.py has their bounds."""

from __future__ import annotations

from collections.abc import Callable, Iterable

MAX_INPUT_BYTES = 1_048_576


def meet(types: Iterable[str]) -> str:
    return " & ".join(types)


def arrows(source: str, count: int, target: str) -> str:
    return f"{source} -> " * count + target


def numbered(name: str, count: int) -> list[str]:
    return [f"{name}{number}" for number in range(count)]


def choice(variable: str, types: Iterable[str]) -> str:
    return f"kind {variable} = {' | '.join(types)}\n"


def filled(front: str, line: str | Callable[[int], str], end: str = "") -> str:
    """The front with as many lines behind it as an input may have, and the end."""
    lines, left, number = [front], MAX_INPUT_BYTES - len(front) - len(end), 0
    while True:
        next_line = (line if isinstance(line, str) else line(number)) + "\n"
        if len(next_line) > left:
            return "".join([*lines, end])
        lines.append(next_line)
        left -= len(next_line)
        number += 1


# Types without a path


def tower(height: int) -> str:
    """A type that is equivalent to omega. The normal form of its source has more than 3 to the height paths."""
    source = "A & B & C"
    for _ in range(height):
        source = f"({source}) -> A & B & C"
    return f"({source}) -> omega"


def towers(height: int) -> dict[str, tuple[str, str]]:
    """An input with such a type for each place where a type is read, and the last line of its answer."""
    high, one = tower(height), "comp x : A\nend\n"
    return {
        "inhabit": (f"{one}inhabit {high}\n", "inhabited"),
        "list": (f"{one}list {high} max 1 take 1\n", "done"),
        "texts": (f"{one}texts {high} max 1 take 1\n", "done"),
        "finite": (f"{one}finite {high}\n", "done"),
        "grammar": (f"{one}grammar {high}\n", "done"),
        "certify": (f"{one}certify {high}\n", "qed"),
        "audit": (f"{one}audit {high}\n", "done"),
        "typed": (f"{one}typed x : {high}\n", "yes"),
        "verify": (f"{one}verify {high}\ninhabited\nrow omega by x 0 :\nqed\n", "accepted"),
        "member": (f"end\nverify A\nempty\nmember {high}\nqed\n", "accepted"),
        "row": (f"{one}verify omega\ninhabited\nrow {high} by x 0 :\nqed\n", "accepted"),
        "comp": (f"comp x : {high}\nend\npaths x\n", "done"),
        "kind with comp": (f"kind a = {high}\ncomp x : $a -> A\nend\npaths x\n", "done"),
        "sub, lower side": (f"variance R inv\nend\nsub R({high}) <= R(omega)\n", "yes"),
        "sub, upper side": (f"variance R inv\nend\nsub R(omega) <= R({high})\n", "yes"),
    }


def weightless_instances(components: int) -> str:
    """Each component has 4,096 instances of 3,985 nodes, and none of them has a path. So their spread is 0."""
    types = [arrows("omega", count, "omega") for count in (165, 164)]
    variables = numbered("v", 12)
    schema = " -> ".join(f"${variable}" for variable in variables) + " -> omega"
    kinds = "".join(choice(variable, types) for variable in variables)
    return kinds + "".join(f"comp {name} : {schema}\n" for name in numbered("x", components)) + "end\n"


# Long replies


def long_texts(take: int) -> str:
    """A page of terms whose texts have 65,000 bytes and more."""
    return f"comp x : A\ncomp f : A -> A\ncomp g : A -> A\ntext x = {'y' * 65_000}\nend\ntexts A max 64 take {take}\n"


def long_goals(query: str, components: int = 19) -> str:
    """1,024 goals for each component, which are intersections of 331 names of 48 bytes. No term has any of them."""
    variables = [(side, pair) for pair in range(10) for side in "ab"]
    kinds = [f"kind {side}{pair} = " + meet(name.ljust(48, "x") for name in numbered(f"{side}{pair}_", 33)) for side, pair in variables]
    types = [meet(f"(${side}{pair} & E{number} -> C{pair})" for side, pair in variables) for number in range(components)]
    comps = [f"comp f{number} : {type}" for number, type in enumerate(types)]
    return "\n".join([*kinds, *comps, "end", f"{query} {meet(numbered('C', 10))}", ""])


def chained(components: int, query: str, source: str = "") -> str:
    """Components that lead to a goal of 341 paths: to ten by two arrows each, and to a chain of others that forces an arrow for every two.

    So the first paths of the goal have up to 1,024 covers, and those of all have as many arrows as may be.
    """
    pairs = [(f"p{side}{number}", f"P{number}") for number in range(10) for side in "ab"]
    links = [(f"s{(number + step) // 2}", f"R{number}") for number in range(331) for step in ((0, 1) if number % 2 else (0,))]
    lower = meet(dict.fromkeys(name for name, _ in pairs + links))
    upper = meet(dict.fromkeys(name for _, name in pairs + links))
    subs = [f"sub {low} {high}" for low, high in pairs + links]
    comps = [f"comp x{number} : {source}{lower}" for number in range(components)]
    return "\n".join([*subs, *comps, "end", f"{query} {upper}", ""])


# Certificates


def equal_sets() -> str:
    """74,000 equal sets with 32 arguments each, and 44,000 members, of which the last one alone is above an argument."""
    sets, members = "set 0\n" * 74_000, "".join(f"member m{number:x}\n" for number in range(44_000))
    block = f"member A\nblock f 32\nlayer\n{sets}"
    return f"comp f : {arrows('(Q & R)', 32, 'A')}\nend\nverify A\nempty\n{block}{members}member Q\nqed\n"


def equal_layers() -> str:
    """50,000 sets of a layer, each of which has to contain one of those of the next layer."""
    to_first, to_second = numbered("A", 50), numbered("B", 50)
    type = meet([*(f"({source} -> C)" for source in to_first), *(f"({source} -> D)" for source in to_second)])
    layer = "".join(f"set {place}\n" for place in range(50)) * 1_000
    second = "\n".join(f"set {place} {50 + other}" for place in range(50) for other in range(50))
    front = f"comp f : {type}\nend\nverify C & D\nempty\nmember C & D\nblock f 1\nlayer\n{layer}layer\n"
    return filled(front, second, "qed\n")


def equal_rows() -> str:
    """Rows whose 32 arguments have a type that only the last of many rows before them is below."""
    pairs = [(low, high) for low in range(2, 2_000) for high in range(low + 1, min(low + 8, 2_000))]
    rows = "".join(f"row n{low} & n{high} by x 0 : {low} {high}\n" for low, high in pairs)
    repository = choice("a", numbered("n", 2_000)) + f"comp x : $a\ncomp g : {arrows('(n0 & n1)', 32, 'B')}\nend\n"
    return filled(f"{repository}verify B\ninhabited\n{rows}row n0 & n1 & n2 by x 0 : 0 1 2\n", "row B by g 32 : 0", "qed\n")


def one_head(names: int) -> str:
    """A component of 4,096 paths for each of the names, all of the head `d`."""
    return choice("a", numbered("n", 4_096)) + "comp x : " + meet(f"d({name}($a))" for name in numbered("e", names)) + "\n"


def arrows_to_one_head(names: int) -> str:
    """A component of 4,096 arrows for each of the names, whose targets all have the head `d`. It is read faster than the paths above."""
    return choice("a", numbered("n", 4_096)) + "comp x : " + meet(f"($a -> d({name}))" for name in numbered("e", names)) + "\n"


def members_of_a_head(component: str, members: int) -> str:
    """A certificate whose members have the head `d`, and nothing leads to one of them."""
    return component + "end\nverify d(z0)\nempty\n" + "".join(f"member d(z{number})\n" for number in range(members)) + "qed\n"


def members_of_one_head(names: int, members: int) -> str:
    return members_of_a_head(one_head(names), members)


def members_of_arrows(names: int, members: int) -> str:
    return members_of_a_head(arrows_to_one_head(names), members)


# The same query again and again


def covered(number: int, pairs: int = 10) -> str:
    """A component by whose arrows the intersection of C0 and further names has 2 to the number of pairs covers, each for another goal."""
    return f"comp f{number} : " + meet(f"({side}{pair} & E{number} -> C{pair})" for pair in range(pairs) for side in "AB") + "\n"


def too_large() -> str:
    """A closure with more goals than any limit allows."""
    names = range(10)
    first = meet(f"(A{name} -> C{name}) & (B{name} -> C{name})" for name in names)
    second = meet(f"(C{name} -> A{name}) & (C{name} -> B{name})" for name in names)
    third = meet(f"(C{(name + 1) % 10} -> A{name}) & (C{name} -> B{name})" for name in names)
    return f"comp f : {first}\ncomp g : {second}\ncomp h : {third}\ncomp e : ({meet(numbered('C', 10))}) -> X\nend\n"


def many_goals(components: int = 19) -> str:
    """A closure with 1,024 goals for each component."""
    return "".join(covered(number) for number in range(components)) + f"comp e : ({meet(numbered('C', 10))}) -> X\n"


def wide() -> str:
    """The same with one goal that is wide."""
    return many_goals() + wide_goal("X") + "end\n"


def wide_goal(reached_from: str) -> str:
    type = meet(f"(A -> W{pair}) & (B -> W{pair})" for pair in range(11))
    return f"comp w : {type}\ncomp v : ({meet(numbered('W', 11))}) -> {reached_from}\n"


def shared_goals(components: int = 4, has_wide: bool = False) -> str:
    """64 types, asked at once, whose closures share 1,024 goals for each component. The last one may have a wide goal too."""
    types = numbered("Y", 64)
    leading = "".join(f"comp d{number} : X -> {type}\n" for number, type in enumerate(types))
    return many_goals(components) + leading + (wide_goal(types[-1]) if has_wide else "") + f"end\nbatch {' | '.join(types)}\n"


def two_large_goals(components: int, arguments: int = 32) -> str:
    """Two goals with 1,024 rules of so many arguments for each component. They are the same rules, over 1,024 goals or fewer."""
    types = [f"({arrows(f'{side}{pair}', arguments, f'C{pair}')})" for pair in range(10) for side in "AB"]
    comps = "".join(f"comp {name} : $a\n" for name in numbered("f", components))
    goal = meet(numbered("C", 10))
    return choice("a", types) + comps + f"comp e : ({goal}) -> X\ncomp d : ({goal}) -> Y\nend\n"


def dense(names: int = 60, components: int = 68) -> str:
    """Each component leads from each of the names to each: as many goals, each with a rule for each name and component."""
    kinds = choice("a", numbered("n", names)) + choice("b", numbered("n", names))
    return kinds + "".join(f"comp {name} : $a -> $b\n" for name in numbered("f", components)) + "comp x : n0 & n1\nend\n"


# Pages


def binary(nodes: int = 200) -> str:
    """Each node has a component alone and two over two nodes."""
    lines = []
    for node in range(nodes):
        arrow = f"T{(node * 7 + 1) % nodes} -> T{(node * 13 + 5) % nodes} -> T{node}"
        lines += [f"comp x{node} : T{node}", f"comp f{node} : {arrow}", f"comp g{node} : {arrow}"]
    return "\n".join(lines) + "\n"


# Libraries, terms and templates


def one_class(components: int, names: int = 4_096) -> str:
    """Components of 4,096 names, of which none is below another, and all are below one."""
    subs = "".join(f"sub {name} Z\n" for name in numbered("n", names))
    return subs + choice("a", numbered("n", names)) + "".join(f"comp {name} : $a\n" for name in numbered("x", components)) + "end\n"


def wrapped_class(names: int) -> str:
    """One component of 4,096 paths for each of the names, all of one class."""
    outer, inner = numbered("d", names), numbered("n", 4_096)
    subs = "".join(f"sub {name} Z\n" for name in [*inner, *outer])
    return subs + choice("a", inner) + "comp x : " + meet(f"{name}($a)" for name in outer) + "\nend\n"


def arguments_of_one_head(names: int, queries: int = 1) -> str:
    """Terms with 32 arguments, each of which is asked for one of 24 types of one head."""
    types = [f"d(e{number % names}(n{7 * number}))" for number in range(24)]
    query = f"typed f({','.join('x' * 32)}) : A\n"
    return one_head(names) + choice("q", types) + f"comp f : {arrows('$q', 32, 'A')}\nend\n" + query * queries


def goals_of_arrows(names: int, queries: int) -> str:
    return arrows_to_one_head(names) + "end\n" + "".join(f"inhabit d(z{number})\n" for number in range(queries))


def goals_of_one_head(names: int, queries: int) -> str:
    return one_head(names) + "end\n" + "".join(f"inhabit d(e{number % names}(z{number}))\n" for number in range(queries))


def many_holes(take: int, levels: int = 50) -> str:
    """Terms whose texts are empty, by 14 templates of 21,000 holes and 36 of 20."""
    leaves = [line for name in numbered("y", 100) for line in (f"comp {name} : Y", f"text {name} =")]
    steps = [f"comp c{level} : G{level + 1} -> G{level}" for level in range(levels)]
    texts = [f"text c{level} = {'{1}' * (21_000 if level < 14 else 20)}" for level in range(levels)]
    root = [f"comp h : Y -> Y -> G{levels}", "text h ="]
    return "\n".join([*leaves, *root, *steps, *texts, "end", f"texts G0 max 64 take {take}", ""])
