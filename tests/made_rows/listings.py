"""Pages of the terms of at most two component occurrences, over any number of components, and how many components there may be."""

from __future__ import annotations

from collections.abc import Iterator

from row import REFUSED, Row


def rows() -> Iterator[Row]:
    yield from (all_pages(count) for count in (0, 1, 2, 3, 10))
    yield from many_components()
    yield from too_many_components()


def components(count: int) -> list[str]:
    return [f"c{number}" for number in range(count)]


def declarations(count: int) -> str:
    return "".join(f"comp {name} : A\n" for name in components(count))


def terms(count: int, greatest: int) -> list[str]:
    """The terms of one occurrence, and then those of two: each head in turn over each argument in turn."""
    names = components(count)
    return names if greatest == 1 else names + [f"{head}({argument})" for head in names for argument in names]


def page(listed: list[str], take: int) -> str:
    lines = [f"term {term}\n" for term in listed[:take]]
    return "".join(lines) + ("more\n" if len(listed) > take else "done\n")


def all_pages(count: int) -> Row:
    """Pages of 1 to 120 terms of size 1, and of size 1 or 2, over so many components."""
    asked = [(greatest, take) for take in range(1, 121) for greatest in (1, 2)]
    queries = "".join(f"list omega max {greatest} take {take}\n" for greatest, take in asked)
    given = f"{declarations(count)}end\n{queries}"
    wanted = "".join(page(terms(count, greatest), take) for greatest, take in asked)
    return Row(f"pages/of_{count}_components", given.encode(), wanted.encode())


def many_components() -> Iterator[Row]:
    """Over n components n terms have size 1 and n * n have size 2: 199,362 together for 446, and 200,256 for 447."""
    yield answered("pages/of_500_components", 500, ("max 1 take 499", "max 1 take 500"), page(terms(500, 1), 499) + page(terms(500, 1), 500))
    yield answered("limits/199362_terms", 446, ("max 2 take 446",), page(terms(446, 2), 446))
    yield answered("limits/200256_terms", 447, ("max 1024 take 447", "max 1 take 1"), "error too-many-terms\nterm c0\nmore\n")
    yield answered("limits/1000_components", 1_000, ("max 1 take 1",), "term c0\nmore\n")


def answered(name: str, count: int, pages: tuple[str, ...], wanted: str) -> Row:
    given = f"{declarations(count)}end\n" + "".join(f"list omega {page}\n" for page in pages)
    return Row(name, given.encode(), wanted.encode())


def too_many_components() -> Iterator[Row]:
    """The line of component number 1,000, counted from 0, is named."""
    given = f"# all\n\n{declarations(1_001)}end\n"
    yield Row("limits/1001_components_behind_skipped_lines", given.encode(), b"refused 1003 components\n", REFUSED)
