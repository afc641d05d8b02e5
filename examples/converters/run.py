"""A small shell in which programs are installed and removed. It says how to come to a format, and tests that a new session says so too."""

import sys
from pathlib import Path

HERE = Path(__file__).parent
sys.path.insert(0, str(HERE.parents[1] / "clients/python/src"))

from clsynth import ComponentRefused, DuplicateComponent, Repository, Session, UnknownComponent

SCRIPT = """\
how Pdf
install pdflatex : Latex -> Pdf
how Pdf
install print : Html -> Pdf
how Pdf
remove to_html
how Pdf
remove to_html
install print : Latex -> Pdf
install convert : $format -> Pdf
install to_html : Markdown -> Html
how Pdf
"""


def main() -> None:
    repository = Repository.parse((HERE / "repository.cls").read_text())
    installed = {name: (str(component.type), component.cost) for name, component in repository.components.items()}
    with Session(repository) as session:
        for line in SCRIPT.splitlines():
            print(f"> {line}")
            word, name, *type = line.replace(":", "", 1).split(maxsplit=2)
            try:
                if word == "install":
                    session.add(name, type[0])
                    installed[name] = type[0], 1
                elif word == "remove":
                    session.drop(name)
                    del installed[name]
                else:
                    ways = list(session.terms(name, max_size=9))
                    assert ways == afresh(installed, name)
                    print(*(ways or ["no way"]), sep="\n")
            except DuplicateComponent:
                print(f"{name} is installed")
            except UnknownComponent:
                print(f"{name} isn't installed")
            except ComponentRefused as refused:
                print(f"{name} can't be installed: {refused.detail}")


def afresh(installed: dict[str, tuple[str, int]], format: str) -> list[object]:
    """The ways to the format, by a session that begins with what is installed."""
    repository = Repository()
    for name, (type, cost) in installed.items():
        repository.component(name, type, cost=cost)
    with Session(repository, lint=False) as session:
        return list(session.terms(format, max_size=9))


main()
