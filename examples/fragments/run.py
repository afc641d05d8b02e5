"""Puts program fragments that clsynth writes into methods of one class of Java, compiles it, and runs it.

Without the Java compiler it ends with status 77."""

import shutil
import subprocess
import sys
import tempfile
from pathlib import Path

HERE = Path(__file__).parent
sys.path.insert(0, str(HERE.parents[1] / "clients/python/src"))

from clsynth import Session

TEXT = r"to be or\nnot to be"
# Each goal with its type in Java.
GOALS = {
    "List(Integer) & Sorted": "List<Integer>",
    "Number": "Number",
    "String & Joined": "String",
    "Optional(String)": "Optional<String>",
}


def fragments() -> list[tuple[str, str]]:
    """Texts of terms, each with its type in Java."""
    with Session((HERE / "repository.cls").read_text()) as session:
        return [(kind, entry.text or "") for goal, kind in GOALS.items() for entry in session.text_page(goal, 3, max_size=6).entries]


def java_class(found: list[tuple[str, str]]) -> str:
    methods = [f"    static {kind} answer{number}(String text) {{ return {text}; }}\n" for number, (kind, text) in enumerate(found)]
    calls = [f"        System.out.println(answer{number}(text));\n" for number in range(len(found))]
    return (
        "import java.util.*;\nimport java.util.stream.*;\n\nclass Fragments {\n"
        + "".join(methods)
        + "\n    public static void main(String[] arguments) {\n"
        + f'        String text = "{TEXT}";\n'
        + "".join(calls)
        + "    }\n}\n"
    )


def main() -> None:
    if not (shutil.which("javac") and shutil.which("java")):
        print("the Java compiler isn't on the PATH")
        sys.exit(77)
    text = java_class(fragments())
    print(text, flush=True)
    with tempfile.TemporaryDirectory() as folder:
        Path(folder, "Fragments.java").write_text(text)
        subprocess.run(["javac", "Fragments.java"], cwd=folder, check=True)
        subprocess.run(["java", "-cp", folder, "Fragments"], check=True)


main()
