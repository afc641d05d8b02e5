"""Tests of the colours in editors: a grammar of TextMate and a syntax file of Vim, over the same lines."""

from __future__ import annotations

import json
import re
import shutil
import subprocess
import tempfile
import unittest
from pathlib import Path

from documents import TOP
from support import not_tested
from textmate import Grammar

EDITORS = TOP / "editors"
GRAMMAR = EDITORS / "vscode/clsynth.tmLanguage.json"

SAMPLE = r"""# comp x : A
sub Integer Number
variance Sink contra
kind a = String | Integer
comp text : (Stream($a) -> omega) & Sorted * B
text first = {1}.map({{ x }}) { \n
cost text 30
filter once accepts N V
leaf once first -> R
app once R _ -> none
other once N
end
filtered once String max 6 take 2 after first(text)
texts String & Joined max 6 take 2 after first(text, text)
typed first(text) : String
batch String | A
sub A <= B(C)
paths text
certify A
row A & B by first 1 : 3 4
block first 1
set 0 1
qed
add next : $a -> List
drop text
helo
"""
# The line, a piece of it, and what it is.
PIECES = [
    (1, "comp", "comment"), (2, "sub", "declaration"), (2, "Number", "constructor"), (3, "variance", "declaration"), (3, "Sink", "constructor"),
    (3, "contra", "modifier"), (4, "kind", "declaration"), (4, "a", "variable"), (4, "Integer", "constructor"), (5, "comp", "declaration"),
    (5, "text", "component"), (5, "Stream", "constructor"), (5, "$a", "variable"), (5, "->", "operator"), (5, "omega", "constant"),
    (5, "&", "operator"), (5, "*", "operator"), (5, "B", "constructor"), (6, "first", "component"), (6, "{1}", "placeholder"), (6, ".map(", "string"),
    (6, "{{", "escape"), (6, "}}", "escape"), (6, r"{ \n", "error"), (6, r"\n", "escape"), (7, "cost", "declaration"), (7, "text", "component"),
    (7, "30", "number"), (8, "filter", "declaration"), (8, "once", "variable"), (8, "accepts", "declaration"), (8, "N", "state"),
    (8, "V", "state"), (9, "leaf", "declaration"), (9, "once", "variable"), (9, "first", "component"), (9, "->", "operator"),
    (9, "R", "state"), (10, "app", "declaration"), (10, "once", "variable"), (10, "R", "state"), (10, "_", "constant"),
    (10, "none", "constant"), (11, "other", "declaration"), (11, "once", "variable"), (11, "N", "state"), (12, "end", "end"),
    (13, "filtered", "query"), (13, "once", "variable"), (13, "String", "constructor"), (13, "max", "query"), (13, "2", "number"),
    (13, "after", "query"), (13, "first", "component"), (14, "texts", "query"), (14, "String", "constructor"), (14, "max", "query"),
    (14, "6", "number"), (14, "take", "query"), (14, "after", "query"), (14, "first", "component"), (14, "text)", "component"),
    (15, "typed", "query"), (15, "first", "component"), (15, "String", "constructor"), (16, "batch", "query"),
    (16, "String", "constructor"), (16, "A", "constructor"), (17, "<=", "operator"), (17, "C", "constructor"),
    (18, "paths", "query"), (18, "text", "component"), (19, "certify", "query"), (19, "A", "constructor"),
    (20, "row", "certificate"), (20, "B", "constructor"), (20, "by", "certificate"), (20, "first", "component"),
    (20, "1", "number"), (20, "4", "number"), (21, "block", "certificate"), (21, "first", "component"), (22, "set", "certificate"),
    (22, "0", "number"), (23, "qed", "certificate"), (24, "add", "query"), (24, "next", "component"), (24, "$a", "variable"),
    (24, "->", "operator"), (24, "List", "constructor"), (25, "drop", "query"), (25, "text", "component"), (26, "helo", "error"),
]
TEXTMATE = {
    "comment": "comment.line.number-sign", "declaration": "keyword.other.declaration", "constructor": "entity.name.type",
    "modifier": "storage.modifier",
    "component": "entity.name.function", "operator": "keyword.operator", "constant": "constant.language", "placeholder": "constant.other.placeholder",
    "string": "string.unquoted.template", "escape": "constant.character.escape", "error": "invalid.illegal", "number": "constant.numeric",
    "end": "keyword.control.end", "query": "keyword.other.query", "certificate": "keyword.other.certificate", "variable": "variable.",
    "state": "entity.name.label",
}
VIM = {
    "comment": "Comment", "declaration": "Statement", "constructor": "Type", "modifier": "StorageClass", "component": "Function",
    "operator": "Operator", "constant": "Constant", "placeholder": "Special", "string": "String", "escape": "SpecialChar", "error": "Error",
    "number": "Number", "end": "Statement", "query": "Keyword", "certificate": "PreProc", "variable": "Identifier", "state": "Label",
}


def example_lines() -> list[str]:
    return [line for path in sorted(TOP.glob("examples/**/*.cls")) for line in path.read_text().splitlines()]


class TextMate(unittest.TestCase):
    def test_pieces(self) -> None:
        grammar = Grammar(GRAMMAR)
        lines = SAMPLE.splitlines()
        for number, piece, kind in PIECES:
            with self.subTest(line=number, piece=piece):
                line = lines[number - 1]
                self.assertTrue(grammar.scopes(line)[line.index(piece, 4 if number == 5 and piece == "text" else 0)].startswith(TEXTMATE[kind]))

    def test_nothing_of_the_examples_is_wrong(self) -> None:
        grammar = Grammar(GRAMMAR)
        wrong = [line for line in example_lines() if any(scope.startswith("invalid") for scope in grammar.scopes(line))]
        self.assertEqual(wrong, [])
        for line in example_lines():
            scopes = grammar.scopes(line)
            for place, character in enumerate(line):
                self.assertTrue(scopes[place] or character.isspace(), f"{line!r} at {place}")

    def test_the_extension(self) -> None:
        package = json.loads((EDITORS / "vscode/package.json").read_text())
        (language,), (grammar,) = package["contributes"]["languages"], package["contributes"]["grammars"]
        self.assertEqual(grammar["scopeName"], Grammar(EDITORS / "vscode" / grammar["path"]).name)
        self.assertIn(".cls", language["extensions"])
        json.loads((EDITORS / "vscode" / language["configuration"]).read_text())


DUMP = """
set nocompatible
set runtimepath^={editor}
filetype on
syntax on
edit {given}
let out = [&filetype]
for l in range(1, line('$'))
  call add(out, join(map(range(1, len(getline(l))), 'synIDattr(synID(l, v:val, 1), "name")'), ' '))
endfor
call writefile(out, '{written}')
qall!
"""


class Vim(unittest.TestCase):
    def setUp(self) -> None:
        if not shutil.which("vim"):
            not_tested(self, "colours in Vim: vim isn't on the PATH")

    def groups(self, text: str) -> tuple[str, list[list[str]]]:
        """The type of a file with this text, and what each byte of each line is linked to."""
        with tempfile.TemporaryDirectory() as folder:
            given, script, written = Path(folder, "t.cls"), Path(folder, "dump.vim"), Path(folder, "out")
            given.write_text(text)
            script.write_text(DUMP.format(editor=EDITORS / "vim", given=given, written=written))
            subprocess.run(["vim", "-u", "NONE", "-i", "NONE", "-es", "-S", str(script)], check=True, stdin=subprocess.DEVNULL, timeout=60)
            filetype, *lines = written.read_text().splitlines()
        links = dict(re.findall(r"^highlight default link (\w+) (\w+)$", (EDITORS / "vim/syntax/clsynth.vim").read_text(), re.MULTILINE))
        return filetype, [[links.get(name, name) for name in line.split(" ")] for line in lines]

    def test_pieces(self) -> None:
        filetype, groups = self.groups(SAMPLE)
        self.assertEqual(filetype, "clsynth")
        lines = SAMPLE.splitlines()
        for number, piece, kind in PIECES:
            with self.subTest(line=number, piece=piece):
                place = lines[number - 1].index(piece, 4 if number == 5 and piece == "text" else 0)
                self.assertEqual(groups[number - 1][place], VIM[kind])

    def test_nothing_of_the_examples_is_wrong(self) -> None:
        for path in sorted(TOP.glob("examples/**/*.cls")):
            filetype, groups = self.groups(path.read_text())
            self.assertEqual(filetype, "clsynth", path)
            self.assertNotIn("Error", [group for line in groups for group in line], path)

    def test_files_of_latex_stay_what_they_are(self) -> None:
        self.assertNotEqual(self.groups("% a class\n\\ProvidesClass{x}\n")[0], "clsynth")


if __name__ == "__main__":
    unittest.main()
