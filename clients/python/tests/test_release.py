"""Tests of what a release is made with. tools/try-release tries a whole one."""

from __future__ import annotations

import re
import sys
import tempfile
import unittest
from dataclasses import replace
from pathlib import Path

from documents import TOP

sys.path.insert(0, str(TOP / "tools"))

from releasing.commands import Missing, Refusal, written_by
from releasing.gate import Gate, refusal
from releasing.laws import Law, all_groups, groups
from releasing.origin import Origin
from releasing.program import Needs, read_needs
from releasing.tables import rows, section
from releasing.whole import differences

ORIGIN = Origin("1.2.3", "c0", "tree", 0, "sources")
GATE = Gate("tree", "program", "kit", ("rt ci: passed",))
READELF = """\
  Machine:                           Advanced Micro Devices X86-64
 0x0000000000000001 (NEEDED)             Shared library: [libgcc_s.so.1]
 0x0000000000000001 (NEEDED)             Shared library: [libc.so.6]
  0x0010:   Name: GCC_3.0  Flags: none  Version: 7
  0x0020:   Name: GLIBC_2.9  Flags: none  Version: 6
  0x0030:   Name: GLIBC_2.34  Flags: none  Version: 5
  0x0040:   Name: GLIBC_2.2.5  Flags: none  Version: 2
"""
LAWS = """# A page

## The laws

Some words.

`cls_one` and `cls_two`, statements in `Laws.antt`, for all:

| Function | Law |
|---|---|
| `first` | one \\| two |
| `second` | three |

`cls_three`, statement in its contract:

| Function | Law |
|---|---|
| `first` | four |

## Another
"""


class Refusals(unittest.TestCase):
    def test_a_gate_that_passed_on_these_files(self) -> None:
        self.assertEqual(refusal("1.2.3", ORIGIN, [], "program", GATE), "")

    def test_the_first_reason_is_said(self) -> None:
        for told, why in [
            (refusal("1.2.4", ORIGIN, ["a", "b"], None, None), "these files are version 1.2.3"),
            (refusal("1.2.3", ORIGIN, ["a", "b"], None, None), "these files aren't: a b"),
            (refusal("1.2.3", ORIGIN, [], None, None), "there is no program"),
            (refusal("1.2.3", ORIGIN, [], "program", None), "no gate has passed here"),
            (refusal("1.2.3", replace(ORIGIN, tree="other"), [], "program", GATE), "the gate has passed on other files"),
            (refusal("1.2.3", ORIGIN, [], "other", GATE), "isn't the program of the gate"),
        ]:
            with self.subTest(why):
                self.assertIn(why, told)

    def test_commands(self) -> None:
        self.assertEqual(written_by(["echo", "said"]), "said\n")
        with self.assertRaisesRegex(Refusal, "ended with status 3: why"):
            written_by(["sh", "-c", "echo why >&2; exit 3"])
        with self.assertRaises(Missing):
            written_by(["no-such-command-of-clsynth"])


class Laws(unittest.TestCase):
    def test_each_stands_with_its_crate(self) -> None:
        found = groups(LAWS, {"cls_one": ["first"], "cls_two": ["second"], "cls_three": ["first"]})
        laws = [law for group in found for law in group.laws]
        told = [Law("cls_one", "first", "one \\| two"), Law("cls_two", "second", "three"), Law("cls_three", "first", "four")]
        self.assertEqual(laws, told)
        self.assertEqual(found[0].about, "`cls_one` and `cls_two`, statements in `Laws.antt`, for all:")

    def test_one_that_is_told_or_proved_alone(self) -> None:
        with self.assertRaisesRegex(Refusal, "cls_one::second$"):
            groups(LAWS, {"cls_one": ["first"], "cls_two": [], "cls_three": ["first"]})
        with self.assertRaisesRegex(Refusal, "cls_two::third$"):
            groups(LAWS, {"cls_one": ["first"], "cls_two": ["second", "third"], "cls_three": ["first"]})

    def test_all_that_are_proved(self) -> None:
        found = [(law.crate, law.name) for group in all_groups() for law in group.laws]
        code = "".join(path.read_text() for path in TOP.glob("crates/*/src/laws.rt"))
        self.assertEqual(sorted(name for _, name in found), sorted(re.findall(r"^pub fn (\w+)", code, re.MULTILINE)))


class Documents(unittest.TestCase):
    def test_a_section_ends_at_a_head_that_is_no_lower(self) -> None:
        text = "# A\n\n## B\n\none\n\n### C\n\ntwo\n\n## D\n\nthree\n"
        self.assertEqual(section(text, "## B"), "one\n\n### C\n\ntwo\n")
        self.assertEqual(section(text, "### C"), "two\n")
        self.assertEqual(section(text, "## D"), "three\n")

    def test_rows_are_without_heads(self) -> None:
        text = "| A | B |\n|---|---|\n| 1 | 2 |\n| 3 | 4 |\n\nwords\n\n| C |\n|---|\n| 5 |\n"
        self.assertEqual(rows(text), [["1", "2"], ["3", "4"], ["5"]])

    def test_notices_name_each_library_of_the_kit(self) -> None:
        stands_on = dict(line.split(":") for line in (TOP / "crates.txt").read_text().splitlines() if ":" in line)
        waiting, reached = ["clsynth"], set[str]()
        while waiting:
            crate = waiting.pop()
            if crate not in reached:
                reached.add(crate)
                waiting += stands_on.get(crate, "").split()
        named = re.findall(r"^(\w+)  ", (TOP / "NOTICES").read_text(), re.MULTILINE)
        self.assertLessEqual(reached - stands_on.keys(), set(named))
        self.assertEqual(named, sorted(set(named) - {"atomic_table"}) + ["atomic_table"])


class Programs(unittest.TestCase):
    def test_what_is_needed_is_said_to_debian_and_to_wheels(self) -> None:
        needed = Needs(("libgcc_s.so.1", "libc.so.6"), (2, 34))
        self.assertEqual(needed.packages(), "libc6 (>= 2.34), libgcc-s1")
        self.assertEqual(needed.platform(), "manylinux_2_34_x86_64")

    def test_the_least_glibc_is_the_greatest_that_is_asked_for(self) -> None:
        self.assertEqual(read_needs(READELF), Needs(("libgcc_s.so.1", "libc.so.6"), (2, 34)))

    def test_what_is_no_program_of_a_release(self) -> None:
        for told, why in [
            (READELF.replace("X86-64", "Z80"), "x86-64"),
            (READELF.replace("libgcc_s.so.1", "libfun.so.2"), "libfun.so.2"),
            (READELF.replace("GLIBC_", "GLIB_"), "glibc"),
        ]:
            with self.subTest(why), self.assertRaisesRegex(Refusal, why):
                read_needs(told)

    def test_files_that_differ(self) -> None:
        with tempfile.TemporaryDirectory() as folder:
            one, other = Path(folder, "one"), Path(folder, "other")
            for place, texts in ((one, {"same": "a", "changed": "b", "alone": "c"}), (other, {"same": "a", "changed": "d"})):
                place.mkdir()
                for name, text in texts.items():
                    (place / name).write_text(text)
            self.assertEqual(differences(one, other), ["alone", "changed"])
            self.assertEqual(differences(one, one), [])


if __name__ == "__main__":
    unittest.main()
