"""Words that ask for nothing. The usage line is written, and nothing is read."""

from __future__ import annotations

from collections.abc import Iterator

from row import ASKED_FOR_NOTHING, Row

USAGE = b"usage: clsynth [--workers N] [--max-goals N] [--max-rules N] [--pool N] [generate N]\n"
GIVEN = b"comp x : A\ncomp y : B\nend\nlist omega max 2 take 10\n"

OUT_OF_RANGE = [
    ("--workers", "0"),
    ("--workers", "65"),
    ("--max-goals", "0"),
    ("--max-goals", "20001"),
    ("--max-rules", "0"),
    ("--max-rules", "1000001"),
    ("--pool", "0"),
    ("--pool", "1000001"),
    ("generate", "0"),
    ("generate", "301"),
]

NO_NUMBER_OF_ONE_TO_NINE_DIGITS = [
    ("--pool", ""),
    ("--pool", "+5"),
    ("--pool", " 5"),
    ("--pool", "5x"),
    ("--pool", "0000000005"),
    ("--pool", "4294967301"),
    ("generate", ""),
    ("generate", "0000000002"),
    ("generate", "+2"),
]

NO_NUMBER = [
    ("--pool",),
    ("--pool", "5", "--workers"),
    ("--pool=5",),
    ("generate",),
]

OPTION_TWICE = [
    ("--pool", "5", "--pool", "5"),
    ("--pool", "5", "--workers", "2", "--pool", "6"),
    ("--pool", "5", "--pool", "5", "generate", "2"),
]

NO_OPTION = [
    ("--",),
    ("--", "--pool", "5"),
    ("--pool", "5", "--"),
    ("--Pool", "5"),
    ("5", "--pool"),
    ("",),
]

GENERATE_IS_NOT_LAST = [
    ("generate", "--pool", "5"),
    ("generate", "2", "--pool", "5"),
    ("generate", "2", "2"),
    ("generate", "2", "generate", "2"),
    ("2", "generate"),
    ("Generate", "2"),
    ("--pool", "generate", "5"),
]


def rows() -> Iterator[Row]:
    for why, words_of_each in {
        "out_of_range": OUT_OF_RANGE,
        "no_number_of_one_to_nine_digits": NO_NUMBER_OF_ONE_TO_NINE_DIGITS,
        "no_number": NO_NUMBER,
        "option_twice": OPTION_TWICE,
        "no_option": NO_OPTION,
        "generate_is_not_last": GENERATE_IS_NOT_LAST,
    }.items():
        for words in words_of_each:
            yield Row(f"usage/{why}: {' '.join(words)}", GIVEN, USAGE, ASKED_FOR_NOTHING, words)
