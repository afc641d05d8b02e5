"""Rows whose inputs or outputs are too long or too many for files. What they should write follows from the rules of the language."""

from __future__ import annotations

from collections.abc import Iterator

from made_rows import batches, changes, cut_inputs, deep_inputs, filters, form_faults, listings, long_inputs, long_replies, usage
from row import Row


def made_rows() -> Iterator[Row]:
    for module in (batches, changes, cut_inputs, deep_inputs, filters, form_faults, listings, long_inputs, long_replies, usage):
        yield from module.rows()
