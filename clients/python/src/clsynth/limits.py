"""The limits of the language that can be told before the program is asked. docs/LANGUAGE.md has all of them."""

from __future__ import annotations

__all__ = [
    "MAX_BATCH", "MAX_CHOICES", "MAX_COMPONENTS", "MAX_COST", "MAX_INPUT_BYTES", "MAX_INSTANCE_NODES", "MAX_LENGTH", "MAX_LINE_BYTES",
    "MAX_NAME_BYTES", "MAX_NODES", "MAX_PARENTHESES", "MAX_POOL", "MAX_SIZE", "MAX_SPREADS", "MAX_STATES", "MAX_TAKE",
]

MAX_INPUT_BYTES = 1_048_576
"""Bytes of what one run of the program reads: the repository and the queries."""

MAX_LINE_BYTES = 65_536
"""Bytes of a line, without the line feed."""

MAX_NAME_BYTES = 48
"""Bytes of a name."""

MAX_COMPONENTS = 1_000
"""Components of a repository."""

MAX_COST = 255
"""The greatest cost of a component. The least one is 1."""

MAX_NODES = 1_024
"""Nodes of a type."""

MAX_PARENTHESES = 64
"""Parentheses that are open at once."""

MAX_CHOICES = 4_096
"""Choices for the variables of a component: its instances."""

MAX_INSTANCE_NODES = 4_096
"""Nodes of an instance of a component."""

MAX_SPREADS = 1_000_000
"""The sum over all instances of all components of their spread and 1."""

MAX_STATES = 16
"""States of a filter."""

MAX_BATCH = 64
"""Types that are asked at once."""

MAX_SIZE = 1_024
"""The greatest size that a page may be bounded by."""

MAX_TAKE = 10_000
"""Terms of a page."""

MAX_LENGTH = 64
"""Component occurrences of a term on a page. Longer terms aren't listed."""

MAX_POOL = 1_000_000
"""The greatest bound on the terms that count for a page."""
