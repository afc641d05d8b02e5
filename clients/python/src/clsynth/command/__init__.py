"""The commands for people: `cls`, which is `python -m clsynth` too, and `clsynth-check`. docs/COMMAND.md describes them."""

from clsynth.command.main import check_main, main

__all__ = ["check_main", "main"]
