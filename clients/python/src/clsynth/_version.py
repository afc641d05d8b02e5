"""The version of all that a release holds. It stands here: pyproject.toml and tools/release read it, and tests compare what else shows it."""

__version__ = "0.3.0"
