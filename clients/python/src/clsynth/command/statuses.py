"""With which status a command ends. Those from 0 to 6 are the program's."""

__all__ = ["FOUND", "INTERRUPTED", "READ_FAULT", "REFUSED", "USAGE", "WRITE_FAULT"]

USAGE = 1
"""The words of the command line are of no form, or there is no program."""
REFUSED = 2
"""The repository is refused."""
READ_FAULT = 3
"""A file couldn't be read."""
WRITE_FAULT = 4
"""Nobody takes the output."""
FOUND = 7
"""A query has an error, or there is something to warn of."""
INTERRUPTED = 130
"""The command was interrupted by the keyboard."""
