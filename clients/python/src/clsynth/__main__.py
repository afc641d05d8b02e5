"""The command `cls`, as `python -m clsynth`."""

import sys

from clsynth.command import main

sys.exit(main())
