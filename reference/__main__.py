"""Runs any command of the program: `python3 -m reference CMD ..`."""

import sys

from .cli import main

sys.exit(main())
