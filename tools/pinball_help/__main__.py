"""The command: `tools/pinball-help`, or `python3 -m pinball_help` in the folder tools/."""
import sys

from .command import main

sys.exit(main())
