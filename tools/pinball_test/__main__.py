"""The command: `tools/pinball-test`, or `python3 -m pinball_test` in the folder tools/."""
import sys

from .command import main

sys.exit(main())
