"""Runs the command: python3 tools/livemodule, or python3 -m livemodule where tools is on the path."""

import os
import sys

if not __package__:
    sys.path[0] = os.path.dirname(os.path.dirname(os.path.abspath(__file__)))

from livemodule.command import run

sys.exit(run(sys.argv[1:]))
