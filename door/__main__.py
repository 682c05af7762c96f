"""Starts the operator's commands, in the repository or installed, without anything from the caller's own Python path."""

import os
import sys

HOME = os.path.dirname(os.path.dirname(os.path.realpath(__file__)))
if os.path.exists(os.path.join(HOME, "crates.txt")):  # in the repository what Python compiles goes where all that is made goes
    sys.pycache_prefix = os.path.join(HOME, "target", "door", "python")
sys.path.insert(0, HOME)

from door.main import main  # noqa: E402

sys.exit(main(sys.argv[1:]))
