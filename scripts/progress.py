"""The moving line of long runs: that of the tools in classroom/, which are installed without this folder."""
import os
import sys

sys.path.insert(0, os.path.join(os.path.dirname(os.path.abspath(__file__)), os.pardir, "classroom"))

from mictools.progress import Progress  # noqa: E402, F401
