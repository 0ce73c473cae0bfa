"""python3 -m opprove WORD ..: runs the tool of that name."""
import sys

from opprove.cli import entry

sys.exit(entry())
