"""python3 python/src WORD ..: runs the tool of that name where nothing is installed, as the script opprove does."""
import sys

if sys.version_info < (3, 8):
    sys.exit("opprove: the tools need Python 3.8 or later")
from opprove.cli import entry

sys.exit(entry())
