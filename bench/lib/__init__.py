"""What the scripts share: the program that they run, one clock, and what graphs and logs are drawn of. A script that imports it can import
the package for Python of this checkout, too."""

import sys
from pathlib import Path

TOP = Path(__file__).resolve().parents[2]
PACKAGE = TOP / "python"
sys.path.insert(0, str(PACKAGE))
