"""Tests of the package, as it stands in src/: python3 -m unittest, in the folder above."""
import sys
from pathlib import Path

HERE = Path(__file__).resolve().parent
TOP = HERE.parent.parent
STAND_IN = HERE / "stand_in.py"

sys.path.insert(0, str(HERE.parent / "src"))
