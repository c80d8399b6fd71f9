"""The other rooms of tools/, whose modules the checks import once this one is."""
import sys
from pathlib import Path

TOOLS = Path(__file__).resolve().parent.parent
sys.path += [str(TOOLS / room) for room in ("product", "build", "checks")]
