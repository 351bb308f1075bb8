"""Trials of the tools and scripts as processes, a module for each of them; scripts/try_guide makes them."""
from pathlib import Path

NAMES = tuple(sorted(it.stem for it in Path(__file__).parent.glob("*.py") if "\ndef try_" in it.read_text()))
