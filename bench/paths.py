"""Puts told/ on the path, behind this folder: shapes are drawn by its drawing.py, and what comes of
some of them is told there."""
import pathlib
import sys

sys.path.insert(1, str(pathlib.Path(__file__).resolve().parent.parent / "told"))
