"""The tests of the program, the clients and the documents: `python3 -m unittest`, pytest, or tests/all."""
import pathlib
import sys

sys.path.insert(0, str(pathlib.Path(__file__).resolve().parent))
