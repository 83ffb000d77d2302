#!/usr/bin/env python3
"""Explains a log: each record with its answer in words, and what the slots then are. `--help` says what can be asked.

    tools/explain.py LOG                 in words, with a summary at the end
    tools/explain.py --html LOG > PAGE   as a page for a browser
    tools/explain.py --json LOG          for a program
"""
import pathlib
import sys

# In this folder the package `explain` goes before this file; the second program is in tests/.
HERE = pathlib.Path(__file__).resolve().parent
sys.path[:0] = [str(HERE), str(HERE.parent / "tests")]

from explain.cli import main  # noqa: E402

if __name__ == "__main__":
    sys.exit(main())
