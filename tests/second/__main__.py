"""The command line of the second program; `__init__.py` says what it can be given."""
import argparse
import pathlib
import sys

# Python has put this folder on the path; the package is found from the folder above.
sys.path[0] = str(pathlib.Path(__file__).resolve().parent.parent)

from second.bench import bench_lines  # noqa: E402
from second.calls import call_lines  # noqa: E402
from second.log import log_lines  # noqa: E402

PROGRAMS = {"log": log_lines, "calls": call_lines, "bench": lambda stream: bench_lines()}

def main():
    parser = argparse.ArgumentParser(
        prog="second", description="Prints what the records on standard input are answered with.")
    parser.add_argument("program", nargs="?", default="log", choices=PROGRAMS,
                        help="whose records they are; the bench prints its lines without any")
    for line in PROGRAMS[parser.parse_args().program](sys.stdin.buffer):
        # A line is there as soon as its record was read, also for one who waits for it in a pipe.
        print(line, flush=True)

main()
