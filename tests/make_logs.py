#!/usr/bin/env python3
"""Writes the stored logs and scripts that the `logs.py` or `scripts.py` of each folder under tests/logs/
and tests/scripts/ describes.

    python3 make_logs.py

What an input has to print is written there by hand, line by line; the output that is stored is the
second program's, and the two must agree. Nothing is written for a folder in which they do not. Where a
later request gives an input another meaning, the input moves to that request's folder; where a look only
shows more of the state, its lines are remade.
"""
import argparse
import runpy
import sys

import stored
from outputs import expected_output, first_difference, output_of
from programs import CALLS, LOG

def described(program, folder):
    """The inputs of a folder, by name: records and expected lines."""
    description = folder / f"{program.kind}.py"
    if not description.exists():
        sys.exit(f"{folder.name}/{description.name}, which describes the folder's {program.kind}, is missing")
    return runpy.run_path(str(description))[program.kind.upper()]

def contents(program, folder, inputs):
    """What the folder has to hold: the bytes of each file, by its name."""
    found = {}
    for name, (records, lines) in inputs.items():
        given = b"".join(records)
        printed, wanted = expected_output(program, given), output_of(lines)
        if printed != wanted:
            difference = first_difference("the second program", printed, f"{program.kind}.py", wanted)
            sys.exit(f"{folder.name}/{name}: {difference}")
        found[f"{name}{program.suffix}"], found[f"{name}.out"] = given, printed
    return found

def write(program, folder, found):
    """Writes the files, unless the folder has an input or an output that is not described."""
    for path in stored.files(program, folder):
        if path.name not in found:
            sys.exit(f"{folder.name}/{path.name} is not described in {folder.name}/{program.kind}.py; "
                     f"remove it")
    for name, data in found.items():
        folder.joinpath(name).write_bytes(data)

def make(program):
    for folder in stored.folders(program):
        inputs = described(program, folder)
        write(program, folder, contents(program, folder, inputs))
        print(f"{program.kind}/{folder.name}: {len(inputs)} written; each prints what its document says.")

def main():
    argparse.ArgumentParser(
        description="Writes the stored logs of tests/logs/ and scripts of tests/scripts/.").parse_args()
    for program in (LOG, CALLS):
        make(program)

if __name__ == "__main__":
    main()
