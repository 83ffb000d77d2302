"""The stored inputs of a program: KIND/FOLDER/NAME.SUFFIX, and beside each its output NAME.out.

A folder has the name of the landing that gave its inputs their meaning: `base` is document 01, and a
later request has a folder with its own number. An input is called KIND/FOLDER/NAME.
"""
import collections
import pathlib

HERE = pathlib.Path(__file__).parent

Stored = collections.namedtuple("Stored", "name input output")

def folders(program):
    return sorted(path for path in HERE.joinpath(program.kind).iterdir() if path.is_dir())

def files(program, folder):
    """The inputs and outputs of a folder."""
    return sorted(path for path in folder.iterdir() if path.suffix in (program.suffix, ".out"))

def content(path):
    """The file's bytes, or None if it is missing."""
    return path.read_bytes() if path.exists() else None

def stored_inputs(program):
    """The inputs of every folder. Input or output is None where only the other file is there."""
    for folder in folders(program):
        for name in sorted({path.stem for path in files(program, folder)}):
            yield Stored(f"{program.kind}/{folder.name}/{name}", content(folder / f"{name}{program.suffix}"),
                         content(folder / f"{name}.out"))
