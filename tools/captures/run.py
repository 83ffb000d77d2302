"""The lines that the log program prints for a log."""
import shutil
import subprocess

from captures import ROOT
from captures.told import Failure
from second.log import records

PROGRAM = ROOT / "mi-log"


def proved(path):
    """The lines of the proved program, ./mi-log, for the log at this path."""
    with open(path, "rb") as log:
        try:
            process = subprocess.Popen([str(PROGRAM)], stdin=log, stdout=subprocess.PIPE)
        except OSError as error:
            raise Failure(f"{PROGRAM.name} can't be run: {error.strerror}") from error
    try:
        for line in process.stdout:
            yield line.decode().rstrip("\n")
        if process.wait():
            raise Failure(f"{PROGRAM.name} ended with status {process.returncode}"
                          + ("" if shutil.which("rt") else "; rt, the command of the Rattle kit, is not on the path"))
    finally:
        process.stdout.close()
        if process.poll() is None:
            process.terminate()
        process.wait()


def with_lines(path, runner):
    """Number, tag, body and line of each record of the log at this path; the tag of a faulty one is None, and it is the last."""
    with open(path, "rb") as log:
        lines = runner(path)
        for number, (tag, body) in enumerate(records(log), 1):
            line = next(lines, None)
            if line is None or (tag is None) != (line == "bad"):
                raise Failure(f"the log program printed {line or 'nothing'} for record {number}")
            yield number, tag, body, line
        for line in lines:
            raise Failure(f"the log program printed more lines than the log has records: {line}")
