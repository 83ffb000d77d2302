"""The command line: which log, which records of it, in which form."""
import argparse
import os
import pathlib
import stat
import sys

from .answers import Trouble, program, stored
from .following import Follower
from .page import Page
from .reading import records
from .summary import Summary
from .text import Json, Text

ROOT = pathlib.Path(__file__).resolve().parent.parent.parent

DESCRIPTION = "Explains a log: each record with its answer in words, what else it did, what the slots then are; and a summary."

EPILOG = """
The answers are the log program's own: ./mi-log is run on the log, and proves and builds itself first where a source has
changed. Its EID is 8 and its transmission unit 64: a packet above 68 bytes gets 11. It has no record by which
a drive declares that a command can be stopped: an Abort of a taken command reports 2. What the slots are is
not in a log, so it is followed with the second program of tests/; a line with !! says so if that program
would have answered otherwise.

--slot, --source, --from, --to and --refusals can be combined; a record is shown if all of them want it. The slots are
followed through all records, and records keep their numbers in the whole log. The summary is of the whole log. A page has
about 800 bytes for each record: choose some of them where a log is long.

--json prints an object for each record:
  record       its number in the log, from 1
  offset       where it begins in the log, in bytes
  kind         packet, poll, timeout, take, complete, reset or bad
  fields       what it says. packet: bytes, version, destination, source, som, eom, sequence, to, tag, data (hex) and, for a
               first packet that was looked at, message (ror, nmimt, csi, meb, ciap, opcode; for a control primitive
               primitive_tag and cpsp too); timeout, take, complete: slot; take, complete: ticket; complete: body_bytes;
               bad: cause
  answer       the number, null for bad; refused: whether it is a refusal
  sent         the packet that a poll handed out (as in fields; with slot, control, request: the primitive's record, and
               replay: the record of the Replay that sends its response again, or null), or null
  words        what the text says, as a list
  second       the second program's line where it differs, else null
  slots        for each slot afterwards: slot, state, paused, ticket, eid, tag, get_state (the word that Get State would
               report), held (eid, tag and bytes of the last response, if an Idle slot still holds it, or null); in Receive
               gathered, with a response packets and sent
  reply_waits  whether a control reply waits
and at the end one with the field summary: records, log_bytes, kinds, answers, primitives, slots, bytes (in, refused, out,
bodies), requesters, longest_wait, longest_pause, silent_polls, silent_polls_paused, replies_replaced, fault, differ, remarks.

The status is 0 if the log was explained, 1 if something failed or the two programs differ, and 2 for a wrong command line.
"""


def byte(text):
    value = int(text)
    if not 0 <= value <= 255:
        raise argparse.ArgumentTypeError(f"{value} is not 0 to 255")
    return value


def parser():
    found = argparse.ArgumentParser(prog="explain.py", description=DESCRIPTION, epilog=EPILOG,
                                    formatter_class=argparse.RawDescriptionHelpFormatter)
    found.add_argument("log", metavar="LOG", help="the log's file; - is standard input")
    found.add_argument("--slot", metavar="N", type=byte, help="only records that are about this slot or change it")
    found.add_argument("--source", metavar="EID", type=byte, help="only records of this requester: its packets, what is sent to "
                       "it, and takes, completes and timeouts of its commands")
    found.add_argument("--from", dest="first", metavar="N", type=int, help="only records from this number on")
    found.add_argument("--to", dest="last", metavar="N", type=int, help="only records up to this number")
    found.add_argument("--refusals", action="store_true", help="only records that were refused, and a faulty one")
    found.add_argument("--summary", action="store_true", help="only the summary")
    form = found.add_mutually_exclusive_group()
    form.add_argument("--json", dest="form", action="store_const", const=Json, help="one JSON object for each line")
    form.add_argument("--html", dest="form", action="store_const", const=Page, help="one page for a browser")
    found.add_argument("--answers", metavar="FILE", type=pathlib.Path,
                       help="lines that ./mi-log printed for this log, in place of running it")
    return found


def is_wanted(given, event):
    """Whether the filters want the record shown."""
    return ((given.slot is None or given.slot in event.slots)
            and (given.source is None or event.who is not None and event.who[0] == given.source)
            and (given.first is None or given.first <= event.number)
            and (given.last is None or event.number <= given.last)
            and (not given.refusals or event.refused or event.tag is None)
            and not given.summary)


def events(answers):
    """The events of a log, one by one."""
    follower = Follower()
    for record in records(answers.log):
        line = next(answers.lines, None)
        if line is None:
            answers.finish()
            raise Trouble(f"{answers.name} gives no line for record {record.number}")
        yield follower.event(record, line)
    answers.finish()
    if next(answers.lines, None) is not None:
        raise Trouble(f"{answers.name} gives more lines than the log has records")


def explain(given, log, source, write):
    """Explains a log, a raw stream, with the answers of a source; gives the summary."""
    answers = source(log)
    summary, form = Summary(size_of(log)), (given.form or Text)(write)
    try:
        form.begin(given.log)
        for event in events(answers):
            summary.add(event)
            if is_wanted(given, event):
                form.event(event)
        form.end(summary)
    finally:
        answers.close()
    return summary


def size_of(log):
    """How many bytes the log has; None for one that comes through a pipe."""
    try:
        found = os.fstat(log.fileno())
    except OSError:
        return None
    return found.st_size if stat.S_ISREG(found.st_mode) else None


def opened(name):
    """The log as a raw stream."""
    try:
        return open(0, "rb", buffering=0, closefd=False) if name == "-" else open(name, "rb", buffering=0)
    except OSError as error:
        raise Trouble(f"{'standard input' if name == '-' else name} can't be read: {error.strerror}") from None


def run(given, source=None):
    """Explains what the command line asks for; the status to end with."""
    if source is None:
        source = stored(given.answers) if given.answers else program(ROOT / "mi-log")
    sys.stdout.reconfigure(encoding="utf-8")
    try:
        summary = explain(given, opened(given.log), source, sys.stdout.write)
        sys.stdout.flush()
    except BrokenPipeError:
        raise
    except OSError as error:
        raise Trouble(f"{given.log} can't be explained to its end: {error.strerror}") from None
    if summary.differ:
        raise Trouble(f"the log program and the second program differ at {summary.differ} records, first at record "
                      f"{summary.first_difference}")
    return 0


def main(arguments=None, source=None):
    """The whole tool; gives the status."""
    if sys.stdout is None:
        sys.exit("explain.py: there is no standard output")
    try:
        return run(parser().parse_args(arguments), source)
    except Trouble as trouble:
        quiet_flush()
        print(f"explain.py: {trouble}", file=sys.stderr)
        return 1
    except BrokenPipeError:                 # the reader, such as head, has what it wanted
        silence()
        return 0
    except KeyboardInterrupt:
        silence()
        return 130


def quiet_flush():
    """Puts out what was explained before the trouble, if that can be done."""
    try:
        sys.stdout.flush()
    except OSError:
        silence()


def silence():
    """Nothing more goes to standard output, and Python does not try at its end."""
    os.dup2(os.open(os.devnull, os.O_WRONLY), sys.stdout.fileno())
