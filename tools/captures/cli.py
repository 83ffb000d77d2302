"""The command line of tools/capture.py."""
import argparse
import contextlib
import itertools
import os
import shutil
import sys
import tempfile

from captures import check, hexlines, pcap, run, write
from captures.make import OWN_EID, Maker, Options, record_bytes
from captures.told import SIDES, Failure, Teller

TEXT_MARKS = {b"\x1f\x8b": "compressed with gzip: unpack it first", b"\xff\xfe": "UTF-16 text: save it as UTF-8",
              b"\xfe\xff": "UTF-16 text: save it as UTF-8"}
LOG_TAGS = [bytes((tag,)) for tag in range(1, 7)]


# Files

def why(error):
    return error.strerror or str(error)


@contextlib.contextmanager
def opened(path):
    """The file to read; `-` is standard input."""
    if path == "-":
        yield sys.stdin.buffer
        return
    try:
        stream = open(path, "rb")
    except OSError as error:
        raise Failure(f"{path} can't be read: {why(error)}") from error
    with stream:
        yield stream


@contextlib.contextmanager
def created(path, source):
    """The file to write; standard output if none is named."""
    if path in (None, "-"):
        if sys.stdout.isatty():
            raise Failure("the output is not text: name a file with -o, or send it on")
        yield sys.stdout.buffer
        sys.stdout.buffer.flush()
        return
    if source != "-" and os.path.exists(path) and os.path.exists(source) and os.path.samefile(path, source):
        raise Failure(f"{path} is the input: name another file with -o")
    try:
        stream = open(path, "wb")
    except OSError as error:
        raise Failure(f"{path} can't be written: {why(error)}") from error
    with stream:
        yield stream


@contextlib.contextmanager
def on_disk(path):
    """The path of a file that can be read twice: a copy of what is no plain file."""
    if path != "-" and os.path.isfile(path):
        with opened(path):                                  # so that a file that can't be read is told before anything is written
            yield path
        return
    with opened(path) as stream, tempfile.NamedTemporaryFile() as copy:
        shutil.copyfileobj(stream, copy)
        copy.flush()
        yield copy.name


def kind_of(stream):
    """Whether a file is a capture ("pcap") or text ("hex"), by its first bytes."""
    begin = stream.peek(4)[:4]
    for magic, what in TEXT_MARKS.items():
        if begin.startswith(magic):
            raise Failure(f"it is {what}")
    if begin[:1] in LOG_TAGS:
        raise Failure("it looks like a log, and not like a capture: a log has no packets of a board")
    return "pcap" if begin in pcap.MAGICS else "hex"


# The commands

def reader_of(kind, stream, teller, given):
    """What reads the packets of a file of this kind."""
    if kind == "hex":
        return hexlines.Reader(stream, teller, given.seen_from)
    return pcap.Reader(stream, teller, given.seen_from, given.link)


def begun(items):
    """The items, the first of which is there already: what can't be read at all then fails before a file is written over."""
    return itertools.chain(list(itertools.islice(items, 1)), items)


def told(teller, *parts):
    """The summaries of a reader and a maker."""
    for part in (teller, *parts):
        for words in part.summary():
            teller.note(words)


def from_capture(kind, given, runner, teller):
    options = Options(given.eid, given.readdress, given.all, given.answer)
    with opened(given.file) as stream:
        if kind == "hex" and kind_of(stream) == "pcap":
            raise Failure(f"{given.file} is a pcap or pcapng file: use from-pcap")
        reader, maker = reader_of(kind, stream, teller, given), Maker(options, teller)
        records = begun(maker.records(reader.packets()))
        with created(given.output, given.file) as output:
            for record in records:
                output.write(record_bytes(record))
    told(teller, reader, maker)
    return 1 if teller.faults else 0


def from_hex(given, runner, teller):
    return from_capture("hex", given, runner, teller)


def from_pcap(given, runner, teller):
    return from_capture("pcap", given, runner, teller)


def to_pcap(given, runner, teller):
    if given.link == pcap.COOKED2_LINK:
        raise Failure(f"packets under link type {given.link} need a header that is not written: leave --link out")
    form = (write.Pcap if given.classic else write.Pcapng)(given.link)
    with on_disk(given.file) as path:
        records = begun(run.with_lines(path, runner))
        with created(given.output, given.file) as output:
            write.write(records, form, output, teller)
    return 1 if teller.faults else 0


def check_capture(given, runner, teller):
    if given.eid != OWN_EID and not given.readdress:
        raise Failure(f"the endpoint's EID is {OWN_EID}: with --eid {given.eid}, check needs --readdress")
    options = Options(given.eid, given.readdress, given.all, answer=True, drain=True)
    with on_disk(given.file) as path, tempfile.NamedTemporaryFile() as log:
        with opened(path) as stream:
            reader, maker = reader_of(kind_of(stream), stream, teller, given), Maker(options, teller)
            for record in maker.records(reader.packets()):
                log.write(record_bytes(record))
        log.flush()
        told(teller, reader, maker)
        with opened(path) as stream:                        # once more, beside the answers, so that neither is kept in memory
            quiet = Teller(quiet=True)
            again = reader_of(kind_of(stream), stream, quiet, given)
            counts = check.compare(Maker(options, quiet).records(again.packets()), log.name, runner, sys.stdout)
    print(check.in_words(counts))
    sys.stdout.flush()
    return 1 if teller.faults or any(counts[kind] for kind in check.DIFFERENCES) else 0


# The arguments

def eid(text):
    return number_up_to(text, 255)


def link(text):
    return number_up_to(text, 65535)


def number_up_to(text, greatest):
    number = int(text, 0)
    if not 0 <= number <= greatest:
        raise ValueError
    return number


def shared(*wanted):
    """The options that several commands have."""
    parser = argparse.ArgumentParser(add_help=False)
    parser.add_argument("--eid", type=eid, default=OWN_EID, metavar="N", help="the board's EID in the capture (8 if not given)")
    parser.add_argument("--readdress", action="store_true", help="write packets for the board's EID to EID 8, the log program's")
    parser.add_argument("--all", action="store_true", help="take packets to other EIDs too (the endpoint answers 13)")
    parser.add_argument("--seen-from", choices=SIDES, help="from which side in and out are meant in the capture's marks")
    if "link" in wanted:
        parser.add_argument("--link", type=link, metavar="N", help="packets of link type N are MCTP packets with nothing in front")
    if "log" in wanted:
        parser.add_argument("-o", dest="output", metavar="LOG", help="the log; standard output if not given")
        parser.add_argument("--answer", action="store_true", help="take and complete each command with its captured response")
    return parser


# Each command: what it does, its input, the function, the options that it shares.
COMMANDS = {
    "from-hex": ("makes a log from lines of hex", "FILE", from_hex, shared("log")),
    "from-pcap": ("makes a log from a pcap or pcapng file", "FILE", from_pcap, shared("log", "link")),
    "check": ("compares what a board sent with what the endpoint sends", "CAPTURE", check_capture, shared("link")),
    "to-pcap": ("makes a capture from a log and its answers", "LOG", to_pcap, None),
}


def arguments():
    parser = argparse.ArgumentParser(prog="capture.py", epilog="docs/CAPTURES.md has examples.",
                                     description="Makes logs from captures of a board, and captures from logs.")
    commands, each = parser.add_subparsers(required=True, metavar="COMMAND"), {}
    for name, (words, source, command, options) in COMMANDS.items():
        each[name] = commands.add_parser(name, parents=[options] if options else [], help=words, description=words.capitalize() + ".")
        each[name].add_argument("file", metavar=source, help="- is standard input")
        each[name].set_defaults(command=command)
    wrote = each["to-pcap"]
    wrote.add_argument("-o", dest="output", metavar="FILE", help="the capture; standard output if not given")
    wrote.add_argument("--classic", action="store_true", help="classic pcap, without directions and comments, instead of pcapng")
    wrote.add_argument("--link", type=link, default=pcap.COOKED_LINK, metavar="N",
                       help="the link type: 113, Linux cooked, by which Wireshark finds MCTP, if not given; packets stand as they are "
                            "under another")
    return parser


def main(given=None, runner=run.proved):
    """Runs a command and gives the exit status: 0, or 1 if something was not read, differs or failed."""
    given, teller = arguments().parse_args(given), Teller()
    try:
        return given.command(given, runner, teller)
    except Failure as failure:
        teller.note(str(failure))
    except BrokenPipeError:
        teller.note("the output was closed")
        os.dup2(os.open(os.devnull, os.O_WRONLY), sys.stdout.fileno())      # so that nothing more is said when Python ends
    except OSError as error:
        teller.note(f"reading or writing failed: {why(error)}")
    except KeyboardInterrupt:
        teller.note("stopped")
        return 130
    return 1
