"""The command line, the script and the prompt."""
import argparse
import contextlib
import os
import shutil
import signal
import sys

from .declaring import MARKS
from .messages import PRIMITIVES
from .program import Program, Trouble, unsignalled
from .requester_words import RECEIVE
from .session import WIDTH, Quit, Session, Unexpected
from .values import PATTERNS, LineError
from .words import EXPECTATIONS, STATES, WORDS, word_of

DESCRIPTION = "Tries endpoint and requester by hand: each line is a call, and its answer is told in words."

EPILOG = """
Without SCRIPT the lines come from standard input: at a prompt if that is a terminal. A first try:

  command slot 0 mi 20          a whole command is received
  take 0                        the drive's side takes it, and gets a ticket
  complete 0 taken zeros 61     and completes it
  polls                         the response goes out in packets
  look                          the whole state
  help                          all words; help command: all about one

Both ends, with packets that go from one to the other:

  requester setup 9             the requester has EID 9, and the endpoint EID 8
  requester await 8 1           it awaits a message from there under message tag 1
  requester cut slot 0 mi 20    and cuts a command into packets
  deliver endpoint              which the endpoint receives; then take, complete and polls as above
  deliver requester             the packets that polls handed out are gathered

Both have the transmission unit 64. setup 8 unit 250 and requester setup 9 unit 250 give them a larger one.

docs/TRY.md walks through all of it. The answers are those of the proved program mi_calls, which is proved and
built first where a source has changed. A script is a test by its lines with expect. The status is 0 if all
was done, 1 if something was not as expected or failed, and 2 for a line or a command line that can't be read;
a script ends there.
"""

ENDED = {signal.SIGTERM: 143, signal.SIGHUP: 129}


def parser():
    found = argparse.ArgumentParser(prog="mi-try", description=DESCRIPTION, epilog=EPILOG,
                                    formatter_class=argparse.RawDescriptionHelpFormatter)
    found.add_argument("script", metavar="SCRIPT", nargs="?", default="-", help="a file of lines; - is standard input")
    found.add_argument("--raw", action="store_true", help="shows each record that is sent, in hex, and the line printed for it")
    found.add_argument("--save", metavar="FILE", help="writes all records that are sent to FILE, a script for mi_calls")
    found.add_argument("--program", metavar="COMMAND",
                       help="the program that is tried in place of mi_calls, as 'python3 tests/second calls'")
    return found


# Where lines come from

def file_lines(stream):
    """The lines of a script, each shown before it is done."""
    for line in stream:
        text = line.rstrip("\r\n")
        if text.strip():
            print(text if text.lstrip().startswith("#") else f"> {text}")
        yield text


def prompt_lines():
    """The lines of a user at a terminal."""
    with contextlib.suppress(ImportError):
        prepare_readline()
    print("Each line is a call: help lists them, quit or Ctrl-D ends.")
    while True:
        try:
            yield input("> ")
        except EOFError:
            print()
            return
        except KeyboardInterrupt:           # the line is given up, as at a shell's prompt
            print()


def prepare_readline():
    import readline
    readline.set_completer_delims(" ")
    readline.set_completer(lambda text, place: completion(readline.get_line_buffer()[:readline.get_begidx()], text, place))
    readline.parse_and_bind("tab: complete")


def completion(before, text, place):
    """The word number `place` that can stand behind `before` and begins with `text`."""
    found = [f"{word} " for word in known_behind(before.split()) if word.startswith(text)]
    return found[place] if place < len(found) else None


def known_behind(words):
    """What can stand behind these: a part of a word of the table, or what such a word is given."""
    asks = words[:1] == ["help"]
    begun = words[1:] if asks else words
    names = [name.split() for name in WORDS]
    parts = [name[len(begun)] for name in names if name[:len(begun)] == begun and name != begun]
    if parts or asks:
        return dict.fromkeys(parts)
    name = word_of(words)
    return (*WORDS[name].options, *MORE.get(name, ())) if name else ()


# Words that can follow beside options
MORE = {"control": tuple(PRIMITIVES), "complete": ("taken", *PATTERNS), "packet": tuple(PATTERNS),
        "declare": ("taken", *MARKS), "expect": (*EXPECTATIONS, *STATES, *RECEIVE),
        "requester primitive": tuple(PRIMITIVES), "requester packet": tuple(PATTERNS),
        "deliver": tuple(RECEIVE)}


# Doing them

def follow(session, lines, name, goes_on):
    """Does the lines; the status. With `goes_on` a line that is wrong is told, and the next one is done."""
    for place, text in enumerate(lines, 1):
        try:
            session.run(text)
        except Quit:
            return 0
        except (LineError, Unexpected) as error:
            sys.stdout.flush()
            print(f"{'' if goes_on else f'mi-try: {name} line {place}: '}{error}", file=sys.stderr, flush=True)
            if not goes_on:
                return 1 if isinstance(error, Unexpected) else 2
        except Trouble as trouble:
            raise trouble if goes_on else Trouble(f"{name} line {place}: {trouble}") from None
        sys.stdout.flush()
    return 0


def opened(name, mode, **how):
    try:
        return open(name, mode, **how)
    except OSError as error:
        raise Trouble(f"{name} can't be {'read' if mode == 'r' else 'written'}: {error.strerror}") from None


def script_of(name):
    if name != "-":
        return opened(name, "r", encoding="utf-8", errors="replace")
    if sys.stdin is None:
        raise Trouble("standard input is closed")
    sys.stdin.reconfigure(errors="replace")
    return contextlib.nullcontext(sys.stdin)


def width():
    """Columns for a line: those of the terminal, where there is one and it has enough."""
    return max(shutil.get_terminal_size().columns - 1, 60) if sys.stdout.isatty() else WIDTH


def run(given):
    """Does what the command line asks for; the status."""
    with contextlib.ExitStack() as stack:
        stream = stack.enter_context(script_of(given.script))
        asks = stream is sys.stdin and stream.isatty()
        save = stack.enter_context(opened(given.save, "wb")) if given.save else None
        with unsignalled():
            program = Program(given.program)
            stack.callback(program.close)
        session = Session(program, sys.stdout.write, given.raw, save, width())
        name = "standard input" if given.script == "-" else given.script
        try:
            status = follow(session, prompt_lines() if asks else file_lines(stream), name, asks)
        except IsADirectoryError:
            raise Trouble(f"{name} can't be read: it is a folder") from None
        sys.stdout.flush()
        return status


def main(arguments=None):
    """The whole tool; gives the status."""
    if sys.stdout is None:
        sys.exit("mi-try: standard output is closed")
    sys.stdout.reconfigure(errors="backslashreplace")
    for number in ENDED:
        if signal.getsignal(number) != signal.SIG_IGN:
            signal.signal(number, lambda number, _: sys.exit(ENDED[number]))
    try:
        return run(parser().parse_args(arguments))
    except Trouble as trouble:
        return failed(trouble, 1)
    except BrokenPipeError:                 # the reader, such as head, has what it wanted
        silence()
        return 141
    except OSError as error:
        return failed(f"the output can't be written: {error.strerror}", 1)
    except KeyboardInterrupt:
        silence()
        return 130


def failed(words, status):
    try:
        sys.stdout.flush()
    except OSError:
        silence()
    print(f"mi-try: {words}", file=sys.stderr)
    return status


def silence():
    """Nothing more goes to standard output, and Python does not try at its end."""
    os.dup2(os.open(os.devnull, os.O_WRONLY), sys.stdout.fileno())
