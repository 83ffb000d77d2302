"""The words that a line can begin with: what each is given, what it does, and its help.

A reader takes the words of a line and gives a function of the session, so that a line is read whole before anything is called.
"""
import call_records
from second import calls
from second.wire import longest_packet

from . import messages
from .declaring import MARKS
from .forms import Word, option_usage
from .requester_words import DELIVER, LENGTH, NUMBER, REQUESTER, read_end
from .setups import SETUP_OPTIONS, read_setup
from .values import LineError, Words, number_of

# The states of a slot as `expect` names them, and as the second program does
STATES = {"idle": "Idle", "receive": "Receive", "untaken": "Process untaken", "taken": "Process taken",
          "stoppable": "Process stoppable", "answered": "Process answered", "transmit": "Transmit"}


def on_slot(record):
    """A reader for a call that is given a slot."""
    def read(words):
        slot = words.number("a slot", 0, NUMBER)
        words.end()
        return lambda session: session.call(record(slot))
    return read


def read_stores(words):
    lengths = [words.number(f"the length of store {slot}", 0, calls.MEMORY) for slot in (0, 1)]
    words.end()
    return lambda session: session.call(call_records.stores(*lengths))


def read_message(read):
    """A reader for a whole message, whose packets are sent one after the other."""
    def reader(words):
        packets = read(words)
        return lambda session: session.call(*call_records.receive_all(packets(session.eid, session.unit)))
    return reader


def read_packet(words):
    packet = words.bytes()
    return lambda session: session.call(call_records.record(calls.RECEIVE, packet))


def read_record(words):
    record = call_records.record(words.number("a tag", 0, 255), words.bytes())
    return lambda session: session.call(record)


def read_complete(words):
    slot, ticket = read_slot_and_ticket(words)
    body = words.bytes()
    return lambda session: session.call(call_records.complete(ticket(session), body, slot))


def read_declare(words):
    slot, ticket = read_slot_and_ticket(words)
    mark = words.next("can or cannot")
    if mark not in MARKS:
        raise LineError(f"expected can or cannot, and there is {mark!r}")
    words.end()
    return lambda session: session.call(call_records.declare(ticket(session), MARKS[mark], slot))


def read_slot_and_ticket(words):
    """A slot, and a ticket as a function of the session: the one last taken there has to be asked for."""
    slot, expected = words.number("a slot", 0, NUMBER), f"a ticket, 0 to {NUMBER:,}, or taken"
    word = words.next(expected)
    ticket = number_of(word)
    if word != "taken" and (ticket is None or ticket > NUMBER):
        raise LineError(f"expected {expected}, and there is {word!r}")
    return slot, lambda session: session.ticket(slot) if word == "taken" else ticket


def read_polling(act):
    """A reader for polls; without a length the buffer has that of the endpoint's full packet."""
    def read(words):
        length = words.number("a buffer's length", 0, LENGTH) if words else None
        words.end()
        return lambda session: act(session, call_records.poll(
            longest_packet(session.unit) if length is None else length))
    return read


def read_alone(act):
    """A reader for a word that is given nothing."""
    def read(words):
        words.end()
        return act
    return read


def read_expect(words):
    form = words.next("an answer's number, slot, body, line, awaits, gathered or unit")
    if form in EXPECTATIONS:
        return EXPECTATIONS[form](words)
    words.words.insert(0, form)
    numbers = [words.number("an answer's number", 0, NUMBER)]
    while words:
        numbers.append(words.number("an answer's number", 0, NUMBER))
    return lambda session: session.expect_answers(numbers)


def read_expect_slot(words):
    slot = words.number("a slot", 0, 1)
    state = words.next(listed_states())
    words.end()
    if state not in STATES:
        raise LineError(f"expected {listed_states()}, and there is {state!r}")
    return lambda session: session.expect_slot(slot, state)


def listed_states():
    return f"one of {', '.join(STATES)}"


def read_expect_body(words):
    body = words.bytes()
    return lambda session: session.expect_body(body)


def read_expect_line(words):
    line = " ".join(words.words)
    return lambda session: session.expect_line(line)


def read_expect_awaits(words):
    if words.words == ["nothing"]:
        return lambda session: session.expect_awaits(None)
    who = words.number("nothing, or a source EID", 0, 255), words.number("a message tag", 0, 7)
    words.end()
    return lambda session: session.expect_awaits(who)


def read_expect_gathered(words):
    length = words.number("a number of gathered bytes", 0, LENGTH)
    words.end()
    return lambda session: session.expect_gathered(length)


def read_expect_unit(words):
    end = read_end(words)
    unit = words.number("a unit", 0, LENGTH)
    words.end()
    return lambda session: session.expect_unit(end, unit)


EXPECTATIONS = {"slot": read_expect_slot, "body": read_expect_body, "line": read_expect_line,
                "awaits": read_expect_awaits, "gathered": read_expect_gathered, "unit": read_expect_unit}


def read_help(words):
    name = " ".join(words.words)
    if not begun_with(name):
        raise LineError(f"expected one of {', '.join(WORDS)}, and there is {name!r}")
    return lambda session: session.write("".join(f"{line}\n" for line in help_lines(name)))


WORDS = {
    "setup": Word("setup EID [unit UNIT]", "a new state; the EID is 8 to 254, and commands then go to it",
                  read_setup(call_records.setup), SETUP_OPTIONS),
    "command": Word("command [slot N] mi|admin|pcie LENGTH [OPTION ..]",
                    "a whole command, sealed with its integrity check and cut into packets, each of them received",
                    read_message(messages.read_command), messages.COMMAND_OPTIONS),
    "control": Word(f"control {messages.ANY_PRIMITIVE} [slot N] [tag TAG] [OPTION ..]",
                    "a control primitive in its packet", read_message(messages.read_control), messages.CONTROL_OPTIONS),
    "packet": Word("packet BYTES", "one packet as it is, as in: packet 01 08 09 c9 84 zeros 64", read_packet),
    "take": Word("take SLOT", "takes the command that waits there: answers a ticket", on_slot(call_records.take)),
    "read": Word("read SLOT", "the request that was taken there; its answer is the number of bytes", on_slot(call_records.read)),
    "complete": Word("complete SLOT TICKET BYTES",
                     "the response's body, from its status on; in place of a ticket, taken: the one last taken there (else 0)",
                     read_complete),
    "declare": Word("declare SLOT TICKET can|cannot",
                    "declares that the taken command can still be stopped with no effect, or no longer can:\n"
                    "    an Abort reports CPSR 1 or 2; a take starts at cannot; the ticket is as in complete",
                    read_declare),
    "poll": Word("poll [LENGTH]",
                 "asks for one packet with a buffer of this length (that of a full packet if not given)",
                 read_polling(lambda session, record: session.call(record))),
    "polls": Word("polls [LENGTH]", "polls until nothing comes",
                  read_polling(lambda session, record: session.polls(record))),
    "timeout": Word("timeout SLOT", "the slot's requester was too slow", on_slot(call_records.timeout)),
    "reset": Word("reset", "both slots Idle; ticket counts are kept", read_alone(lambda session: session.call(call_records.RESET))),
    "stores": Word("stores LENGTH LENGTH", "lends stores of these lengths from here on (right are 4224 4224)", read_stores),
    "look": Word("look", "the whole state", read_alone(lambda session: session.look())),
    "record": Word("record TAG [BYTES]", "any record of the calls program, as it is", read_record),
    **REQUESTER,
    "deliver": DELIVER,
    "expect": Word("expect NUMBER [NUMBER ..] | slot N STATE | body BYTES | line LINE | awaits WHOM |"
                   " gathered N | unit END N",
                   "fails if the last answer was another (several numbers: the answers of the last line that called, in order);\n"
                   f"    if the slot is in another state than STATE ({', '.join(STATES)};\n"
                   "    taken is for a command that can't be stopped, stoppable for a taken one that can);\n"
                   "    if the last whole response or control reply has another body;\n"
                   "    if the program's last line was another;\n"
                   "    if the requester awaits another than WHOM (SOURCE TAG, or nothing);\n"
                   "    if it has gathered another number of bytes;\n"
                   "    or if END, the endpoint or the requester, has another unit",
                   read_expect),
    "help": Word("help [WORD]", "this list, or all about a word; help requester: all of the requester's",
                 read_help),
    "quit": Word("quit", "ends, as Ctrl-D does", read_alone(lambda session: session.quit())),
}
NOTES = ("BYTES are hex (01 0809 c9), zeros N, ones N or rising N, in any order. Numbers are decimal, or hex as 0x5a or 5Ah.",
         "# begins a comment. Words and options are looked up with: help WORD")


def begun_with(name):
    """The words of the table that are this one or begin with it, as several do with `requester`."""
    return [found for found in WORDS if not name or f"{found} ".startswith(f"{name} ")]


def help_lines(name=""):
    """All words, some, or one with its options."""
    found = [WORDS[each] for each in begun_with(name)]
    lines = [line for word in found for line in (word.usage, f"    {word.meaning}")]
    options = found[0].options if len(found) == 1 else {}
    return [*lines, *(f"    {option_usage(name, each):22}{each.meaning}" for name, each in options.items()),
            *(("", *NOTES) if not name else ())]


def word_of(words):
    """The word of the table that a line begins with, which has two parts for the requester; None for none."""
    return next((name for name in (words[0], " ".join(words[:2])) if name in WORDS), None)


def read_line(line):
    """What a line asks for, as a function of the session; None for an empty one."""
    words = line.partition("#")[0].split()
    if not words:
        return None
    name = word_of(words)
    if name is None:
        there = " ".join(words[:2 if begun_with(words[0]) else 1])
        raise LineError(f"expected one of {', '.join(begun_with(words[0]) or WORDS)}, and there is {there!r}")
    return WORDS[name].read(Words(words[len(name.split()):]))
