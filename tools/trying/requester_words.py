"""The words of the requester's end, and the one that hands packets from one end to the other."""
import call_records
from explain.following import HEADER
from records import record
from second import calls
from second.wire import packet_fields

from . import messages
from .forms import Word, option, read_options
from .setups import SETUP_OPTIONS, read_setup
from .values import LONGEST, LineError

BYTE = 255
NUMBER = 0xFFFFFFFF
LENGTH = 0xFFFF
BUFFER = 4488               # 66 packets with 4,224 bytes in them: nothing that is written at any unit is longer
LONGEST_CUT = LONGEST - calls.CUT.size

# Tags, slots and lengths can be such that the requester refuses them.
ANY_TAG = "a message tag", 0, BYTE
BUFFER_OPTIONS = {
    "dest": messages.PACKET_OPTIONS["dest"],
    "buffer": option(f"the buffer's length ({BUFFER} if not given: long enough for all)",
                     ("a buffer's length", 0, LENGTH)),
}
# What describes the command that is cut; bytes stand in place of all of these.
DESCRIBING = {**messages.COMMAND_MESSAGE, "bad-check": messages.PACKET_OPTIONS["bad-check"]}
CUT_OPTIONS = {
    **DESCRIBING,
    "tag": option("message tag (1 if not given; above 7 is refused)", ANY_TAG),
    **BUFFER_OPTIONS,
    "bytes": option("in place of a command a message as it is, of any length: the rest of the line"),
}
PRIMITIVE_OPTIONS = {
    "slot": option("the command slot (0 if not given; above 1 is refused)", ("a slot", 0, NUMBER)),
    **{name: messages.CONTROL_OPTIONS[name] for name in ("tag", "cpsp", "clear")},
    "mtag": option("message tag of the packet (2 if not given; above 7 is refused)", ANY_TAG),
    **BUFFER_OPTIONS,
}
DELIVER_OPTIONS = {
    "tag": option("only packets of this message tag", ("a message tag", 0, 7)),
    "only": messages.PACKET_OPTIONS["only"],
    "skip": messages.PACKET_OPTIONS["skip"],
}

# By end, the call that receives a packet, and what is told where there is no packet for it
RECEIVE = {"endpoint": calls.RECEIVE, "requester": calls.REQUESTER_RECEIVE}
NONE_THERE = {"endpoint": "the last cut or primitive wrote none",
              "requester": "the last line with polls handed out none"}


def read_store(words):
    length = words.number("the store's length", 0, calls.MEMORY)
    words.end()
    return lambda session: session.call(call_records.requester_store(length))


def read_await(words):
    source, tag = words.number("a source EID", 0, BYTE), words.number(*ANY_TAG)
    words.end()
    return lambda session: session.call(call_records.await_from(source, tag))


def read_cut(words):
    found = read_options(words, CUT_OPTIONS)
    message = message_of(found)
    return lambda session: session.call(call_records.cut_message(
        message, found.get("buffer", BUFFER), found.get("dest", session.eid), found.get("tag", 1)))


def message_of(found):
    """The message that is cut: the command that the options describe, or bytes as they are."""
    described = [name for name in found if name in DESCRIBING]
    if "bytes" in found and described:
        raise LineError(f"expected bytes without {described[0]}: they are the whole message")
    message = found["bytes"] if "bytes" in found else messages.command_of(found, "requester cut")
    if len(message) > LONGEST_CUT:
        raise LineError(f"expected a message of at most {LONGEST_CUT:,} bytes, and it has {len(message):,}")
    return message


def read_primitive(words):
    opcode = messages.read_opcode(words)
    found = read_options(words, PRIMITIVE_OPTIONS)
    return lambda session: session.call(call_records.primitive(
        opcode, found.get("slot", 0), found.get("buffer", BUFFER), found.get("dest", session.eid),
        found.get("mtag", 2), found.get("tag", 0), messages.cpsp_of(found)))


def read_packet(words):
    packet = words.bytes()
    return lambda session: session.call(record(calls.REQUESTER_RECEIVE, packet))


def read_look(words):
    words.end()
    return lambda session: session.look_at_requester()


# From one end to the other

def read_end(words):
    end = words.next("endpoint or requester")
    if end not in RECEIVE:
        raise LineError(f"expected endpoint or requester, and there is {end!r}")
    return end


def read_deliver(words):
    end = read_end(words)
    found = read_options(words, DELIVER_OPTIONS)
    return lambda session: session.call(*(record(RECEIVE[end], packet)
                                          for packet in chosen(session.packets[end], end, found)))


def chosen(packets, end, found):
    """Those of the packets for this end that the options want."""
    if not packets:
        raise LineError(f"expected packets to deliver: {NONE_THERE[end]}")
    wanted = [packet for packet in packets if found.get("tag") in (None, tag_of(packet))]
    wanted = wanted[:found.get("only")][found.get("skip", 0):]
    if not wanted:
        raise LineError(f"expected packets to deliver: there are {len(packets)}, and the options leave none")
    return wanted


def tag_of(packet):
    return packet_fields(packet).tag if len(packet) >= HEADER else None


def word(usage, meaning, read, options=None):
    """A word of the requester by its name, which is the front of its usage."""
    return " ".join(usage.split()[:2]), Word(usage, meaning, read, options or {})


REQUESTER = dict((
    word("requester setup EID [unit UNIT]", "the requester anew; the EID is 8 to 254, and it awaits nothing",
         read_setup(call_records.requester_setup), SETUP_OPTIONS),
    word("requester store LENGTH", "lends it a store of this length from here on (right is 4224)",
         read_store),
    word("requester await SOURCE TAG",
         "awaits a message from this EID under this message tag; ends what is being gathered", read_await),
    word("requester cut [slot N] mi|admin|pcie LENGTH [OPTION ..]",
         "cuts a whole command, sealed with its integrity check; deliver endpoint hands its packets on",
         read_cut, CUT_OPTIONS),
    word(f"requester primitive {messages.ANY_PRIMITIVE} [slot N] [tag TAG] [OPTION ..]",
         "builds a control primitive in its packet; deliver endpoint hands it on",
         read_primitive, PRIMITIVE_OPTIONS),
    word("requester packet BYTES",
         "gives it one packet as it is, as in: requester packet 01 09 08 c1 84 88 zeros 10", read_packet),
    word("requester look", "its whole state", read_look),
))
DELIVER = Word(
    "deliver endpoint|requester [OPTION ..]",
    "hands packets on, one after the other: to the endpoint those of the last cut or primitive, to the\n"
    "    requester those of the last line with polls; another deliver hands them on once more",
    read_deliver, DELIVER_OPTIONS)
