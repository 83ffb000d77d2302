"""Commands and control primitives: the options of their lines, and the packets that carry them."""
from explain.following import HEADER
from records import command, control, damaged, packet
from second.wire import ABORT, ADMIN, GET_STATE, MI, PAUSE, PCIE, REPLAY, RESUME
from units import parts

from .forms import option, read_options
from .values import LONGEST, LineError, number_of

KINDS = {"mi": MI, "admin": ADMIN, "pcie": PCIE}
PRIMITIVES = {"pause": PAUSE, "resume": RESUME, "abort": ABORT, "get-state": GET_STATE, "replay": REPLAY}
ANY_PRIMITIVE = "|".join((*PRIMITIVES, "OPCODE"))         # in the usage of a line
LONGEST_COMMAND = 8192
LONGEST_PAYLOAD = LONGEST - HEADER                        # of a packet that a record can have

# What a packet carries; both kinds of lines have these
PACKET_OPTIONS = {
    "from": option("source EID (9 if not given)", ("an EID", 0, 255)),
    "dest": option("destination EID (the endpoint's own if not given)", ("an EID", 0, 255)),
    "mtag": option("message tag of the packets", ("a message tag", 0, 7)),
    "version": option("version in the packets' header (1 if not given)", ("a version", 0, 15)),
    "to": option("TO (1 if not given)", ("TO", 0, 1)),
    "unit": option("payload bytes of each packet but the last (the endpoint's unit if not given)",
                   ("a unit", 1, LONGEST_PAYLOAD)),
    "seq": option("sequence of the first packet that is sent; later ones count on", ("a sequence", 0, 3)),
    "only": option("no more than the first K packets", ("a number of packets", 1, LONGEST_COMMAND)),
    "skip": option("without the first K packets", ("a number of packets", 1, LONGEST_COMMAND)),
    "no-som": option("SOM 0 in the first packet"),
    "no-eom": option("EOM 0 in the last packet"),
    "bad-check": option("a wrong integrity check"),
}
MESSAGE_OPTIONS = {
    "slot": option("the command slot, CSI (0 if not given)", ("a command slot", 0, 1)),
    "ciap": option("CIAP 1"),
    "meb": option("MEB 1"),
}
# What describes a command's message
COMMAND_MESSAGE = {
    **MESSAGE_OPTIONS,
    "mi": option("an MI command of so many bytes, its check included", ("a length", 8, LONGEST_COMMAND)),
    "admin": option("an Admin command, the same", ("a length", 8, LONGEST_COMMAND)),
    "pcie": option("a PCIe command, the same", ("a length", 8, LONGEST_COMMAND)),
    "nmimt": option("a command of any NMIMT: the NMIMT, the length", ("an NMIMT", 1, 15), ("a length", 8, LONGEST_COMMAND)),
    "opcode": option("the byte behind the header", ("an opcode", 0, 255)),
    "fill": option("zeros, ones, rising or hex bytes, which fill the rest (zeros if not given)"),
    "ror": option("ROR 1: a response and no request"),
}
COMMAND_OPTIONS = {
    **COMMAND_MESSAGE,
    "tag": option("message tag, as mtag (1 if not given)", ("a message tag", 0, 7)),
    **PACKET_OPTIONS,
}
CONTROL_OPTIONS = {
    **MESSAGE_OPTIONS,
    "tag": option("TAG of the control primitive (0 if not given)", ("a TAG", 0, 255)),
    "cpsp": option("CPSP (0 if not given; Replay takes only 0)", ("a CPSP", 0, 0xFFFF)),
    "clear": option("CPSP bit 0 set: Get State clears the flags after reporting"),
    "ror": option("ROR 1: a response and no request"),
    **PACKET_OPTIONS,
    "mtag": option("message tag of the packet (2 if not given)", ("a message tag", 0, 7)),
}


def read_command(words):
    """The packets of a whole command, as the options want them."""
    found = read_options(words, COMMAND_OPTIONS)
    message = command_of(found, "command")
    if "tag" in found and "mtag" in found:
        raise LineError("expected tag or mtag, and not both: in a command they are the same")
    return cut(message, found, found.get("tag", found.get("mtag", 1)))


def command_of(found, word):
    """The command that the options describe; `word` begins the line of which they are."""
    kinds = [name for name in (*KINDS, "nmimt") if name in found]
    if len(kinds) != 1:
        example = f"{word} slot 0 mi 20"
        raise LineError(f"expected one of mi, admin, pcie and nmimt with a length, as in: {example}")
    kind, length = found["nmimt"] if kinds == ["nmimt"] else (KINDS[kinds[0]], found[kinds[0]])
    fill = found.get("fill", b"\0")
    if "opcode" in found:
        fill = bytes((found["opcode"],)) + (fill * length)[:max(length - 9, 0)]
    message = command(length, found.get("slot", 0), kind, "ciap" in found, "meb" in found, "ror" in found, fill)
    return checked(message, found)


def checked(message, found):
    """The message with the integrity check that the options want."""
    return damaged(message) if "bad-check" in found else message


def read_control(words):
    """The packet of a control primitive, as the options want it."""
    opcode = read_opcode(words)
    found = read_options(words, CONTROL_OPTIONS)
    csi = ("ror" in found) << 7 | found.get("slot", 0)
    message = control(opcode, csi, found.get("tag", 0), cpsp_of(found), "ciap" in found, "meb" in found)
    return cut(checked(message, found), found, found.get("mtag", 2))


def read_opcode(words):
    """The opcode of a control primitive, by its name or as a number."""
    name = words.next(f"{', '.join(PRIMITIVES)} or an opcode")
    opcode = PRIMITIVES.get(name, number_of(name))
    if opcode is None or opcode > 255:
        raise LineError(f"expected {', '.join(PRIMITIVES)} or an opcode, 0 to 255, and there is {name!r}")
    return opcode


def cpsp_of(found):
    return found.get("cpsp", 0) | ("clear" in found)


def cut(message, found, tag):
    """A function from the endpoint's EID and unit to the packets of the message, as records of a log."""
    def packets(eid, unit):
        payloads = parts(message, found.get("unit", unit))
        places = range(len(payloads))[:found.get("only")][found.get("skip", 0):]
        if not places:
            raise LineError(f"expected packets to send: the message has {len(payloads)}, "
                            "and only and skip leave none")
        first = found.get("seq", places[0])
        return [packet(payloads[place], som=int(place == 0 and "no-som" not in found),
                       eom=int(place == len(payloads) - 1 and "no-eom" not in found),
                       sequence=first + place - places[0], source=found.get("from", 9), tag=tag,
                       version=found.get("version", 1), destination=found.get("dest", eid),
                       to=found.get("to", 1))
                for place in places]
    return packets
