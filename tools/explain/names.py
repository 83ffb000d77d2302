"""Tables: what each number of the document is called, in words."""
import functools

from second.log import COMPLETE, PACKET, POLL, RESET, TAKE, TIMEOUT
from second.wire import (ABORT, ADMIN, BASE_UNIT, CONTROL, GET_STATE, MI, PAUSE, PCIE, REPLAY, RESUME,
                         longest_packet)

KINDS = {PACKET: "packet", POLL: "poll", TIMEOUT: "timeout", TAKE: "take", COMPLETE: "complete", RESET: "reset"}

# Answers of a call that did what was asked, by the record's kind
DONE = {
    PACKET: {0: "taken in, more to come", 1: "a command is complete", 2: "a control primitive was answered"},
    POLL: {0: "nothing to send", 1: "a packet goes out"},
    TIMEOUT: {0: "timed out"},
    TAKE: {0: "taken"},
    COMPLETE: {0: "completed"},
    RESET: {0: "reset"},
}


def longest_words(unit):
    """The bytes of the longest packet, with the unit that they follow from."""
    return f"the {longest_packet(unit)} bytes that unit {unit} allows"


@functools.cache
def refusals(unit):
    """Answers of a call that was refused, by an end of this transmission unit."""
    return {
        10: "the packet is shorter than 5 bytes",
        11: f"the packet is longer than {longest_words(unit)}",
        12: "the version is not 1",
        13: "the destination is not our EID",
        14: "TO is 0",
        15: "the first byte is not 84h, or ROR is 1",
        16: f"EOM 0, and the payload is not {unit} bytes",
        17: "EOM 1, and the payload is below 8 bytes",
        18: "a control primitive that is not one packet of 12 payload bytes",
        19: "the integrity check is wrong",
        20: "a command whose slot is not Idle",
        21: "no slot is in Receive with this source and tag",
        22: "out of sequence",
        23: "the total is above 4,224 bytes",
        30: "no such slot",
        31: "the slot is not in Process, or its response is there",
        32: "the ticket is not the slot's present one",
        33: "taken already",
        34: "not taken",
        35: "the body has not 4 to 4,216 bytes",
        36: f"the buffer is below {longest_packet(unit)} bytes",
        37: "the slot is not in Receive, or its pause flag is set",
        38: "the EID is not 8 to 254",
        39: "the unit is not 64 to 250",
        40: "a store has not 4,224 bytes",
    }


REFUSALS = refusals(BASE_UNIT)          # those of a log, whose unit is 64

# The flag bit that a refusal sets
REFUSAL_FLAG = {11: 6, 12: 7, 13: 8, 14: 12, 16: 9, 19: 4, 20: 3, 21: 10, 22: 11}

# Bits of the word that Get State reports
FLAGS = {
    3: "a command came while the slot was not Idle",
    4: "integrity check wrong",
    5: "timeout while gathering",
    6: "packet too long",
    7: "version not 1",
    8: "destination not our EID",
    9: "payload not full where more was to come",
    10: "packet of no assembly",
    11: "out of sequence",
    12: "TO was 0",
    14: "reset seen",
    15: "pause flag",
}
STATE_NAMES = ("Idle", "Receive", "Process", "Transmit")

# The states of a slot, as the second program names them. A log has no record that makes a command stoppable.
STATES = {
    "Idle": "Idle",
    "Receive": "Receive",
    "Process untaken": "Process untaken",
    "Process taken": "Process taken",
    "Process stoppable": "Process taken (can be stopped)",
    "Process answered": "Process with its response there",
    "Transmit": "Transmit",
}

MESSAGES = {CONTROL: "control primitive", MI: "MI command", ADMIN: "Admin command", PCIE: "PCIe command"}
PRIMITIVES = {PAUSE: "Pause", RESUME: "Resume", ABORT: "Abort", GET_STATE: "Get State", REPLAY: "Replay"}

# Opcodes of commands. The endpoint passes them on without a look; these names are those of NVMe-MI 1.2 and NVM Express.
OPCODES = {
    CONTROL: PRIMITIVES,
    MI: {0x00: "Read NVMe-MI Data Structure", 0x01: "NVM Subsystem Health Status Poll", 0x02: "Controller Health Status Poll",
         0x03: "Configuration Set", 0x04: "Configuration Get", 0x05: "VPD Read", 0x06: "VPD Write", 0x07: "Reset",
         0x08: "SES Receive", 0x09: "SES Send", 0x0A: "Management Endpoint Buffer Read",
         0x0B: "Management Endpoint Buffer Write", 0x0C: "Shutdown"},
    ADMIN: {0x02: "Get Log Page", 0x06: "Identify", 0x09: "Set Features", 0x0A: "Get Features",
            0x0D: "Namespace Management", 0x10: "Firmware Commit", 0x11: "Firmware Image Download",
            0x14: "Device Self-test", 0x15: "Namespace Attachment", 0x80: "Format NVM", 0x81: "Security Send",
            0x82: "Security Receive", 0x84: "Sanitize"},
    PCIE: {0x00: "PCIe Configuration Read", 0x01: "PCIe Configuration Write", 0x02: "PCIe Memory Read",
           0x03: "PCIe Memory Write", 0x04: "PCIe I/O Read", 0x05: "PCIe I/O Write"},
}

# Status codes at the front of a response's body. The endpoint itself gives 00h, 03h, 04h and 05h; others come from the drive.
STATUS = {
    0x00: "success",
    0x01: "more processing required",
    0x02: "internal error",
    0x03: "invalid opcode",
    0x04: "invalid parameter",
    0x05: "invalid command size",
    0x06: "invalid input data size",
    0x07: "access denied",
}
INVALID_PARAMETER = 0x04

# The CPSR of Abort in a log, which has no taken command that can be stopped
ABORTED = {
    0: "there was nothing to stop: it was Idle, or its response was there",
    1: "it was in Receive, or in Process and not taken",
    2: "it was taken",
}


def field_at(byte, bit, nmimt=None):
    """The field of a request that an error place names; what is behind the opcode goes by the request's kind."""
    if byte == 1:
        return {7: "ROR", 0: "CSI"}.get(bit, "NMIMT" if 3 <= bit <= 6 else "reserved")
    if byte == 2:
        return {0: "MEB", 1: "CIAP"}.get(bit, "reserved")
    behind = {5: "TAG", 6: "CPSP", 7: "CPSP"} if nmimt == CONTROL else {}
    return {0: "IC and message type", 3: "reserved", 4: "opcode", **behind}.get(byte, "behind the opcode")


def number(value):
    """A number as the document writes it: 4,224."""
    return f"{value:,}"


def count(value, thing, things=None):
    """A number of things: 1 byte, 4,224 bytes."""
    return f"{value:,} {thing if value == 1 else things or thing + 's'}"


def flags_set(paused):
    """Which pause flags are set: bits 0 and 1 are those of slots 0 and 1."""
    return ("no pause flag is set", "the pause flag of slot 0 is set", "the pause flag of slot 1 is set",
            "the pause flags of slots 0 and 1 are set")[paused & 3]


def listed(words):
    """a, b and c"""
    words = list(words)
    return " and ".join(filter(None, (", ".join(words[:-1]), words[-1]))) if words else ""
