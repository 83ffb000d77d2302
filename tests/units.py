"""Lengths that follow the transmission unit U: what a message of full packets has, and where its bounds lie.

They are worked out here and not by the second program, so that the two can disagree.
"""
import functools

BASE_UNIT = 64                  # of a log, and of a setup without a unit
LONGEST = 4224                  # the longest message

# Units at a bound and beside a power of two, and what setup refuses with 39: some have the low byte of a
# right one.
UNITS = (64, 65, 66, 127, 128, 249, 250)
WRONG_UNITS = (0, 1, 63, 251, 255, 256, 320, 506, 65535)

# Lengths around a multiple of U
AROUND = {-1: "a multiple of U less 1", 0: "a multiple of U", 1: "a multiple of U plus 1"}

def around(length, unit):
    """How far the length is from the multiple of U beside it, or None if it is not beside one."""
    return next((far for far in AROUND if (length - far) % unit == 0), None)

def multiple_beside(length, unit):
    """Which multiple of U the length is beside, if it is beside one."""
    far = around(length, unit)
    return None if far is None else (length - far) // unit

def packet_count(length, unit=BASE_UNIT):
    """How many packets a message of this length has."""
    return -(-length // unit)

def most_packets(unit):
    return packet_count(LONGEST, unit)

def longest_packet(unit):
    return unit + 4

def last_begins(unit):
    """Where the last packet of the longest message begins."""
    return (most_packets(unit) - 1) * unit

def fitting(unit):
    """How many full packets without EOM fit; the next full one makes the message too long."""
    return LONGEST // unit

def too_long(unit):
    """The least length of full packets that is too long."""
    return (fitting(unit) + 1) * unit

@functools.cache
def named_lengths(unit):
    packet, begins = longest_packet(unit), last_begins(unit)
    return {"U - 1": unit - 1, "U": unit, "U + 1": unit + 1, "2 U": 2 * unit,
            "U + 3": packet - 1, "U + 4": packet, "U + 5": packet + 1,
            "all but the last packet's": begins, "one of the last packet's": begins + 1}

def length_of(name, unit):
    """A length by its name; one that does not follow the unit is its own name."""
    return named_lengths(unit).get(name, name)

def parts(message, unit=BASE_UNIT):
    """The payloads of the packets that carry the message."""
    return [message[at:at + unit] for at in range(0, len(message), unit)]
