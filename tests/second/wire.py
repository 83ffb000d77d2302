"""Bytes on the wire: the integrity check, EIDs and the transmission unit, packets and messages."""
from collections import namedtuple

LONGEST_MESSAGE = 4224      # "A message has 8 to 4,224 bytes with these four."


# The integrity check

def reflected(value, width):
    """The lowest `width` bits of value in the opposite order."""
    result = 0
    for _ in range(width):
        result = result << 1 | value & 1
        value >>= 1
    return result

def crc_table():
    """The effect of one byte on a register that is kept reflected: neither byte nor result is turned."""
    polynomial = reflected(0x1EDC6F41, 32)                  # "polynomial 1EDC6F41h"
    table = []
    for register in range(256):
        for _ in range(8):
            register = register >> 1 ^ (polynomial if register & 1 else 0)
        table.append(register)
    return tuple(table)

CRC_TABLE = crc_table()

def crc32c(data):
    """ "start FFFFFFFFh, bits of each byte reflected, result reflected and inverted." """
    table = CRC_TABLE
    register = 0xFFFFFFFF
    for byte in data:
        register = register >> 8 ^ table[(register ^ byte) & 0xFF]
    return register ^ 0xFFFFFFFF

def sealed(data):
    """ "The last four bytes are CRC-32C of everything before them, low byte first" """
    return bytes(data) + crc32c(data).to_bytes(4, "little")

def is_sealed(message):
    return sealed(message[:-4]) == message


# EIDs and the transmission unit: a full payload has U bytes. "Wherever 01 says 64 read U, and 68 read U + 4."

LEAST_EID, GREATEST_EID = 8, 254        # "EID 8 to 254"
LEAST_UNIT, GREATEST_UNIT = 64, 250     # "U from 64 to 250"
BASE_EID, BASE_UNIT = 8, 64             # "the state for EID 8, U 64"; "01's cases and log keep U 64"

def setup_values(eid, unit):
    """The answer of either end's setup, and the EID and U of the state beside it."""
    # "EID 8 to 254, else 38"; "Both setups [..] take U from 64 to 250, else 39, tested after 38;
    # beside either stands the state for EID 8, U 64."
    if not LEAST_EID <= eid <= GREATEST_EID:
        return 38, BASE_EID, BASE_UNIT
    if not LEAST_UNIT <= unit <= GREATEST_UNIT:
        return 39, BASE_EID, BASE_UNIT
    return 0, eid, unit

def longest_packet(unit):
    """Four header bytes, "Then 1 to 64 payload bytes."; so "68 read U + 4" """
    return 4 + unit


# Packets

PacketFields = namedtuple("PacketFields", "version destination source som eom sequence to tag")

def packet_fields(packet):
    """ "byte 0 low four bits = version 1 (high four ignored [..]); byte 1 destination EID;
    byte 2 source EID; byte 3: bit 7 SOM, bit 6 EOM, bits 5:4 sequence, bit 3 TO, bits 2:0 tag." """
    version, destination, source, marks = packet[0] & 15, packet[1], packet[2], packet[3]
    return PacketFields(version, destination, source,
                        marks >> 7, marks >> 6 & 1, marks >> 4 & 3, marks >> 3 & 1, marks & 7)

def packet_of(message, unit, number, destination, source, to, tag):
    """Packet `number` of a message, and whether it is the last: "full 64-byte payloads, then the
    rest; [..] sequence from 0 modulo 4, SOM and EOM at the ends"; for 64 "read U" """
    start = number * unit
    last = start + unit >= len(message)
    marks = (number == 0) << 7 | last << 6 | number % 4 << 4 | to << 3 | tag
    return bytes((1, destination, source, marks)) + message[start:start + unit], last


# Messages

# "NMIMT: 0 control, 1 MI command, 2 Admin, 4 PCIe."
CONTROL, MI, ADMIN, PCIE = 0, 1, 2, 4

# "shorter than 20 (MI), 72 (Admin) or 24 (PCIe): 05h"
LEAST = {MI: 20, ADMIN: 72, PCIE: 24}

MessageHeader = namedtuple("MessageHeader", "ror nmimt csi meb ciap")

def message_header(message):
    """ "Byte 1: bit 7 ROR, bits 6:3 NMIMT, bit 0 CSI (the slot). Byte 2: bit 0 MEB, bit 1 CIAP." """
    first, second = message[1], message[2]
    return MessageHeader(first >> 7, first >> 3 & 15, first & 1, second & 1, second >> 1 & 1)

def response(nmimt, csi, body):
    """ "The response header is 84h, then ROR 1 with the request's NMIMT and CSI, then two zeros;
    the check follows the body." """
    return sealed(bytes((0x84, 0x80 | nmimt << 3 | csi, 0, 0)) + bytes(body))

def error(status, byte=0, bit=0):
    """ "Status 04h is followed by the bit number, then the byte number in two bytes;
    other errors by three zeros." """
    return bytes((status, bit)) + byte.to_bytes(2, "little")


# Control primitives

PAUSE, RESUME, ABORT, GET_STATE, REPLAY = 0, 1, 2, 3, 4

ControlRequest = namedtuple("ControlRequest", "opcode tag cpsp")

def control_request(message):
    """ "Control request, 12 bytes: header, opcode, TAG, CPSP (2), check." """
    return ControlRequest(message[4], message[5], message[6] | message[7] << 8)

def control_message(csi, request):
    """The twelve bytes that `control_request` reads; "All other bits of bytes 1 to 3 are [..] zero on
    sending." """
    header = bytes((0x84, CONTROL << 3 | csi, 0, 0))
    return sealed(header + bytes((request.opcode, request.tag)) + request.cpsp.to_bytes(2, "little"))

def success(tag, cpsr):
    """ "Success reply: header, 00h, TAG, CPSR (2), check." """
    return bytes((0, tag)) + cpsr.to_bytes(2, "little")
