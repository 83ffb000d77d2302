"""Packets from capture files: classic pcap and pcapng, both byte orders.

No link type is assigned to MCTP. libpcap takes Linux's "cooked" captures (113 and 276) for an interface whose type it does not
know, and there MCTP is known by its protocol number. Packets of another link type are taken for MCTP packets as they are, if that type
is named. A damaged file gives the packets before the damage.
"""
import collections
import itertools
import struct

from captures.told import Captured, Failure, counted, seen

COOKED_LINK, COOKED2_LINK = 113, 276
MCTP_PROTOCOL = 0x00FA                                      # Linux's ETH_P_MCTP
OUTGOING = 4                                                # Linux's PACKET_OUTGOING, in a cooked header
LARGEST_PACKET = 262144                                     # a longer packet is a damaged length
LARGEST_BLOCK = 16 * 1024 * 1024

# pcapng: types of blocks, codes of options
SECTION, INTERFACE, OLD_PACKET, SIMPLE, ENHANCED = 0x0A0D0D0A, 1, 2, 3, 6
COMMENT, FLAGS, INTERFACE_NAME, INTERFACE_WORDS, APPLICATION = 1, 2, 2, 3, 4
INBOUND, OUTBOUND = 1, 2
OURS = "capture.py to-pcap"                                 # the application's name in captures that are made here

# The first four bytes: kind, byte order. Both resolutions of time are read alike, since a log has no clock.
MAGICS = {
    b"\xd4\xc3\xb2\xa1": ("pcap", "<"), b"\x4d\x3c\xb2\xa1": ("pcap", "<"),
    b"\xa1\xb2\xc3\xd4": ("pcap", ">"), b"\xa1\xb2\x3c\x4d": ("pcap", ">"),
    b"\x0a\x0d\x0d\x0a": ("pcapng", None),
}
ORDERS = {b"\x4d\x3c\x2b\x1a": "<", b"\x1a\x2b\x3c\x4d": ">"}
OTHER_FILES = ((b"\x1f\x8b", "compressed with gzip: unpack it first"),
               (b"\x28\xb5\x2f\xfd", "compressed with zstd: unpack it first"),
               (b"\x34\xcd\xb2\xa1", "a pcap file of a modified form: save it as pcapng with Wireshark first"),
               (b"snoop", "a snoop file: save it as pcapng with Wireshark first"))
LINK_NAMES = {0: "BSD loopback", 1: "Ethernet", 101: "raw IP", 189: "USB of Linux", 199: "IPMB", 209: "I2C of Linux",
              220: "USB of Linux", 228: "raw IPv4", 249: "USBPcap", 291: "netANALYZER NG",
              **{number: "for private use" for number in range(147, 163)}}

# A packet as the file has it: its number from 1, where it begins, the link type, its bytes, how many there were on the wire, the
# direction that the file marks (INBOUND, OUTBOUND or None), and whether the file is one of ours.
Frame = collections.namedtuple("Frame", "number offset link data length mark ours")


class Damage(Exception):
    """Where and why a file can't be read further."""


class BadBlock(Exception):
    """Why a block of a file that goes on behind it gives no packet."""


class Source:
    """A stream that knows how far it was read."""

    def __init__(self, stream):
        self.stream, self.offset = stream, 0

    def take(self, length, what):
        """The next bytes, all of them."""
        data = self.stream.read(length)
        if len(data) < length:
            raise Damage(f"offset {self.offset}: the file ends in {what}: {len(data)} of {length} bytes are there")
        self.offset += length
        return data

    def take_or_end(self, length, what):
        """The next bytes, or none of them at the file's end."""
        data = self.stream.read(length)
        if data and len(data) < length:
            raise Damage(f"offset {self.offset}: the file ends in {what}: {len(data)} of {length} bytes are there")
        self.offset += len(data)
        return data


def link_words(link):
    """Why packets of this link type are refused, and what to do."""
    name = LINK_NAMES.get(link)
    return (f"link type {link}{f' ({name})' if name else ''} is not Linux cooked ({COOKED_LINK} or {COOKED2_LINK}): capture on the "
            "kernel's MCTP interface (tcpdump -i mctpi2c0 -w FILE), or bring the MCTP packets into lines of hex and use from-hex; if "
            f"the file's packets are MCTP packets with nothing in front, say so with --link {link}")


def uncooked(link, data):
    """Protocol, whether this side sent it, and the packet behind Linux's header; None if the header is cut."""
    if link == COOKED_LINK and len(data) >= 16:
        sort, protocol = struct.unpack_from(">H12xH", data)
        return protocol, sort == OUTGOING, data[16:]
    if link == COOKED2_LINK and len(data) >= 20:
        protocol, sort = struct.unpack_from(">H8xB", data)
        return protocol, sort == OUTGOING, data[20:]
    return None


# Classic pcap

def classic_frames(source, order, links):
    _, _, _, _, _, link = struct.unpack(order + "HHiIII", source.take(20, "the file's header"))
    link &= 0xFFFF                                          # the upper half tells of check bytes of other links
    if link not in links:
        raise Failure(link_words(link))
    for number in itertools.count(1):
        at = source.offset
        head = source.take_or_end(16, f"the header of packet {number}")
        if not head:
            return
        _, _, kept, length = struct.unpack(order + "IIII", head)
        if kept > LARGEST_PACKET:
            raise Damage(f"offset {at}: packet {number} would have {kept:,} bytes: the file is damaged here")
        yield Frame(number, at, link, source.take(kept, f"packet {number}"), length, None, False)


# pcapng

Block = collections.namedtuple("Block", "offset order kind body")


def blocks(source):
    """The blocks of the file; each section says its own byte order. The first four bytes were read already."""
    order, kind = None, b"\x0a\x0d\x0d\x0a"
    while kind:
        at = source.offset - 4
        size = source.take(4, "a block's header")
        begun = b""
        if kind == b"\x0a\x0d\x0d\x0a":
            begun = source.take(4, "a section's header")
            order = ORDERS.get(begun)
            if order is None:
                raise Damage(f"offset {at}: a section without its byte order mark")
        length, = struct.unpack(order + "I", size)
        if length < 12 + len(begun) or length % 4 or length > LARGEST_BLOCK:
            raise Damage(f"offset {at}: a block of {length:,} bytes: the file is damaged here")
        body = begun + source.take(length - 12 - len(begun), f"the block at offset {at}")
        if source.take(4, f"the block at offset {at}") != size:
            raise Damage(f"offset {at}: the block's two lengths differ: the file is damaged here")
        yield Block(at, order, struct.unpack(order + "I", kind)[0], body)
        kind = source.take_or_end(4, "a block's header")


def options(order, data):
    """Code and value of a block's options, as far as they can be read."""
    while len(data) >= 4:
        code, length = struct.unpack_from(order + "HH", data)
        if code == 0 or len(data) < 4 + length:
            return
        yield code, data[4:4 + length]
        data = data[4 + (length + 3) // 4 * 4:]


class Section:
    """The interfaces of a section, and whether we made it."""

    def __init__(self, block):
        self.links = []                                     # link type and snap length of each interface
        made_by = dict(options(block.order, block.body[16:])).get(APPLICATION, b"")
        self.ours = made_by.startswith(OURS.encode())

    def add(self, block):
        if len(block.body) >= 8:
            self.links.append(struct.unpack_from(block.order + "HxxI", block.body))
        else:
            self.links.append((None, 0))


def enhanced(block):
    """Interface, bytes, length on the wire and mark of a packet block; an error of struct if it is too short."""
    layout = "IIIII" if block.kind == ENHANCED else "HHIIII"
    fields = struct.unpack_from(block.order + layout, block.body)
    interface, kept, length = fields[0], fields[-2], fields[-1]
    data, rest = block.body[20:20 + kept], block.body[20 + (kept + 3) // 4 * 4:]
    flags = dict(options(block.order, rest)).get(FLAGS, b"")
    mark = struct.unpack(block.order + "I", flags)[0] & 3 if len(flags) == 4 else None
    return interface, kept, data, length, mark if mark in (INBOUND, OUTBOUND) else None


def simple(block, section):
    """The same of a simple packet block: interface 0, cut where its snap length says."""
    length, = struct.unpack_from(block.order + "I", block.body)
    snap = section.links[0][1] if section.links else 0
    kept = min(length, snap or length)
    return 0, kept, block.body[4:4 + kept], length, None


def ng_packet(block, section, number):
    """The packet of a block as a Frame. Raises BadBlock."""
    place = f"packet {number}, offset {block.offset}"
    try:
        interface, kept, data, length, mark = simple(block, section) if block.kind == SIMPLE else enhanced(block)
    except struct.error:
        raise BadBlock(f"{place}: its block is too short") from None
    if len(data) < kept:
        raise BadBlock(f"{place}: {len(data)} of {kept:,} bytes are in its block")
    if interface >= len(section.links):
        raise BadBlock(f"{place}: no interface {interface} was described")
    return Frame(number, block.offset, section.links[interface][0], data, length, mark, section.ours)


def ng_frames(source, links, teller):
    """The packets of all sections; those of interfaces with another link type are left out, and told."""
    section, number, found, refused = None, 0, False, collections.Counter()
    for block in blocks(source):
        if block.kind == SECTION:
            section = Section(block)
        elif block.kind == INTERFACE:
            section.add(block)
            found = found or section.links[-1][0] in links
        elif block.kind in (ENHANCED, OLD_PACKET, SIMPLE):
            number += 1
            try:
                frame = ng_packet(block, section, number)
            except BadBlock as bad:
                teller.fault(f"{bad}: left out")
                continue
            if frame.link in links:
                yield frame
            else:
                refused[frame.link] += 1
    for link, count in refused.items():
        if not found:
            raise Failure(link_words(link))
        teller.note(f"{counted(count, 'packet')} of an interface with link type {link} left out")


# Both

def frames(stream, links, teller):
    """The packets of a capture file that have one of these link types."""
    source = Source(stream)
    magic = stream.read(4)
    source.offset = len(magic)
    for begin, what in OTHER_FILES:
        if magic == begin[:4] or len(begin) < 4 and magic.startswith(begin):
            raise Failure(f"no pcap or pcapng file: it is {what}")
    if magic not in MAGICS:
        raise Failure(f"no pcap or pcapng file: it begins with {magic.hex(' ') or 'nothing'} (for lines of hex use from-hex)")
    kind, order = MAGICS[magic]
    try:
        yield from ng_frames(source, links, teller) if kind == "pcapng" else classic_frames(source, order, links)
    except Damage as damage:
        teller.fault(f"{damage}; nothing behind it is read")


class Reader:
    """The MCTP packets of a capture file, those of link type `bare` as they are; afterwards `counts` has what was found."""

    def __init__(self, stream, teller, side=None, bare=None):
        self.stream, self.teller, self.side, self.bare = stream, teller, side, bare
        self.counts = collections.Counter()

    def packets(self):
        for frame in frames(self.stream, (COOKED_LINK, COOKED2_LINK, self.bare), self.teller):
            self.counts["packets"] += 1
            place = f"packet {frame.number}"
            data, mark = frame.data, frame.mark
            if frame.link != self.bare:
                found = uncooked(frame.link, data)
                if found is None:
                    self.teller.fault(f"{place}, offset {frame.offset}: its Linux header is cut: left out")
                    continue
                protocol, outgoing, data = found
                if protocol != MCTP_PROTOCOL:
                    self.counts["other protocols"] += 1
                    continue
                mark = mark or (OUTBOUND if outgoing else INBOUND)
            if len(frame.data) < frame.length:
                self.teller.fault(f"{place}, offset {frame.offset}: cut by the capture's snap length, {len(frame.data)} of "
                                  f"{frame.length:,} bytes: it goes on as it is")
            yield Captured(place, data, self.direction(frame, mark))

    def direction(self, frame, mark):
        """Marks are used where we know from which side they are meant: in our own files, or if the side was named."""
        side = self.side or ("board" if frame.ours and frame.mark else None)
        if mark is None or side is None:
            return None
        self.counts["marked"] += 1
        return seen(mark == INBOUND, side)

    def summary(self):
        count = self.counts
        yield f"{counted(count['packets'], 'packet')} in the capture" + (
            f", {count['other protocols']:,} of other protocols than MCTP left out" if count["other protocols"] else "")
        if count["marked"]:
            yield f"directions: {count['marked']:,} by the capture's marks, meant from the side of the {self.side or 'board'}"
