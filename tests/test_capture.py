#!/usr/bin/env python3
"""Tests of tools/capture.py. The second program stands for the log program, so that nothing has to be proved or built.

    python3 tests/test_capture.py
"""
import contextlib
import io
import os
import pathlib
import re
import signal
import struct
import subprocess
import sys
import tempfile
import unittest

HERE = pathlib.Path(__file__).resolve().parent
for folder in (HERE, HERE.parent / "tools"):
    sys.path.insert(0, str(folder))
from captures import cli, pcap, told  # noqa: E402
from records import POLL, ask, command, complete, packet, packets, take  # noqa: E402
from second import log as second_log  # noqa: E402
from second.wire import BASE_UNIT, GET_STATE, PAUSE, REPLAY, packet_of, response  # noqa: E402
from programs import LOG  # noqa: E402
from stored import stored_inputs  # noqa: E402

TOOL = HERE.parent / "tools" / "capture.py"
PACKET = bytes.fromhex("010809c9") + command()              # an MI command to EID 8
HEX = PACKET.hex()
REPLY = bytes((1, 9, 8, 0xC1)) + response(1, 0, bytes(4))   # its response
USER0 = 147                                                 # a link type for private use, here for MCTP packets as they are
COOKED = struct.pack(">HHH8xH", 0, 290, 0, 0xFA)
COOKED2 = struct.pack(">HHIHBB8x", 0xFA, 0, 1, 290, 0, 0)


def second_lines(path):
    """The second program's lines for the log at this path."""
    with open(path, "rb") as log:
        yield from map(str, second_log.log_lines(log))


def record(data):
    return b"\1" + len(data).to_bytes(2, "little") + data


def data_of(*made):
    """The packets of records that tests/records.py made."""
    return [each[3:] for each in made]


def response_packets(body, slot=0, tag=1, kind=1, source=8, unit=BASE_UNIT):
    """A response as the board's packets."""
    message, found, last = response(kind, slot, body), [], False
    while not last:
        made, last = packet_of(message, unit, len(found), destination=9, source=source, to=0, tag=tag)
        found.append(made)
    return found


def records_of(log):
    return list(second_log.records(io.BytesIO(log)))


class Case(unittest.TestCase):
    """Runs the tool in a folder of its own."""

    def setUp(self):
        folder = tempfile.TemporaryDirectory()
        self.addCleanup(folder.cleanup)
        self.folder = pathlib.Path(folder.name)

    def run_tool(self, *given, runner=second_lines):
        """Exit status, standard output and standard error."""
        out, said = io.StringIO(), io.StringIO()
        with contextlib.redirect_stdout(out), contextlib.redirect_stderr(said):
            try:
                status = cli.main([str(each) for each in given], runner)
            except SystemExit as end:
                status = end.code
        return status, out.getvalue(), said.getvalue()

    def made(self, command_name, data, *options, status=0):
        """The log that a command makes of these bytes, and what it says."""
        source, log = self.folder / "in", self.folder / "made.log"
        log.unlink(missing_ok=True)
        source.write_bytes(data if isinstance(data, bytes) else data.encode())
        found, _, said = self.run_tool(command_name, source, "-o", log, *options)
        self.assertEqual(found, status, said)
        return log.read_bytes() if log.exists() else b"", said

    def from_hex(self, text, *options, status=0):
        return self.made("from-hex", text, *options, status=status)

    def from_pcap(self, data, *options, status=0):
        return self.made("from-pcap", data, "--link", USER0, *options, status=status)


# Lines of hex

def spaced(separator, data=PACKET, prefix=""):
    return separator.join(f"{prefix}{byte:02x}" for byte in data)


ONE_LINE = {
    "no separator": HEX,
    "spaces": spaced(" "),
    "upper case": spaced(" ").upper(),
    "colons": spaced(":"),
    "dashes": spaced("-"),
    "0x once": "0x" + HEX,
    "0x each": spaced(" ", prefix="0x"),
    "0X and commas": spaced(", ", prefix="0x").replace("0x", "0X") + ",",
    "short bytes with 0x": " ".join(f"0x{byte:x}" for byte in PACKET),
    "groups of four digits": " ".join(HEX[at:at + 4] for at in range(0, len(HEX), 4)),
    "groups of eight digits": " ".join(HEX[at:at + 8] for at in range(0, len(HEX), 8)),
    "two spaces in the middle": spaced(" ", PACKET[:8]) + "  " + spaced(" ", PACKET[8:]),
    "header, then bytes": HEX[:8] + " " + spaced(" ", PACKET[4:]),
    "comment behind": HEX + "   # a command",
    "blank in front, carriage return behind": "  \t" + HEX + "\r",
    "seconds": "1.000123 " + HEX,
    "seconds in brackets": "[   12.000123] " + HEX,
    "seconds and comma": "0.5," + spaced(" "),
    "clock": "12:34:56.000001 " + spaced(" "),
    "clock and colons": "12:34:56.000001 " + spaced(":"),
    "date": "2024-05-01T12:34:56.789Z " + HEX,
    "date with space": "2024-05-01 12:34:56 " + spaced("-"),
    "date with offset": "2024-05-01T12:34:56.789+02:00 " + HEX,
    "date and comma": "2024-05-01 12:34:56," + HEX,
    "time without fraction, then a mark": "12:34:56 > " + spaced(" "),
    "mark and time": "> 12:34:56.5 " + HEX,
    "byte order mark": "\ufeff" + HEX,
}
MARKS = {**dict.fromkeys((">", "->", "-->", "in", "rx", "i", "RX:", "[in]"), told.TO_BOARD),
         **dict.fromkeys(("<", "<-", "<--", "out", "tx", "O", "TX:", "[out]"), told.FROM_BOARD)}
REFUSED_LINES = {
    "010809c": "odd number",
    "01 08 zz": "'zz' is no hex byte",
    "hello": "no hex byte",
    "01:08 09": "spaces and ':' stand between",
    "12:34:56,01 08 09 c9 84": "may be a time or three bytes",
    "01::08": "no byte beside it",
    "12:34:56 01 08 09 c9 84": "may be a time or three bytes",
    "12:34:56": "a time without a fraction, or three bytes",
    "12:34:56.5": "no bytes",
    "12:34:56.5 MCTP words": "no hex byte",
    ">": "no bytes",
    "00000010  84 08 00": "may be an offset or bytes",
    "0010: 84 08": "without the rows before it",
    "0000000 0801 c909 0884": "may be swapped",
    "*": "without the rows before it",
}


class HexLines(Case):
    def test_one_line_forms(self):
        for name, line in ONE_LINE.items():
            with self.subTest(name):
                self.assertEqual(self.from_hex(line + "\n")[0], record(PACKET))

    def test_marks(self):
        for mark, direction in MARKS.items():
            with self.subTest(mark):
                data = PACKET if direction == told.TO_BOARD else REPLY
                log, said = self.from_hex(f"1.5 {mark} {data.hex()}\n")
                self.assertEqual(log, record(PACKET) if direction == told.TO_BOARD else POLL)
                self.assertIn(direction, said)

    def test_mark_beats_header(self):
        other = bytes((1, 20, 9, 0xC9)) + command()
        self.assertEqual(self.from_hex(f"> {other.hex()}\n")[0], record(other))
        log, said = self.from_hex(f"rx {REPLY.hex()}\n")
        self.assertEqual(log, record(REPLY))
        self.assertIn("line 1: marked to the board, but its EIDs and TO say from the board; the mark is used", said)

    def test_seen_from_host(self):
        log, _ = self.from_hex(f"tx {HEX}\nrx {REPLY.hex()}\n> {HEX}\n", "--seen-from", "host")
        self.assertEqual(log, record(PACKET) + POLL + record(PACKET))

    def test_refused_lines(self):
        for line, reason in REFUSED_LINES.items():
            with self.subTest(line):
                log, said = self.from_hex(f"{HEX}\n{line}\n{HEX}\n", status=1)
                self.assertEqual(log, record(PACKET) * 2)
                self.assertRegex(said, f"line 2: not read: .*{re.escape(reason)}")
                self.assertIn("1 not read", said)

    def test_comments_and_blanks(self):
        log, said = self.from_hex(f"# a board\n\n   \n{HEX}\n  # the end")
        self.assertEqual(log, record(PACKET))
        self.assertIn("4 blank or comments, 0 not read", said)

    def test_summary_tells_readings(self):
        _, said = self.from_hex(f"12:00:00.1 > {HEX}\n12:00:00.2 < {REPLY.hex()}\n")
        self.assertIn("times in front, read as HH:MM:SS with a fraction (2): not used", said)
        self.assertIn("'>' to the board (1), '<' from the board (1)", said)
        self.assertIn("2 packets of one line each", said)

    def test_long_line(self):
        log, said = self.from_hex("00" * 40000 + "\n" + HEX + "\n", status=1)
        self.assertEqual(log, record(PACKET))
        self.assertIn("line 1: not read: longer than", said)

    def test_long_packet(self):
        log, said = self.from_hex("> " + "00" * 4300 + "\n> " + "00" * 4301 + "\n", status=1)
        self.assertEqual(log, record(bytes(4300)))
        self.assertIn("line 2: 4,301 bytes", said)

    def test_short_packet(self):
        log, said = self.from_hex("01 08\n> 01 08\n", status=1)
        self.assertEqual(log, record(b"\1\x08"))
        self.assertIn("line 1: 2 bytes and no direction", said)

    def test_other_files(self):
        for begin, words in ((b"\xd4\xc3\xb2\xa1", "use from-pcap"), (b"\n\r\r\n", "use from-pcap"), (b"\x1f\x8b\x08", "gzip"),
                             (b"\xff\xfe0\0", "UTF-16")):
            with self.subTest(words):
                (self.folder / "f").write_bytes(begin + bytes(20))
                status, _, said = self.run_tool("from-hex", self.folder / "f")
                self.assertEqual(status, 1)
                self.assertIn(words, said)


# Dumps

LONG = bytes((1, 8, 9, 0x89)) + bytes.fromhex("84080000") + b"#text and 0a0b  zero" + bytes(40)


def plain(data):
    return "".join(chr(byte) if 0x20 <= byte < 0x7F else "." for byte in data)


def xxd(data):
    for at in range(0, len(data), 16):
        row = data[at:at + 16]
        groups = " ".join(row[i:i + 2].hex() for i in range(0, len(row), 2))
        yield f"{at:08x}: {groups:39}  {plain(row)}"


def hexdump(data):
    last = None
    for at in range(0, len(data), 16):
        row = data[at:at + 16]
        if row == last and len(row) == 16:
            yield "*"
            continue
        last = row
        halves = spaced(" ", row[:8]) + "  " + spaced(" ", row[8:])
        yield f"{at:08x}  {halves:48}  |{plain(row)}|"
    yield f"{len(data):08x}"


def tcpdump(data, text=False):
    yield "12:34:56.789012 ethertype Unknown (0x00fa), length 84: "
    for at in range(0, len(data), 16):
        row = data[at:at + 16]
        groups = " ".join(row[i:i + 2].hex() for i in range(0, len(row), 2))
        yield f"\t0x{at:04x}:  {groups:39}  {plain(row)}" if text else f"\t0x{at:04x}:  {groups}"


def od(data):
    for at in range(0, len(data), 16):
        yield f"{at:06x} {spaced(' ', data[at:at + 16])}"
    yield f"{len(data):06x}"


def tshark(data):
    for at in range(0, len(data), 16):
        row = data[at:at + 16]
        yield f"{at:04x}  {spaced(' ', row):47}   {plain(row)}"
    yield ""


DUMPS = {"xxd": xxd, "hexdump -C": hexdump, "tcpdump -x": tcpdump, "tcpdump -X": lambda data: tcpdump(data, True), "od": od,
         "tshark": tshark}


class Dumps(Case):
    def test_dumps(self):
        wanted = [LONG, PACKET, LONG[:16], LONG[:33], bytes((1, 8, 9, 0xC9)) + bytes(64)]
        for name, form in DUMPS.items():
            with self.subTest(name):
                log, said = self.from_hex("".join(f"{line}\n" for data in wanted for line in form(data)), "--all")
                self.assertEqual(log, b"".join(map(record, wanted)))
                self.assertIn("5 packets of dumps with an offset column", said)

    def test_every_byte_in_text_columns(self):
        for first in range(0, 256, 12):
            data = bytes((1, 8, 9, 0xC9)) + bytes(byte & 0xFF for byte in range(first, first + 12))
            for name, form in DUMPS.items():
                with self.subTest(name, first=first):
                    self.assertEqual(self.from_hex("\n".join(form(data)))[0], record(data))

    def test_heading_has_time_and_mark(self):
        log, said = self.from_hex("\n".join(["1.5 <", *xxd(PACKET), "> 2.5", *xxd(PACKET)]))
        self.assertEqual(log, POLL + record(PACKET))
        self.assertIn("2 headings", said)

    def test_text_column_that_is_hex(self):
        data = bytes((1, 8, 9, 0xC9)) + b"abcd"
        self.assertEqual(self.from_hex("0000: 0108 09c9 6162 6364  ....abcd")[0], record(data))

    def test_broken_rows(self):
        rows = list(xxd(LONG))
        broken = {
            "a row is missing": (rows[:1] + rows[2:], "offset 20 where 10 was expected"),
            "no hex in a row": (rows[:1] + ["00000010: 01zz"] + rows[2:], "no hex byte"),
            "another text column": (list(hexdump(PACKET))[:1] + ["00000010  00 00  |ab|"], "does not say what the bytes say"),
            "octal offsets": ([f"0000000 {spaced(' ', LONG[:16])}", "0000020 00 00"], "offset 20 where 10 was expected"),
        }
        for name, (lines, reason) in broken.items():
            with self.subTest(name):
                log, said = self.from_hex("\n".join([*lines, "", HEX]), status=1)
                self.assertEqual(log, record(PACKET))
                self.assertIn(reason, said)
                self.assertIn("the packet from line 1 is left out", said)

    def test_bad_first_row_leaves_the_packet_above(self):
        log, said = self.from_hex("\n".join([*xxd(PACKET), "00000000: 01zz", "00000010: 0000", *xxd(LONG)]), status=1)
        self.assertEqual(log, record(PACKET) + record(LONG))
        self.assertIn("line 4: not read: a row of the packet from line 3, which is left out", said)
        self.assertIn("2 not read", said)

    def test_heading_of_another_dump_is_not_used(self):
        for between in ("00000000: 01zz", "words", HEX, ""):
            with self.subTest(between):
                log, _ = self.from_hex("\n".join(["1.5 <", between, *xxd(PACKET)]), status=1)
                self.assertTrue(log.endswith(record(PACKET)))

    def test_repeats_without_end(self):
        rows = list(hexdump(bytes((1, 8, 9, 0xC9)) + bytes(60)))
        log, said = self.from_hex("\n".join([rows[0], "*", "00000018", HEX]), status=1)
        self.assertEqual(log, record(PACKET))
        self.assertIn("'00000018' may be an offset or bytes: as an offset, 10 and a multiple of 10 more was expected", said)


# Capture files

def classic(frames, order="<", nano=False, link=USER0):
    """A pcap file of (bytes, length on the wire) or bytes."""
    made = struct.pack(order + "IHHiIII", 0xA1B23C4D if nano else 0xA1B2C3D4, 2, 4, 0, 0, 65535, link)
    for frame in frames:
        data, length = frame if isinstance(frame, tuple) else (frame, len(frame))
        made += struct.pack(order + "IIII", 7, 8, len(data), length) + data
    return made


def block(order, kind, body):
    body += bytes(-len(body) % 4)
    size = struct.pack(order + "I", len(body) + 12)
    return struct.pack(order + "I", kind) + size + body + size


def section(order="<", options=b""):
    return block(order, 0x0A0D0D0A, struct.pack(order + "IHHq", 0x1A2B3C4D, 1, 0, -1) + options)


def interface(order="<", link=USER0, snap=0, options=b""):
    return block(order, 1, struct.pack(order + "HHI", link, 0, snap) + options)


def enhanced(data, order="<", number=0, length=None, options=b""):
    length = len(data) if length is None else length
    return block(order, 6, struct.pack(order + "IIIII", number, 1, 2, len(data), length) + data + bytes(-len(data) % 4) + options)


def simple(data, order="<", length=None):
    return block(order, 3, struct.pack(order + "I", len(data) if length is None else length) + data)


def old(data, order="<"):
    return block(order, 2, struct.pack(order + "HHIIII", 0, 0, 1, 2, len(data), len(data)) + data)


def option(order, code, value):
    return struct.pack(order + "HH", code, len(value)) + value + bytes(-len(value) % 4)


class ClassicPcap(Case):
    def test_orders_and_resolutions(self):
        for order in "<>":
            for nano in (False, True):
                with self.subTest(order, nano=nano):
                    log, _ = self.from_pcap(classic([PACKET, REPLY, PACKET], order, nano))
                    self.assertEqual(log, record(PACKET) + POLL + record(PACKET))

    def test_cooked(self):
        other = struct.pack(">HHH8xH", 0, 1, 0, 0x0800) + bytes(20)
        log, said = self.from_pcap(classic([COOKED + PACKET, other], link=113))
        self.assertEqual(log, record(PACKET))
        self.assertIn("1 of other protocols than MCTP left out", said)
        self.assertEqual(self.from_pcap(classic([COOKED2 + PACKET], link=276))[0], record(PACKET))

    def test_cooked_marks(self):
        sent = struct.pack(">HHH8xH", 4, 290, 0, 0xFA)
        log, _ = self.from_pcap(classic([sent + LONG, COOKED + LONG], link=113), "--seen-from", "host")
        self.assertEqual(log, record(LONG) + POLL)

    def test_other_link(self):
        for link, words in ((1, "link type 1 (Ethernet)"), (209, "link type 209 (I2C of Linux)"), (9999, "link type 9999 is")):
            log, said = self.from_pcap(classic([PACKET], link=link), status=1)
            self.assertIn(words, said)
            self.assertIn("from-hex", said)
            self.assertEqual(self.from_pcap(classic([PACKET], link=link), "--link", link)[0], record(PACKET))

    def test_snap_length(self):
        log, said = self.from_pcap(classic([(PACKET[:10], len(PACKET)), PACKET]), status=1)
        self.assertEqual(log, record(PACKET[:10]) + record(PACKET))
        self.assertIn("packet 1, offset 24: cut by the capture's snap length, 10 of 24 bytes", said)

    def test_cut_anywhere(self):
        whole = classic([PACKET, PACKET])
        for at in range(len(whole)):
            with self.subTest(at):
                packets_before = max(0, at - 24) // 40
                log, said = self.from_pcap(whole[:at], status=0 if at in (24, 64) else 1)
                self.assertEqual(log, record(PACKET) * packets_before)
                if at >= 4 and at not in (24, 64):
                    self.assertRegex(said, "offset [0-9]+: the file ends in")

    def test_damaged_length(self):
        damaged = classic([PACKET, PACKET])
        damaged = damaged[:72] + b"\xff\xff\xff\x7f" + damaged[76:]
        log, said = self.from_pcap(damaged, status=1)
        self.assertEqual(log, record(PACKET))
        self.assertIn("offset 64: packet 2 would have 2,147,483,647 bytes", said)

    def test_no_capture(self):
        for data, words in ((b"", "begins with nothing"), (b"01 08 09", "use from-hex"), (b"\x1f\x8b\x08\0", "gzip")):
            self.assertIn(words, self.from_pcap(data, status=1)[1])


class Pcapng(Case):
    def test_orders(self):
        for order in "<>":
            with self.subTest(order):
                data = section(order) + interface(order) + enhanced(PACKET, order) + simple(REPLY, order) + old(PACKET, order)
                self.assertEqual(self.from_pcap(data)[0], record(PACKET) + POLL + record(PACKET))

    def test_sections_and_other_blocks(self):
        comment = option("<", 1, b"a comment") + option("<", 0, b"")
        data = (section("<", comment) + interface("<", options=comment) + block("<", 5, bytes(12))
                + enhanced(PACKET, options=comment) + section(">") + block(">", 4, bytes(8)) + interface(">") + enhanced(PACKET, ">"))
        self.assertEqual(self.from_pcap(data)[0], record(PACKET) * 2)

    def test_interfaces(self):
        data = section() + interface(link=1) + interface() + enhanced(bytes(60)) + enhanced(PACKET, number=1)
        log, said = self.from_pcap(data)
        self.assertEqual(log, record(PACKET))
        self.assertIn("1 packet of an interface with link type 1 left out", said)
        self.assertIn("link type 1 (Ethernet)", self.from_pcap(section() + interface(link=1) + enhanced(bytes(60)), status=1)[1])
        self.assertIn("no interface 3 was described", self.from_pcap(data + enhanced(PACKET, number=3), status=1)[1])

    def test_simple_is_cut_by_snap(self):
        log, said = self.from_pcap(section() + interface(snap=10) + simple(PACKET[:10], length=24), status=1)
        self.assertEqual(log, record(PACKET[:10]))
        self.assertIn("10 of 24 bytes", said)

    def test_snap_length(self):
        self.assertIn("10 of 24 bytes", self.from_pcap(section() + interface() + enhanced(PACKET[:10], length=24), status=1)[1])

    def test_cut_anywhere(self):
        whole = section() + interface() + enhanced(PACKET) + enhanced(PACKET)
        ends = [28, 48, 48 + 56, len(whole)]
        for at in range(4, len(whole)):
            with self.subTest(at):
                log, said = self.from_pcap(whole[:at], status=0 if at in ends else 1)
                self.assertEqual(log, record(PACKET) * (at >= ends[2]))
                if at not in ends:
                    self.assertRegex(said, "offset [0-9]+: the file ends in")

    def test_damage(self):
        before = section() + interface() + enhanced(PACKET)
        good = enhanced(PACKET)
        damaged = {
            "two lengths differ": good[:-4] + bytes(4),
            "a block of 13 bytes": good[:4] + b"\x0d\0\0\0" + good[8:],
            "a block of 2,": good[:4] + b"\0\0\0\x7f" + good[8:],
            "without its byte order mark": section()[:8] + bytes(4) + section()[12:],
        }
        for words, data in damaged.items():
            with self.subTest(words):
                log, said = self.from_pcap(before + data + good, status=1)
                self.assertEqual(log, record(PACKET))
                self.assertIn(f"offset {len(before)}: ", said)
                self.assertIn(words, said)

    def test_damaged_packet_block(self):
        bad = block("<", 6, struct.pack("<IIIII", 0, 0, 0, 400, 400) + PACKET)
        log, said = self.from_pcap(section() + interface() + bad + block("<", 6, bytes(8)) + enhanced(PACKET), status=1)
        self.assertEqual(log, record(PACKET))
        self.assertIn("packet 1, offset 48: 24 of 400 bytes are in its block", said)
        self.assertIn("packet 2, offset 104: its block is too short", said)

    def test_any_byte_damaged(self):
        whole = section() + interface() + enhanced(PACKET)
        for at in range(len(whole)):
            for value in (0, 0xFF):
                damaged = whole[:at] + bytes((value,)) + whole[at + 1:]
                status, said = self.run_tool("from-pcap", self.written(damaged), "-o", self.folder / "o")[::2]
                self.assertIn(status, (0, 1), said)

    def written(self, data):
        (self.folder / "f").write_bytes(data)
        return self.folder / "f"

    def test_flags_of_other_files_need_a_side(self):
        flags = option("<", 2, struct.pack("<I", 1)) + option("<", 0, b"")
        data = section() + interface() + enhanced(REPLY, options=flags)
        self.assertEqual(self.from_pcap(data)[0], POLL)
        self.assertEqual(self.from_pcap(data, "--seen-from", "board")[0], record(REPLY))


# Which packets, which records

class Making(Case):
    def of(self, packets_given, *options, status=0):
        return self.from_pcap(classic(packets_given), *options, status=status)

    def test_what_is_left_out(self):
        other, own = bytes((1, 20, 9, 0xC9)) + command(), bytes((1, 9, 8, 0xC9)) + command()
        foreign = [bytes((1, 9, 8, 0x82)) + bytes(64), bytes((1, 9, 8, 0x52)) + bytes(4)]
        log, said = self.of([other, own, *foreign, PACKET, REPLY])
        self.assertEqual(log, record(PACKET) + POLL)
        for words in ("1 between other EIDs", "1 the board's own requests", "2 of other message types"):
            self.assertIn(words, said)
        self.assertEqual(self.of([other, PACKET], "--all")[0], record(other) + record(PACKET))

    def test_something_in_front_is_told(self):
        _, said = self.of([b"\x3a\x0f\x19\x21" + PACKET + b"\x55", b"\x12" + PACKET, PACKET])
        self.assertIn("packet 1: begins with 3ah, which is not MCTP version 1; the SMBus bytes may still stand in front", said)
        self.assertIn("packet 2: begins with 12h, which is not MCTP version 1\n", said)
        self.assertNotIn("packet 3", said)

    def test_eid(self):
        asked = bytes((1, 10, 8, 0xC9)) + command()
        replied = bytes((1, 8, 10, 0xC1)) + response(1, 0, bytes(4))
        log, said = self.of([asked, replied], "--eid", "10")
        self.assertEqual(log, record(asked) + POLL)
        self.assertIn("it answers 13 to packets for EID 10; --readdress", said)
        log, said = self.of([asked, replied], "--eid", "0x0a", "--readdress")
        self.assertEqual(log, record(bytes((1, 8, 8, 0xC9)) + command()) + POLL)
        self.assertIn("destination 10 was written as 8", said)

    def test_readdress_makes_no_other_packet_ours(self):
        to_host = bytes((1, 8, 30, 0xC9)) + command()
        log, _ = self.of([to_host], "--eid", "10", "--readdress", "--all")
        self.assertEqual(log, record(bytes((1, 10, 30, 0xC9)) + command()))

    def test_wrong_eid_is_found(self):
        words = "no packet with TO 1 is for EID 8; they go to EID 10 (1): name the board's with --eid"
        self.assertIn(words, self.of([bytes((1, 10, 9, 0xC9)) + command()])[1])
        host_is_8 = [bytes((1, 10, 8, 0xC9)) + command(), bytes((1, 8, 10, 0xC1)) + response(1, 0, bytes(4))]
        self.assertIn(words, self.of(host_is_8)[1])
        self.assertNotIn(words, self.of([PACKET, REPLY])[1])

    def test_without_answer(self):
        log, said = self.of([PACKET, REPLY])
        self.assertEqual(log, record(PACKET) + POLL)
        self.assertIn("without --answer", said)

    def answered(self, given, *options, status=0):
        """The log with --answer; its polls must send just what was captured."""
        log, said = self.of(given, "--answer", *options, status=status)
        lines = list(second_log.log_lines(io.BytesIO(log)))
        sent = [line[2:] for line in lines if str(line).startswith("1 ")]
        return log, sent, said

    def test_answer(self):
        for size in (4, 56, 57, 120, 121, 1000, 4216):
            with self.subTest(size):
                body = bytes(i % 251 for i in range(size))
                parts = response_packets(body)
                log, sent, _ = self.answered([PACKET, *parts])
                self.assertEqual(log, record(PACKET) + take() + complete(body) + POLL * len(parts))
                self.assertEqual(sent, [part.hex() for part in parts])

    def test_answer_control_and_errors_at_once(self):
        asked, short, bad_kind = data_of(ask(GET_STATE), packet(command(19)), packet(command(kind=3, slot=1), tag=3))
        replies = [bytes((1, 9, 8, 0xC2)) + response(0, 0, bytes((0, 0x5A, 0, 0))),
                   bytes((1, 9, 8, 0xC1)) + response(1, 0, bytes((5, 0, 0, 0))),
                   bytes((1, 9, 8, 0xC3)) + response(3, 1, bytes((4, 3, 1, 0)))]
        log, sent, said = self.answered([asked, replies[0], short, replies[1], bad_kind, replies[2]])
        self.assertEqual([tag for tag, _ in records_of(log)], [1, 2] * 3)
        self.assertEqual(sent, [reply.hex() for reply in replies])
        self.assertIn("0 takes with a completion", said)

    def test_answer_two_slots(self):
        other, = data_of(packet(command(slot=1), tag=3))
        first, second = response_packets(bytes(100)), response_packets(bytes(range(100)), slot=1, tag=3)
        log, sent, _ = self.answered([PACKET, other, *second, *first])
        self.assertEqual([tag for tag, _ in records_of(log)], [1, 1, 4, 5, 2, 2, 4, 5, 2, 2])
        self.assertEqual(sent, [part.hex() for part in second + first])

    def test_answer_replay(self):
        asked, = data_of(ask(REPLAY))
        reply = bytes((1, 9, 8, 0xC2)) + response(0, 0, bytes((0, 0x5A, 1, 0)))
        parts = response_packets(bytes(range(100)))
        log, sent, said = self.answered([PACKET, *parts, asked, reply, *parts])
        self.assertEqual([tag for tag, _ in records_of(log)], [1, 4, 5, 2, 2, 1, 2, 2, 2])
        self.assertEqual(sent, [part.hex() for part in (*parts, reply, *parts)])
        self.assertNotIn("no command waiting", said)

    def test_answer_with_packets_between(self):
        asked, = data_of(ask(PAUSE, slot=1))
        reply = bytes((1, 9, 8, 0xC2)) + response(0, 1, bytes((0, 0x5A, 1, 0)))
        parts = response_packets(bytes(100))
        log, _, _ = self.answered([PACKET, parts[0], asked, reply, parts[1]])
        self.assertEqual([tag for tag, _ in records_of(log)], [1, 4, 5, 2, 1, 2, 2])

    def test_answer_response_not_whole(self):
        parts = response_packets(bytes(range(200)))
        for kept, given in (("end", parts[:2]), ("gap", [parts[0], parts[1], parts[3]]), ("again", parts[:2] + [REPLY])):
            with self.subTest(kept):
                _, sent, said = self.answered([PACKET, *given])
                self.assertEqual(sent[:2], [part.hex() for part in parts[:2]])
                self.assertIn("packet 2: the response that begins here is not whole in the capture", said)

    def test_answer_keeps_little(self):
        """A response that never ends holds back a bounded number of packets."""
        begun = response_packets(bytes(200))[0]
        log, _, said = self.answered([PACKET, begun] + [PACKET] * 3000)
        self.assertEqual(len(records_of(log)), 3004)

    def test_answer_check_wrong(self):
        damaged = REPLY[:-1] + bytes((REPLY[-1] ^ 1,))
        _, sent, said = self.answered([PACKET, damaged])
        self.assertEqual(sent, [REPLY.hex()])
        self.assertIn("packet 2: the integrity check of the response that begins here is wrong", said)

    def test_answer_no_command(self):
        log, sent, said = self.answered([REPLY])
        self.assertEqual((log, sent), (POLL, []))
        self.assertIn("who has no command waiting in the endpoint", said)

    def test_answer_body_too_short(self):
        tiny = bytes((1, 9, 8, 0xC1)) + response(1, 0, bytes(3))
        log, _, said = self.answered([PACKET, tiny])
        self.assertEqual(log, record(PACKET) + POLL)
        self.assertIn("no completion takes a response of 11 bytes", said)


# A board beside the endpoint

class Check(Case):
    def check(self, given, *options):
        source = self.folder / "board.txt"
        source.write_text("".join(f"{data.hex()}\n" for data in given))
        return self.run_tool("check", source, *options)

    def test_same(self):
        parts = response_packets(bytes(range(200)))
        status, out, said = self.check([PACKET, *parts])
        self.assertEqual((status, out), (0, "packets: 4 the same; 0 other than the endpoint's; 0 not sent by the endpoint; "
                                            "0 sent by the endpoint alone; 0 to the board and refused by the endpoint\n"), said)

    def test_differs(self):
        asked, = data_of(ask(GET_STATE))
        other = bytes((1, 9, 8, 0xC2)) + response(0, 0, bytes((0, 0x5A, 8, 0)))
        status, out, _ = self.check([asked, other, PACKET, REPLY])
        self.assertEqual(status, 1)
        self.assertIn("differs  line 2: first at byte 10, in the payload: 08 of the board, 00 of the endpoint", out)
        self.assertIn("1 the same; 1 other", out)

    def test_sequence_differs(self):
        status, out, _ = self.check([PACKET, REPLY[:3] + b"\xd1" + REPLY[4:]])
        self.assertEqual(status, 1)
        self.assertIn("first at byte 3, in the MCTP header: d1 of the board, c1 of the endpoint", out)
        self.assertIn("0 the same; 1 other than the endpoint's; 0 not", out)

    def test_missing(self):
        status, out, _ = self.check([REPLY, PACKET, REPLY])
        self.assertEqual(status, 1)
        self.assertIn(f"missing  line 1: the endpoint sends nothing here; the board sent {REPLY.hex()}", out)
        self.assertIn("1 the same; 0 other than the endpoint's; 1 not sent", out)

    def test_replay(self):
        asked, = data_of(ask(REPLAY))
        reply = bytes((1, 9, 8, 0xC2)) + response(0, 0, bytes((0, 0x5A, 1, 0)))
        status, out, _ = self.check([PACKET, REPLY, asked, reply, REPLY])
        self.assertEqual(status, 0, out)
        self.assertIn("3 the same; 0 other", out)
        status, out, _ = self.check([PACKET, REPLY, asked, reply])
        self.assertEqual(status, 1)
        self.assertIn(f"extra    at the end: the endpoint sends {REPLY.hex()}", out)

    def test_extra_in_the_middle_and_at_the_end(self):
        asked, = data_of(ask(GET_STATE))
        status, out, _ = self.check([asked, PACKET, REPLY, asked])
        self.assertEqual(status, 1)
        self.assertIn("extra    before line 3: the endpoint sends 010908c2", out)
        self.assertIn("extra    at the end: the endpoint sends 010908c2", out)
        self.assertIn("1 the same; 0 other than the endpoint's; 0 not sent by the endpoint; 2 sent", out)

    def test_refused(self):
        status, out, _ = self.check([bytes((1, 8, 9, 0xC9, 0, 0)), PACKET, REPLY])
        self.assertEqual(status, 0)
        self.assertIn("refused  line 1: answer 15: the first byte is not 84h, or ROR is 1", out)
        self.assertIn("1 to the board and refused", out)

    def test_larger_unit(self):
        """A board behind a bridge of unit 250: what is above 68 bytes is refused, or other than the endpoint's."""
        parts = response_packets(bytes(range(200)), unit=250)
        status, out, said = self.check([*data_of(*packets(command(300), unit=250)), *parts])
        self.assertEqual(status, 1, said)
        self.assertIn("refused  line 1: answer 11: the packet is longer than the 68 bytes that unit 64 "
                      "allows (flag bit 6)\n", out)
        self.assertIn("refused  line 2: answer 21: ", out)
        self.assertIn("missing  line 3: the endpoint sends nothing here", out)
        status, out, said = self.check([PACKET, *parts])
        self.assertEqual(status, 1, said)
        self.assertIn("differs  line 2: first at byte 3, in the MCTP header: c1 of the board, 81 of the endpoint", out)
        self.assertIn("3 sent by the endpoint alone", out)

    def test_readdressed(self):
        asked = bytes((1, 10, 9, 0xC9)) + command()
        replied = REPLY[:2] + b"\x0a" + REPLY[3:]
        self.assertEqual(self.check([asked, replied], "--eid", "10", "--readdress")[0], 0)
        status, _, said = self.check([asked, replied], "--eid", "10")
        self.assertEqual(status, 1)
        self.assertIn("needs --readdress", said)

    def test_captures(self):
        source = self.folder / "board.pcap"
        for data in (classic([PACKET, REPLY]), section() + interface() + enhanced(PACKET) + enhanced(REPLY)):
            source.write_bytes(data)
            self.assertEqual(self.run_tool("check", source, "--link", USER0)[0], 0)


# Captures from logs

class Writing(Case):
    def to_pcap(self, log, *options, status=0):
        source, out = self.folder / "in.log", self.folder / "out.pcap"
        source.write_bytes(log)
        found, _, said = self.run_tool("to-pcap", source, "-o", out, *options)
        self.assertEqual(found, status, said)
        return out.read_bytes(), said

    def options_of(self, data):
        """The options of each packet block, by code."""
        with (self.folder / "o").open("wb+") as stream:
            stream.write(data)
            stream.seek(4)
            source = pcap.Source(stream)
            source.offset = 4
            for each in pcap.blocks(source):
                if each.kind == pcap.ENHANCED:
                    kept, = struct.unpack_from("<I", each.body, 12)
                    yield list(pcap.options("<", each.body[20 + (kept + 3) // 4 * 4:]))

    def test_stored_logs_come_back(self):
        for stored in stored_inputs(LOG):
            wanted = [body for tag, body in records_of(stored.input) if tag == 1]
            sent = [line[2:] for line in stored.output.decode().splitlines() if line.startswith("1 ")]
            bad = b"bad" in stored.output
            for options, back in (([], []), (["--link", USER0], []), (["--classic"], ["--seen-from", "board"])):
                with self.subTest(stored.name, options=options):
                    capture, _ = self.to_pcap(stored.input, *options, status=bad)
                    log, said = self.from_pcap(capture, *back)
                    tags = records_of(log)
                    self.assertEqual([body for tag, body in tags if tag == 1], wanted, said)
                    self.assertEqual(sum(tag == 2 for tag, _ in tags), len(sent))

    def test_stored_logs_by_hex_lines(self):
        for stored in stored_inputs(LOG):
            with self.subTest(stored.name):
                lines, wanted = [], b""
                for (tag, body), line in zip(records_of(stored.input), stored.output.decode().splitlines()):
                    if tag == 1 and body:
                        lines.append(f"> {body.hex()}")
                        wanted += record(body)
                    elif line.startswith("1 "):
                        lines.append(f"< {line[2:]}")
                        wanted += POLL
                self.assertEqual(self.from_hex("\n".join(lines))[0], wanted)

    def test_stored_captures_checked(self):
        """A capture of the endpoint itself, without what no wire shows, is the endpoint's."""
        for name in ("body-57", "body-4216", "at-once-meb", "turns", "length-4300", "two-assemblies"):
            with self.subTest(name):
                log = (HERE / "logs" / "base" / f"{name}.log").read_bytes()
                (self.folder / "c").write_bytes(self.to_pcap(log)[0])
                status, out, _ = self.run_tool("check", self.folder / "c")
                self.assertNotIn("differs", out)

    def test_comments_and_directions(self):
        log = b"".join([packet(command(), destination=9), packet(command()), take(), complete(bytes(4)), POLL, POLL])
        found = list(self.options_of(self.to_pcap(log)[0]))
        self.assertEqual([dict(each)[2] for each in found], [b"\1\0\0\0", b"\1\0\0\0", b"\2\0\0\0"])
        comments = [[value.decode() for code, value in each if code == 1] for each in found]
        self.assertEqual(comments, [["record 1, answer 13: the destination is not our EID (flag bit 8)"],
                                    ["record 2, answer 1: a command is complete"],
                                    ["record 5, answer 1: a packet goes out",
                                     "before it: record 3, take of slot 0, answer 0: taken; "
                                     "record 4, completion of slot 0, answer 0: completed"]])

    def test_many_calls_before_a_packet(self):
        found = list(self.options_of(self.to_pcap(take() * 20 + packet(command()))[0]))
        comments = [value.decode() for code, value in found[0] if code == 1]
        self.assertEqual(comments[1].count("take of slot 0"), 8)
        self.assertTrue(comments[1].endswith("; 12 more"))

    def test_clock_is_told(self):
        capture, said = self.to_pcap(packet(command()))
        self.assertIn(b"the clock is made up", capture)
        self.assertIn("the clock is made up", said)

    def test_link_types(self):
        for options, place, link in ((["--classic"], 20, 113), (["--classic", "--link", USER0], 20, USER0)):
            capture, _ = self.to_pcap(b"", *options)
            self.assertEqual(struct.unpack_from("<I", capture, place), (link,))

    def test_bad_log(self):
        capture, said = self.to_pcap(packet(command()) + b"\7\0\0", status=1)
        self.assertEqual(self.from_pcap(capture)[0], record(PACKET))
        self.assertIn("record 2 of the log is bad", said)

    def test_words_for_every_answer(self):
        """Every number of docs/ANSWERS.md that a log can show has words."""
        text = (HERE.parent / "docs" / "ANSWERS.md").read_text()
        text = text[:text.index("\n## The requester")]  # no record of a log is the requester's
        numbers = {int(number) for number in re.findall(r"^\| (\d+) \|", text, re.MULTILINE)} - {0, 1, 2, 36, 38, 39, 40}
        self.assertLessEqual(numbers, set(told.REFUSALS))


# What can go wrong around it

class Surroundings(Case):
    def test_missing_file_and_folder(self):
        for name in ("from-hex", "from-pcap", "check", "to-pcap"):
            for path, words in ((self.folder / "none", "No such file"), (self.folder, "directory")):
                with self.subTest(name, path=path):
                    status, _, said = self.run_tool(name, path, *([] if name == "check" else ["-o", self.folder / "o"]))
                    self.assertEqual(status, 1)
                    self.assertIn(words, said)

    def test_output_can_not_be_written(self):
        (self.folder / "in").write_text(HEX)
        for path, words in ((self.folder, "can't be written"), (self.folder / "none" / "o", "can't be written"),
                            (self.folder / "in", "is the input")):
            status, _, said = self.run_tool("from-hex", self.folder / "in", "-o", path)
            self.assertEqual(status, 1)
            self.assertIn(words, said)
        self.assertEqual((self.folder / "in").read_text(), HEX)

    def test_log_program_fails(self):
        def fails(path):
            yield "1"
            raise told.Failure("mi-log ended with status 1")
        (self.folder / "in").write_bytes(record(PACKET) + POLL)
        status, _, said = self.run_tool("to-pcap", self.folder / "in", "-o", self.folder / "o", runner=fails)
        self.assertEqual(status, 1)
        self.assertIn("mi-log ended with status 1", said)
        self.assertEqual(self.run_tool("to-pcap", self.folder / "in", "-o", self.folder / "o", runner=lambda _: iter(["1"]))[0], 1)

    def test_failure_leaves_the_output_alone(self):
        def fails(path):
            raise told.Failure("no log program")
            yield
        (self.folder / "in").write_bytes(record(PACKET))
        (self.folder / "o").write_text("kept")
        for given in (["to-pcap", self.folder / "in"], ["from-pcap", self.folder / "in"], ["from-hex", self.folder / "in"]):
            with self.subTest(given[0]):
                self.assertEqual(self.run_tool(*given, "-o", self.folder / "o", runner=fails)[0], 1)
                self.assertEqual((self.folder / "o").read_text(), "kept")

    def test_a_log_is_no_capture(self):
        (self.folder / "in").write_bytes(record(PACKET))
        for name in ("from-hex", "check"):
            self.assertIn("looks like a log", self.run_tool(name, self.folder / "in")[2])

    def test_many_notes_are_counted(self):
        log, said = self.from_pcap(classic([REPLY] * 50), "--answer")
        self.assertEqual(said.count("who has no command waiting"), 3)
        self.assertIn("responses without a waiting command: 50 in all", said)

    def test_wrong_arguments(self):
        for given in ([], ["from-hex"], ["from-hex", "-", "--eid", "256"], ["from-hex", "-", "--eid", "x"], ["other"]):
            self.assertEqual(self.run_tool(*given)[0], 2)

    def test_pipes(self):
        ran = subprocess.run([sys.executable, "-B", TOOL, "from-hex", "-"], input=HEX.encode() + b"\n", capture_output=True)
        self.assertEqual((ran.returncode, ran.stdout), (0, record(PACKET)))

    def test_stopped(self):
        # a shell that starts the tests in the background has its children ignore the signal, so it is set back
        with subprocess.Popen([sys.executable, "-B", TOOL, "from-hex", "-", "-o", self.folder / "o"], stdin=subprocess.PIPE,
                              stderr=subprocess.PIPE,
                              preexec_fn=lambda: signal.signal(signal.SIGINT, signal.SIG_DFL)) as running:
            running.stdin.write(b"words\n")
            running.stdin.flush()
            self.assertIn(b"line 1: not read", running.stderr.readline())
            running.send_signal(signal.SIGINT)
            self.assertEqual(running.stderr.read(), b"capture.py: stopped\n")
        self.assertEqual(running.returncode, 130)

    def test_closed_output(self):
        reading, writing = os.pipe()
        os.close(reading)
        lines = f"{HEX}\n".encode() * 20000
        ran = subprocess.run([sys.executable, "-B", TOOL, "from-hex", "-"], input=lines, stdout=writing, stderr=subprocess.PIPE)
        os.close(writing)
        self.assertEqual((ran.returncode, ran.stderr), (1, b"capture.py: the output was closed\n"))


# The examples of docs/CAPTURES.md

def blocks_of(text):
    """The line above each indented block, and the block's lines."""
    for found in re.finditer(r"^(\S.*)\n\n((?:    .*\n|\n(?=    ))+)", text, re.MULTILINE):
        yield found[1], [line[4:] for line in found[2].splitlines()]


def commands_of(lines):
    """Each command of a block, and the lines below it."""
    found = []
    for line in lines:
        if line.startswith("$ "):
            found.append((line[2:], []))
        elif found:
            found[-1][1].append(line)
    return found


class Examples(Case):
    def test_examples(self):
        tried = 0
        for above, lines in blocks_of((HERE.parent / "docs" / "CAPTURES.md").read_text()):
            name = re.search(r"\(`(.*)`\):$", above)
            if name:
                (self.folder / name[1]).write_text("\n".join(lines[:lines.index("")]) + "\n")
            for line, wanted in commands_of(lines):
                with self.subTest(line):
                    printed = self.printed(line.split())
                    if printed is not None:
                        self.assertEqual(printed, wanted)
                        tried += 1
        self.assertEqual(tried, 5)

    def printed(self, words):
        """What a command prints; None for one of another program."""
        if words[0] == "./mi-log":
            return list(second_lines(self.folder / words[2]))
        if words[0] != "tools/capture.py":
            return None
        given = [HERE.parent / word if word.startswith("tests/") else self.folder / word if re.search(r"\.\w+$", word) else word
                 for word in words[1:]]
        _, out, said = self.run_tool(*given)
        return (said + out).splitlines()


if __name__ == "__main__":
    unittest.main()
