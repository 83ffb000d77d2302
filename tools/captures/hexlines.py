"""Packets from text: lines of hex with a packet each, and dumps with an offset column.

A line is [time] [direction] bytes; time and direction may stand in either order. A dump's rows begin with their offset, and offset
0 begins a packet. Where a line can be read in two ways it is refused, with the reason; no way is picked silently.
"""
import collections
import itertools
import re

from captures.told import FROM_BOARD, TO_BOARD, Captured, counted, seen

LONGEST_LINE = 65536
LONGEST_PACKET = 4300               # what a log can hold

TIME = re.compile(r"""[\[(]?\s*(?:
      (?P<date>  \d{4}-\d\d-\d\d[T\ ]\d\d:\d\d:\d\d(?:\.\d+)?(?:\ ?(?:Z|[+-]\d\d:?\d\d))? )
    | (?P<clock> \d\d?:\d\d:\d\d\.\d+ )
    | (?P<bare>  (?:[01]\d|2[0-3]):[0-5]\d:[0-5]\d )
    | (?P<seconds> \d+\.\d+s? )
    )\s*[\])]?(?:[,;]|:?(?=\s|$))""", re.VERBOSE)
TIME_FORMS = {"date": "a date and time", "clock": "HH:MM:SS with a fraction", "bare": "HH:MM:SS", "seconds": "seconds"}
MARK = re.compile(r"[\[(]?(?P<mark>-{1,2}>|<-{1,2}|=>|<=|[<>]|(?:in|out|rx|tx|i|o)(?=[\s:\])]|$))[\])]?:?", re.IGNORECASE)
OFFSET = re.compile(r"(?P<prefix>0x)?(?P<offset>[0-9a-f]{4,8})(?P<colon>:)?(?=\s|$)", re.IGNORECASE)
TOKEN = re.compile(r"(?P<prefix>0x)?(?P<digits>[0-9a-f]+)", re.IGNORECASE)
SEPARATORS = {":": "':'", "-": "'-'", " ": "spaces"}

# What a line is: a packet's bytes, a dump's row, the mark for rows that repeat, a line that only stands above a dump, nothing.
Bytes = collections.namedtuple("Bytes", "form mark data")
Row = collections.namedtuple("Row", "offset data")
Repeated = collections.namedtuple("Repeated", "")
Heading = collections.namedtuple("Heading", "form mark why")
Nothing = collections.namedtuple("Nothing", "")


class Unreadable(Exception):
    """Why a line can't be read."""


def hex_bytes(text):
    """The bytes of hex digits with or without one kind of separator between them."""
    text = text.strip(" \t,")
    kinds = {found if found in ":-" else " " for found in re.findall(r"[:\-]|[\s,]+", text)}
    if len(kinds) > 1:
        raise Unreadable(f"{' and '.join(SEPARATORS[kind] for kind in sorted(kinds))} stand between the bytes of one line")
    return b"".join(token_bytes(token) for token in re.split(r"[:\-]|[\s,]+", text))


def token_bytes(token):
    """The bytes of digits without a separator."""
    found = TOKEN.fullmatch(token)
    if not found:
        raise Unreadable(f"'{token[:40]}' is no hex byte" if token else "a separator with no byte beside it")
    digits = found["digits"]
    if len(digits) == 1 and found["prefix"]:
        digits = "0" + digits
    if len(digits) % 2:
        raise Unreadable(f"'{token[:40]}' has an odd number of hex digits")
    return bytes.fromhex(digits)


def says(text, data):
    """Whether a dump's text column is that of the bytes; any byte may be shown as a point."""
    plain = "".join(chr(byte) if 0x20 <= byte < 0x7F else "." for byte in data)
    return any(len(shown) == len(real) and all(a in (".", b) for a, b in zip(shown, real))
               for shown, real in ((text, plain), (text.strip(), plain.strip()), (text.strip(), plain.replace(" ", "."))))


def row_bytes(after):
    """The bytes of a dump's row. A text column may follow: it is known by saying what the bytes say."""
    text = after.strip()
    bars = re.fullmatch(r"([^|]*)\|(.*)\|", text)
    if bars:
        data = hex_bytes(bars[1])
        if not says(bars[2], data):
            raise Unreadable("the text column does not say what the bytes say")
        return data
    for gap in re.finditer(r"\s{2,}", text):
        shown = text[gap.end():]
        try:
            data = hex_bytes(text[:gap.start()])
        except Unreadable:
            break
        if says(shown, data) or shown[0] + shown[-1] == "><" and says(shown[1:-1], data):
            return data
    return hex_bytes(text)


def row_offset(text, dump):
    """The offset of a row and what follows it, or None if the line is no row. `dump` is the open one, or None."""
    found = OFFSET.match(text)
    if not found or found["prefix"] and not found["colon"]:
        return None
    digits, after = found["offset"], text[found.end():]
    offset = int(digits, 16)
    goes_on = dump is not None and dump.goes_on_at(offset)
    if found["colon"] or goes_on and not after.strip():     # the last line of a dump is its length alone
        return offset, after
    if not re.match(r"\s+[0-9a-f]{2}(\s|$)", after, re.IGNORECASE):
        if len(digits) == 7 and after.strip() and (offset == 0 or goes_on):
            raise Unreadable("words of hexdump or od, whose bytes may be swapped: use hexdump -C or od -A x -t x1")
        if dump is None or after.strip():
            return None
    elif offset == 0 or goes_on or len(digits) % 2:
        return offset, after
    if offset < LONGEST_PACKET:
        raise Unreadable(f"'{digits}' may be an offset or bytes: as an offset, {dump.next if dump else '0'} was expected")
    return None


def row_of(text, dump):
    """The row of a dump, or None."""
    found = row_offset(text, dump)
    if found is None:
        return None
    offset, after = found
    if not after.strip():
        return Row(offset, b"")
    try:
        return Row(offset, row_bytes(after))
    except Unreadable:
        if "#" not in after:
            raise
        return Row(offset, row_bytes(after.partition("#")[0]))


def prefix_of(text):
    """The form of the time in front, the direction's mark, and the rest."""
    form = mark = None
    while text:
        if form is None and (found := TIME.match(text)):
            form = found.lastgroup
        elif mark is None and (found := MARK.match(text)):
            mark = found["mark"].lower()
        else:
            break
        text = text[found.end():].lstrip(" \t,;")
    return form, mark, text


def part_of(line, dump=None):
    """What a line is, below the rows of the open dump. Raises Unreadable."""
    text = line.strip()
    if not text or text.startswith("#"):
        return Nothing()
    if text == "*":
        return Repeated()
    row = row_of(text, dump)
    if row is not None:
        return row
    form, mark, rest = prefix_of(text.partition("#")[0].rstrip())
    if not rest:
        return Heading(form, mark, "a time without a fraction, or three bytes" if (form, mark) == ("bare", None) else "no bytes")
    try:
        data = hex_bytes(rest)
    except Unreadable as why:
        if form is None:
            raise
        return Heading(form, None, str(why))                # tcpdump has a line of words above a dump
    if (form, mark) == ("bare", None):
        raise Unreadable("the first column may be a time or three bytes: give the time a fraction, or remove it")
    return Bytes(form, mark, data)


class Dump:
    """A packet whose rows are being read."""

    def __init__(self, place, direction):
        self.place, self.direction = place, direction
        self.data, self.last, self.repeats = bytearray(), b"", False

    @property
    def next(self):
        """The offset that the next row must have, in words."""
        return f"{len(self.data):x}" + (f" and a multiple of {len(self.last):x} more" if self.repeats else "")

    def goes_on_at(self, offset):
        """Whether a row with this offset goes on from the last one; after `*`, with copies of the last one between."""
        gap = offset - len(self.data)
        return 0 < gap <= LONGEST_PACKET and gap % len(self.last) == 0 if self.repeats else gap == 0

    def add(self, row):
        if not self.goes_on_at(row.offset):
            raise Unreadable(f"offset {row.offset:x} where {self.next} was expected (offsets are read as hexadecimal)")
        if self.repeats:
            self.data += self.last * ((row.offset - len(self.data)) // len(self.last))
        self.repeats = False
        self.last = row.data
        self.data += row.data


class Reader:
    """The packets of lines; afterwards `counts` has what the lines were read as."""

    def __init__(self, stream, teller, side=None):
        self.stream, self.teller, self.side = stream, teller, side
        self.counts = collections.Counter()
        self.dump = self.heading = None
        self.leaving = None                                 # the dump whose remaining rows are left out

    def packets(self):
        for number, line in self.lines():
            try:
                yield from self.line(number, line)
            except Unreadable as why:
                self.no_dump_came()
                self.unread(number, why)
        yield from self.closed()
        self.no_dump_came()

    def lines(self):
        """Number and text of each line."""
        for number in itertools.count(1):
            line = self.stream.readline(LONGEST_LINE + 1)
            if not line:
                return
            if number == 1:
                line = line.removeprefix(b"\xef\xbb\xbf")   # a byte order mark
            self.counts["lines"] += 1
            if len(line) > LONGEST_LINE:
                while line and not line.endswith(b"\n"):
                    line = self.stream.readline(LONGEST_LINE)
                self.unread(number, f"longer than {LONGEST_LINE:,} bytes")
                continue
            yield number, line.decode("utf-8", errors="replace")

    def line(self, number, line):
        """The packets that are whole with this line."""
        try:
            part = part_of(line, self.dump)
        except Unreadable as why:
            offset = offset_of(line)
            if offset == 0:                                 # the packet above is whole, the one that begins here is not
                yield from self.closed()
                self.heading, self.leaving = None, f"line {number}"
            elif self.dump and offset is not None:
                self.leave(why)
            raise
        if isinstance(part, Row) and part.data and part.offset == 0:
            yield from self.closed()
            self.begin(number)
        if isinstance(part, (Row, Repeated)):
            self.row(part)
            if part == Row(len(self.dump.data), b""):       # the dump's last line
                yield from self.closed()
            return
        yield from self.closed()
        self.no_dump_came()
        if isinstance(part, Heading):
            self.heading = number, part
        elif isinstance(part, Bytes):
            self.counts["lines with a packet"] += 1
            yield Captured(f"line {number}", part.data, self.direction(part))
        else:
            self.counts["blank or comments"] += 1

    def row(self, part):
        """Takes in a row of the open dump."""
        if self.leaving:
            raise Unreadable(f"a row of the packet from {self.leaving}, which is left out")
        if not self.dump:
            raise Unreadable("a row of a dump without the rows before it")
        self.counts["rows"] += 1
        if isinstance(part, Repeated):
            self.dump.repeats = True
            return
        try:
            self.dump.add(part)
            if len(self.dump.data) > LONGEST_PACKET:
                raise Unreadable(f"more than {LONGEST_PACKET:,} bytes in one dump")
        except Unreadable as why:
            self.leave(why)

    def begin(self, number):
        """A dump begins; the line above may say its time and direction."""
        direction = None
        if self.heading:
            self.counts["headings"] += 1
            direction = self.direction(self.heading[1])
            self.heading = None
        self.dump, self.leaving = Dump(f"line {number}", direction), None

    def leave(self, why):
        """A dump with a row that can't be read is no packet."""
        place, self.leaving, self.dump = self.dump.place, self.dump.place, None
        raise Unreadable(f"{why}; the packet from {place} is left out")

    def closed(self):
        """The packet of the open dump, which has ended."""
        dump, self.dump, self.leaving = self.dump, None, None
        if dump:
            self.counts["dumps"] += 1
            yield Captured(dump.place, bytes(dump.data), dump.direction)

    def no_dump_came(self):
        """A heading that no dump followed is a line that can't be read."""
        if self.heading:
            self.unread(self.heading[0], self.heading[1].why)
            self.heading = None

    def unread(self, number, why):
        self.counts["not read"] += 1
        self.teller.fault(f"line {number}: not read: {why}")

    def direction(self, part):
        """The direction that a line is marked with; an arrow to the right goes to the board."""
        if part.form:
            self.counts["time", part.form] += 1
        if not part.mark:
            return None
        if part.mark[0] in "<>=-":
            direction = TO_BOARD if part.mark.endswith(">") else FROM_BOARD
        else:
            direction = seen(part.mark[0] in "ir", self.side or "board")
        self.counts["mark", part.mark, direction] += 1
        return direction

    def summary(self):
        """How the lines were read, in words."""
        count = self.counts
        parts = []
        if count["lines with a packet"]:
            parts.append(f"{counted(count['lines with a packet'], 'packet')} of one line each")
        if count["dumps"]:
            parts.append(f"{counted(count['dumps'], 'packet')} of dumps with an offset column ({counted(count['rows'], 'row')}, "
                         f"{counted(count['headings'], 'heading')} above them)")
        parts += [f"{count[kind]:,} {kind}" for kind in ("blank or comments", "not read")]
        yield f"{counted(count['lines'], 'line')}: {', '.join(parts)}"
        times = [f"{TIME_FORMS[key[1]]} ({number:,})" for key, number in count.items() if key[0] == "time"]
        if times:
            yield f"times in front, read as {', '.join(times)}: not used, a log has no clock"
        marks = [f"'{key[1]}' {key[2]} ({number:,})" for key, number in count.items() if key[0] == "mark"]
        if marks:
            side = self.side or "board"
            yield f"directions: {', '.join(marks)}; in, rx and i are meant from the side of the {side} (--seen-from)"


def offset_of(line):
    """The offset of a line that can't be read but begins as a dump's row, or None."""
    found = OFFSET.match(line.strip())
    return int(found["offset"], 16) if found else None
