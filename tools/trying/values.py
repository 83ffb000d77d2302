"""Numbers and bytes in a line."""
import re

LONGEST = 8192              # bytes that a record can have

# Bytes that are named, by their number
PATTERNS = {
    "zeros": bytes,
    "ones": lambda count: b"\xff" * count,
    "rising": lambda count: bytes(i & 0xFF for i in range(count)),
}
BYTES = "bytes: hex, zeros N, ones N or rising N"


class LineError(Exception):
    """A line that can't be done; what was expected is told to the user."""


class Words:
    """The words of a line behind the first, taken one by one."""

    def __init__(self, words):
        self.words = list(words)

    def __bool__(self):
        return bool(self.words)

    def next(self, expected):
        if not self.words:
            raise LineError(f"expected {expected}, and the line ends")
        return self.words.pop(0)

    def number(self, name, least, greatest):
        expected = f"{name}, {least:,} to {greatest:,}"
        word = self.next(expected)
        value = number_of(word)
        if value is None or not least <= value <= greatest:
            raise LineError(f"expected {expected}, and there is {word!r}")
        return value

    def end(self):
        if self.words:
            raise LineError(f"expected the end of the line, and there is {self.words[0]!r}")

    def bytes(self):
        """All bytes that the rest of the line names."""
        found = bytearray()
        while self.words:
            word = self.next(BYTES)
            if word in PATTERNS:
                found += PATTERNS[word](self.number(f"a number of bytes for {word}", 0, LONGEST))
            elif word != "hex":
                found += hex_of(word)
        if len(found) > LONGEST:
            raise LineError(f"expected at most {LONGEST:,} bytes, and there are {len(found):,}")
        return bytes(found)


def number_of(word):
    """12, 0x0c or 0Ch; None for what is no number."""
    if re.fullmatch(r"[0-9]+", word):
        return int(word)
    if re.fullmatch(r"0[xX][0-9a-fA-F]+", word):
        return int(word, 16)
    if re.fullmatch(r"[0-9a-fA-F]+[hH]", word):
        return int(word[:-1], 16)
    return None


def hex_of(word):
    """01, 010809c9, 01:08:09 or 0x01,"""
    plain = re.sub(r"^0[xX]|[:,]", "", word)
    if not re.fullmatch(r"([0-9a-fA-F]{2})+", plain):
        raise LineError(f"expected {BYTES}, and there is {word!r}")
    return bytes.fromhex(plain)
