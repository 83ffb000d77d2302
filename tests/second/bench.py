"""The bench: what no log and no script can show, the published CRC-32C values and the ticket's wrap.

A function has the lines of one subject, and SUBJECTS the order in which they are printed.
"""
from second.endpoint import Endpoint
from second.wire import BASE_UNIT, crc32c, sealed

ISCSI = bytes.fromhex("01c00000 00000000 00000000 00000000 14000000 00000400"
                      "00000014 00000018 28000000 00000000 02000000 00000000")
MI_PACKET = bytes((1, 8, 9, 0xC9)) + sealed(bytes((0x84, 0x08, 0, 0)) + bytes(12))

def published_checks():
    for name, data in (("digits", b"123456789"), ("zeros", bytes(32)), ("ones", b"\xff" * 32),
                       ("rising", bytes(range(32))), ("falling", bytes(range(31, -1, -1))),
                       ("iscsi", ISCSI)):
        yield f"crc32c {name} {crc32c(data):08x}"

def ticket_wrap():
    _, endpoint = Endpoint.setup(8, BASE_UNIT)              # "01's cases [..] keep U 64"
    endpoint.counts[0] = 4294967295
    endpoint.receive(MI_PACKET)
    yield f"ticket after 4294967295: {endpoint.take(0)[1].number}"

SUBJECTS = published_checks, ticket_wrap

def bench_lines():
    for subject in SUBJECTS:
        yield from subject()
