"""The log program: the records of a log, and the line that each prints."""
from second.endpoint import Endpoint, Ticket
from second.framing import framed
from second.wire import BASE_UNIT, longest_packet

PACKET, POLL, TIMEOUT, TAKE, COMPLETE, RESET = range(1, 7)

# "1 packet, 2 poll (empty), 3 timeout, 4 take (one slot byte each), 5 complete (slot, body [..]),
# 6 reset (empty)"; "a wrong or over-4,300 length (5 needs at least 1)"
LENGTHS = {PACKET: (0, 4300), POLL: (0, 0), TIMEOUT: (1, 1), TAKE: (1, 1), COMPLETE: (1, 4300), RESET: (0, 0)}

def records(stream):
    return framed(stream, LENGTHS)

class Log:
    """A log under way: the endpoint, and the ticket last taken from each slot."""

    def __init__(self):
        _, self.endpoint = Endpoint.setup(8, BASE_UNIT)     # "EID is 8."; "01's [..] log keep U 64"
        self.taken = {}
        self.calls = {PACKET: self.endpoint.receive, POLL: self.poll, TIMEOUT: self.timeout,
                      TAKE: self.take, COMPLETE: self.complete, RESET: self.reset}

    def line(self, tag, data):
        """Do what the record says; "Each record prints its answer number" """
        return "bad" if tag is None else str(self.calls[tag](data))

    def poll(self, _):
        # "a poll that sends prints 1, a space and lower-case hex"
        answer, packet = self.endpoint.poll(longest_packet(BASE_UNIT))
        return "1 " + packet.hex() if answer == 1 else answer

    def timeout(self, data):
        return self.endpoint.timeout(data[0])

    def take(self, data):
        answer, ticket = self.endpoint.take(data[0])
        if answer == 0:
            self.taken[data[0]] = ticket
        return answer

    def complete(self, data):
        return self.endpoint.complete(data[0], self.ticket(data[0]), data[1:])

    def ticket(self, slot):
        # "the ticket last taken there, else 0"
        return self.taken.get(slot, Ticket(0))

    def reset(self, _):
        return self.endpoint.reset()

def log_lines(stream):
    log = Log()
    for tag, data in records(stream):
        yield log.line(tag, data)
