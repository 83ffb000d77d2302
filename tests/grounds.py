"""Every ground on which a call refuses, not only the one that is answered.

A ground is the number that documents 01 and 02 give it and, where a number has several, a word; for the error
reply to a control primitive it is what was wrong there. The functions give those that hold, in the documents'
order: the first is the one to be answered. BEHIND says which can hold behind a first one.
"""
from call_records import room
from second.endpoint import STORE, Idle, Process, Receive, requester
from second.requester import GREATEST_TAG, SHORTEST_MESSAGE
from second.wire import (CONTROL, LONGEST_MESSAGE, REPLAY, control_request, is_sealed, message_header,
                         packet_fields)
from units import longest_packet

STORES = "40"
LATER = ("21", "22", "16 later", "23", "19 whole")
HEADER = ("10", "11", "12", "13", "14")
PRIMITIVE_PACKET = room(12)

def packet_behind(control, other):
    """What can hold behind each ground of a packet. Behind 18 a control message has the grounds of `control`,
    and any other message has 20 by the name of `other`."""
    first = ("15 type", "16 first", "17", "15 ROR", "18", *control, other, "19 one packet")
    return {
        STORES: (*HEADER, *first, *LATER),
        # A packet of four bytes has a whole header.
        "10": ("12", "13", "14", "16 first", "17", "21", "22", "16 later"),
        "11": ("12", "13", "14", *(ground for ground in first if ground != "17"), *LATER),
        "12": ("13", "14", *first, *LATER), "13": ("14", *first, *LATER), "14": (*first, *LATER),
        "15 type": first[1:], "16 first": ("15 ROR", "18", *control, other),
        "17": ("15 ROR", "18", *control[1:], other), "15 ROR": first[4:],
        "18": control, **{ground: control[i + 1:] for i, ground in enumerate(control)},
        other: ("19 one packet",), "19 one packet": (),
        "21": ("16 later",), "22": ("16 later", "23", "19 whole"), "16 later": ("23",), "23": (),
        "19 whole": ()}

class EndpointEnd:
    """The endpoint as a packet finds it. `memory` has the bytes of both stores, whatever is lent."""
    to, ror = 1, 0
    control, other = ("19 primitive",), "20"

    def __init__(self, endpoint, memory):
        self.endpoint, self.memory = endpoint, memory
        self.eid, self.unit, self.stores_fit = endpoint.eid, endpoint.unit, endpoint.stores_fit()

    def refuses(self, header, who):
        """Whether the slot is still not Idle after an assembly of this requester ended."""
        job = self.endpoint.jobs[header.csi]
        return not isinstance(job, Idle) and not (isinstance(job, Receive) and job.who == who)

    def assembly(self, who):
        """The last sequence and the bytes of what was gathered from there, or None."""
        slot = self.endpoint.assembly(who)
        if slot is None:
            return None
        job = self.endpoint.jobs[slot]
        return job.sequence, bytes(self.memory[slot][:job.length])

class RequesterEnd:
    """The requester as a packet finds it. `memory` has the bytes of its store, whatever is lent."""
    to, ror = 0, 1
    control, other = ("19 reply", "20 reply"), "20 response"

    def __init__(self, requester, memory):
        self.requester, self.memory = requester, memory
        self.eid, self.unit, self.stores_fit = requester.eid, requester.unit, len(requester.store) == STORE

    def refuses(self, _header, who):
        """ "20 then means source and tag not awaited" """
        return who != self.requester.awaited

    def assembly(self, who):
        assembly = self.requester.assembly
        if assembly is None or who != self.requester.awaited:
            return None
        return assembly.sequence, bytes(self.memory[:assembly.length])

SETUP_BEHIND = {"38": ("39",), "39": ()}

BEHIND = {
    "setup": SETUP_BEHIND,
    "receive": packet_behind(EndpointEnd.control, EndpointEnd.other),
    "control": {"MEB": ("CIAP", "opcode", "CPSP"), "CIAP": ("opcode", "CPSP"), "opcode": (), "CPSP": ()},
    "take": {"30": (), "31": ("33",), "33": ()},
    # A command that was answered at once was never taken.
    "declare": {"30": (), "31": ("32", "34"), "32": ("34",), "34": ()},
    "complete": {STORES: ("30", "31", "32", "34", "35"), "30": ("35",), "31": ("32", "34", "35"),
                 "32": ("34", "35"), "34": ("35",), "35": ()},
    "poll": {STORES: ("36",), "36": ()},
    "timeout": {"30": (), "37 not in Receive": ("37 flag",), "37 flag": ()},
    "read": {"slot": ("stores",), "stores": ("nothing taken",), "nothing taken": ()},
    "requester setup": SETUP_BEHIND,
    "gather": packet_behind(RequesterEnd.control, RequesterEnd.other),
    "await": {"41 tag": ()},
    "cut": {"41 size": ("41 tag", "36"), "41 tag": ("36",), "36": ()},
    "primitive": {"41 tag": ("30", "36"), "30": ("36",), "36": ()}}

def ground_goals(call):
    """Each ground alone, and each two that can hold at once."""
    for first, others in BEHIND[call].items():
        yield f"{call}: {first} alone"
        yield from (f"{call}: {first} before {other}" for other in others)

def holding(*grounds):
    """The grounds whose test is true, of (ground, test)."""
    return [ground for ground, holds in grounds if holds]

# Setup and receiving, at either end

def setup_grounds(eid, unit):
    return holding(("38", not 8 <= eid <= 254), ("39", not 64 <= unit <= 250))

def receive_grounds(endpoint, memory, packet):
    return packet_grounds(EndpointEnd(endpoint, memory), packet)

def gather_grounds(requester, memory, packet):
    return packet_grounds(RequesterEnd(requester, memory), packet)

def packet_grounds(end, packet):
    found = holding((STORES, not end.stores_fit), ("10", len(packet) < 5),
                    ("11", len(packet) > longest_packet(end.unit)))
    if len(packet) < 4:
        return found
    fields, payload = packet_fields(packet), packet[4:]
    found += holding(("12", fields.version != 1), ("13", fields.destination != end.eid),
                     ("14", fields.to != end.to))
    return found + (first_grounds if fields.som else later_grounds)(end, fields, payload)

def first_grounds(end, fields, payload):
    found = holding(("15 type", payload and payload[0] != 0x84),
                    ("16 first", not fields.eom and len(payload) != end.unit),
                    ("17", fields.eom and len(payload) < 8))
    if len(payload) < 3:
        return found
    header = message_header(payload)
    wrong_check = len(payload) >= 8 and not is_sealed(payload)
    refused = end.refuses(header, requester(fields))
    found += holding(("15 ROR", header.ror != end.ror))
    if header.nmimt == CONTROL:
        # 19, and 20 where control messages have it
        return found + holding(("18", not fields.eom or len(payload) != 12),
                               *zip(end.control, (wrong_check, refused)))
    return found + holding((end.other, refused), ("19 one packet", fields.eom and wrong_check))

def later_grounds(end, fields, payload):
    assembly = end.assembly(requester(fields))
    cut = not fields.eom and len(payload) != end.unit
    if assembly is None:
        return holding(("21", True), ("16 later", cut))
    sequence, gathered = assembly
    fits = len(gathered) + len(payload) <= LONGEST_MESSAGE
    return holding(("22", fields.sequence != (sequence + 1) % 4), ("16 later", cut), ("23", not fits),
                   ("19 whole", payload and fields.eom and fits and not is_sealed(gathered + payload)))

# Control primitives

# What an error reply tells by its status, bit and byte
TOLD = {(0x04, 0, 2): "MEB", (0x04, 1, 2): "CIAP", (0x03, 0, 0): "opcode", (0x04, 0, 6): "CPSP"}

def control_grounds(message):
    header, request = message_header(message), control_request(message)
    return holding(("MEB", header.meb), ("CIAP", header.ciap), ("opcode", request.opcode > REPLAY),
                   ("CPSP", request.opcode == REPLAY and request.cpsp))

def control_answer(reply):
    """The ground that a control reply tells, or "0" for success."""
    status, bit, low, high = reply[4:8]
    return TOLD[status, bit, low | high << 8] if status else "0"

# The endpoint's other calls. `was_taken` says of each slot whether its last command was taken.

def is_gone(job):
    """ "not in Process, or its response is there" """
    return not isinstance(job, Process)

def take_grounds(endpoint, was_taken, slot):
    if slot > 1:
        return ["30"]
    job = endpoint.jobs[slot]
    return holding(("31", is_gone(job)), ("33", was_taken[slot] and not isinstance(job, (Idle, Receive))))

def declare_grounds(endpoint, was_taken, slot, ticket):
    if slot > 1:
        return ["30"]
    job = endpoint.jobs[slot]
    return holding(("31", is_gone(job)), ("32", ticket != endpoint.counts[slot]),
                   ("34", not was_taken[slot] and not isinstance(job, (Idle, Receive))))

def complete_grounds(endpoint, was_taken, slot, ticket, body):
    return [*holding((STORES, not endpoint.stores_fit())),
            *declare_grounds(endpoint, was_taken, slot, ticket),
            *holding(("35", not 4 <= len(body) <= 4216))]

def poll_grounds(endpoint, length):
    return holding((STORES, not endpoint.stores_fit()), ("36", length < longest_packet(endpoint.unit)))

def timeout_grounds(endpoint, slot):
    if slot > 1:
        return ["30"]
    return holding(("37 not in Receive", not isinstance(endpoint.jobs[slot], Receive)),
                   ("37 flag", endpoint.paused >> slot & 1))

def read_grounds(endpoint, slot):
    job = endpoint.jobs[slot] if slot < 2 else None
    return holding(("slot", slot > 1), ("stores", not endpoint.stores_fit()),
                   ("nothing taken", slot < 2 and not (isinstance(job, Process) and job.taken)))

# The requester's other calls

def await_grounds(tag):
    return holding(("41 tag", tag > GREATEST_TAG))

def cut_grounds(unit, tag, size, length):
    return holding(("41 size", not SHORTEST_MESSAGE <= size <= LONGEST_MESSAGE),
                   ("41 tag", tag > GREATEST_TAG), ("36", length < room(size, unit)))

def primitive_grounds(tag, slot, length):
    return holding(("41 tag", tag > GREATEST_TAG), ("30", slot > 1), ("36", length < PRIMITIVE_PACKET))
