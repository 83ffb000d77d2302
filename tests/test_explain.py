#!/usr/bin/env python3
"""Tests of tools/explain.py.

    python3 -B tests/test_explain.py

The answers are the second program's here, so that nothing has to be proved or built: the tool takes their source as a function.
"""
import argparse
import html.parser
import io
import json
import os
import pathlib
import signal
import subprocess
import sys
import tempfile
import unittest
from unittest import mock

TESTS = pathlib.Path(__file__).resolve().parent
TOOL = TESTS.parent / "tools" / "explain.py"
sys.path[:0] = [str(TESTS), str(TOOL.parent)]

from explain import answers, cli, names, page, reading  # noqa: E402
from generate import generate  # noqa: E402
from records import POLL, RESET, ask, command, complete, control, damaged, packet, packets, record, take, timeout  # noqa: E402
from second.endpoint import ABORT_CPSR  # noqa: E402
from second.log import log_lines, records  # noqa: E402
from second.wire import ABORT, GET_STATE, PAUSE, REPLAY, RESUME  # noqa: E402
from programs import LOG  # noqa: E402
from stored import stored_inputs  # noqa: E402

BODY = bytes((0, 7, 8, 9))


def second_answers(log):
    """A source of answers: the second program's lines."""
    data = log.read()
    return answers.Answers(io.BytesIO(data), log_lines(io.BytesIO(data)), "the second program")


def lines_of(*lines):
    """A source of answers: these lines."""
    return lambda log: answers.Answers(io.BufferedReader(log), iter(lines), "the lines")


def asked(*arguments):
    return cli.parser().parse_args([*arguments, "LOG"])


def explained(log, *arguments, source=second_answers):
    """What the tool writes for a log, a list of records or their bytes."""
    data = log if isinstance(log, bytes) else b"".join(log)
    written = io.StringIO()
    cli.explain(asked(*arguments), io.BytesIO(data), source, written.write)
    return written.getvalue()


def objects(log, *arguments, **given):
    return [json.loads(line) for line in explained(log, "--json", *arguments, **given).splitlines()]


def last(log):
    """The words of a log's last record, as one text."""
    return " | ".join(objects(log)[-2]["words"])


def summary(log):
    return objects(log)[-1]["summary"]


START = packets(command(200))[0]                # slot 0 is then in Receive
WAITING = [packet(command()), take()]           # a command that is taken
SENT = [*WAITING, complete(bytes(57)), POLL, POLL]          # slot 0 then holds its response, 65 bytes in two packets


class Case(unittest.TestCase):
    def says(self, log, *words):
        found = last(log)
        for part in words:
            self.assertIn(part, found)


class ShortPayloads(Case):
    def test_each_length(self):
        for payload, words in ((b"\x84", "an NVMe-MI message (84h) of which this 1 byte is there"),
                               (b"\x84\x09", "MI command for slot 1, 2 of the 4 bytes of its header are there"),
                               (b"\x84\x88\x01", "MI command for slot 0, ROR 1, MEB 1, 3 of the 4 bytes of its header are there"),
                               (b"\x84\0\0\0", "control primitive for slot 0, 4 bytes, which is too few for a message"),
                               (b"\x84\0\0\0\x03\0\0", "control primitive for slot 0, 7 bytes, which is too few for a message")):
            with self.subTest(payload=payload):
                self.says([packet(payload)], words, f"17, EOM 1, and the payload is {len(payload)} byte")
                self.assertNotIn("no NVMe-MI message", last([packet(payload)]))

    def test_not_the_last(self):
        self.says([packet(b"\x84", eom=0)], "this 1 byte is there", "16, EOM 0, and the payload is 1 byte and not 64",
                  "sets flag bit 9")

    def test_below_a_header(self):
        self.says([record(1)], "packet of 0 bytes, nothing is there", "10, the packet has 0 bytes")
        self.says([record(1, b"\1\x08\x09")], "version 1, destination EID 8 and source EID 9", "10, the packet has 3 bytes")
        self.says([record(1, b"\1\x08\x09\xc9")], "tag 1, no payload", "10, the packet has 4 bytes")

    def test_a_message_without_an_opcode(self):
        self.says([packet(command(8))], "MI command for slot 0, 8 bytes", "answered at once with error 05h (invalid command size)")


class Grounds(Case):
    def test_headers(self):
        self.says([packet(bytes(65))], "11, the packet has 69 bytes, more than the 68 bytes that unit 64 allows",
                  "sets flag bit 6 (packet too long)")
        self.says([packet(command(), version=2)], "12, the version is 2 and not 1", "sets flag bit 7")
        self.says([packet(command(), destination=9)], "13, the destination is EID 9 and not ours, 8", "sets flag bit 8")
        self.says([packet(command(), to=0)], "14, TO is 0", "sets flag bit 12 (TO was 0)")
        self.says([packet(command(), to=0)] * 2, "sets flag bit 12 (TO was 0), which was set already")

    def test_two_grounds_of_15(self):
        self.says([packet(b"\x04" + command()[1:])], "15, the first byte is 04h and not 84h")
        self.says([packet(command(ror=1))], "15, ROR is 1")

    def test_shape_of_control(self):
        self.says([packet(control(PAUSE) + b"\0")], "18, ", "it has 13 payload bytes and not 12")
        self.says([packet(control(PAUSE) + bytes(52), eom=0)], "18, ", "EOM is 0 and it has 64 payload bytes and not 12")

    def test_check(self):
        self.says([packet(damaged(control(PAUSE)))], "19, the integrity check is wrong: the message of 12 bytes carries ",
                  "sets flag bit 4 (integrity check wrong)")
        self.says(packets(damaged(command(100))), "19, the integrity check is wrong: the message of 100 bytes carries ",
                  "slot 0 goes from Receive to Idle; 64 gathered bytes of it are given up")

    def test_busy(self):
        self.says([packet(command()), packet(command(), tag=4)],
                  "20, the command's slot is not Idle: slot 0 Process untaken, 20 bytes from EID 9 under tag 1",
                  "sets flag bit 3 of slot 0 (a command came while the slot was not Idle)")

    def test_later_packets(self):
        later = packet(bytes(36), som=0, sequence=3)
        self.says([later], "21, no slot is in Receive with EID 9 and tag 1 (no slot is in Receive)", "sets flag bit 10")
        self.says([START, packet(bytes(36), som=0, tag=2)], "21, ", "(in Receive: slot 0 from EID 9 under tag 1)")
        self.says([START, later], "22, out of sequence: 3 came, and after 0 comes 1", "sets flag bit 11")
        self.says([START, packet(bytes(63), som=0, eom=0, sequence=1)], "16, EOM 0, and the payload is 63 bytes and not 64",
                  "slot 0 goes from Receive to Idle")
        whole = packets(command(4224))
        self.says([*whole[:-1], packet(bytes(64), som=0, eom=0, sequence=65), packet(b"\0", som=0, sequence=66)],
                  "23, the total would be 4,225 bytes, above 4,224")

    def test_larger_unit(self):
        """What a controller of unit 250 cut is too long for a log, whose unit is 64."""
        self.says(packets(command(600), unit=250)[:1], "its first 250 bytes",
                  "11, the packet has 254 bytes, more than the 68 bytes that unit 64 allows")
        self.says(packets(command(65), unit=65), "11, the packet has 69 bytes")
        self.assertEqual(summary(packets(command(600), unit=250))["remarks"],
                         ["refused 3 times with 11, first at record 1: the packet is longer than the 68 "
                          "bytes that unit 64 allows"])

    def test_two_grounds_of_37(self):
        self.says([timeout()], "37, slot 0 is not in Receive: it is Idle")
        self.says([*WAITING, timeout()], "37, slot 0 is not in Receive: it is in Process taken")
        self.says([START, ask(PAUSE), timeout()], "37, slot 0 is in Receive, and its pause flag is set")

    def test_two_grounds_of_31(self):
        self.says([take()], "31, slot 0 is not in Process: it is Idle")
        self.says([packet(command(8, ciap=1)), take()], "31, slot 0 is in Process, and its response is there")

    def test_a_ticket_is_told_where_one_was_used(self):
        for log in ([], [START], [packet(command(8, ciap=1))]):
            self.says([*log, complete(BODY)], "31, ", "; it used ticket 0, since none was taken there; ")
            self.assertNotIn("ticket", last([*log, take()]))

    def test_other_calls(self):
        self.says([take(2)], "30, there is no slot 2")
        self.says([*WAITING, take()], "33, taken already")
        self.says([*WAITING, complete(bytes(3))], "35, the body has 3 bytes, not 4 to 4,216")

    def test_every_refusal_has_its_words(self):
        for log in stored_inputs(LOG):
            for found in objects(log.input)[:-1]:
                self.assertTrue(found["words"])


class Tickets(Case):
    def test_complete(self):
        self.says([*WAITING, complete(BODY)], "0, completed: it used ticket 1, taken at record 2; the slot's present one is 1")
        self.says([packet(command()), complete(BODY)], "32, ",
                  "it used ticket 0, since none was taken there; the slot's present one is 1")
        self.says([*WAITING, ask(ABORT), packet(command()), complete(BODY)], "32, ",
                  "it used ticket 1, taken at record 2; the slot's present one is 2")
        self.says([*WAITING, ask(ABORT), complete(BODY)], "31, slot 0 is not in Process: it is Idle; it used ticket 1")

    def test_take(self):
        self.says(WAITING, "0, taken: ticket 1, a request of 20 bytes from EID 9 under tag 1")


class Control(Case):
    def reply(self, *log):
        """The words of the poll that sends the reply to the log's last primitive."""
        return last([*log, POLL])

    def test_get_state(self):
        found = self.reply(packet(command(), to=0), packet(command()), ask(PAUSE), packet(command(), tag=4), ask(GET_STATE))
        self.assertIn("the reply to Get State for slot 0 of record 5: TAG 5ah, CPSR 900ah: state Process, its pause flag (bit 15) is "
                      "set, set: bit 3 (a command came while the slot was not Idle), bit 12 (TO was 0)", found)
        self.assertIn("CPSR 0000h: state Idle, not paused, no other bit is set", self.reply(ask(GET_STATE)))
        self.says([packet(command(), to=0), ask(GET_STATE, cpsp=1)], "CPSP bit 0 clears bit 12")

    def test_pause_resume_abort(self):
        self.assertIn("CPSR 0: no pause flag is set", self.reply(ask(PAUSE)))
        self.assertIn("Pause for both slots of record 2: TAG 5ah, CPSR 1: the pause flag of slot 0 is set",
                      self.reply(START, ask(PAUSE)))
        self.assertIn("CPSR 2: it was taken", self.reply(*WAITING, ask(ABORT)))
        self.assertIn("CPSR 1: it was in Receive, or in Process and not taken", self.reply(START, ask(ABORT)))
        self.assertIn("CPSR 0: there was nothing to stop", self.reply(ask(ABORT)))
        self.says([START, ask(PAUSE), ask(RESUME)], "clears the pause flag of slot 0",
                  "the reply to Pause for both slots of record 2, which waited, is replaced")
        self.says([*WAITING, ask(ABORT)], "aborts what slot 0 had: slot 0 Process taken")

    def test_abort_in_a_log(self):
        """A log has no declaration, so that the Abort of each taken command reports 2."""
        for log, words in (([], "0: there was nothing to stop: it was Idle, or its response was there"),
                           ([START], "1: it was in Receive, or in Process and not taken"),
                           ([packet(command())], "1: it was in Receive, or in Process and not taken"),
                           (WAITING, "2: it was taken"),
                           ([*WAITING, complete(BODY)], "0: there was nothing to stop: it was Idle, or its "
                                                        "response was there")):
            for found in objects([*log, ask(ABORT), POLL])[-3:-1]:          # the Abort, and its reply
                ends = [part.partition("TAG 5ah, CPSR ")[2] for part in found["words"]]
                self.assertIn(words, ends)
        self.assertEqual(objects(record(48, bytes(9)))[0]["fields"]["cause"], "unknown tag 48")

    def test_every_state_has_its_words(self):
        self.assertEqual(set(names.STATES), set(ABORT_CPSR))
        self.assertEqual(len(set(names.STATES.values())), len(names.STATES))

    def test_errors(self):
        self.assertIn("error 04h (invalid parameter) at byte 2 bit 0, MEB; it did not act", self.reply(ask(PAUSE, meb=1)))
        self.assertIn("error 04h (invalid parameter) at byte 2 bit 1, CIAP", self.reply(ask(PAUSE, ciap=1)))
        self.assertIn("error 03h (invalid opcode)", self.reply(ask(9)))
        self.assertIn("status 04h (invalid parameter) at byte 1 bit 3, NMIMT", self.reply(packet(command(kind=3))))
        self.assertIn("status 04h (invalid parameter) at byte 2 bit 0, MEB", self.reply(packet(command(meb=1))))
        self.assertIn("to its Admin command, status 05h (invalid command size)", self.reply(packet(command(20, kind=2))))

    def test_opcodes(self):
        self.says([packet(command(fill=b"\1"))], "MI command, opcode 01h (NVM Subsystem Health Status Poll), for slot 0, 20 bytes")
        self.says([packet(command(64, kind=2, fill=b"\6"))], "Admin command, opcode 06h (Identify)")
        self.says([packet(command(24, kind=4))], "PCIe command, opcode 00h (PCIe Configuration Read)")
        self.says([packet(command(kind=3))], "command of unknown kind (NMIMT 3)")


class Effects(Case):
    def test_ended_assembly(self):
        three = packets(command(200, slot=1), tag=3)[:2]
        self.says([*three, packet(b"\0", tag=3)], "15, ", "ends the assembly of slot 1 from EID 9 under tag 3, 128 bytes gathered")
        self.says([*three, ask(PAUSE), packet(command(), tag=3)], "128 bytes gathered; its pause flag goes with it",
                  "slot 0 goes from Idle to Process untaken")

    def test_polls_that_find_nothing(self):
        self.says([POLL], "0, nothing to send: no control reply waits, and no slot has a response")
        held = [packet(command()), packet(command(slot=1), tag=3), ask(PAUSE), POLL, ask(ABORT, slot=1), POLL,
                packet(command(8, slot=1), tag=3), POLL]
        self.says(held, "0, nothing to send, because the pause flag of slot 0 is set: the response of slot 1 waits for Resume")

    def test_ciap(self):
        self.says([packet(command(ciap=1))], "sets the pause flag of slot 0, because CIAP is 1")
        self.says([START, ask(PAUSE), packet(command(ciap=1))], "its pause flag goes with it", "sets the pause flag of slot 0, because")

    def test_timeout_and_reset(self):
        self.says([START, timeout()], "0, timed out", "sets flag bit 5 (timeout while gathering)",
                  "slot 0 goes from Receive to Idle; 64 gathered bytes of it are given up")
        self.says([ask(PAUSE), RESET], "sets flag bit 14 (reset seen)",
                  "the reply to Pause for both slots of record 1, which waited, is gone")

    def test_packets_of_a_response(self):
        self.says([*WAITING, complete(bytes(57)), POLL, POLL], "packet 2 of 2 of the response of slot 0",
                  "slot 0 goes from Transmit to Idle")


class Replays(Case):
    HOLDS = "slot 0 Idle, holds its last response (65 bytes to EID 9 under tag 1), ticket 1"
    AGAIN = "sent again by the Replay of record "

    def slots(self, log):
        """What the text says of the slots after a log."""
        return [line for line in explained(log).splitlines() if "   = " in line][-1].split("= ")[1]

    def test_reply(self):
        again = "TAG 5ah, CPSR 1: the slot sends its last response again, 65 bytes to EID 9 under tag 1"
        self.says([*SENT, ask(REPLAY, source=20)], "Replay for slot 0, TAG 5ah, CPSP 0000h, 12 bytes", f"its reply is {again}",
                  "slot 0 goes from Idle to Transmit")
        self.says([*SENT, ask(REPLAY, source=20), POLL], "EID 8 to 20", f"the reply to Replay for slot 0 of record 6: {again}")

    def test_nothing_to_send_again(self):
        for log, slot, ground in ((SENT, 1, "held no response"), (WAITING[:1], 0, "was not Idle but in Process untaken"),
                                  (WAITING, 0, "was not Idle but in Process taken"), ([START], 0, "was not Idle but in Receive"),
                                  ([packet(command(8, ciap=1))], 0, "was not Idle but in Process with its response there"),
                                  ([*SENT, ask(REPLAY)], 0, "was not Idle but in Transmit")):
            with self.subTest(ground):
                self.says([*log, ask(REPLAY, slot)], f"CPSR 0: nothing happened, since the slot {ground}")
                self.assertNotIn("goes from", last([*log, ask(REPLAY, slot)]))
        self.says([START, ask(REPLAY, tag=1)], "ends the assembly of slot 0",
                  "CPSR 0: nothing happened, since the slot held no response")

    def test_cpsp(self):
        for cpsp in (1, 2, 0x100):
            self.says([*SENT, ask(REPLAY, cpsp=cpsp)], f"CPSP {cpsp:04x}h",
                      "error 04h (invalid parameter) at byte 6 bit 0, CPSP: Replay takes only CPSP 0; it did not act")
        self.assertNotIn("takes only", last([*SENT, ask(REPLAY, meb=1)]))
        self.says([*WAITING, complete(bytes((4, 0, 6, 0))), POLL],
                  "status 04h (invalid parameter) at byte 6 bit 0, behind the opcode")

    def test_packets(self):
        log = [*SENT, ask(REPLAY), POLL, POLL, POLL]
        self.says(log[:-1], f"packet 1 of 2 of the response of slot 0 to its MI command, status 00h (success), {self.AGAIN}6")
        self.says(log, f"packet 2 of 2 of the response of slot 0, {self.AGAIN}6")
        self.assertEqual([each["sent"] and each["sent"]["replay"] for each in objects(log)[:-1]], [None] * 7 + [6, 6])
        self.says([*log, ask(REPLAY), POLL, POLL], f"{self.AGAIN}10")
        self.says([packet(command(8, slot=1), tag=3), POLL, ask(REPLAY, slot=1), POLL, POLL],
                  f"packet 1 of 1 of the response of slot 1 to its MI command, status 05h (invalid command size), {self.AGAIN}3")

    def test_packets_of_a_later_command(self):
        both = [*SENT, packet(command(8, slot=1), tag=3)]
        self.says([*both, ask(REPLAY), POLL, POLL], "of the response of slot 1")
        self.assertNotIn(self.AGAIN, last([*both, ask(REPLAY), POLL, POLL]))
        for end in (POLL * 3, ask(ABORT) + POLL, RESET):
            with self.subTest(end):
                log = [*SENT, ask(REPLAY), end, packet(command(8)), POLL]
                self.says(log, "packet 1 of 1 of the response of slot 0")
                self.assertNotIn(self.AGAIN, last(log))

    def test_held(self):
        self.assertEqual(self.slots(SENT), f"{self.HOLDS}; slot 1 Idle, ticket 0")
        self.assertNotIn("holds", self.slots([*SENT, ask(REPLAY)]))
        self.assertEqual(self.slots([*SENT, ask(REPLAY), POLL, POLL, POLL]), f"{self.HOLDS}; slot 1 Idle, ticket 0")
        self.assertIn("slot 1 Idle, holds its last response (12 bytes to EID 7 under tag 3), ticket 1",
                      self.slots([packet(command(8, slot=1), source=7, tag=3), POLL]))

    def test_held_for_a_program(self):
        held = {"eid": 9, "tag": 1, "bytes": 65}
        *found, end = objects([*SENT, ask(REPLAY)])
        self.assertEqual([[slot["held"] for slot in each["slots"]] for each in found],
                         [[None, None]] * 4 + [[held, None], [None, None]])
        self.assertEqual([slot["held"] for slot in end["summary"]["slots"]], [None, None])
        self.assertEqual([slot["held"] for slot in summary(SENT)["slots"]], [held, None])

    def test_held_at_the_end(self):
        self.assertIn("\nSlot 0, now Idle, holds its last response (65 bytes to EID 9 under tag 1)\n", explained(SENT))
        self.assertIn("\nSlot 1, now Idle\n", explained(SENT))

    def test_polls_while_it_is_held(self):
        self.says([*SENT, POLL], "0, nothing to send: no control reply waits, and no slot is in Transmit")

    def test_lost(self):
        for log, words in (([START], "slot 0 goes from Idle to Receive and loses its last response"),
                           ([packet(command())], "slot 0 goes from Idle to Process untaken and loses its last response"),
                           ([packet(command(8))], "slot 0 goes from Idle to Transmit and loses its last response"),
                           ([packet(damaged(command()))], "slot 0 loses its last response"),
                           ([ask(ABORT)], "slot 0 loses its last response"), ([RESET], "slot 0 loses its last response"),
                           ([ask(REPLAY), ask(ABORT)], "slot 0 goes from Transmit to Idle and loses its last response"),
                           ([ask(REPLAY), POLL, POLL, RESET], "slot 0 goes from Transmit to Idle and loses its last response")):
            with self.subTest(words):
                self.says([*SENT, *log], words)
                self.assertNotIn("holds", self.slots([*SENT, *log]))

    def test_not_lost(self):
        for log in ([ask(PAUSE)], [ask(PAUSE), ask(RESUME)], [ask(GET_STATE, cpsp=1)], [packet(command(slot=1))],
                    [ask(ABORT, slot=1)], [ask(ABORT, meb=1)], [packet(command(), destination=9)], [packet(b"\x84", eom=0)],
                    [timeout()], [take()], [POLL], [ask(REPLAY, cpsp=1)], [ask(REPLAY), POLL, POLL, POLL]):
            with self.subTest(log):
                self.assertNotIn("loses", last([*SENT, *log]))
                self.assertIn(self.HOLDS, self.slots([*SENT, *log]))
        self.assertNotIn("loses", last([*SENT, ask(REPLAY)]))
        self.assertNotIn("loses", last([*WAITING, complete(BODY), ask(ABORT)]))

    def test_while_the_other_slot_is_paused(self):
        paused = [*SENT, packet(command(slot=1), tag=3), ask(PAUSE), POLL, ask(REPLAY), POLL]
        self.says([*paused, POLL], "because the pause flag of slot 1 is set: the response of slot 0 waits for Resume")
        self.says([*paused, ask(RESUME), POLL], f"{self.AGAIN}9")

    def test_summary(self):
        log = [*SENT, ask(REPLAY), POLL, ask(REPLAY), POLL, POLL, POLL, ask(REPLAY), ask(ABORT), ask(REPLAY, cpsp=1), POLL, *SENT,
               ask(REPLAY), RESET]
        found = summary(log)
        self.assertEqual(found["primitives"], {"Abort": 1, "Replay": 5})
        self.assertEqual(found["slots"][0]["ended"], {"sent": 2, "aborted": 0, "reset": 0})
        self.assertEqual(found["slots"][0]["replays"], {"asked": 5, "begun": 3, "sent": 1, "aborted": 1, "reset": 1})
        self.assertEqual(found["longest_wait"], {"records": 2, "slot": 0, "ticket": 1, "from": 3, "to": 5})
        for words in ("slot 0: 1 replay aborted", "slot 0: 1 replay ended by a reset",
                      "slot 0: 2 Replays sent nothing (CPSR 0 or an error)"):
            self.assertIn(words, found["remarks"])
        self.assertIn("  replays: 1 sent to the last packet, 1 aborted, 1 ended by a reset\n", explained(log))
        self.assertIn("control primitives: 1 Abort and 5 Replay\n", explained(log))

    def test_nothing_to_look_at(self):
        self.assertEqual(summary([*SENT, ask(REPLAY), POLL, POLL, POLL])["remarks"], [])

    def test_page(self):
        holding, slots = Parsed(explained(SENT, "--html")), Parsed(explained([*SENT, ask(ABORT), POLL], "--html"))
        self.assertEqual([attrs["class"] for attrs in holding.with_class("holding")], ["holding", "s0 holding down"])
        self.assertEqual([attrs["class"] for attrs in slots.with_class("holding")], ["holding", "s0 holding down", "s0 holding up"])
        self.assertIn(self.HOLDS, holding.with_class("lanes")[-1]["title"])
        self.assertIn("last response still held", holding.text)
        self.assertNotIn("last response still held", slots.text)
        self.assertIn("replays begun", Parsed(explained([*SENT, ask(REPLAY)], "--html")).text)


class Reading(Case):
    def test_offsets(self):
        found = objects([POLL, take(), packet(command()), POLL])
        self.assertEqual([each["offset"] for each in found[:-1]], [0, 3, 7, 34])
        self.assertIn("byte 7 (7h): packet", explained([POLL, take(), packet(command())]))

    def test_causes(self):
        for fault, cause in ((record(7, b"\0"), "unknown tag 7"), (record(4, bytes(2)), "length 2 for a take, which has 1"),
                             (record(5), "length 0 for a complete, which has 1 to 4,300"),
                             (record(2, b"\0"), "length 1 for a poll, which has 0"),
                             (record(1, bytes(4301)), "length 4,301 for a packet, which has at most 4,300"),
                             (packet(command())[:8], "cut: 5 of 24 bytes of a packet are there"),
                             (POLL[:1], "cut: 1 of the 3 bytes of tag and length is there")):
            with self.subTest(cause=cause):
                *_, bad, end = objects([POLL, fault])
                self.assertEqual((bad["kind"], bad["offset"], bad["fields"]["cause"]), ("bad", 3, cause))
                self.assertIn(f"bad: {cause}", bad["words"])
                self.assertEqual(end["summary"]["fault"], {"offset": 3, "cause": cause})

    def test_same_records_as_the_second_program(self):
        logs = [log.input for log in stored_inputs(LOG)] + [generate(seed, 300)[0] for seed in range(8)]
        for log in logs:
            found = [(each.tag, each.body) for each in reading.records(io.BytesIO(log))]
            self.assertEqual(found, list(records(io.BytesIO(log))))


class Filters(Case):
    LOG = [packet(command()), packet(command(slot=1), source=10, tag=3), packet(command(), to=0), take(), take(1), take(1), ask(PAUSE),
           POLL, complete(BODY, 1), RESET]

    def shown(self, *arguments):
        return [found["record"] for found in objects(self.LOG, *arguments)[:-1]]

    def test_each(self):
        self.assertEqual(self.shown(), list(range(1, 11)))
        self.assertEqual(self.shown("--slot", "1"), [2, 5, 6, 7, 9, 10])
        self.assertEqual(self.shown("--source", "10"), [2, 5, 6, 9])
        self.assertEqual(self.shown("--refusals"), [3, 6])
        self.assertEqual(self.shown("--from", "4", "--to", "6"), [4, 5, 6])

    def test_together(self):
        self.assertEqual(self.shown("--slot", "1", "--refusals"), [6])
        self.assertEqual(self.shown("--source", "9", "--refusals"), [3])

    def test_state_is_followed(self):
        whole, part = objects(self.LOG), objects(self.LOG, "--slot", "1")
        self.assertEqual([whole[found["record"] - 1] for found in part[:-1]], part[:-1])
        self.assertEqual(whole[-1], part[-1])


class Summaries(Case):
    def test_slots(self):
        found = summary([*WAITING, complete(BODY), POLL, packet(command(8)), POLL, *WAITING, ask(ABORT), START, timeout(), START,
                         START, *packets(command(200, slot=1), tag=3)[:1], RESET, packet(command(slot=1))])
        self.assertEqual(found["slots"][0], {
            "slot": 0, "commands": 3, "completed": 1, "answered_at_once": 1, "ended": {"sent": 2, "aborted": 1, "reset": 0},
            "assemblies_ended": {"timed_out": 1, "started_anew": 1, "dropped": 0, "aborted": 0, "reset": 1},
            "replays": {"asked": 0, "begun": 0, "sent": 0, "aborted": 0, "reset": 0}, "state": "Idle", "held": None})
        self.assertEqual((found["slots"][1]["commands"], found["slots"][1]["state"]), (1, "Process untaken"))
        self.assertIn("slot 1 is still in Process untaken since record 16: the drive has not taken it", found["remarks"])

    def test_wait_and_bytes(self):
        found = summary([*WAITING, complete(bytes(57)), POLL, ask(GET_STATE), POLL, POLL])
        self.assertEqual(found["longest_wait"], {"records": 4, "slot": 0, "ticket": 1, "from": 3, "to": 7})
        self.assertEqual(found["bytes"], {"in": 40, "refused": 0, "out": 68 + 5 + 16, "bodies": 57})
        self.assertEqual(found["requesters"], [{"eid": 9, "tag": 1, "in": 1, "refused": 0, "out": 2},
                                               {"eid": 9, "tag": 2, "in": 1, "refused": 0, "out": 1}])

    def test_answers(self):
        found = summary([packet(command(), to=0), POLL, packet(command(), to=0)])
        self.assertEqual(found["answers"][0], {"kind": "packet", "answer": 14, "words": "TO is 0", "times": 2, "first": 1})
        self.assertEqual(found["kinds"]["packet"], 2)

    def test_alone(self):
        written = explained([POLL, POLL], "--summary")
        self.assertTrue(written.startswith("Summary\n  2 records, 6 bytes: 2 polls\n"))
        self.assertIn("Nothing to look at", written)
        self.assertEqual(len(objects([POLL, POLL], "--summary")), 1)

    def test_empty(self):
        self.assertIn("the log is empty", explained(b""))

    def test_sums_fit(self):
        for seed in range(3):
            found = summary(generate(seed, 500)[0])
            for slot in found["slots"]:
                there = slot["state"] not in ("Idle", "Receive")
                asked, begun, *ended = slot["replays"].values()
                self.assertEqual(slot["commands"] + begun, sum(slot["ended"].values()) + sum(ended) + there)
                self.assertLessEqual(begun, asked)


class JsonLines(Case):
    FIELDS = {"record", "offset", "kind", "fields", "answer", "refused", "sent", "words", "second", "slots", "reply_waits"}

    def test_every_line(self):
        for log in [log.input for log in stored_inputs(LOG)] + [generate(3, 500)[0]]:
            *found, end = objects(log)
            self.assertEqual(list(end), ["summary"])
            self.assertEqual([each["record"] for each in found], list(range(1, len(found) + 1)))
            for each in found:
                self.assertEqual(set(each), self.FIELDS)
                self.assertEqual([slot["slot"] for slot in each["slots"]], [0, 1])

    def test_fields(self):
        first, _, third, fourth, _ = objects([*WAITING, complete(BODY), POLL])
        self.assertEqual(first["fields"]["source"], 9)
        self.assertEqual(first["fields"]["message"], {"ror": 0, "nmimt": 1, "csi": 0, "meb": 0, "ciap": 0, "opcode": 0})
        self.assertEqual(third["fields"], {"slot": 0, "body_bytes": 4, "ticket": 1})
        self.assertEqual((fourth["sent"]["slot"], fourth["sent"]["control"], fourth["sent"]["destination"]), (0, False, 9))

    def test_names_are_in_help(self):
        for name in {*self.FIELDS, "held", "replay"}:
            self.assertIn(name, cli.EPILOG)


class Parsed(html.parser.HTMLParser):
    """The elements of a page, and whether each is closed in its turn."""
    EMPTY = {"meta", "input", "path", "circle", "use"}

    def __init__(self, written):
        super().__init__()
        self.open, self.found, self.wrong, self.text = [], [], [], []
        self.feed(written)
        self.close()

    def handle_starttag(self, tag, attrs):
        self.found.append((tag, dict(attrs)))
        if tag not in self.EMPTY:
            self.open.append(tag)

    def handle_startendtag(self, tag, attrs):
        self.found.append((tag, dict(attrs)))

    def handle_endtag(self, tag):
        if not self.open or self.open.pop() != tag:
            self.wrong.append((tag, self.getpos()))

    def handle_data(self, data):
        self.text.append(data)

    def with_class(self, name):
        return [attrs for _, attrs in self.found if name in (attrs.get("class") or "").split()]


class Pages(Case):
    def test_well_formed(self):
        for log in [log.input for log in stored_inputs(LOG) if len(log.input) < 2000] + [generate(5, 200)[0]]:
            parsed = Parsed(explained(log, "--html"))
            self.assertEqual((parsed.open, parsed.wrong), ([], []))

    def test_a_tick_for_each_packet_and_a_row_for_each_record(self):
        for seed in range(2):
            log = generate(seed, 250)[0]
            found, parsed = objects(log)[:-1], Parsed(explained(log, "--html"))
            packets_there = sum(each["kind"] == "packet" or each["sent"] is not None for each in found)
            self.assertEqual(len(parsed.with_class("tick")), packets_there)
            self.assertEqual([attrs["id"] for attrs in parsed.with_class("row")], [f"r{each['record']}" for each in found])

    def test_marks_are_defined(self):
        parsed = Parsed(explained(generate(7, 500)[0], "--html"))
        names = {attrs["id"] for tag, attrs in parsed.found if tag == "g"}
        used = {attrs["href"][1:] for tag, attrs in parsed.found if tag == "use"}
        self.assertLessEqual(used, names)
        self.assertEqual(set(page.marks()), names)

    def test_nothing_from_outside(self):
        written = explained(generate(1, 100)[0], "--html")
        for word in ("http:", "https:", "src=", "@import", "url("):
            self.assertNotIn(word, written)

    def test_words_and_filters(self):
        written = explained([packet(command(), to=0), POLL], "--html", "--refusals")
        self.assertIn("sets flag bit 12", written)
        self.assertEqual(len(Parsed(written).with_class("row")), 1)

    def test_a_log_named_like_markup(self):
        written = io.StringIO()
        cli.explain(argparse.Namespace(**{**vars(asked("--html")), "log": "<b>&"}), io.BytesIO(POLL), second_answers, written.write)
        self.assertIn("<h1>&lt;b&gt;&amp;</h1>", written.getvalue())

    def test_lanes_are_where_the_style_has_them(self):
        style = (TOOL.parent / "explain" / "page.css").read_text()
        for name, place in (("s0", page.SLOTS[0]), ("s1", page.SLOTS[1]), ("reply", page.REPLY)):
            self.assertIn(f".{name} {{ left: {place}px; }}", style)


class Differences(Case):
    def test_other_answers_are_told(self):
        written = explained([POLL, take()], source=lines_of("0", "0"))
        self.assertIn("-> 0, taken\n        !! the second program answers 31", written)
        self.assertIn("at 1 record the second program answers otherwise, first at record 2", written)

    def test_lines_that_can_not_be(self):
        for line in ("x", "1", "1 0g", "1 00", "77", "0 00", "bad", ""):
            with self.subTest(line=line):
                for form in ((), ("--json",), ("--html",)):
                    self.assertIn("second program answers" if not form or form == ("--html",) else '"second": "0"',
                                  explained([POLL], *form, source=lines_of(line)))

    def test_a_faulty_record_that_was_answered(self):
        for form in ((), ("--html",)):
            self.assertIn(", which is no line for a faulty record", explained(record(7), *form, source=lines_of("0")))

    def test_a_packet_that_was_not_expected(self):
        self.assertIn("which is not what the second program sends", explained([POLL], source=lines_of("1 0109084184")))

    def test_too_few_and_too_many_lines(self):
        with self.assertRaisesRegex(answers.Trouble, "no line for record 2"):
            explained([POLL, POLL], source=lines_of("0"))
        with self.assertRaisesRegex(answers.Trouble, "more lines than the log has records"):
            explained([POLL], source=lines_of("0", "0"))


class Backlogs(Case):
    def test_it_comes_back_whole(self):
        backlog = answers.Backlog()
        chunks = [os.urandom(answers.CHUNK if place % 3 else 100) for place in range(3 * answers.HELD)]
        for chunk in chunks:
            backlog.put(chunk)
        backlog.end()
        self.assertGreater(backlog.places, 0)
        self.assertEqual(io.BufferedReader(backlog).read(), b"".join(chunks))

    def test_places_are_used_again(self):
        backlog, stream = answers.Backlog(), None
        for _ in range(answers.HELD):
            backlog.put(bytes(answers.CHUNK))
        stream = io.BufferedReader(backlog, answers.CHUNK)
        for _ in range(4 * answers.HELD):
            backlog.put(bytes(answers.CHUNK))
            stream.read(answers.CHUNK)
        self.assertLess(backlog.places, answers.HELD + 2)

    def test_a_child_that_reads_all_before_it_prints(self):
        """The log is longer than a pipe holds, and the program prints nothing before it has all of it."""
        with tempfile.TemporaryDirectory() as folder:
            log = b"".join([packet(command(64))] * 1 + [POLL] * 100_000)
            found = program_in(folder, "import sys; n = len(sys.stdin.buffer.read()); print(n)")(io.BytesIO(log))
            self.assertEqual((next(found.lines), len(found.log.read())), (str(len(log)), len(log)))
            found.finish()
            found.close()


def program_in(folder, code):
    """A source of answers: a Python program."""
    path = pathlib.Path(folder) / "program"
    path.write_text(f"#!{sys.executable}\n{code}\n")
    path.chmod(0o755)
    return answers.program(path)


class CommandLine(Case):
    """The tool as it is run, with lines of a file as its answers."""

    @classmethod
    def setUpClass(cls):
        cls.folder = tempfile.TemporaryDirectory()
        cls.log, cls.out = pathlib.Path(cls.folder.name, "log"), pathlib.Path(cls.folder.name, "out")
        cls.log.write_bytes(POLL * 30_000)
        cls.out.write_text("0\n" * 30_000)

    @classmethod
    def tearDownClass(cls):
        cls.folder.cleanup()

    def start(self, *arguments, **given):
        given = {"stdin": subprocess.DEVNULL, "stdout": subprocess.PIPE, "stderr": subprocess.PIPE, "text": True, **given}
        return subprocess.Popen([sys.executable, "-B", str(TOOL), *map(str, arguments)], **given)

    def ran(self, *arguments, **given):
        child = self.start(*arguments, **given)
        out, err = child.communicate()
        self.assertNotIn("Traceback", err)
        return child.returncode, out, err

    def test_missing_and_folder(self):
        for path, words in (("/nowhere/log", "No such file"), (self.folder.name, "Is a directory")):
            status, out, err = self.ran("--answers", self.out, path)
            self.assertEqual((status, out), (1, ""))
            self.assertIn(f"explain.py: {path} can't be read: {words}", err)

    @unittest.skipIf(os.geteuid() == 0, "root reads every file")
    def test_unreadable(self):
        path = pathlib.Path(self.folder.name, "closed")
        path.touch(0)
        self.assertIn("Permission denied", self.ran("--answers", self.out, path)[2])

    def test_missing_answers(self):
        status, _, err = self.ran("--answers", "/nowhere/out", self.log)
        self.assertEqual((status, err), (1, "explain.py: /nowhere/out can't be read: No such file or directory\n"))

    def test_standard_input(self):
        with open(self.log, "rb") as log:
            status, out, _ = self.ran("--summary", "--answers", self.out, "-", stdin=log)
        self.assertEqual(status, 0)
        self.assertIn("30,000 polls", out)

    def test_a_reader_that_stops(self):
        child = self.start("--answers", self.out, self.log)
        child.stdout.readline()
        child.stdout.close()
        self.assertEqual((child.wait(), child.stderr.read()), (0, ""))
        child.stderr.close()

    def test_interrupt(self):
        child = self.start("--answers", self.out, "-", stdin=subprocess.PIPE,
                           preexec_fn=lambda: signal.signal(signal.SIGINT, signal.default_int_handler))
        child.stdin.write((POLL * 20_000).decode())
        child.stdin.flush()
        child.stdout.read(1000)                 # it is at work, and waits for more
        child.send_signal(signal.SIGINT)
        _, err = child.communicate()
        self.assertEqual((child.returncode, err), (130, ""))

    def test_a_full_device(self):
        with open("/dev/full", "w") as full:
            status, _, err = self.ran("--answers", self.out, self.log, stdout=full)
        self.assertEqual(status, 1)
        self.assertIn("No space left", err)

    def test_a_difference_has_a_status(self):
        self.out.with_name("other").write_text("37\n" * 30_000)
        status, _, err = self.ran("--summary", "--answers", self.out.with_name("other"), self.log)
        self.assertEqual(status, 1)
        self.assertIn("differ at 30000 records, first at record 1", err)


class Programs(Case):
    """The log program as a child, with programs that stand in for it."""

    def trouble(self, code, log=POLL):
        with tempfile.TemporaryDirectory() as folder, self.assertRaises(answers.Trouble) as raised:
            explained(log, source=program_in(folder, code))
        return str(raised.exception)

    def test_it_fails(self):
        with mock.patch.dict(os.environ, PATH=""):
            self.assertIn("./program ended with status 3; rt, the command of the Rattle kit, is not on the path",
                          self.trouble("raise SystemExit(3)"))
        self.assertIn("./program ended with status 3", self.trouble("raise SystemExit(3)", b""))
        self.assertIn("./program ended with status 3", self.trouble("print(0); raise SystemExit(3)", POLL))
        self.assertIn("./program ended with status 3", self.trouble("raise SystemExit(3)", POLL * 200_000))

    def test_it_prints_too_little(self):
        self.assertIn("no line for record 1", self.trouble("pass"))

    def test_it_is_not_there(self):
        with self.assertRaisesRegex(answers.Trouble, "can't be run: No such file"):
            explained(POLL, source=answers.program(pathlib.Path("/nowhere/mi-log")))

    def test_it_answers(self):
        code = f"import sys; sys.path.insert(0, {str(TESTS)!r})\nfrom second.log import log_lines\n" \
               "for line in log_lines(sys.stdin.buffer): print(line)"
        log = generate(0, 400)[0] + record(7)
        with tempfile.TemporaryDirectory() as folder:
            self.assertEqual(explained(log, source=program_in(folder, code)), explained(log))


if __name__ == "__main__":
    unittest.main()
