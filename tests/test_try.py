#!/usr/bin/env python3
"""Tests of ./mi-try.

    python3 -B tests/test_try.py

The second program answers here, so that nothing has to be proved or built.
"""
import io
import os
import pathlib
import pty
import re
import select
import signal
import subprocess
import sys
import tempfile
import time
import unittest

TESTS = pathlib.Path(__file__).resolve().parent
ROOT = TESTS.parent
sys.path[:0] = [str(ROOT / "tools"), str(TESTS)]

from children import heed_signals  # noqa: E402
from explain.names import DONE, REFUSALS  # noqa: E402
from second.calls import Calls, call_lines, records  # noqa: E402
from second.wire import response, sealed, success  # noqa: E402
from trying import cli, requester_telling  # noqa: E402
from trying.program import Trouble  # noqa: E402
from trying.session import Quit, Session, Unexpected  # noqa: E402
from trying.values import LineError  # noqa: E402
from trying.words import WORDS, read_line  # noqa: E402

SECOND = f"{sys.executable} {TESTS / 'second'} calls"
SCRIPTS = sorted((TESTS / "try").glob("*.try"))


class Second:
    """The second program, in this process."""

    def __init__(self):
        self.calls = Calls()

    def line(self, record):
        return self.calls.line(*next(records(io.BytesIO(record))))


class Printing:
    """A program that prints these lines, and looks at two ends that stay as they are between them."""

    looks = {tag: Calls().line(tag, b"") for tag in (25, 38)}

    def __init__(self, *lines):
        self.lines = list(lines)

    def line(self, record):
        return self.looks[record[0]] if record[0] in self.looks else self.lines.pop(0)


class Misreporting(Second):
    """A program that reports CPSR 0 in place of 1, and 1 in place of 0."""

    def line(self, record):
        found, endpoint = super().line(record), self.calls.endpoint
        if record[0] == 18 and endpoint.reply:
            who, message = endpoint.reply
            endpoint.reply = who, response(0, 0, success(message[5], 1 - message[6]))
        return found


class Untrue(Second):
    """A program that reports another CPSR for the Abort of a taken command: 1 for 2, and 2 for 1."""

    def line(self, record):
        states = [self.calls.endpoint.state(slot) for slot in (0, 1)]
        found, endpoint = super().line(record), self.calls.endpoint
        if record[0] == 18 and found == "2" and [endpoint.state(slot) for slot in (0, 1)] != states:
            who, message = endpoint.reply
            endpoint.reply = who, response(0, 0, success(message[5], 3 - message[6]))
        return found


class Accepting(Second):
    """A program that takes every declaration, and does nothing."""

    def line(self, record):
        return "0" if record[0] == 48 else super().line(record)


class Altered(Second):
    """A program whose looks have something else at a place, once a record of this tag has come."""

    def __init__(self, tag, place, other):
        super().__init__()
        self.tag, self.place, self.other, self.begun = tag, place, other, False

    def line(self, record):
        self.begun |= record[0] == self.tag
        found = super().line(record)
        return found.replace(self.place, self.other) if self.begun and record[0] == 25 else found


class WithoutRequester(Second):
    """A program that does not know the requester's records."""

    def line(self, record):
        return "bad" if record[0] in range(32, 39) else super().line(record)


class Case(unittest.TestCase):
    def setUp(self):
        self.begin()

    def begin(self, program=None, **options):
        self.written = io.StringIO()
        self.session = Session(program or Second(), self.written.write, width=1000, **options)

    def does(self, *lines):
        """What the lines print."""
        start = self.written.tell()
        for line in lines:
            self.session.run(line)
        return self.written.getvalue()[start:]

    def says(self, line, *words):
        found = self.does(line)
        for part in words:
            self.assertIn(part, found)

    def answers(self, line, *numbers):
        self.does(line)
        self.assertEqual(self.session.answers, list(numbers), line)

    def refuses(self, line, words, error=LineError):
        """A line that ends with this error."""
        with self.subTest(line=line):
            with self.assertRaises(error) as caught:
                self.does(line)
            self.assertIn(words, str(caught.exception))


class Scripts(Case):
    def test_each(self):
        for script in SCRIPTS:
            with self.subTest(script=script.name):
                self.begin()
                self.does(*script.read_text().splitlines())

    def test_every_number_is_there(self):
        """Each end has its own; 41 is the requester's alone."""
        for script, numbers in (("every-number.try", {*REFUSALS, *DONE[1]}),
                                ("requester-numbers.try", {*requester_telling.REFUSALS, 0, 1, 2})):
            expected = re.findall(r"^expect (.*)$", (TESTS / "try" / script).read_text(), re.MULTILINE)
            found = {int(word) for line in expected if line[0].isdigit() for word in line.split()}
            self.assertEqual(found, numbers, script)

    def test_the_page(self):
        """docs/TRY.md is one session, and has what the tool prints."""
        page = [line[4:] for line in (ROOT / "docs/TRY.md").read_text().splitlines() if line.startswith("    ")]
        self.session.width = 120
        printed = []
        for line in page:
            if line.startswith("> "):
                printed += [line, *self.does(line[2:]).splitlines()]
        self.assertEqual(printed, page)


class Building(Case):
    def test_a_command(self):
        self.answers("command slot 1 admin 72 tag 3 from 9 ciap fill rising", 0, 1)
        self.does("take 1", "read 1")
        length, part = self.session.line.split()
        self.assertEqual(length, "72")
        self.assertTrue(part.startswith("84110200" "00010203"))
        self.does("look")
        self.assertIn("slot1=1,1,0,process:9:3:2:72:taken", self.session.line)

    def test_fields(self):
        for line, bytes_ in (("command mi 20 from 20 tag 5", "010814cd8408"),
                             ("command mi 20 version 3 dest 7 to 0 seq 2", "030709e18408"),
                             ("command mi 20 opcode 9 fill ff", "010809c98408000009ffff"),
                             ("command mi 20 mtag 6", "010809ce"),
                             ("command nmimt 15 20 slot 1 ror meb ciap", "010809c984f90300"),
                             ("command mi 8 opcode 1", "010809c98408"),
                             ("control abort slot 1 tag 5Ah cpsp 0x102", "010809ca84010000025a0201"),
                             ("control 200", "010809ca84000000c800"),
                             ("control replay slot 1 tag 7", "010809ca8401000004070000"),
                             ("control get-state clear mtag 7 from 1", "010801cf8400000003000100"),
                             ("packet 01:08 0x09 c9 ones 2", "010809c9ffff")):
            with self.subTest(line=line):
                self.begin(save=io.BytesIO())
                self.does(line)
                self.assertEqual(self.session.save.getvalue()[6:6 + len(bytes_) // 2].hex(), bytes_)

    def test_damage(self):
        for line, *numbers in (("command mi 20 bad-check", 19), ("command mi 20 version 2", 12), ("command mi 20 dest 9", 13),
                               ("command mi 20 to 0", 14), ("command mi 20 ror", 15), ("command mi 200 no-eom", 0, 0, 0, 16),
                               ("command mi 200 only 2", 0, 0), ("command mi 200 skip 2 only 3", 0), ("reset", 0),
                               ("command mi 200 no-som", 21, 21, 21, 21),
                               ("control pause bad-check", 19), ("control pause ror", 15), ("control pause no-eom", 16)):
            self.answers(line, *numbers)

    def test_sequence(self):
        self.answers("command mi 200 seq 3", 0, 0, 0, 1)
        self.does("reset")
        self.answers("command mi 200 only 1", 0)
        self.answers("command mi 200 skip 1 only 2 seq 2", 22)

    def test_goes_to_the_endpoint(self):
        self.does("setup 200")
        self.answers("command mi 20", 1)
        self.says("command mi 20 dest 8", "13, the destination is EID 8 and not ours, 200")

    def test_tickets(self):
        self.says("complete 0 taken zeros 4", "31, slot 0 is not in Process", "it used ticket 0, which no take of that slot gave")
        self.does("command mi 20", "take 0")
        self.says("complete 0 9 zeros 4", "32,", "it used ticket 9, which no take of that slot gave; the slot's present one is 1")
        self.says("complete 0 taken hex 00 01", "35, the body has 2 bytes")
        self.answers("complete 0 taken 00010203", 0)
        self.does("setup 8")
        self.assertEqual(self.session.ticket(0), 0)


class Telling(Case):
    def test_what_changed(self):
        self.says("take 4294967295", "30, there is no slot 4294967295", "nothing changed")
        self.says("command mi 100 only 1", "slot 0 goes from Idle to Receive", "= slot 0 Receive, 64 bytes")
        self.says("command mi 20 bad-check", "19, the integrity check is wrong: the message of 20 bytes carries",
                  "ends the assembly of slot 0", "sets flag bit 4", "its payload stays in store 0")
        self.says("command mi 100 skip 1 bad-check", "21, ")
        self.says("command mi 100 bad-check", "19, the integrity check is wrong: the message of 100 bytes carries")

    def test_stores_and_buffer(self):
        self.does("command mi 100 only 1")
        self.says("stores 0 4300", "receive, complete and poll answer 40")
        self.says("command mi 20", "40, a store has not 4,224 bytes: store 0 has 0 bytes and store 1 has 4,300 bytes",
                  "nothing changed")
        self.says("packet 01", "40, ")
        self.says("poll", "40, ")
        self.says("read 0", "0, an empty part")
        self.says("stores 4224 4224", "they are lent from here on\n")
        self.says("poll 0", "poll with a buffer of 0 bytes", "36, the buffer has 0 bytes, fewer than 68")

    def test_setup(self):
        self.says("setup 9", "setup with EID 9\n",
                  "0, set up: the endpoint's EID is 9 and its unit 64, all else is zero")
        self.says("setup 255", "38, the EID is not 8 to 254; the state is the one for EID 8 and unit 64")

    def test_replies(self):
        self.says("control get-state slot 1 tag 90", "TAG 5ah, CPSR 0000h: state Idle")
        self.says("control 9", "error 03h (invalid opcode); it did not act",
                  "the reply to Get State for slot 1 of record 1, which waited, is replaced")
        self.says("poll", "the reply to control primitive 09h for slot 0 of record 2")
        self.does("control pause", "setup 8")
        self.says("poll", "0, nothing to send")

    def test_a_held_response(self):
        self.does("command mi 20 from 20 tag 3", "take 0", "complete 0 taken rising 61")
        held = "slot 0 Idle, holds its last response (69 bytes to EID 20 under tag 3), ticket 1"
        self.says("polls", "0, nothing to send: no control reply waits, and no slot is in Transmit",
                  f"= {held}; slot 1 Idle, ticket 0")
        self.says("look", f"{held}; its store: 4,224 bytes")
        self.does("expect slot 0 idle", "command slot 1 mi 20 bad-check")
        self.says("command mi 20 dest 9", "13, ")
        self.says("look", held)
        self.says("command mi 20 bad-check", "19, ", "slot 0 loses its last response", "its payload stays in store 0",
                  "= slot 0 Idle, ticket 1; slot 1 Idle, ticket 0")
        self.does("command mi 19", "polls")
        self.says("command mi 20", "slot 0 goes from Idle to Process untaken and loses its last response")

    def test_replay(self):
        again = "CPSR 1: the slot sends its last response again, 69 bytes to EID 20 under tag 3"
        self.does("command mi 20 from 20 tag 3", "take 0", "complete 0 taken rising 61", "polls")
        self.says("control replay tag 7", "Replay for slot 0, TAG 07h, CPSP 0000h", f"its reply is TAG 07h, {again}",
                  "slot 0 goes from Idle to Transmit", "= slot 0 Transmit, 0 of 2 packets sent to EID 20 under tag 3, ticket 1")
        self.says("poll", "EID 8 to 9", f"the reply to Replay for slot 0 of record 7: TAG 07h, {again}")
        self.says("poll", "EID 8 to 20", "packet 1 of 2 of the response of slot 0 to its MI command, status 00h (success), "
                  "sent again by the Replay of record 7")
        self.says("poll", "packet 2 of 2 of the response of slot 0, sent again by the Replay of record 7", "69 bytes in 2 packets",
                  "= slot 0 Idle, holds its last response (69 bytes to EID 20 under tag 3), ticket 1")
        self.does("expect body rising 61", "command mi 19")
        self.assertNotIn("again", self.does("polls"))

    def test_replay_that_sends_nothing(self):
        self.says("control replay slot 1", "Replay for slot 1", "CPSR 0: nothing happened, since the slot held no response")
        self.does("command mi 20")
        self.says("control replay", "CPSR 0: nothing happened, since the slot was not Idle but in Process untaken")
        self.does("command slot 1 mi 19", "polls")
        for options in ("cpsp 2", "cpsp 0x100", "clear", "slot 1 cpsp 1"):
            self.says(f"control replay {options}",
                      "error 04h (invalid parameter) at byte 6 bit 0, CPSP: Replay takes only CPSP 0; it did not act")

    def test_responses(self):
        self.does("command mi 20", "take 0", "complete 0 taken rising 61")
        self.says("poll", "packet 1 of 2 of the response of slot 0 to its MI command, status 00h (success)")
        self.does("control get-state")
        self.says("polls", "the reply to Get State", "packet 2 of 2",
                  "the whole response to the MI command of slot 0: 69 bytes in 2 packets", "its body of 61 bytes: 00 01 02",
                  "integrity check right")

    def test_at_once(self):
        self.says("command mi 19", "1, a command is complete: slot 0 enters Process with ticket 1; answered at once with an error")
        self.says("polls", "status 05h (invalid command size)")

    def test_long_rows(self):
        found = self.does("command mi 4224")
        self.assertIn("records 3 to 64 are alike: 0 each", found)
        self.assertEqual(found.count("->"), 4)
        self.assertEqual(self.does("command mi 200 slot 1").count("->"), 4)

    def test_a_long_line_goes_on_below(self):
        self.session.width = 60
        found = self.does("command mi 20").splitlines()
        self.assertLessEqual(max(map(len, found)), 60)
        self.assertTrue(found[1].startswith(" " * 11))

    def test_look(self):
        self.does("command mi 20", "command mi 20", "packet 01 08 09 c1 84", "control pause")
        self.says("look", "EID 8, unit 64 (payload bytes of a full packet), flags 1000h: bit 12 (TO was 0)",
                  "slot 0 goes first when no response is begun",
                  "a control reply waits for EID 9 under tag 2: 84 80 00 00 00 00 01 00", "paused, ticket 1, bit 3 is set")

    def test_raw_and_save(self):
        saved = io.BytesIO()
        self.begin(raw=True, save=saved)
        self.says("take 0", "record 13 04 00 00000000\n", "line   31\n")
        self.assertEqual(list(call_lines(io.BytesIO(saved.getvalue())))[1], "31")

    def test_a_program_that_is_wrong(self):
        for call, line, words in (("command mi 20", "1", "1, a command is complete"),
                                  ("command mi 100 only 1", "0", "0, taken in, more to come"),
                                  ("control pause", "2", "2, a control primitive was answered"), ("take 0", "0 1", "0, taken"),
                                  ("complete 0 0 zeros 4", "0", "0, completed"),
                                  ("poll", "1 5 010908c184 stays", "1, sends a packet of 5 bytes")):
            self.begin(Printing(line))
            self.says(call, words, "!! the answer does not go with what a look shows")
        self.begin(Printing("0 touched"))
        self.says("poll", "!! bytes of the buffer behind the packet were touched")
        for call, line in (("take 0", "x"), ("poll", "7 stays"), ("reset", "1"), ("poll", "1 stays"), ("command mi 20", "")):
            self.begin(Printing(line))
            with self.assertRaises(Trouble):
                self.does(call)
        self.begin(Printing("17"))
        self.says("record 99 0102", "record with tag 99", "-> 17")

    def test_a_replay_that_is_wrong(self):
        """Nothing is told of the slot, with the Replay and with its reply."""
        for held in ((), ("command mi 19", "polls")):
            self.begin(Misreporting())
            self.does(*held)
            found = self.does("control replay")
            self.assertIn("2, a control primitive was answered\n        !! the answer does not go with what a look shows", found)
            self.assertNotIn("its reply is", found)
            words = "nothing happened, since the slot was not Idle or held no response" if held else "sends its last response again"
            self.assertIn(f"{words}\n", self.does("poll", "poll"))

    def test_a_setup_that_is_wrong(self):
        """A look has to show the EID and the unit that go with the answer."""
        for line in ("0", "38", "39"):
            self.begin(Printing(line))
            self.says("setup 9 unit 250", f"-> {line}, ")
            self.assertEqual(Requesting.ODD in self.written.getvalue(), line == "0", line)
        for line in ("1", "x", "40", "0 0"):
            self.begin(Printing(line))
            self.refuses("setup 9", f"record 1: {line!r} is no line for this call", Trouble)
        self.begin(Printing("17"))
        self.says("record 16 0940", "record with tag 16", "-> 17")

    def test_looks_that_are_none(self):
        for part, other in (("unit=64 ", ""), ("unit=64", "unit=x")):
            program = Printing()
            program.looks = {25: program.looks[25].replace(part, other)}
            with self.subTest(other), self.assertRaisesRegex(Trouble, "which is no state"):
                self.begin(program)
        for phase in ("idle:9", "idle:9:1", "idle:9:1:12:0", "held:9:1:12", "receive:9:1"):
            program = Printing()
            program.looks = {25: program.looks[25].replace("slot1=0,0,0,idle", f"slot1=0,0,0,{phase}")}
            with self.subTest(phase), self.assertRaisesRegex(Trouble, f"{phase} check0=.*, which is no state"):
                self.begin(program)


class Declaring(Case):
    """A taken command that can be stopped, or no longer can."""

    ODD = "!! the answer does not go with what a look shows"
    TAKEN = "command mi 20", "take 0"
    CAN = "slot 0 Process taken (can be stopped), 20 bytes from EID 9 under tag 1, ticket 1"
    CANNOT = "slot 0 Process taken, 20 bytes from EID 9 under tag 1, ticket 1"
    STOPPED = "CPSR 1: it was taken, and was stopped with no effect, as the drive's software had declared\n"
    EFFECT = "CPSR 2: it was taken, and may have had an effect\n"
    EITHER = "CPSR 1: it was in Receive, or in Process and not taken, or taken and stopped with no effect\n"

    def answer(self, line):
        """The line's answer with its words, and what stands below it."""
        return self.does(line).partition("-> ")[2]

    def aborted(self, words, slot=0):
        """An Abort says this when it comes, and its reply when it goes."""
        self.says(f"control abort slot {slot} tag 7", f"its reply is TAG 07h, {words}")
        self.says("poll", f"the reply to Abort for slot {slot} of record", f"TAG 07h, {words}")

    def test_records(self):
        for line, body in (("declare 0 1 can", "00000000 01000000 01"),
                           ("declare 1 0x102 cannot", "01000000 02010000 00"),
                           ("declare 4294967295 FFFFFFFEh can", "ffffffff feffffff 01"),
                           ("declare 0 taken cannot", "00000000 02000000 00"),
                           ("declare 1 taken can", "01000000 00000000 01")):
            self.begin(save=io.BytesIO())
            self.does(*self.TAKEN, "reset", *self.TAKEN)
            start, expected = self.session.save.tell(), bytes.fromhex("30 0900" + body)
            self.does(line)
            self.assertEqual(self.session.save.getvalue()[start:][:12], expected, line)

    def test_can(self):
        self.does(*self.TAKEN)
        self.assertEqual(self.does("declare 0 taken can"), (
            "     3  declare of slot 0 with ticket 1: the command can still be stopped\n"
            "        -> 0, declared: it used ticket 1, taken at record 2; the slot's present one is 1; "
            "an Abort now reports CPSR 1: stopped with no effect\n"
            "           slot 0 goes from Process taken to Process taken (can be stopped)\n"
            f"        = {self.CAN}; slot 1 Idle, ticket 0\n"))

    def test_cannot(self):
        self.does(*self.TAKEN, "declare 0 taken can")
        self.assertEqual(self.does("declare 0 1 cannot"), (
            "     4  declare of slot 0 with ticket 1: the command can no longer be stopped\n"
            "        -> 0, declared: it used ticket 1, taken at record 2; the slot's present one is 1; "
            "an Abort now reports CPSR 2: it may have had an effect\n"
            "           slot 0 goes from Process taken (can be stopped) to Process taken\n"
            f"        = {self.CANNOT}; slot 1 Idle, ticket 0\n"))

    def test_the_same_again(self):
        """A take starts at cannot."""
        self.does(*self.TAKEN)
        for mark, same in (("cannot", True), ("can", False), ("can", True), ("cannot", False)):
            found = self.does(f"declare 0 taken {mark}", "expect 0")
            self.assertEqual("nothing changed: it was so before\n" in found, same, mark)
            self.assertEqual("goes from" in found, not same, mark)

    def test_looks(self):
        self.does(*self.TAKEN, "command slot 1 mi 20 tag 3", "take 1", "declare 1 taken can")
        self.says("look", f"{self.CANNOT}; its store: 4,224 bytes",
                  "slot 1 Process taken (can be stopped), 20 bytes from EID 9 under tag 3, ticket 1; its")
        self.does("declare 1 taken cannot", "declare 0 taken can")
        self.says("look", f"{self.CAN}; its store: 4,224 bytes",
                  "slot 1 Process taken, 20 bytes from EID 9 under tag 3, ticket 1; its")

    def test_expectations(self):
        self.does(*self.TAKEN, "expect slot 0 taken")
        self.refuses("expect slot 0 stoppable", "expected stoppable, and slot 0 was taken", Unexpected)
        self.does("declare 0 taken can", "expect 0", "expect line 0", "expect slot 0 stoppable")
        for state in ("taken", "untaken", "idle", "answered"):
            self.refuses(f"expect slot 0 {state}", f"expected {state}, and slot 0 was stoppable", Unexpected)
        self.refuses("expect slot 1 stoppable", "expected stoppable, and slot 1 was idle", Unexpected)
        self.does("declare 0 taken cannot", "expect slot 0 taken")

    def test_30(self):
        for slot in (2, 4294967295):
            self.says(f"declare {slot} taken can", f"declare of slot {slot} with ticket 0: the command can",
                      f"30, there is no slot {slot}, only 0 and 1\n", "nothing changed\n")

    def test_31(self):
        no_process = "31, slot 0 is not in Process: it is"
        self.says("declare 0 taken can", f"{no_process} Idle; it used ticket 0, which no take of that slot "
                  "gave; the slot's present one is 0\n", "nothing changed\n")
        self.does("command mi 100 only 1")
        self.says("declare 0 0 can", f"{no_process} in Receive; it used ticket 0, ")
        self.does("command mi 20 ciap", "take 0", "complete 0 taken zeros 4")
        self.says("declare 0 1 can", "31, slot 0 is in Process, and its response is there; it used ticket 1, "
                  "taken at record 5; the slot's present one is 1\n")
        self.does("control resume")
        self.says("declare 0 1 cannot", f"{no_process} in Transmit; it used ticket 1, taken at record 5; ")

    def test_32(self):
        not_present = "32, the ticket is not the slot's present one: it used ticket"
        self.does(*self.TAKEN, "reset", *self.TAKEN)
        self.says("declare 0 1 can", f"{not_present} 1, taken at record 2; the slot's present one is 2\n",
                  "nothing changed\n")
        self.says("declare 0 4294967295 cannot", f"{not_present} 4,294,967,295, which no take of that slot "
                  "gave; the slot's present one is 2\n")
        self.does("expect slot 0 taken")

    def test_34(self):
        self.does("command mi 20")
        self.says("declare 0 1 can", "34, not taken\n", "nothing changed\n")
        self.does("expect slot 0 untaken")

    def test_the_order(self):
        """Of several grounds the first is told: no slot, no command, another ticket, not taken."""
        self.answers("declare 2 9 can", 30)
        self.answers("declare 0 9 can", 31)
        self.does("command mi 20")
        self.answers("declare 0 9 can", 32)
        self.answers("declare 0 1 can", 34)

    def test_grounds_are_those_of_a_completion(self):
        self.does("command mi 20", "take 0", "reset")
        for line, numbers in (("reset", (30, 31, 31)), ("command mi 100 only 1", (30, 31, 31)),
                              ("command mi 20", (30, 32, 34)), ("take 0", (30, 32)),
                              ("complete 0 taken zeros 4", (30, 31, 31))):
            self.does(line)
            for slot, ticket, number in zip((2, 0, 0), (1, 1, 2), numbers):
                found = self.answer(f"declare {slot} {ticket} can")
                self.assertTrue(found.startswith(f"{number}, "), found)
                self.assertEqual(found, self.answer(f"complete {slot} {ticket} zeros 4"), line)

    def test_no_store_is_lent(self):
        self.does(*self.TAKEN, "stores 0 4300")
        self.answers("complete 0 taken zeros 4", 40)
        self.answers("declare 0 taken can", 0)
        self.does("expect slot 0 stoppable")

    def test_abort(self):
        self.does(*self.TAKEN)
        self.aborted(self.EFFECT)
        self.does(*self.TAKEN, "declare 0 taken can")
        self.aborted(self.STOPPED)
        self.does(*self.TAKEN, "declare 0 taken can", "declare 0 taken cannot")
        self.aborted(self.EFFECT)
        self.does(*self.TAKEN, "declare 0 taken can", "declare 0 taken cannot", "declare 0 taken can")
        self.says("control abort tag 7", "aborts what slot 0 had: slot 0 Process taken (can be stopped)",
                  "slot 0 goes from Process taken (can be stopped) to Idle", "= slot 0 Idle, ticket 4")

    def test_abort_of_each_slot(self):
        self.does(*self.TAKEN, "command slot 1 mi 20 tag 3", "take 1", "declare 1 taken can")
        self.aborted(self.EFFECT)
        self.aborted(self.STOPPED, 1)

    def test_abort_of_others(self):
        """In other states an Abort says what it said."""
        receive = "CPSR 1: it was in Receive, or in Process and not taken\n"
        nothing = "CPSR 0: there was nothing to stop: it was Idle, or its response was there\n"
        for lines, words in ((["command mi 100 only 1"], receive), (["command mi 20"], receive),
                             (["command mi 100 only 1 tag 2"], nothing), (["reset"], nothing),
                             (["command mi 19"], nothing),
                             ([*self.TAKEN, "declare 0 taken can", "complete 0 taken zeros 4"], nothing)):
            with self.subTest(lines):
                self.does(*lines)
                self.aborted(words)
                self.does("reset")

    def test_the_next_command_starts_without_it(self):
        for end in ("control abort", "reset", "complete 0 taken zeros 4"):
            self.begin()
            self.does(*self.TAKEN, "declare 0 taken can", end, "polls", *self.TAKEN, "expect slot 0 taken")
            self.aborted(self.EFFECT)

    def test_it_stays(self):
        """No other call changes what was declared, and none is in its way."""
        self.does(*self.TAKEN, "declare 0 taken can")
        state = "Process taken (can be stopped)"
        for line, words in (("take 0", f"33, taken already: {self.CAN}"), ("read 0", "-> 20 bytes"),
                            ("command mi 20 tag 4", f"20, the command's slot is not Idle: {self.CAN}"),
                            ("timeout 0", f"37, slot 0 is not in Receive: it is in {state}"),
                            ("control replay", f"since the slot was not Idle but in {state}"),
                            ("control get-state", "state Process, not paused"), ("polls", "0, nothing to"),
                            ("control pause", "sets the pause flag of slot 0"), ("control resume", "clears"),
                            ("control abort meb", "it did not act"), ("complete 0 9 zeros 4", "32, "),
                            ("complete 0 taken zeros 3", "35, "), ("command slot 1 mi 20", "slot 1 enters"),
                            ("control abort slot 1", "CPSR 1: it was in Receive")):
            self.says(line, words)
            self.does("expect slot 0 stoppable")
        self.says("complete 0 taken zeros 4", f"slot 0 goes from {state} to Transmit")

    def test_what_the_requester_is_told(self):
        """It does not see the slot: CPSR 1 can be of a command that was not taken."""
        self.does("requester setup 9", "requester primitive abort tag 7")
        for lines, words in (([*self.TAKEN, "declare 0 taken can"], self.EITHER), (self.TAKEN, self.EFFECT),
                             (["command mi 20"], self.EITHER), (["reset"], "CPSR 0: there was nothing to")):
            self.does(*lines, "deliver endpoint", "poll", "requester await 8 2")
            self.says("deliver requester", f"the reply to Abort for slot 0 of record 2: TAG 07h, {words}")

    def test_records_as_they_are(self):
        self.does(*self.TAKEN)
        self.says("record 48 00000000 01000000 01", "declare of slot 0 with ticket 1: the command can still",
                  "0, declared: ", f"= {self.CAN}")
        self.refuses("record 48 00000000 01000000 02", "record 4: the program printed bad and ended", Trouble)
        for body in ("", "00000000 01000000", "00000000 01000000 02", "00000000 01000000 01 00"):
            self.begin(Printing("17"))          # none of them is a call
            self.says(f"record 48 {body}", "record with tag 48", "-> 17")

    def test_lines_that_are_none(self):
        for line in ("x", "", "0 1", "1", "33", "35", "40", "10"):
            self.begin(Printing(line))
            self.refuses("declare 0 1 can", f"record 1: {line!r} is no line for this call", Trouble)

    def test_a_declaration_of_no_taken_command(self):
        for slot in (0, 1, 2):
            self.begin(Printing("0"))
            found = self.does(f"declare {slot} 1 can")
            self.assertTrue(found.endswith(f"-> 0, declared\n        {self.ODD}\n"), found)
        self.begin(Accepting())
        for line in ("reset", "command mi 100 only 1", "command mi 20", "take 0", "complete 0 taken zeros 4"):
            self.does(line)
            for mark in ("can", "cannot"):
                found = self.does(f"declare 0 1 {mark}")
                self.assertEqual(self.ODD in found, (line, mark) != ("take 0", "cannot"), (line, mark))

    def test_a_declaration_that_is_wrong(self):
        """It has to leave what it declares, and change nothing else."""
        can = "slot0=1,0,0,process:9:1:1:20:can"
        for place, other in ((can, "slot0=1,0,0,process:9:1:1:20:taken"),
                             (can, "slot0=1,0,0,process:9:1:1:20:untaken"),
                             (can, "slot0=1,0,0,process:9:1:1:24:can"),
                             (can, "slot0=2,0,0,process:9:1:1:20:can"),
                             (can, "slot0=1,1,0,process:9:1:1:20:can"),
                             (can, "slot0=1,0,1,process:9:1:1:20:can"), (can, "slot0=1,0,0,idle"),
                             ("slot1=0,0,0,idle", "slot1=0,0,0,process:9:1:1:20:can"),
                             ("flags=0000", "flags=0400"), ("reply=-", "reply=9:2:8480000000000000bb5b1a3c")):
            with self.subTest(other):
                self.begin(Altered(48, place, other))
                self.does(*self.TAKEN)
                self.says("declare 0 taken can", f"-> 0, declared\n        {self.ODD}")
        self.begin(Altered(48, can, can))
        self.does(*self.TAKEN)
        self.assertNotIn(self.ODD, self.does("declare 0 taken can", "declare 0 taken cannot"))

    def test_a_refusal_that_changes_something(self):
        self.begin(Altered(48, "flags=0000", "flags=0400"))
        self.assertNotIn("nothing changed", self.does("declare 0 1 can"))

    def test_an_abort_that_is_wrong(self):
        """Nothing is told of the slot, with the Abort and with its reply."""
        for mark, words in (("can", self.EFFECT), ("cannot", self.EITHER)):
            self.begin(Untrue())
            self.does(*self.TAKEN, f"declare 0 taken {mark}")
            found = self.does("control abort")
            self.assertIn(f"2, a control primitive was answered\n        {self.ODD}", found)
            self.assertNotIn("its reply is", found)
            self.says("poll", f"the reply to Abort for slot 0 of record 4: TAG 00h, {words}")

    def test_looks_that_are_none(self):
        for taking in ("", "stoppable", "cannot", "1", "can:1"):
            program = Printing()
            phase = f"slot0=1,0,0,process:9:1:1:20:{taking}"
            program.looks = {25: program.looks[25].replace("slot0=0,0,0,idle", phase)}
            with self.subTest(taking), self.assertRaisesRegex(Trouble, f"{phase} slot1=.*which is no state"):
                self.begin(program)


class Requesting(Case):
    """The requester's words, and packets from one end to the other."""

    FIRST = "requester packet 01 09 08 81 84 88 zeros 62"       # of a response from EID 8 under tag 1
    ODD = "!! the answer does not go with what a look shows"

    def setUp(self):
        super().setUp()
        self.does("requester setup 9")

    def polled(self, body):
        """Packets that polls hand out: those of a response to EID 9 under tag 1."""
        self.does("reset", "command mi 20", "take 0", f"complete 0 taken {body}", "polls")

    def test_records(self):
        for line, *bytes_ in (
                ("requester setup 255", "20 0100", "ff"), ("requester store 4300", "21 0200", "cc10"),
                ("requester await 200 255", "22 0200", "c8ff"),
                ("requester cut bytes 84 08 zeros 6", "23 0c00", "0801 8811", "8408 0000"),
                ("requester cut mi 20 slot 1 opcode 9 fill ff tag 5 dest 7 buffer 16",
                 "23 1800", "0705 1000", "84090000 09ffffff"),
                ("requester cut nmimt 15 20 ror meb ciap", "23 1800", "0801 8811", "84f80300"),
                ("requester primitive abort slot 1 tag 5Ah cpsp 0x102",
                 "24 0c00", "0802 01000000 02 5a 0201 8811"),
                ("requester primitive replay tag 7", "24 0c00", "0802 00000000 04 07 0000 8811"),
                ("requester primitive 200 slot 4294967295 mtag 255 dest 7 buffer 0 clear",
                 "24 0c00", "07ff ffffffff c8 00 0100 0000"),
                ("requester packet 01:09 0x08 c1 ones 2", "25 0600", "010908c1 ffff"),
                ("requester look", "26 0000")):
            with self.subTest(line=line):
                self.begin(save=io.BytesIO())
                self.does("requester await 0 0")
                start, expected = self.session.save.tell(), bytes.fromhex("".join(bytes_))
                self.does(line)
                self.assertEqual(self.session.save.getvalue()[start:][:len(expected)], expected)

    def test_setup_and_store(self):
        self.says("requester setup 200", "requester: setup with EID 200",
                  "-> 0, set up: the requester's EID is 200 and its unit 64, and it awaits nothing",
                  "= requester EID 200, awaits nothing")
        self.says("requester setup 255",
                  "38, the EID is not 8 to 254; the state is the one for EID 8 and unit 64",
                  "= requester EID 8, awaits nothing")
        self.says("requester store 0", "a store of 0 bytes", "it is lent from here on: receive answers 40")
        self.says("requester packet 01", "40, the store has 0 bytes and not 4,224", "nothing changed")
        self.assertTrue(self.does("requester store 4224").endswith("it is lent from here on\n"))

    def test_awaiting(self):
        self.says("requester await 8 1", "await EID 8 under tag 1", "-> 0, awaited from here on",
                  "= requester EID 9, awaits EID 8 under tag 1")
        self.does(self.FIRST, "expect gathered 64")
        self.says("requester await 8 8", "41, the message tag is 8, above 7", "nothing changed")
        self.says("requester await 8 1", "ends the assembly from EID 8 under tag 1, 64 bytes gathered",
                  "= requester EID 9, awaits EID 8 under tag 1\n")

    def test_cutting(self):
        self.says("requester cut slot 1 admin 100 opcode 2",
                  "cut for EID 8 under tag 1; Admin command, opcode 02h (Get Log Page), for slot 1,",
                  "-> 0, cut into 2 packets, 108 bytes",
                  "packet of 40 bytes, EID 9 to 8, EOM TO, sequence 1, tag 1")
        self.says("requester cut mi 4224 tag 7", "-> 0, cut into 66 packets, 4,488 bytes",
                  "sequence 1, tag 7\n           62 more packets\n           packet of 68 bytes")
        self.answers("requester cut bytes ff zeros 7", 0)

    def test_cutting_is_refused(self):
        for options, *words in (
                ("mi 100 buffer 107", "cut for EID 8 under tag 1 with a buffer of 107 bytes",
                 "36, the buffer has 107 bytes, fewer than the 108 that are to be written"),
                ("mi 4225 tag 8 buffer 0",
                 "41, the message has 4,225 bytes, not 8 to 4,224; the message tag is 8, above 7"),
                ("tag 8 mi 4224", "41, the message tag is 8, above 7"),
                ("bytes zeros 7", "41, the message has 7 bytes, not 8 to 4,224"),
                ("bytes", "a message without a byte", "41, the message has 0 bytes, not 8 to 4,224")):
            self.says(f"requester cut {options}", *words, "nothing changed")

    def test_primitives(self):
        self.says("requester primitive pause tag 90",
                  "primitive for EID 8 under tag 2; Pause for both slots, TAG 5ah, CPSP 0000h",
                  "-> 0, built, 16 bytes", "packet of 16 bytes, EID 9 to 8, SOM EOM TO, sequence 0, tag 2")
        self.says("requester primitive 200 slot 1", "control primitive c8h for slot 1", "-> 0, built")
        for options, words in (
                ("slot 2 mtag 8 buffer 0", "41, the message tag is 8, above 7"),
                ("slot 4294967295 buffer 0", "30, there is no slot 4294967295, only 0 and 1"),
                ("buffer 15", "36, the buffer has 15 bytes, fewer than the 16 that are to be written")):
            self.says(f"requester primitive abort {options}", words, "nothing changed")

    def test_grounds(self):
        self.does("requester await 8 1")
        for packet, words in (
                ("", "10, the packet has 0 bytes, fewer than 5"),
                ("01 09 08 c1", "10, the packet has 4 bytes, fewer than 5"),
                ("01 09 08 c1 zeros 65",
                 "11, the packet has 69 bytes, more than the 68 bytes that unit 64 allows"),
                ("02 09 08 c1 84", "12, the version is 2 and not 1"),
                ("01 0a 08 c1 84", "13, the destination is EID 10 and not the requester's, 9"),
                ("01 09 08 c9 84", "14, TO is 1: it is no response"),
                ("01 09 08 c1 04", "15, the first byte is 04h and not 84h"),
                ("01 09 08 c1 84 08 zeros 6", "15, ROR is 0: it is no response"),
                ("01 09 08 81 84 88 zeros 6", "16, EOM 0, and the payload is 8 bytes and not 64"),
                ("01 09 08 c1 84 88 zeros 5", "17, EOM 1, and the payload is 7 bytes, below 8"),
                ("01 09 08 81 84 80 zeros 62", "18, a control reply has to be one packet of 12 payload "
                                               "bytes: EOM is 0 and it has 64 payload bytes and not 12"),
                ("01 09 08 c1 84 80 zeros 10", "19, the integrity check is wrong: the message of 12 bytes"),
                ("01 09 07 c1 84 88 zeros 6", "20, source and tag are not awaited: EID 7 under tag 1 came, "
                                              "and EID 8 under tag 1 is awaited"),
                ("01 09 08 51 84", "21, no message from EID 8 under tag 1 is being gathered (none is)")):
            self.says(f"requester packet {packet}", f"-> {words}", "nothing changed")
        self.says("requester packet 01 09 08 c1 84 88 zeros 10", "19, ", "its payload stays in the store")

    def test_an_assembly_ends(self):
        self.does("requester await 8 1")
        for packet, *words in (
                ("01 09 08 61 84", "22, out of sequence: 2 came, and after 0 comes 1"),
                ("01 09 08 11 zeros 63", "16, EOM 0, and the payload is 63 bytes and not 64"),
                ("01 09 08 51 84 88", "19, the integrity check is wrong: the message of 66 bytes",
                 "its payload stays in the store"),
                ("01 09 08 c1 00", "15, ")):
            self.does(self.FIRST)
            self.says(f"requester packet {packet}", *words,
                      "ends the assembly from EID 8 under tag 1, 64 bytes gathered; it is still awaited",
                      "= requester EID 9, awaits EID 8 under tag 1\n")

    def test_an_assembly_stays(self):
        self.does("requester await 8 1", self.FIRST)
        self.says("requester packet 01 09 08 52 84", "21, no message from EID 8 under tag 2",
                  "(one from EID 8 under tag 1 is)", "nothing changed")
        self.says("requester look", "requester EID 9, awaits EID 8 under tag 1, 64 bytes gathered; "
                  "the last packet's sequence was 0", "its store: 4,224 bytes, CRC-32C ")

    def test_responses(self):
        self.polled("00 01 02 03")
        self.does("requester await 8 1")
        self.says("deliver requester", "response to the MI command of slot 0, status 00h (success), 12 bytes",
                  "1, a response is complete: 12 bytes from EID 8 under tag 1",
                  "its body of 4 bytes: 00 01 02 03; integrity check right",
                  "= requester EID 9, awaits nothing")
        self.does("requester await 8 1")
        shortest = sealed(bytes.fromhex("84880000")).hex()
        self.says(f"requester packet 010908c1{shortest}", "response to the MI command of slot 0, 8 bytes",
                  "1, a response is complete: 8 bytes", "its body of 0 bytes: none")

    def test_control_replies(self):
        for built, tag, *words in (
                ("requester primitive pause tag 90", 2, "control reply of slot 0, status 00h (success)",
                 "2, a control reply is there: 12 bytes from EID 8 under tag 2",
                 "the reply to Pause for both slots of record 2: TAG 5ah, CPSR 0: no pause flag is set"),
                ("requester primitive 9", 2, "the reply to control primitive 09h for slot 0 of record",
                 "error 03h (invalid opcode); it did not act"),
                ("requester primitive replay slot 1 tag 7", 2, "the reply to Replay for slot 1 of record",
                 "TAG 07h, CPSR 0: nothing happened, since the slot was not Idle or held no response"),
                ("requester primitive replay cpsp 0x100", 2,
                 "control reply of slot 0, status 04h (invalid parameter) at byte 6 bit 0, CPSP, 12 bytes",
                 "error 04h (invalid parameter) at byte 6 bit 0, CPSP: Replay takes only CPSP 0; it did not act"),
                ("control replay cpsp 1 mtag 4", 4, "it says error 04h (invalid parameter) at byte 6 bit 0, CPSP"),
                ("control get-state tag 7", 2, "it says TAG 07h, CPSR 0000h"),
                ("control 9 mtag 3", 3, "it says error 03h (invalid opcode)")):
            self.does(built, *(["deliver endpoint"] if built.startswith("requester") else []),
                      "polls", f"requester await 8 {tag}")
            self.says("deliver requester", *words, "= requester EID 9, awaits nothing")

    def test_a_reply_to_replay_that_is_none(self):
        self.does("requester primitive replay tag 7", "requester await 8 2")
        self.says(f"requester packet 010908c2{sealed(bytes.fromhex('8480000000070200')).hex()}",
                  "the reply to Replay for slot 0 of record 2: TAG 07h, CPSR 2: an unknown value")

    def test_a_response_once_more(self):
        """Replay brings a response under the tag of its command, whatever was gathered of it before."""
        self.polled("rising 61")
        self.does("requester await 8 1", "deliver requester only 1", "requester primitive replay tag 7", "deliver endpoint",
                  "polls")
        self.says("deliver requester tag 1", "ends the assembly from EID 8 under tag 1, 64 bytes gathered",
                  "1, a response is complete: 69 bytes from EID 8 under tag 1")
        self.does("expect body rising 61", "requester await 8 2")
        self.says("deliver requester tag 2", "the reply to Replay for slot 0 of record",
                  "TAG 07h, CPSR 1: the slot sends its last response again\n")

    def test_delivered_to_the_endpoint(self):
        self.does("requester cut mi 200")
        self.answers("deliver endpoint skip 1 only 3", 21, 21)
        self.answers("deliver endpoint", 0, 0, 0, 1)
        self.answers("deliver endpoint", 20, 21, 21, 21)
        self.does("requester cut mi 20 dest 9")
        self.answers("deliver endpoint", 13)
        self.does("requester cut mi 7000")
        self.refuses("deliver endpoint", "to deliver: the last cut or primitive wrote none")

    def test_delivered_to_the_requester(self):
        self.polled("zeros 200")
        self.does("requester await 8 1")
        self.answers("deliver requester only 1", 0)
        self.answers("deliver requester skip 1", 0, 0, 1)
        self.does("poll")
        self.refuses("deliver requester", "to deliver: the last line with polls handed out none")
        self.does("command mi 20", "take 0", "complete 0 taken zeros 61", "requester await 8 1", "poll")
        self.answers("deliver requester", 0)
        self.does("poll")
        self.answers("deliver requester", 1)

    def test_delivered_by_tag(self):
        self.does("command mi 20", "take 0", "complete 0 taken zeros 61", "control get-state", "polls",
                  "requester await 8 1")
        self.answers("deliver requester tag 1", 0, 1)
        self.does("requester await 8 2")
        self.answers("deliver requester", 2, 20, 21)
        self.answers("deliver requester tag 1 skip 1", 21)
        self.refuses("deliver requester tag 5", "there are 3, and the options leave none")
        self.refuses("deliver requester tag 1 skip 2", "there are 3, and the options leave none")

    def test_every_number_of_packets(self):
        """What one end cuts is gathered by the other, also where its last packet is full or has one byte."""
        for length in (20, 63, 64, 65, 127, 128, 129, 192, 193, 256, 257, 4160, 4161, 4223, 4224):
            self.does("reset", f"requester cut mi {length} fill rising", "deliver endpoint",
                      "expect slot 0 untaken", "take 0", f"complete 0 taken rising {length - 8}", "polls",
                      "requester await 8 1", "deliver requester", f"expect line 1 {length}",
                      f"expect body rising {length - 8}", "expect awaits nothing")

    def test_records_as_they_are(self):
        self.says("record 34 0801", "await EID 8 under tag 1", "= requester EID 9, awaits EID 8 under tag 1")
        self.says("record 38", "record with tag 38", "-> eid=9 unit=64 awaits=8:1 assembly=- check=5714439c")
        for record in ("35 01", "32 0940", "33 ffff"):          # none of them is a call
            self.begin(Printing("17"))
            self.says(f"record {record}", f"record with tag {record[:2]}", "-> 17")
        self.begin(raw=True)
        self.says("requester look", "record 26 00 00\n", "line   eid=8 unit=64 awaits=- assembly=- check=")

    def test_a_program_that_is_wrong(self):
        for call, line, words in (
                ("setup 9", "0", "0, set up"), ("await 8 1", "0", "0, awaited"),
                ("packet 01 08 08 81 84 88 zeros 62", "0", "0, taken in"),
                ("packet 01 08 08 c1 84 88 zeros 6", "1 9", "1, a response is complete"),
                ("packet 01 08 08 c1 84 88 zeros 6", "2 8", "2, a control reply is there"),
                ("packet", "0", "0, taken in"), ("packet", "2 0", "2, a control reply is there"),
                ("packet 01", "22", "22, out of sequence"),
                ("packet 01 08 08 81 84 88 zeros 62", "23", "23, the total is above 4,224 bytes")):
            with self.subTest(call=call, line=line):
                self.begin(Printing(line))
                self.says(f"requester {call}", words, self.ODD)
        self.begin(Printing("38", "0 16 " + "01080889" * 4 + " touched"))
        self.assertNotIn(self.ODD, self.does("requester setup 7"))
        self.says("requester primitive pause", "!! bytes of the buffer behind the packets were touched")

    def test_lines_that_are_none(self):
        for call, line in (
                ("setup 9", "1"), ("setup 9", "x"), ("store 5", "38"), ("await 8 1", "0 1"),
                ("await 8 1", ""), ("cut mi 20", "0 stays"), ("cut mi 20", "0 3 0102 stays"),
                ("cut mi 20", "0 2 0102"), ("cut mi 20", "0 2 0102 00 stays"), ("cut mi 20", "30 stays"),
                ("cut mi 20", "36"),
                ("cut mi 20", "36 2 0102 stays"), ("primitive pause", "20 stays"), ("primitive pause", ""),
                ("packet 01", "1"), ("packet 01", "10 5"), ("packet 01", "24")):
            with self.subTest(call=call, line=line):
                self.begin(Printing(line))
                self.refuses(f"requester {call}", f"record 1: {line!r} is no line for this call", Trouble)

    def test_a_store_that_is_wrong(self):
        """A look's check has to be that of a store with the gathered bytes."""
        class Forgetting(Second):
            def line(self, record):
                line = super().line(record)
                return line[:-8] + "5714439c" if record[0] == 38 else line
        self.begin(Forgetting())
        self.assertNotIn(self.ODD, self.does("requester setup 9", "requester await 8 1"))
        self.says(self.FIRST, self.ODD)

    def test_a_program_without_it(self):
        self.begin(WithoutRequester())
        self.answers("command mi 20", 1)
        for line in ("requester look", "requester setup 9", "record 34 0801", "expect awaits nothing"):
            self.refuses(line, "the program has no requester: it printed bad for a look at it", Trouble)
        program = Printing()
        program.looks = {**program.looks, 38: "eid=8"}
        self.begin(program)
        self.refuses("requester look", "a look at the requester printed 'eid=8', which is no state", Trouble)


class Units(Case):
    """Transmission units other than 64: at both ends, and another at each."""

    ENDS = {"endpoint": "setup", "requester": "requester setup"}
    LIMITS = {64: 68, 65: 69, 100: 104, 249: 253, 250: 254}     # of each unit, the bytes of a full packet

    def units(self, endpoint, requester):
        """Both ends anew, the requester with EID 9."""
        self.does(f"setup 8 unit {endpoint}", f"requester setup 9 unit {requester}")

    def too_long(self, length, unit):
        longest = self.LIMITS[unit]
        return f"the packet has {length} bytes, more than the {longest} bytes that unit {unit} allows"

    def answered(self, length):
        """The whole way of a command of this length and of a response as long."""
        self.does(f"requester cut mi {length} fill rising", "deliver endpoint", "expect slot 0 untaken",
                  "take 0", f"complete 0 taken rising {length - 8}", "polls", "requester await 8 1",
                  "deliver requester", f"expect line 1 {length}", f"expect body rising {length - 8}",
                  "expect awaits nothing")

    def test_records(self):
        for line, record in (("setup 9", "10 0100 09"), ("setup 9 unit 250", "10 0300 09 fa00"),
                             ("setup 9 unit 65535", "10 0300 09 ffff"), ("requester setup 9", "20 0100 09"),
                             ("requester setup 7 unit 0x40", "20 0300 07 4000")):
            self.begin(save=io.BytesIO())
            self.does("requester look")
            start, expected = self.session.save.tell(), bytes.fromhex(record)
            self.does(line)
            self.assertEqual(self.session.save.getvalue()[start:][:len(expected)], expected, line)

    def test_setups(self):
        for end, word in self.ENDS.items():
            for unit in self.LIMITS:
                self.says(f"{word} 9 unit {unit}", f"setup with EID 9 and unit {unit}\n",
                          f"-> 0, set up: the {end}'s EID is 9 and its unit {unit}, ")
                self.does(f"expect unit {end} {unit}")
            self.does(f"{word} 9", f"expect unit {end} 64")

    def test_39(self):
        for end, word in self.ENDS.items():
            for unit in (0, 1, 63, 251, 255, 256, 320, 65535):
                self.does(f"{word} 9 unit 250")
                self.says(f"{word} 9 unit {unit}", f"setup with EID 9 and unit {unit}\n",
                          "-> 39, the unit is not 64 to 250; the state is the one for EID 8 and unit 64")
                self.does(f"expect unit {end} 64")
            self.answers(f"{word} 9 unit 63", 39)

    def test_38_before_39(self):
        for end, word in self.ENDS.items():
            for eid, unit in ((7, 63), (255, 251), (7, 250), (0, 65535)):
                self.does(f"{word} 9 unit 250")
                self.says(f"{word} {eid} unit {unit}",
                          "-> 38, the EID is not 8 to 254; the state is the one for EID 8 and unit 64")
                self.does(f"expect unit {end} 64")

    def test_looks(self):
        self.units(250, 249)
        self.says("look", "EID 8, unit 250 (payload bytes of a full packet), flags 0000h: none is set")
        self.says("requester look", "unit 249 (payload bytes of a full packet); its store: 4,224 bytes")

    def test_reset_keeps_it(self):
        self.units(250, 64)
        self.does("reset", "expect unit endpoint 250", "requester await 8 1", "requester store 4224",
                  "expect unit requester 64")

    def test_records_as_they_are(self):
        self.says("record 16 09fa00", "setup with EID 9 and unit 250", "0, set up")
        self.says("record 32 09fb00", "requester: setup with EID 9 and unit 251", "39, the unit is not 64")

    def test_grounds_at_the_endpoint(self):
        for unit, longest in self.LIMITS.items():
            self.does(f"setup 8 unit {unit}")
            self.says(f"packet 01 08 09 c9 zeros {unit + 1}", "sets flag bit 6 (packet too long)",
                      f"11, {self.too_long(longest + 1, unit)}")
            self.answers(f"packet 01 08 09 c9 zeros {unit}", 15)
            self.says(f"packet 01 08 09 89 84 08 zeros {unit - 3}", "sets flag bit 9 (payload not full",
                      f"16, EOM 0, and the payload is {unit - 1} bytes and not {unit}")
            self.answers(f"packet 01 08 09 89 84 08 zeros {unit - 2}", 0)
            self.says(f"packet 01 08 09 19 zeros {unit - 1}", f"16, EOM 0, and the payload is {unit - 1} ")
            self.says(f"poll {longest - 1}", f"poll with a buffer of {longest - 1} bytes",
                      f"36, the buffer has {longest - 1} bytes, fewer than {longest}")
            self.answers(f"poll {longest}", 0)
            self.says("control get-state",
                      "bit 6 (packet too long), bit 9 (payload not full where more was to come)")

    def test_grounds_at_the_requester(self):
        for unit, longest in self.LIMITS.items():
            self.does(f"requester setup 9 unit {unit}", "requester await 8 1")
            self.says(f"requester packet 01 09 08 c1 zeros {unit + 1}",
                      f"11, {self.too_long(longest + 1, unit)}")
            self.answers(f"requester packet 01 09 08 c1 zeros {unit}", 15)
            self.says(f"requester packet 01 09 08 81 84 88 zeros {unit - 3}",
                      f"16, EOM 0, and the payload is {unit - 1} bytes and not {unit}")
            self.answers(f"requester packet 01 09 08 81 84 88 zeros {unit - 2}", 0)
            self.does(f"expect gathered {unit}")

    def test_plain_grounds(self):
        """Where the packet does not show the ground, the number's words are told at the present unit."""
        program = Printing("16")
        program.looks = {tag: look.replace("unit=64", "unit=250") for tag, look in program.looks.items()}
        self.begin(program)
        self.says("requester packet 01", "16, EOM 0, and the payload is not 250 bytes")

    def test_the_buffer_of_a_poll(self):
        """Without a length it is that of a full packet at the endpoint's unit."""
        for unit, longest in self.LIMITS.items():
            self.begin(save=io.BytesIO())
            self.units(unit, 64)
            for line in ("poll", "polls"):
                start = self.session.save.tell()
                self.assertIn("  poll\n", self.does(line))
                self.assertEqual(self.session.save.getvalue()[start:][:5], bytes((22, 2, 0, longest, 0)))
                self.assertEqual(self.session.answers, [0])

    def test_commands_are_cut_at_it(self):
        for unit in self.LIMITS:
            self.does(f"setup 8 unit {unit}")
            for length in (unit, unit + 1, 3 * unit, 3 * unit + 1):
                packets = -(-length // unit)
                self.answers(f"command mi {length}", *[0] * (packets - 1), 1)
                self.does("reset")
        self.says("command mi 600 only 1", "packet of 254 bytes", "its first 250 bytes")
        self.refuses("command mi 500 skip 2", "the message has 2, and only and skip leave none")
        self.answers("control pause", 2)

    def test_too_long(self):
        """16 full packets fit at unit 250, and the next full one is too long."""
        self.does("setup 8 unit 250")
        self.answers("command mi 4250", *[0] * 16, 23)
        self.says("command mi 4251 skip 16 no-som", "21, ")
        self.answers("command mi 4224", *[0] * 16, 1)
        self.answers("command slot 1 mi 4000 no-eom", *[0] * 16)

    def test_commands_of_another_unit(self):
        self.does("setup 8 unit 100")
        self.answers("command mi 300 unit 101", 11, 11, 21)
        self.answers("command mi 300 unit 99", 16, 21, 21, 21)
        self.answers("command mi 80 unit 250", 1)
        self.does("reset")
        self.answers("command mi 300 unit 100", 0, 0, 1)
        self.answers("control pause unit 11", 16, 21)

    def test_an_exchange(self):
        """What one end cuts is gathered by the other, also where its last packet is full or has one byte."""
        for unit in (64, 65, 127, 249, 250):
            self.units(unit, unit)
            most = 4224 // unit * unit
            for length in {20, unit - 1, unit, unit + 1, 4 * unit, 4 * unit + 1, most - 1, most, 4223, 4224}:
                self.answered(length)

    def test_an_exchange_in_words(self):
        self.units(250, 250)
        self.says("requester cut mi 4224", "-> 0, cut into 17 packets, 4,292 bytes",
                  "packet of 254 bytes, EID 9 to 8, SOM TO",
                  "packet of 228 bytes, EID 9 to 8, EOM TO, sequence 0, tag 1")
        self.says("requester cut mi 300 buffer 307", "36, the buffer has 307 bytes, fewer than the 308 that")
        self.does("requester cut mi 300", "requester await 8 1")
        self.says("deliver endpoint", "packet of 254 bytes", "slot 0 has 250 bytes", "its first 250 bytes",
                  "a later packet of a message, 50 payload bytes", "= slot 0 Process untaken, 300 bytes")
        self.does("take 0")
        self.says("complete 0 taken rising 300", "a response of 2 packets", "= slot 0 Transmit, 0 of 2")
        self.says("polls", "sends a packet of 254 bytes", "packet 2 of 2 of the response of slot 0",
                  "308 bytes in 2 packets, status 00h (success), integrity check right")
        self.says("deliver requester", "its first 250 bytes", "250 bytes from EID 8 under tag 1",
                  "1, a response is complete: 308 bytes from EID 8 under tag 1")
        self.does("expect body rising 300", "requester primitive replay", "requester await 8 2")
        self.says("deliver endpoint", "= slot 0 Transmit, 0 of 2 packets sent to EID 9 under tag 1")
        self.does("polls")
        self.answers("deliver requester tag 2", 2)
        self.does("requester await 8 1")
        self.answers("deliver requester tag 1", 0, 1)

    def test_a_requester_of_a_smaller_unit(self):
        self.units(250, 64)
        self.does("requester cut mi 300")
        self.says("deliver endpoint skip 4", "21, ")
        self.says("deliver endpoint only 1", "16, EOM 0, and the payload is 64 bytes and not 250")
        self.answers("deliver endpoint", 16, 21, 21, 21, 21)
        self.does("requester cut mi 64", "deliver endpoint", "take 0", "complete 0 taken zeros 300", "polls",
                  "requester await 8 1")
        self.says("deliver requester", f"11, {self.too_long(254, 64)}", "21, ")
        self.does("expect awaits 8 1", "expect gathered 0")

    def test_a_requester_of_a_larger_unit(self):
        self.units(64, 250)
        self.does("requester cut mi 300")
        self.says("deliver endpoint", f"11, {self.too_long(254, 64)}", "21, ")
        self.does("requester cut mi 64", "deliver endpoint", "take 0", "complete 0 taken zeros 100", "polls",
                  "requester await 8 1")
        self.says("deliver requester", "16, EOM 0, and the payload is 64 bytes and not 250", "21, ")
        self.does("expect awaits 8 1", "expect gathered 0")

    def test_messages_that_fit_both(self):
        """A message of one packet that is not longer than either unit goes through."""
        self.units(100, 250)
        self.answered(64)
        self.answered(100)
        self.units(250, 100)
        self.answered(100)

    def test_a_setup_between(self):
        """Only a setup of its own changes the unit of an end."""
        self.units(250, 100)
        self.does("requester setup 255", "expect unit endpoint 250", "expect unit requester 64",
                  "setup 8 unit 63", "requester setup 9 unit 249", "expect unit endpoint 64",
                  "expect unit requester 249")


class Lines(Case):
    def test_what_was_expected(self):
        for line, words in (
                ("nothing", "expected one of setup, command, "), ("take", "expected a slot, 0 to 4,294,967,295, and the line ends"),
                ("take x", "and there is 'x'"), ("take -1", "and there is '-1'"), ("take 4294967296", "and there is '4294967296'"),
                ("take 0 0", "expected the end of the line, and there is '0'"), ("setup 256", "expected an EID, 0 to 255"),
                ("setup unit 64", "expected an EID, 0 to 255, and there is 'unit'"),
                ("setup 8 250", "expected unit, and there is '250'"),
                ("setup 8 unit", "expected a unit, 0 to 65,535, and the line ends"),
                ("setup 8 unit x", "expected a unit, 0 to 65,535, and there is 'x'"),
                ("setup 8 unit -1", "and there is '-1'"), ("setup 8 unit 70000", "and there is '70000'"),
                ("setup 8 unit 64 unit 64", "expected unit once"),
                ("command mi 20 unit 0", "expected a unit, 1 to 8,188"),
                ("command mi 20 unit 8189", "and there is '8189'"),
                ("command", "expected one of mi, admin, pcie and nmimt"), ("command mi 20 pcie 24", "expected one of mi, admin"),
                ("command mi 7", "expected a length, 8 to 8,192"), ("command mi 20 tag 8", "expected a message tag, 0 to 7"),
                ("command mi 20 mi 20", "expected mi once"), ("command mi 20 bad", "expected one of slot, ciap,"),
                ("command mi 20 slot 2", "expected a command slot, 0 to 1"), ("command mi 20 fill x", "expected bytes"),
                ("command mi 20 skip 1", "skip leave none"), ("command mi 20 tag 1 mtag 1", "expected tag or mtag"),
                ("control", "expected pause, resume, abort, get-state, replay or an opcode, and the line ends"),
                ("control stop", "and there is 'stop'"), ("control 256", "0 to 255, and there is '256'"),
                ("packet 1", "expected bytes: hex, zeros N, ones N or rising N, and there is '1'"),
                ("packet zeros", "expected a number of bytes for zeros"),
                ("packet zeros 8000 ones 8000", "expected at most 8,192 bytes"),
                ("complete 0", "expected a ticket, 0 to 4,294,967,295, or taken, and the line ends"),
                ("complete 0 x", "and there is 'x'"),
                ("declare", "expected a slot, 0 to 4,294,967,295, and the line ends"),
                ("declare x 1 can", "expected a slot, 0 to 4,294,967,295, and there is 'x'"),
                ("declare 4294967296 1 can", "and there is '4294967296'"),
                ("declare 0", "expected a ticket, 0 to 4,294,967,295, or taken, and the line ends"),
                ("declare 0 can", "expected a ticket, 0 to 4,294,967,295, or taken, and there is 'can'"),
                ("declare 0 4294967296 can", "or taken, and there is '4294967296'"),
                ("declare 0 1", "expected can or cannot, and the line ends"),
                ("declare 0 taken stop", "expected can or cannot, and there is 'stop'"),
                ("declare 0 taken can't", "expected can or cannot, and there is \"can't\""),
                ("declare 0 1 1", "expected can or cannot, and there is '1'"),
                ("declare 0 1 Can", "expected can or cannot, and there is 'Can'"),
                ("declare 0 1 can 1", "expected the end of the line, and there is '1'"),
                ("poll 65536", "expected a buffer's length, 0 to 65,535"),
                ("stores 4301 0", "expected the length of store 0, 0 to 4,300"), ("stores 1", "expected the length of store 1"),
                ("reset 1", "expected the end"),
                ("expect", "expected an answer's number, slot, body, line, awaits, gathered or unit"),
                ("expect unit", "expected endpoint or requester, and the line ends"),
                ("expect unit 64", "expected endpoint or requester, and there is '64'"),
                ("expect unit endpoint", "expected a unit, 0 to 65,535, and the line ends"),
                ("expect unit endpoint 64 64", "expected the end of the line"),
                ("expect x", "expected an answer's number"), ("expect slot 0 busy", "expected one of idle, receive"),
                ("expect slot 0 can", "expected one of idle, receive, untaken, taken, stoppable, answered, "),
                ("expect 0", "expected a call above"), ("help x", "expected one of setup"),
                ("help requester x", "and there is 'requester x'")):
            self.refuses(line, words)
        self.assertEqual(self.session.number, 0)

    def test_what_was_expected_of_the_requester(self):
        for line, words in (
                ("requester", "expected one of requester setup, requester store, "),
                ("requester x", "requester look, and there is 'requester x'"),
                ("requester setup", "expected an EID, 0 to 255, and the line ends"),
                ("requester setup 9 64", "expected unit, and there is '64'"),
                ("requester setup 9 unit 65536", "expected a unit, 0 to 65,535, and there is '65536'"),
                ("requester setup 9 unit 64 1", "expected unit, and there is '1'"),
                ("requester store 4301", "expected the store's length, 0 to 4,300"),
                ("requester await 8", "expected a message tag, 0 to 255, and the line ends"),
                ("requester await 256 1", "expected a source EID, 0 to 255"),
                ("requester await 8 1 1", "expected the end"),
                ("requester cut", "as in: requester cut slot 0 mi 20"),
                ("requester cut mi 20 seq 1", "expected one of slot, ciap,"),
                ("requester cut mi 20 buffer 65536", "expected a buffer's length, 0 to 65,535"),
                ("requester cut slot 0 bytes 84", "expected bytes without slot: they are the whole message"),
                ("requester cut bytes 84 x", "expected bytes: hex"),
                ("requester cut mi 8189", "expected a message of at most 8,188 bytes, and it has 8,189"),
                ("requester primitive", "expected pause, resume, abort, get-state, replay or an opcode"),
                ("requester primitive stop", "and there is 'stop'"),
                ("requester primitive pause ciap", "expected one of slot, tag, cpsp"),
                ("requester packet 1", "expected bytes: hex"), ("requester look 1", "expected the end"),
                ("deliver", "expected endpoint or requester, and the line ends"),
                ("deliver host", "expected endpoint or requester, and there is 'host'"),
                ("deliver endpoint tag 8", "expected a message tag, 0 to 7"),
                ("deliver endpoint", "to deliver: the last cut or primitive wrote none"),
                ("deliver requester", "to deliver: the last line with polls handed out none"),
                ("expect awaits", "expected nothing, or a source EID, 0 to 255, and the line ends"),
                ("expect awaits nothing 1", "and there is 'nothing'"),
                ("expect awaits 8", "expected a message tag, 0 to 7"),
                ("expect gathered x", "expected a number of gathered bytes")):
            self.refuses(line, words)
        self.assertEqual(self.session.number, 0)

    def test_empty_lines(self):
        for line in ("", "  ", "# take 0", "  # x"):
            self.assertIsNone(read_line(line))

    def test_expectations(self):
        self.does("command mi 100", "expect 1", "expect 0 1", "expect 0x00 1h", "expect slot 0 untaken", "take 0  # a comment",
                  "expect line 0 1")
        for line, words in (("expect 1", "expected 1, and the answer was 0"),
                            ("expect 0 1", "expected 0 1, and the answers were 0"),
                            ("expect slot 0 idle", "expected idle, and slot 0 was taken"),
                            ("expect body 00", "expected 00, and the body was none"),
                            ("expect line 0 2", "expected 0 2, and the line was 0 1"),
                            ("expect awaits 8 1", "expected EID 8 under tag 1, and the awaiting was nothing"),
                            ("expect gathered 64", "expected 64, and the gathered length was 0"),
                            ("expect unit endpoint 65", "expected 65, and the unit of the endpoint was 64"),
                            ("expect unit requester 9", "expected 9, and the unit of the requester was 64")):
            with self.assertRaises(Unexpected) as caught:
                self.does(line)
            self.assertEqual(str(caught.exception), words)

    def test_help(self):
        found = self.does("help")
        for word in WORDS.values():
            self.assertIn(word.usage, found)
        self.says("help command", "bad-check", "a wrong integrity check")
        self.says("help control", "control pause|resume|abort|get-state|replay|OPCODE [slot N]", "Replay takes only 0")
        self.says("help declare", "declare SLOT TICKET can|cannot", "can still be stopped with no effect",
                  "CPSR 1 or 2", "a take starts at cannot")
        self.says("help expect", "untaken, taken, stoppable, answered", "stoppable for a taken one that can")
        self.says("help requester primitive", "requester primitive pause|resume|abort|get-state|replay|OPCODE [slot N]")
        self.says("help setup", "setup EID [unit UNIT]", "64 to 250 (64 if not given)")
        self.says("help requester setup", "requester setup EID [unit UNIT]", "64 to 250 (64 if not given)")
        self.says("help requester", "requester setup EID [unit UNIT]", "requester look")
        self.says("help requester cut", "bytes BYTES", "the rest of the line")
        self.assertNotIn("requester setup", self.does("help requester cut"))

    def test_quit(self):
        with self.assertRaises(Quit):
            self.does("quit")

    def test_completion(self):
        self.assertEqual(cli.completion("", "comm", 0), "command ")
        self.assertEqual(cli.completion("", "com", 1), "complete ")
        self.assertEqual(cli.completion("control ", "get", 0), "get-state ")
        self.assertEqual(cli.completion("control ", "rep", 0), "replay ")
        self.assertEqual(cli.completion("command slot 0 ", "bad", 0), "bad-check ")
        self.assertEqual(cli.completion("", "dec", 0), "declare ")
        self.assertEqual([cli.completion("declare 0 ", "", place) for place in range(4)],
                         ["taken ", "can ", "cannot ", None])
        self.assertEqual(cli.completion("expect slot 0 ", "sto", 0), "stoppable ")
        self.assertEqual(cli.completion("", "req", 0), "requester ")
        self.assertIsNone(cli.completion("", "req", 1))
        self.assertEqual(cli.completion("requester ", "p", 0), "primitive ")
        self.assertEqual(cli.completion("help requester ", "c", 0), "cut ")
        self.assertEqual(cli.completion("requester primitive ", "get", 0), "get-state ")
        self.assertEqual(cli.completion("requester primitive ", "rep", 0), "replay ")
        self.assertEqual(cli.completion("requester cut mi 20 ", "buf", 0), "buffer ")
        self.assertEqual(cli.completion("deliver ", "end", 0), "endpoint ")
        self.assertEqual(cli.completion("setup 8 ", "", 0), "unit ")
        self.assertEqual(cli.completion("requester setup 9 ", "", 0), "unit ")
        self.assertEqual(cli.completion("expect unit ", "end", 0), "endpoint ")
        self.assertIsNone(cli.completion("help command ", "", 0))
        self.assertIsNone(cli.completion("x ", "", 0))


class Tool(unittest.TestCase):
    """The whole tool as a child."""

    def run_it(self, *arguments, given="", program=SECOND, **options):
        options = {"stdout": subprocess.PIPE, **options}
        return subprocess.run([ROOT / "mi-try", *arguments, *(("--program", program) if program else ())], input=given, text=True,
                              stderr=subprocess.PIPE, timeout=20, **options)

    def ended(self, ran, status, words=""):
        self.assertEqual(ran.returncode, status, ran.stderr)
        self.assertIn(words, ran.stderr)
        self.assertNotIn("Traceback", ran.stderr)

    def test_a_script(self):
        with tempfile.TemporaryDirectory() as folder:
            saved = pathlib.Path(folder) / "saved"
            for script, line in (("stale-ticket.try", "expect 32"), ("both-ends.try", "expect line 1 4224"),
                                 ("declare.try", "expect slot 0 stoppable")):
                ran = self.run_it(TESTS / "try" / script, "--save", saved)
                self.ended(ran, 0)
                self.assertIn(f"> {line}\n", ran.stdout)
                self.assertNotIn("bad", list(call_lines(io.BytesIO(saved.read_bytes()))))

    def test_status(self):
        self.ended(self.run_it(given="take 0\nexpect 0\ntake 0\n"), 1,
                   "mi-try: standard input line 2: expected 0, and the answer was 31")
        self.ended(self.run_it(given="take 0\n\ntake\n"), 2, "mi-try: standard input line 3: expected a slot")
        self.ended(self.run_it(given="quit\ntake\n"), 0)
        self.ended(self.run_it(given="take 0"), 0)
        self.ended(self.run_it(given="record 99\n"), 1, "line 1: record 1: the program printed bad and ended")
        self.ended(self.run_it("--nothing"), 2, "usage:")

    def test_files(self):
        self.ended(self.run_it("nothing-here"), 1, "mi-try: nothing-here can't be read: No such file")
        self.ended(self.run_it(str(TESTS)), 1, "can't be read: Is a directory")
        self.ended(self.run_it("--save", "/nowhere/x"), 1, "mi-try: /nowhere/x can't be written")

    def test_programs(self):
        self.ended(self.run_it(program="nothing-here"), 1, "mi-try: nothing-here can't be run: No such file")
        self.ended(self.run_it(program="true"), 1, "mi-try: true ended before it answered")
        self.ended(self.run_it(program="sh -c 'head -c 3 >/dev/null; exit 3'"), 1, "ended with status 3 before it answered")
        self.ended(self.run_it(program="echo x"), 1, "a look printed 'x', which is no state")

    def test_outputs(self):
        with open("/dev/full", "w") as full:
            self.ended(self.run_it(given="poll\n", stdout=full), 1, "the output can't be written: No space left")
        for redirection, words in ((">&-", "standard output is closed"), ("<&-", "standard input is closed")):
            ran = subprocess.run(["bash", "-c", f'"$0" --program "$1" {redirection}', ROOT / "mi-try", SECOND], capture_output=True,
                                 text=True, timeout=20)
            self.ended(ran, 1, words)
        ours, theirs = os.pipe()
        os.close(ours)
        self.ended(self.run_it(given="help\n" * 50, stdout=theirs), 141)
        os.close(theirs)

    def test_signals(self):
        """What ends the tool ends the program too."""
        with tempfile.TemporaryDirectory() as folder:
            note = pathlib.Path(folder) / "pid"
            for number, status in ((signal.SIGTERM, 143), (signal.SIGHUP, 129), (signal.SIGINT, 130)):
                child = subprocess.Popen([ROOT / "mi-try", "--program", f"sh -c 'echo $$ >{note}; exec sleep 987'"],
                                         stdin=subprocess.PIPE, stdout=subprocess.PIPE, stderr=subprocess.PIPE,
                                         preexec_fn=heed_signals)
                while not note.exists() or not note.read_text().strip():
                    time.sleep(0.01)
                child.send_signal(number)
                _, told = child.communicate(timeout=10)
                self.assertEqual((child.returncode, told), (status, b""))
                with self.assertRaises(ProcessLookupError):
                    os.kill(int(note.read_text()), 0)
                note.unlink()


class Prompt(unittest.TestCase):
    """The tool at a terminal."""

    def setUp(self):
        self.terminal, theirs = pty.openpty()
        self.child = subprocess.Popen([ROOT / "mi-try", "--program", SECOND], stdin=theirs, stdout=theirs, stderr=theirs,
                                      env={**os.environ, "TERM": "dumb", "COLUMNS": "100"}, start_new_session=True,
                                      preexec_fn=heed_signals)
        os.close(theirs)
        self.seen = ""
        self.addCleanup(self.close)

    def close(self):
        self.child.kill()
        self.child.wait()
        os.close(self.terminal)

    def until(self, words):
        while words not in self.seen:
            self.assertTrue(select.select([self.terminal], [], [], 10)[0], f"{words!r} did not come after {self.seen!r}")
            self.seen += os.read(self.terminal, 4096).decode()
        before, _, self.seen = self.seen.partition(words)
        return before + words

    def type(self, text):
        os.write(self.terminal, text.encode())

    def test_it_goes_on(self):
        self.until("> ")
        self.type("nothing\n")
        self.until("expected one of setup")
        self.until("> ")
        self.type("take 0\nexpect 0\n")
        self.until("expected 0, and the answer was 31")
        self.until("> ")
        time.sleep(0.2)                             # readline prints the prompt a little before it waits
        self.child.send_signal(signal.SIGINT)       # the line is given up, and the program lives
        self.until("> ")
        self.type("poll\n")
        self.until("-> 0, nothing to send")
        self.until("> ")
        self.type("\x04")
        self.assertEqual(self.child.wait(10), 0)


if __name__ == "__main__":
    unittest.main()
