#!/usr/bin/env python3
"""Tests of ./mi-log and tools/run-program.

    python3 -B tests/test_run_program.py

They run in a temporary repository of a few crates, with a stand-in for rt and one for the program that it builds: nothing is
proved. The folder that is the path has links to the commands that the scripts may use, and to no other.
"""
import os
import pathlib
import pty
import shutil
import signal
import subprocess
import tempfile
import time
import unittest

from children import heed_signals

ROOT = pathlib.Path(__file__).resolve().parent.parent
COMMANDS = ("bash sh env awk sed sort find xargs sha256sum cut dirname readlink mkdir cat rm mv cp ln sleep wc flock head "
            "chmod").split()

# rt: `version` prints the file kit; `run` notes its start, does what the file `do` says (the default builds) and prints as rt does, and
# then runs the program. Its folder is that of the program's crate.
RT = """#!/bin/sh
here=$(dirname "$0")
[ "$1" = version ] && { cat "$here/kit"; exit; }
name=${PWD##*/}
echo "$1 $name" >>"$here/notes"
mkdir -p out
. "$here/do"
"""
BUILD = """{
    echo 'rt: middle: begins with what a check kept in another folder'
    echo 'rt: chose --jobs 2 for middle'
    echo 'fn middle::some: proved'
    echo 'logic /the/kit: libraries=16'
    echo 'library low: modules loaded=3 checked=0'
    echo 'logic=proved functions=1'
    echo "rt: chose --jobs 2 for $name"
    echo "fn $name::main: proved"
    echo 'logic=proved functions=1'
} >&2
if [ ! -f "out/$name" ]; then
    cp "$here/program" "out/$name"
    chmod +x "out/$name"
elif [ "$(cat "out/$name.stamp")" != "$(sha256sum <"out/$name")" ]; then
    cp "$here/program" "out/$name"
fi
sha256sum <"out/$name" >"out/$name.stamp"
echo 'linked target=this' >&2
echo "rt: running out/$name; to give it other input, run that file yourself" >&2
exec "out/$name" 2>/dev/null
"""
FAIL = """{
    echo 'logic=proved functions=1'
    echo 'rt: chose --jobs 2 for middle'
    echo 'crates/middle/src/lib.rt:3:1: error: it is not so'
    echo 'fn middle::some: no proof'
    echo 'logic=not-proved'
} >&2
exit 1
"""
# A build that lasts until it is ended: rt itself, a shell below it and a command below that
SLOW = """(sleep 987 & sleep 987) &
echo started >>"$here/notes"
wait
"""
ECHO = "#!/bin/sh\nexec cat\n"
COMPLAINS = "#!/bin/sh\ncat\necho 'mi_log: standard output can not be written; answers are missing' >&2\n"


class Case(unittest.TestCase):
    def setUp(self):
        folder = tempfile.TemporaryDirectory()
        self.addCleanup(folder.cleanup)
        self.root = pathlib.Path(folder.name).resolve() / "a repository"
        self.path = self.root.parent / "bin"
        self.path.mkdir()
        for name in COMMANDS:
            (self.path / name).symlink_to(shutil.which(name))
        (self.root / "tools").mkdir(parents=True)
        for name in ("mi-log", "tools/run-program"):
            shutil.copy(ROOT / name, self.root / name)
        self.write("crates.txt", "# NAME: uses\nlow:\nmiddle: low\nmi_log: middle io libc\nother: low\n")
        for name in ("low/src/lib.rt", "middle/src/lib.rt", "middle/must-fail/one.edit", "mi_log/src/main.rt", "other/src/lib.rt"):
            self.write(f"crates/{name}", name)
        self.kit()
        self.program(ECHO)

    def write(self, name, text):
        file = self.root / name
        file.parent.mkdir(parents=True, exist_ok=True)
        file.write_text(text)
        return file

    def kit(self, does=BUILD, version="kit 1"):
        for name, text in (("kit", version + "\n"), ("do", does), ("rt", RT)):
            (self.path / name).write_text(text)
        (self.path / "rt").chmod(0o755)

    def program(self, text):
        (self.path / "program").write_text(text)

    def without(self, *names):
        for name in names:
            (self.path / name).unlink()

    @property
    def notes(self):
        file = self.path / "notes"
        return file.read_text().splitlines() if file.exists() else []

    @property
    def environment(self):
        return {"PATH": str(self.path), "LC_ALL": "C"}

    def run_it(self, *arguments, given=b"", **options):
        options = {"stdout": subprocess.PIPE, "stderr": subprocess.PIPE, "input": given, **options}
        return subprocess.run([self.root / "mi-log", *arguments], env=self.environment, timeout=20, **options)

    def start(self, **options):
        options = {"stdin": subprocess.PIPE, "stdout": subprocess.PIPE, "stderr": subprocess.PIPE, **options}
        child = subprocess.Popen([self.root / "mi-log"], env=self.environment, preexec_fn=heed_signals, **options)
        self.addCleanup(self.close, child)
        return child

    @staticmethod
    def close(child):
        child.terminate()
        child.communicate(timeout=10)

    def shell(self, line):
        """A line of shell in the repository, for redirections."""
        return subprocess.run(["bash", "-c", line], cwd=self.root, env=self.environment, capture_output=True, timeout=20)

    def said(self, ran, status, *words):
        told = ran.stderr.decode()
        self.assertEqual(ran.returncode, status, told)
        for part in words:
            self.assertIn(part, told)

    def silent(self, ran, status=0):
        self.assertEqual((ran.returncode, ran.stderr), (status, b""))

    def until(self, holds):
        """Waits for something that comes soon."""
        end = time.monotonic() + 10
        while not holds():
            self.assertLess(time.monotonic(), end, "it did not come")
            time.sleep(0.01)


class CommandLine(Case):
    def test_help(self):
        ran = self.run_it("--help")
        self.silent(ran)
        self.assertIn(b"usage: ./mi-log < LOG", ran.stdout)
        self.assertEqual(self.notes, [])

    def test_arguments_are_refused(self):
        for arguments in (["log"], ["-x"], [""]):
            self.said(self.run_it(*arguments), 2, "usage: ./mi-log < LOG")

    def test_unknown_program(self):
        self.said(self.shell("tools/run-program nothing"), 1, "run-program: crates.txt has no program nothing")
        self.said(self.shell("tools/run-program"), 2, "usage: tools/run-program PROGRAM")

    def test_from_another_folder_and_through_a_link(self):
        (self.path / "the-log").symlink_to(self.root / "mi-log")
        ran = subprocess.run(["the-log"], cwd="/", env=self.environment, input=b"1\n", capture_output=True, timeout=20,
                             executable=self.path / "the-log")
        self.assertEqual((ran.returncode, ran.stdout), (0, b"1\n"))


class Building(Case):
    def test_builds_once(self):
        ran = self.run_it(given=b"one\n")
        self.assertEqual(ran.stdout, b"one\n")
        self.said(ran, 0, "of the 3 crates of mi_log (all of them take some minutes)",
                  "mi-log: crates proved: 1\nmi-log: crates proved: 2\n")
        for word in (b"logic", b"rt: ", b"fn ", b"linked"):
            self.assertNotIn(word, ran.stderr)
        self.silent(self.run_it())
        self.assertEqual(self.notes, ["run mi_log"])

    def test_what_makes_it_build_again(self):
        self.run_it()
        for name, again in (("crates/other/src/lib.rt", False), ("crates/middle/must-fail/one.edit", False),
                            ("crates/low/src/lib.rt", True), ("crates/mi_log/stdin", True), ("crates.txt", True)):
            with self.subTest(name=name):
                before = len(self.notes)
                file = self.root / name
                self.write(name, (file.read_text() if file.exists() else "") + "\n")
                self.run_it()
                self.assertEqual(len(self.notes) - before, int(again))

    def test_another_kit(self):
        self.run_it()
        self.kit(version="kit 2")
        self.said(self.run_it(), 0, "proving and building")
        self.silent(self.run_it())

    def test_a_program_that_is_gone_or_another(self):
        self.run_it()
        binary = self.root / "crates/mi_log/out/mi_log"
        for change in (binary.unlink, lambda: binary.write_text("#!/bin/sh\necho other\n"), lambda: binary.chmod(0o644)):
            change()
            self.assertEqual(self.run_it(given=b"two\n").stdout, b"two\n")
            self.silent(self.run_it())

    def test_what_is_not_proved_is_shown(self):
        self.kit(FAIL)
        ran = self.run_it(given=b"one\n")
        self.said(ran, 1, "lib.rt:3:1: error: it is not so\nfn middle::some: no proof\nlogic=not-proved\n",
                  "mi-log: crates proved: 1", "mi-log: mi_log is not built: rt run ended with status 1 in ")
        self.assertEqual(ran.stdout, b"")
        self.said(self.run_it(), 1)

    def test_a_kit_that_does_not_work(self):
        self.write("../bin/rt", "#!/bin/sh\necho 'rt: no toolchain for this machine' >&2\nexit 2\n")
        self.said(self.run_it(), 1, "rt: no toolchain", "mi-log: rt version ended with status 2")

    def test_rt_that_builds_nothing(self):
        self.kit("true")
        self.said(self.run_it(), 1, "rt run left no ")

    def test_rt_reads_no_input(self):
        self.kit("cat >&2\n" + BUILD)
        self.assertEqual(self.run_it(given=b"one\n").stdout, b"one\n")

    def test_counts_in_place_on_a_terminal(self):
        ours, theirs = pty.openpty()
        self.addCleanup(os.close, ours)
        self.run_it(stderr=theirs)
        os.close(theirs)
        self.assertIn(b"\rmi-log: crates proved: 1\033[K\rmi-log: crates proved: 2\033[K\r\n", os.read(ours, 4096))


class WithoutTheKit(Case):
    def test_not_built(self):
        self.without("rt")
        self.said(self.run_it(), 1, "mi-log: mi_log is not built, and rt, the command of the Rattle kit, is not on the path")

    def test_built(self):
        self.run_it()
        self.without("rt")
        ran = self.run_it(given=b"one\n")
        self.silent(ran)
        self.assertEqual(ran.stdout, b"one\n")

    def test_built_from_other_sources(self):
        self.run_it()
        self.write("crates/low/src/lib.rt", "changed")
        self.without("rt")
        self.said(self.run_it(), 1, "the sources of mi_log are not those that it was built from, and rt, ")


class OneAtATime(Case):
    def wait_for_the_first(self):
        self.kit('while [ ! -f "$here/go" ]; do sleep 0.02; done\n' + BUILD)
        first, second = self.start(), None
        self.until(lambda: self.notes)
        second = self.start()
        words = b""
        while b"waiting for" not in words:
            words += second.stderr.readline()
        (self.path / "go").touch()
        for child in (first, second):
            self.assertEqual(child.communicate(b"one\n")[0], b"one\n")
            self.assertEqual(child.returncode, 0)
        self.assertEqual(self.notes, ["run mi_log"])

    def test_with_flock(self):
        self.wait_for_the_first()

    def test_without_flock(self):
        self.without("flock")
        self.wait_for_the_first()
        self.assertFalse((self.root / "target/run-program.lock.link").is_symlink())

    def test_a_lock_of_a_process_that_is_gone(self):
        self.without("flock")
        (self.root / "target").mkdir()
        gone = subprocess.Popen(["true"])
        gone.wait()
        (self.root / "target/run-program.lock.link").symlink_to(str(gone.pid))
        self.assertEqual(self.run_it(given=b"one\n").stdout, b"one\n")

    def test_a_build_that_was_ended_leaves_no_lock(self):
        for names in ((), ("flock",)):
            self.without(*names)
            self.write("crates/low/src/lib.rt", str(names))
            self.kit(SLOW)
            child = self.start()
            self.until(lambda: "started" in self.notes)
            child.terminate()
            child.wait(10)
            (self.path / "notes").unlink()
            self.kit()
            ran = self.run_it(given=b"one\n")
            self.assertEqual(ran.stdout, b"one\n")
            self.assertNotIn(b"waiting", ran.stderr)

    def test_a_folder_that_can_not_be_written(self):
        (self.root / "target").write_text("no folder")
        self.said(self.run_it(), 1)
        self.assertEqual(self.notes, [])


class Running(Case):
    def setUp(self):
        super().setUp()
        self.run_it()

    def test_words_of_the_program(self):
        self.program(COMPLAINS)
        (self.root / "crates/mi_log/out/mi_log").unlink()
        self.run_it()
        ran = self.run_it(given=b"13\n")
        self.assertEqual((ran.stdout, ran.stderr, ran.returncode),
                         (b"13\n", b"mi_log: standard output can not be written; answers are missing\n", 1))

    def test_status_of_the_program(self):
        for text, status in (("exit 7", 7), ("kill -9 $$", 137), ("printf 'no line end' >&2", 1)):
            self.program(f"#!/bin/sh\n{text}\n")
            (self.root / "crates/mi_log/out/mi_log").unlink()
            self.assertEqual(self.run_it().returncode, status)
            self.assertEqual(self.run_it().returncode, status)

    def test_failing_output_and_input(self):
        for line, status in (("./mi-log < crates.txt > /dev/full", 1), ("./mi-log < .", 1)):
            ran = self.shell(line)
            self.assertEqual(ran.returncode, status, line)
            self.assertTrue(ran.stderr)

    def test_closed(self):
        self.said(self.shell("./mi-log <&-"), 1, "mi-log: standard input is closed")
        self.said(self.shell("./mi-log < crates.txt >&-"), 1, "mi-log: standard output is closed")
        ran = self.shell("./mi-log < crates.txt 2>&-")
        self.assertEqual((ran.returncode, ran.stdout), (0, (self.root / "crates.txt").read_bytes()))

    def test_an_input_that_does_not_block(self):
        ours, theirs = os.pipe()
        os.set_blocking(ours, False)
        ran = self.run_it(stdin=ours, input=None)
        os.close(ours), os.close(theirs)
        self.assertEqual(ran.returncode, 1)
        self.assertTrue(ran.stderr)

    def test_a_reader_that_stops(self):
        self.write("long", "a line\n" * 100000)
        ran = self.shell("set -o pipefail; ./mi-log < long | head -n 1")
        self.assertEqual((ran.returncode, ran.stdout, ran.stderr), (141, b"a line\n", b""))

    def test_input_goes_through_untouched(self):
        given = bytes(range(256)) * 4096
        ran = self.run_it(given=given)
        self.silent(ran)
        self.assertEqual(ran.stdout, given)

    def test_answers_come_before_more_is_given(self):
        child = self.start()
        for line in (b"one\n", b"two\n"):
            child.stdin.write(line)
            child.stdin.flush()
            self.assertEqual(child.stdout.readline(), line)

    def test_words_come_before_the_end(self):
        self.program("#!/bin/sh\necho 'mi_log: a word' >&2\nexec cat\n")
        (self.root / "crates/mi_log/out/mi_log").unlink()
        self.run_it()
        child = self.start()
        self.assertEqual(child.stderr.readline(), b"mi_log: a word\n")


class Signals(Case):
    """Whatever ends the script ends what it started: all that has its group of processes or session."""

    NUMBERS = {signal.SIGTERM: 143, signal.SIGINT: 130, signal.SIGHUP: 129}

    def left(self, session):
        """The names and states of the processes of a session."""
        found = []
        for folder in pathlib.Path("/proc").glob("[0-9]*"):
            try:
                front, _, fields = (folder / "stat").read_text().rpartition(") ")
            except OSError:
                continue
            state, _, _, of = fields.split()[:4]
            if int(of) == session and state != "Z":
                found.append((front.partition("(")[2], state))
        return found

    def ended_by(self, number, started, least):
        child = self.start(start_new_session=True)
        self.until(lambda: started(child) and len(self.left(child.pid)) >= least)
        os.kill(child.pid, number)
        self.assertEqual(child.wait(10), self.NUMBERS[number])
        self.until(lambda: not self.left(child.pid))
        self.assertNotIn(b"Terminated", child.stderr.read())

    def test_while_it_builds(self):
        self.kit(SLOW)
        for number in self.NUMBERS:
            self.ended_by(number, lambda child: "started" in self.notes, 5)
            (self.path / "notes").unlink()

    def test_while_it_runs(self):
        self.run_it()
        for number in self.NUMBERS:
            self.ended_by(number, lambda child: "cat" in (name for name, _ in self.left(child.pid)), 3)

    def test_while_it_waits_for_the_lock(self):
        for names in ((), ("flock",)):
            self.without(*names)
            self.kit(SLOW)
            first = self.start(start_new_session=True)
            self.until(lambda: "started" in self.notes)
            self.ended_by(signal.SIGTERM, lambda child: b"waiting for" in child.stderr.readline(), 1)
            first.terminate()
            first.wait(10)
            self.until(lambda: not self.left(first.pid))
            (self.path / "notes").unlink()


if __name__ == "__main__":
    unittest.main()
