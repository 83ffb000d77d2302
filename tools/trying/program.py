"""The calls program as a child: a record in, a line out."""
import contextlib
import pathlib
import shlex
import signal
import subprocess

ROOT = pathlib.Path(__file__).resolve().parent.parent.parent
RUNNER = [str(ROOT / "tools" / "run-program"), "mi_calls", "mi-try"]


class Trouble(Exception):
    """Something that ends the tool and is told to the user in words."""


ENDING = signal.SIGTERM, signal.SIGHUP, signal.SIGINT


@contextlib.contextmanager
def unsignalled():
    """Signals that end the tool come later: none falls between the start of the child and the note that it has to be ended."""
    before = signal.pthread_sigmask(signal.SIG_BLOCK, ENDING)
    try:
        yield
    finally:
        signal.pthread_sigmask(signal.SIG_SETMASK, before)


class Program:
    """The child. It has a session of its own, so that a Ctrl-C at the prompt does not end it."""

    def __init__(self, command=None):
        self.name = command or "mi_calls"
        try:
            self.child = subprocess.Popen(
                shlex.split(command) if command else RUNNER, stdin=subprocess.PIPE, stdout=subprocess.PIPE, start_new_session=True,
                preexec_fn=lambda: signal.pthread_sigmask(signal.SIG_UNBLOCK, ENDING))
        except (OSError, ValueError) as error:
            raise Trouble(f"{self.name} can't be run: {getattr(error, 'strerror', None) or error}") from None

    def line(self, record):
        """The line that the program prints for a record."""
        try:
            self.child.stdin.write(record)
            self.child.stdin.flush()
        except OSError:             # it has ended; what it printed before is still there to be read
            pass
        line = self.child.stdout.readline()
        if not line.endswith(b"\n"):
            raise Trouble(f"{self.name} ended{self.ending()} before it answered")
        return line[:-1].decode("ascii", "replace")

    def ending(self):
        try:
            status = self.child.wait(5)
        except subprocess.TimeoutExpired:
            return ""
        return f" with status {status}" if status else ""

    def close(self):
        """Ends the child: by the end of its input or, where it does not see that, by a signal."""
        try:
            self.child.stdin.close()
        except OSError:
            pass
        try:
            self.child.wait(0.5)
        except subprocess.TimeoutExpired:
            self.child.terminate()
            self.child.wait()
        self.child.stdout.close()
