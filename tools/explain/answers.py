"""Where the answers come from. A source is a function: given the log as a raw stream of bytes it gives an `Answers`."""
import contextlib
import io
import os
import queue
import shutil
import subprocess
import tempfile
import threading

CHUNK = 1 << 16             # bytes that are read at once
HELD = 64                   # chunks that are held in memory


NO_KIT = "; rt, the command of the Rattle kit, is not on the path (--answers FILE takes lines that it printed elsewhere)"


class Trouble(Exception):
    """Something that is told to the user in words."""


class Answers:
    """The records' bytes, the printed lines, and what has to be done at the end. `finish` is for a log that was read to its end
    and raises Trouble where the program failed; `close` is for any end."""

    def __init__(self, log, lines, name):
        self.log, self.lines, self.name = log, lines, name

    def finish(self):
        pass

    def close(self):
        pass


def stored(path):
    """Answers that the log program printed before, in a file."""
    return lambda log: Answers(io.BufferedReader(log, CHUNK), lines_in(path), str(path))


def lines_in(path):
    try:
        with open(path, encoding="ascii", errors="replace") as lines:
            for line in lines:
                yield line.rstrip("\n")
    except OSError as error:
        raise Trouble(f"{path} can't be read: {error.strerror}") from None


def program(command):
    """Answers of the log program, which is run on the log."""
    return lambda log: Program(log, command)


class Program(Answers):
    """The log program as a child. A thread gives it the log and keeps a copy for the one who explains."""

    def __init__(self, log, command):
        try:
            self.child = subprocess.Popen([str(command)], stdin=subprocess.PIPE, stdout=subprocess.PIPE)
        except OSError as error:
            raise Trouble(f"{command} can't be run: {error.strerror}") from None
        self.backlog = Backlog()
        super().__init__(io.BufferedReader(self.backlog, CHUNK), self.printed(), f"./{command.name}")
        threading.Thread(target=self.feed, args=(log,), daemon=True).start()

    def feed(self, log):
        """Gives the child the log. It may end before the log does: at a faulty record, or because it failed."""
        try:
            while chunk := log.read(CHUNK):
                self.backlog.put(chunk)
                self.give(chunk)
        except BrokenPipeError:
            pass
        except OSError as error:
            self.backlog.end(error)
        finally:
            with contextlib.suppress(OSError):
                self.child.stdin.close()
            self.backlog.end()

    def give(self, chunk):
        self.child.stdin.write(chunk)
        self.child.stdin.flush()

    def printed(self):
        for line in self.child.stdout:
            yield line.decode("ascii", "replace").rstrip("\n")

    def finish(self):
        status = self.child.wait()
        if status:
            raise Trouble(f"{self.name} ended with status {status}{'' if shutil.which('rt') else NO_KIT}")

    def close(self):
        if self.child.poll() is None:
            self.child.terminate()
            self.child.wait()
        self.child.stdout.close()


class Backlog(io.RawIOBase):
    """What the child was given and is not explained yet, as a stream.

    The log program prints 64 KiB of lines at once, which can be those of thousands of records, so what it was given can't be
    limited. Some chunks are held in memory. The others are in a file without a name, whose places are used again: neither grows
    with the log.
    """

    def __init__(self):
        super().__init__()
        self.chunks, self.free = queue.SimpleQueue(), queue.SimpleQueue()
        self.file, self.places = None, 0
        self.front, self.ended = b"", False

    def readable(self):
        return True

    # Of the thread that feeds

    def put(self, chunk):
        self.chunks.put(chunk if self.chunks.qsize() < HELD else (self.store(chunk), len(chunk)))

    def store(self, chunk):
        """Writes a chunk to a free place of the file."""
        if self.file is None:
            self.file = tempfile.TemporaryFile(buffering=0)
        try:
            place = self.free.get_nowait()
        except queue.Empty:
            place, self.places = self.places, self.places + 1
        if os.pwrite(self.file.fileno(), chunk, place * CHUNK) != len(chunk):
            raise OSError(28, "no room for a temporary file")
        return place

    def end(self, error=None):
        self.chunks.put(error or b"")

    # Of the one who explains

    def readinto(self, room):
        if not self.front and not self.ended:
            self.front = memoryview(self.next())
            self.ended = not self.front
        part = self.front[:len(room)]
        room[:len(part)] = part
        self.front = self.front[len(part):]
        return len(part)

    def close(self):
        if self.file:
            self.file.close()
        super().close()

    def next(self):
        chunk = self.chunks.get()
        if isinstance(chunk, OSError):
            raise chunk
        if isinstance(chunk, tuple):
            place, length = chunk
            chunk = os.pread(self.file.fileno(), length, place * CHUNK)
            self.free.put(place)
        return chunk
