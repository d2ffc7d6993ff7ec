"""A session of `nfs3 run --batches`, which stays open while a program works. Standard library alone.

    with Session("nas", "/srv", "--uid", "1000", "--gid", "1000") as session:
        for answer in session.run(["1 open 1 c /hello", "1 write 1 0 6869", "1 close 1"]):
            print(answer.is_ok, answer.words)

`run` waits for the answers of its lines. `ask` doesn't: a thread reads them, so that the next batch may be made and written meanwhile. What was answered `ok`
is so on the terms of README.md; of a file's bytes that is the answer of its `sync` or `close`.
"""

import collections
import os
import re
import subprocess
import threading

PIECE = 65_536  # the most bytes of a line that reads or writes
MOST_BYTES = 1_048_576  # the most bytes of a batch
MOST_LINES = 16_384  # the most lines of a batch
LANES = 16


def program():
    """The program: the one that the variable NFS3 names, or the one that this repository builds."""
    here = os.path.dirname(os.path.realpath(__file__))
    return os.environ.get("NFS3", os.path.join(here, os.pardir, "bin", "nfs3"))


def shown(path):
    """The bytes of a path as a script has them."""
    return "".join(chr(byte) if 33 <= byte <= 126 and byte != 37 else "%%%02x" % byte for byte in path)


def plain(text):
    """The bytes of a name or a text as an answer shows it."""
    return re.sub(rb"%(..)", lambda digits: bytes([int(digits[1], 16)]), text.encode())


class Lost(Exception):
    """The session is over: it was lost, the mount was refused, or the program ended. What was open and what wasn't synced is gone with it."""


class Refused(Exception):
    """A batch is faulty, and nothing of it was begun. The session goes on."""


class Answer(collections.namedtuple("Answer", "words")):
    """The answer to a line: its words after lane and number."""

    @property
    def is_ok(self):
        return self.words[0] == "ok"

    @property
    def bytes(self):
        """What a `read` shows."""
        return bytes.fromhex(self.words[1]) if len(self.words) > 1 else b""

    def __str__(self):
        return " ".join(self.words)


class Batch:
    """The lines of a batch that was written, and its answers as they come."""

    def __init__(self, first, count):
        self.first = first
        self.answers = [None] * count
        self.fault = None
        self.done = threading.Event()

    def take(self, words):
        """Takes the words of an answer line, or of one that refuses the batch."""
        if words[0] == "script":
            line, kind = int(words[1]), words[2]
            self.fault = Refused("line %d of the batch: fault %s" % (max(line - self.first + 1, 0), kind))
        else:
            self.answers[int(words[1]) - self.first] = Answer(words[2:])

    def wait(self):
        """The answers in the order of the lines, once all have come."""
        self.done.wait()
        if self.fault is not None:
            raise self.fault
        return self.answers


class Session:
    """A session with a server. Its methods are for one thread; another one, of its own, reads the answers."""

    def __init__(self, host, export, *arguments):
        words = [program(), "run", "--batches", host, export, *arguments]
        self.process = subprocess.Popen(words, stdin=subprocess.PIPE, stdout=subprocess.PIPE)
        self.next_line = 1
        self.lock = threading.Lock()
        self.waiting = collections.deque()
        self.over = None
        self.reader = threading.Thread(target=self._read, daemon=True)
        self.reader.start()

    def __enter__(self):
        return self

    def __exit__(self, *_):
        self.close()

    def ask(self, lines):
        """Writes a batch of lines, of 1,048,576 bytes and 16,384 lines at most with their line feeds, and doesn't wait for its answers."""
        batch = Batch(self.next_line, len(lines))
        self.next_line += len(lines) + 1  # the line `go` is counted too
        with self.lock:
            if self.over is not None:
                raise self.over
            self.waiting.append(batch)
        try:
            self.process.stdin.write("".join(line + "\n" for line in lines).encode() + b"go\n")
            self.process.stdin.flush()
        except BrokenPipeError:
            pass  # why is on standard output or in the status, and the reader finds it
        return batch

    def run(self, lines):
        """Writes a batch of lines, and waits for its answers."""
        return self.ask(lines).wait()

    def close(self):
        """Ends the session. The exit status, by all answers: 0 if each was `ok`."""
        try:
            self.process.stdin.close()
        except BrokenPipeError:
            pass
        self.reader.join()
        self.process.stdout.close()
        return self.process.wait()

    def _read(self):
        """Hands each line of the program to the batch that it answers, up to the end."""
        why = None
        for line in self.process.stdout:
            words = line.decode().split()
            if words[0] in ("mount", "portmap"):
                why = line.decode().strip()
            elif words[0] == "done":
                self._finish(words[2])
            elif words[0] != "calls":
                self.waiting[0].take(words)
        self._end(why or "the program ended")

    def _finish(self, status):
        """The first batch that waits has all its answers, and this status."""
        with self.lock:
            batch = self.waiting.popleft()
        if status == "6":
            batch.fault = Lost("the session is lost")
        batch.done.set()

    def _end(self, why):
        """No further answer comes."""
        with self.lock:
            self.over = Lost(why)
            for batch in self.waiting:
                batch.fault = self.over
                batch.done.set()
            self.waiting.clear()
