#!/usr/bin/env python3
"""traces.py [PART..]: times `nfs3 check` over made traces, each nearly as large as a trace may be.

In `usual` each round of a session is a write, a sync and a read. In `overlapping` all writes of a session lie over one another before one sync, and another client
changes the file then. In `lost` the same ends with a byte that is lost, which takes minutes. The part `growth` counts instructions of `usual` and of a trace with twice
the entries, by callgrind, which can't run a build without a proof. Without words it takes the first two. The program is the one that the variable NFS3 names, or bin/nfs3.
"""
import os
import re
import subprocess
import sys
import tempfile
import time

TOP = os.path.join(os.path.dirname(os.path.abspath(__file__)), "..", "..")
NFS = 100003
VERIFIER = bytes(7) + b"\1"
NO_WCC = bytes(8)
ROOT, FILE = b"\0" * 7 + b"\1", b"\0" * 7 + b"\2"


def u32(number):
    return number.to_bytes(4, "big")


def u64(number):
    return number.to_bytes(8, "big")


def opaque(piece):
    return u32(len(piece)) + piece + bytes(-len(piece) % 4)


def attributes(kind, size, fileid, changed):
    """The attributes of an object (RFC 1813, section 2.6)."""
    times = u32(1) + u32(0) + 2 * (u32(changed) + u32(0))
    return u32(kind) + u32(0o644) + u32(1) + bytes(8) + 2 * u64(size) + bytes(8) + u64(1) + u64(fileid) + times


def hexed(piece):
    return piece.hex() or "-"


class Trace:
    """A session over one file, and its lines as they come."""

    def __init__(self, size):
        self.now = self.stable = bytes(size)
        self.changed, self.xid, self.line, self.entries = 1, 0, 0, 0
        self.lines = [f"root {ROOT.hex()}", f"verf {VERIFIER.hex()}", f"obj {ROOT.hex()} {attributes(2, 0, 1, 1).hex()} - -"]
        self.show()
        self.lines.append(f"name {ROOT.hex()} 61 {FILE.hex()} 1")
        self.operate("open 1 rw /a", "ok", lambda: (self.talk(3, opaque(ROOT) + opaque(b"a"), opaque(FILE) + bytes(8)), self.talk(1, opaque(FILE), attributes(1, size, 2, 1))))

    def show(self):
        self.lines.append(f"obj {FILE.hex()} {attributes(1, len(self.now), 2, self.changed).hex()} {hexed(self.now)} {hexed(self.stable)}")

    def entry(self, line):
        self.lines.append(line)
        self.entries += 1

    def operate(self, command, answer, calls=lambda: None):
        self.line += 1
        self.entry(f"began 1 {self.line} {command}")
        calls()
        self.entry(f"answered 1 {self.line} {answer}")

    def change(self, now, stable):
        self.changed += now != self.now
        self.now, self.stable = now, stable
        self.show()

    def records(self, xid, procedure, arguments, results):
        call = u32(xid) + u32(0) + u32(2) + u32(NFS) + u32(3) + u32(procedure) + bytes(16) + arguments
        return call.hex(), (u32(xid) + u32(1) + bytes(16) + u32(0) + results).hex()

    def talk(self, procedure, arguments, results, then=lambda: None):
        self.xid += 1
        call, reply = self.records(self.xid, procedure, arguments, results)
        self.entry(f"sent {call}")
        self.entry(f"executed {call} {reply}")
        then()
        self.entry(f"delivered {reply}")

    def put(self, at, piece):
        return self.now[:at] + piece + self.now[at + len(piece) :]

    def write_of(self, at, piece):
        return opaque(FILE) + u64(at) + u32(len(piece)) + u32(0) + opaque(piece)

    def wrote(self, piece):
        return NO_WCC + u32(len(piece)) + u32(0) + VERIFIER

    def sync(self, at, piece):
        """A sync that sends a piece and makes it stable."""
        self.operate("sync 1", "ok", lambda: (
            self.talk(7, self.write_of(at, piece), self.wrote(piece), lambda: self.change(self.put(at, piece), self.stable)),
            self.talk(21, opaque(FILE) + bytes(12), NO_WCC + VERIFIER, lambda: self.change(self.now, self.now)),
        ))


def usual(rounds):
    trace = Trace(60)
    for number in range(rounds):
        at, piece = number % 40, bytes([65 + number % 26]) * 8
        trace.entry(f"clock {number}")
        trace.operate(f"write 1 {at} {piece.hex()}", "ok")
        trace.sync(at, piece)
        results = u32(0) + u32(8) + u32(0) + opaque(piece)
        trace.operate(f"read 1 {at} 8", f"ok {piece.hex()}", lambda: trace.talk(6, opaque(FILE) + u64(at) + u32(8), results))
    return trace


def overlapping(writes, changes, loses=False):
    trace = Trace(61)
    trace.xid = 1000
    call, reply = trace.records(999, 7, trace.write_of(0, b"~"), trace.wrote(b"~"))
    trace.entry(f"sent {call}")
    after = trace.now
    for number in range(writes):
        at, piece = number % 30, bytes([65 + number % 26]) * 20
        trace.operate(f"write 1 {at} {piece.hex()}", "ok")
        after = after[:at] + piece + after[at + len(piece) :]
    trace.sync(0, after[:60])
    for number in range(changes):
        piece = bytes([1 + number % 255])
        foreign = trace.records(0, 7, trace.write_of(60, piece), trace.wrote(piece))
        trace.entry(f"foreign {foreign[0]} {foreign[1]}")
        trace.change(trace.put(60, piece), trace.stable)
    if loses:
        trace.entry(f"executed {call} {reply}")
        trace.change(trace.put(0, b"~"), trace.stable)
    return trace


def run(program, trace, before=()):
    """What the program says of a trace, the seconds it takes, and what it says on standard error."""
    with tempfile.NamedTemporaryFile(dir="/dev/shm" if os.path.isdir("/dev/shm") else None) as file:
        file.write("\n".join(trace.lines).encode() + b"\n")
        file.flush()
        began = time.monotonic()
        ran = subprocess.run([*before, program, "check", file.name], capture_output=True, text=True)
        return ran.stdout.strip(), time.monotonic() - began, ran.stderr


def report(program, name, trace, wanted):
    said, seconds, _ = run(program, trace)
    size = sum(len(line) + 1 for line in trace.lines)
    print(f"{name}: {trace.entries:,} entries, {size:,} bytes: {seconds:.2f} s, {said}", flush=True)
    return said == wanted


def instructions(program, trace):
    with tempfile.TemporaryDirectory() as folder:
        _, _, told = run(program, trace, ["valgrind", "--tool=callgrind", f"--callgrind-out-file={folder}/out"])
    return int(re.search(r"refs:\s*([0-9,]+)", told).group(1).replace(",", ""))


def growth(program):
    less, more = usual(120), usual(241)
    one, two = instructions(program, less), instructions(program, more)
    print(f"growth: {less.entries:,} entries {one:,} instructions, {more.entries:,} entries {two:,}: {two / one:.2f} times", flush=True)
    return True


def main(parts):
    program = os.environ.get("NFS3") or os.path.join(TOP, "bin", "nfs3")
    known = {
        "usual": lambda: report(program, "usual", usual(255), "yes"),
        "overlapping": lambda: report(program, "overlapping", overlapping(1400, 1250), "yes"),
        "lost": lambda: report(program, "lost", (trace := overlapping(1400, 1200, True)), f"no settled {trace.entries}"),
        "growth": lambda: growth(program),
    }
    return 0 if all([known[part]() for part in parts or ["usual", "overlapping"]]) else 1


if __name__ == "__main__":
    sys.exit(main(sys.argv[1:]))
