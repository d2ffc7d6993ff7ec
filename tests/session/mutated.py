#!/usr/bin/env python3
"""mutated.py [COUNT] [SEED]: judges COUNT mutated traces (100,000) by `nfs3 check`.

Each begins as a trace of `examples` or of `crates/trace_rows`, and one to four of its parts are changed: lines, words, digits, numbers, bytes. Each has to end within
20 seconds with a verdict (status 0 or 1) or with the line that isn't of the form (status 9), and with the text that belongs to the status. The program is the one that
the variable NFS3 names, or bin/nfs3. The last line is 'N passed, M failed', and the status is 0 where nothing failed.
"""
import glob
import os
import random
import re
import subprocess
import sys
import tempfile

TOP = os.path.join(os.path.dirname(os.path.abspath(__file__)), "..", "..")
RULES = b"lawful|once|fresh|settled|read|short"
TEXTS = {0: rb"yes\n", 1: rb"no (?:" + RULES + rb") [1-9][0-9]*\n", 9: rb"trace [0-9]+\n"}


def seeds():
    """The traces that are mutated, as lists of lines."""
    found = [open(path, "rb").read().split(b"\n")[:-1] for path in sorted(glob.glob(f"{TOP}/examples/*.trace"))]
    lines = []
    for line in open(f"{TOP}/crates/trace_rows/stdin", "rb"):
        word, _, rest = line.rstrip(b"\n").partition(b" ")
        if word == b"t":
            lines.append(rest)
        elif word == b"check":
            found.append(lines)
            lines = []
        elif word in (b"print", b"run"):
            lines = []
    return [lines for lines in found if lines]


def other_bytes(line, dice):
    """The line with one byte changed, left out or put in."""
    at = dice.randrange(len(line) + 1)
    new = bytes([dice.choice((dice.randrange(256), dice.choice(b"0123456789abcdef- /%")))])
    return dice.choice((line[:at] + new + line[at + 1 :], line[:at] + line[at + 1 :], line[:at] + new + line[at:]))


def other_word(line, dice, all_lines):
    """The line with one word changed, left out, doubled or taken from another line."""
    words = line.split(b" ")
    at = dice.randrange(len(words))
    loan = dice.choice(dice.choice(all_lines).split(b" "))
    number = str(dice.choice((0, 1, 2, 16, 17, 4095, 65536, 2**32 - 1, 2**32, 2**62, 2**63, 2**64 - 1, 2**64))).encode()
    words[at : at + 1] = dice.choice(([loan], [number], [], [words[at], words[at]], [words[at] * 2], [b"-"], [words[at][:-2]]))
    return b" ".join(words)


def mutated(trace, traces, dice):
    """The text of a trace with one to four changes."""
    lines = list(trace)
    for _ in range(dice.randint(1, 4)):
        at = dice.randrange(len(lines)) if lines else 0
        kind = dice.randrange(8)
        if not lines or kind == 0:
            lines.insert(at, dice.choice(dice.choice(traces)))
        elif kind == 1:
            del lines[at]
        elif kind == 2:
            lines.insert(dice.randrange(len(lines) + 1), lines[at])
        elif kind == 3:
            to = dice.randrange(len(lines))
            lines[at], lines[to] = lines[to], lines[at]
        elif kind == 4:
            lines[at] = other_bytes(lines[at], dice)
        else:
            lines[at] = other_word(lines[at], dice, lines)
    end = dice.choice((b"\n", b"\n", b"\n", b"", b"\r\n"))
    return b"\n".join(lines) + end


def fault(program, path):
    """What is wrong with the end of the program over this trace; None where nothing is."""
    try:
        ran = subprocess.run([*program, "check", path], capture_output=True, timeout=20)
    except subprocess.TimeoutExpired:
        return "no end in 20 seconds"
    if ran.returncode not in TEXTS or not re.fullmatch(TEXTS[ran.returncode], ran.stdout):
        return f"status {ran.returncode}, {ran.stdout[:60]!r}, {ran.stderr[:60]!r}"
    return None


def main(args):
    count = int(args[1]) if len(args) > 1 else 100_000
    dice = random.Random(int(args[2]) if len(args) > 2 else 1)
    program = [os.environ.get("NFS3") or os.path.join(TOP, "bin", "nfs3")]
    traces = seeds()
    failed = 0
    with tempfile.TemporaryDirectory(dir="/dev/shm" if os.path.isdir("/dev/shm") else None) as folder:
        path = os.path.join(folder, "trace")
        for number in range(count):
            text = mutated(dice.choice(traces), traces, dice)
            with open(path, "wb") as out:
                out.write(text)
            wrong = fault(program, path)
            if wrong:
                failed += 1
                print(f"trace {number}: {wrong}", flush=True)
    print(f"{count - failed} passed, {failed} failed")
    return 1 if failed or not count else 0


if __name__ == "__main__":
    sys.exit(main(sys.argv))
