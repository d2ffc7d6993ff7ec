#!/usr/bin/env python3
"""Callers of `nfs3 run --batches`, each a test that ends with 0 only if all came as it should:

    callers.py TEST ARGUMENTS           the arguments of `nfs3 run --batches`, from HOST on
    callers.py forgotten PROXY ARGUMENTS    PROXY is the process of forgetful.py, over which HOST is reached

`waits` writes a batch, reads up to its `done`, and only then writes the next one, in one thread. `ahead` writes two batches before it waits for the
first answer, and a thread reads. `refused` and `long` have batches that are refused. `forgotten` makes the way to the server forget the connection
between two batches.
"""

import os
import signal
import subprocess
import sys
import time

HERE = os.path.dirname(os.path.realpath(__file__))
sys.path.insert(0, os.path.join(HERE, os.pardir, os.pardir, "examples"))

from nfs3_session import Refused, Session, program  # noqa: E402


def check(is_so, what):
    if not is_so:
        sys.exit("callers: %s" % (what,))


def start(arguments):
    return subprocess.Popen([program(), "run", "--batches", *arguments], stdin=subprocess.PIPE, stdout=subprocess.PIPE, text=True)


def write(process, text):
    process.stdin.write(text)
    process.stdin.flush()


def read_batch(process):
    """The lines up to a `done`, that one too."""
    lines = []
    for line in process.stdout:
        lines.append(line.rstrip("\n"))
        if line.startswith("done "):
            break
    return lines


def ended(process):
    process.stdin.close()
    rest = process.stdout.read()
    return rest, process.wait()


def waits(*arguments):
    process = start(arguments)
    write(process, "1 open 1 c /waits\n1 write 1 0 6869\ngo\n")
    check(read_batch(process) == ["1 1 ok", "1 2 ok", "done 1 0"], "the first batch")
    write(process, "# a comment\n\n1 close 1\n2 open 1 r /waits\n2 read 1 0 10\n go \r\n")
    check(sorted(read_batch(process)) == ["1 6 ok", "2 7 ok", "2 8 ok 6869", "done 2 0"], "a slot that stays, in lines that are numbered on")
    write(process, "go\n")
    check(read_batch(process) == ["done 3 0"], "an empty batch")
    check(ended(process) == ("", 0), "the end")


def ahead(*arguments):
    with Session(*arguments) as session:
        piece = "61" * 65536
        batches = [session.ask(["1 mkdir /ahead", "2 stat /"])]
        for number in range(8):
            lane = number % 16 + 1
            batches.append(
                session.ask(
                    ["%d open 1 c /ahead/%d" % (lane, number)]
                    + ["%d write 1 %d %s" % (lane, at * 65536, piece) for at in range(7)]
                    + ["%d close 1" % lane, "%d open 1 r /ahead/%d" % (lane, number)]
                    + ["%d read 1 %d 65536" % (lane, at * 65536) for at in range(7)]
                    + ["%d close 1" % lane]
                )
            )
            if len(batches) > 2:
                for answer in batches.pop(0).wait():
                    check(answer.is_ok, answer)
        for batch in batches:
            for answer in batch.wait():
                check(answer.is_ok, answer)
    check(session.process.returncode == 0, "the end")


def refused(*arguments):
    with Session(*arguments) as session:
        check(session.run(["1 open 1 c /refused"])[0].is_ok, "a good batch")
        try:
            session.run(["1 write 1 0 68", "1 nonsense"])
            check(False, "a faulty batch is refused")
        except Refused as why:
            check("line 2 of the batch: fault 5" in str(why), why)
        check([str(answer) for answer in session.run(["1 read 1 0 9", "1 close 1"])] == ["ok", "ok"], "nothing of it was begun, and the slot is open")
    check(session.process.returncode == 3, "the status")


def long(*arguments):
    process = start(arguments)
    write(process, "1 stat /\n" * 16385 + "go\n")
    check(read_batch(process) == ["script 16385 3", "done 1 3"], "too many lines")
    write(process, ("1 write 1 0 " + "61" * 65536 + "\n") * 30 + "go\n")
    check(read_batch(process) == ["script 0 2", "done 2 3"], "too many bytes")
    write(process, "1 access / 1\ngo\n")
    check(read_batch(process)[-1] == "done 3 0", "the next one is run")
    check(ended(process)[1] == 3, "the status")


def forgotten(proxy, *arguments):
    with Session(*arguments) as session:
        check(session.run(["1 open 1 c /forgotten", "1 write 1 0 6869"])[1].is_ok, "the first batch")
        os.kill(int(proxy), signal.SIGUSR1)
        began = time.monotonic()
        answers = session.run(["1 sync 1", "1 read 1 0 9", "1 close 1"])
        check([str(answer) for answer in answers] == ["ok", "ok 6869", "ok"], "a batch over a connection that was forgotten")
        check(time.monotonic() - began < 50, "it took %.0f s" % (time.monotonic() - began))
    check(session.process.returncode == 0, "the status")


if __name__ == "__main__":
    tests = {test.__name__: test for test in (waits, ahead, refused, long, forgotten)}
    tests[sys.argv[1]](*sys.argv[2:])
