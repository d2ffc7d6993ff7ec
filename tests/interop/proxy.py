#!/usr/bin/env python3
"""Passes the TCP connections of one client after another on to a server, both on the loopback.

proxy.py PORT SERVER_PORT (up|down) N..: cuts the first connection after N bytes towards the server or the client, the
    second after the second N, and so on. Later ones last.
proxy.py PORT SERVER_PORT stall N..: passes N bytes towards the client on the first connection, and then nothing more in either
    direction, while the connection stays open; the same for the second N and the second connection. Later ones last.
proxy.py PORT SERVER_PORT at PROC N: the N-th NFS call of that procedure isn't passed on. The line `held` is printed in its
    place, and once a line has come on standard input the connection is cut, and later ones last.

It prints `listening` once it listens, and ends by a signal.
"""
import select
import socket
import sys

NFS = 100003


class CutAfterBytes:
    """Cuts the connections after so many bytes in one direction."""

    def __init__(self, upwards, limits):
        self.upwards, self.limits, self.left = upwards, limits, None

    def connected(self):
        self.left = self.limits.pop(0) if self.limits else None

    def passes(self, upwards, data):
        """What of these bytes is passed on, and whether the connection lasts."""
        if upwards != self.upwards or self.left is None:
            return data, True
        data = data[: self.left]
        self.left -= len(data)
        return data, self.left > 0


class StallAfterBytes(CutAfterBytes):
    """Goes silent after so many bytes towards the client, where the others would cut."""

    def __init__(self, limits):
        super().__init__(False, limits)

    def passes(self, upwards, data):
        if self.left == 0:
            return b"", True
        return super().passes(upwards, data)[0], True


class HoldAtCall:
    """Holds the N-th call of a procedure until it is told to go on, and then cuts its connection."""

    def __init__(self, procedure, number):
        self.procedure, self.number, self.records = procedure, number, b""

    def connected(self):
        self.records = b""

    def passes(self, upwards, data):
        if not upwards or self.number == 0:
            return data, True
        self.records += data
        whole = b""
        while (record := self.next_record()) is not None:
            if self.is_held(record):
                print("held", flush=True)
                sys.stdin.readline()
                return b"", False
            whole += record
        return whole, True

    def next_record(self):
        """Takes the first record out of the bytes that came. The client writes each as one fragment."""
        length = 4 + (int.from_bytes(self.records[:4], "big") & 0x7FFFFFFF)
        if len(self.records) < max(length, 5):
            return None
        record, self.records = self.records[:length], self.records[length:]
        return record

    def is_held(self, record):
        words = [int.from_bytes(record[at : at + 4], "big") for at in range(0, 28, 4)]
        if (words[4], words[6]) == (NFS, self.procedure):
            self.number -= 1
            return self.number == 0
        return False


def pass_on(client, server, rule):
    """Passes bytes on until the connection is cut, or one side ends it."""
    while True:
        for side in select.select([client, server], [], [])[0]:
            data = side.recv(65536)
            passed, lasts = rule.passes(side is client, data)
            (server if side is client else client).sendall(passed)
            if not data or not lasts:
                return


def main():
    port, server_port, kind, *numbers = sys.argv[1:]
    numbers = [int(number) for number in numbers]
    if kind == "at":
        rule = HoldAtCall(*numbers)
    elif kind == "stall":
        rule = StallAfterBytes(numbers)
    else:
        rule = CutAfterBytes(kind == "up", numbers)
    listener = socket.create_server(("127.0.0.1", int(port)))
    print("listening", flush=True)
    while True:
        client, _ = listener.accept()
        try:
            with client, socket.create_connection(("127.0.0.1", int(server_port))) as server:
                rule.connected()
                pass_on(client, server, rule)
        except OSError:
            pass


main()
