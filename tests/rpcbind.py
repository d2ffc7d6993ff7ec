#!/usr/bin/env python3
"""Keeps the entries of this machine's rpcbind, and puts them back: a server that a test starts takes those of its programs.

rpcbind.py save FILE: writes all entries into the file.
rpcbind.py restore FILE: takes away what isn't in the file, and sets what is missing. Run it as root.

It speaks RPCBIND version 4 (RFC 1833) over rpcbind's socket, which knows by it who asks.
"""
import json
import socket
import struct
import sys

SOCKET = "/run/rpcbind.sock"
SET, UNSET, DUMP = 1, 2, 4


def text(value):
    data = value.encode("latin-1")
    return struct.pack(">I", len(data)) + data + bytes(-len(data) % 4)


def spelled(entry):
    program, version, netid, address, owner = entry
    return struct.pack(">II", program, version) + text(netid) + text(address) + text(owner)


def take(connection, count):
    data = b""
    while len(data) < count:
        piece = connection.recv(count - len(data))
        if not piece:
            raise OSError("rpcbind ended the connection")
        data += piece
    return data


def call(procedure, arguments=b""):
    """The results of a call."""
    record = struct.pack(">10I", 1, 0, 2, 100000, 4, procedure, 0, 0, 0, 0) + arguments
    with socket.socket(socket.AF_UNIX) as connection:
        connection.connect(SOCKET)
        connection.sendall(struct.pack(">I", 0x80000000 | len(record)) + record)
        reply, last = b"", False
        while not last:
            (mark,) = struct.unpack(">I", take(connection, 4))
            reply, last = reply + take(connection, mark & 0x7FFFFFFF), mark >> 31
    if reply[4:24] != struct.pack(">5I", 1, 0, 0, 0, 0):
        raise OSError("rpcbind refused the call")
    return reply[24:]


class Results:
    def __init__(self, data):
        self.data, self.at = data, 0

    def word(self):
        self.at += 4
        return int.from_bytes(self.data[self.at - 4 : self.at], "big")

    def text(self):
        length = self.word()
        start, self.at = self.at, self.at + length + -length % 4
        return self.data[start : start + length].decode("latin-1")


def entries():
    results, found = Results(call(DUMP)), []
    while results.word():
        found.append([results.word(), results.word(), results.text(), results.text(), results.text()])
    return found


def restore(wanted):
    for entry in entries():
        if entry not in wanted:
            call(UNSET, spelled(entry))
    there = entries()
    for entry in wanted:
        if entry not in there:
            call(SET, spelled(entry))


def main():
    command, path = sys.argv[1:]
    if command == "save":
        with open(path, "w") as file:
            json.dump(entries(), file)
    else:
        with open(path) as file:
            restore(json.load(file))


main()
