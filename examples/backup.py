#!/usr/bin/env python3
"""Copies a folder to a server, in one session:

    examples/backup.py FOLDER PATH HOST EXPORT [ARGUMENTS]

PATH is where the copy stands. Folders are made if they aren't there, and files that are there are written over; nothing is removed. It ends with 0
only if each answer was ok: then the bytes of each file are on stable storage, on the terms of README.md. Folders, regular files and symbolic links are
copied, without owners, rights and times; any other object is named, and the status is 1.
"""

import collections
import itertools
import os
import sys

from nfs3_session import LANES, MOST_BYTES, MOST_LINES, PIECE, Lost, Session, shown

AHEAD = 2  # so many batches may be under way


def objects(folder):
    """What the folder holds, a folder before what it holds: its entry, and its path from the folder on."""
    waiting = [b""]
    while waiting:
        below = waiting.pop()
        with os.scandir(os.path.join(folder, below)) as entries:
            for entry in entries:
                path = os.path.join(below, entry.name)
                if entry.is_dir(follow_symlinks=False):
                    waiting.append(path)
                yield entry, path


class Backup:
    """Lines that are collected into batches, and what became of those that were written."""

    def __init__(self, session):
        self.session = session
        self.lines = []
        self.owners = []
        self.size = 0
        self.under_way = collections.deque()
        self.wrong = 0

    def complain(self, path, why):
        self.wrong += 1
        print("backup: %s: %s" % (os.fsdecode(path), why), file=sys.stderr)

    def ask(self, path, line):
        """A line for the object at the path. It begins another batch where there is no room in this one."""
        if self.size + len(line) + 1 > MOST_BYTES or len(self.lines) == MOST_LINES:
            self.flush()
        self.lines.append(line)
        self.owners.append(path)
        self.size += len(line) + 1

    def flush(self):
        """Writes the batch, and waits until at most one is under way."""
        if self.lines:
            self.under_way.append((self.owners, self.session.ask(self.lines)))
            self.lines, self.owners, self.size = [], [], 0
        while len(self.under_way) >= AHEAD:
            self.judge()

    def finish(self):
        """Writes what is left, and waits for all answers."""
        self.flush()
        while self.under_way:
            self.judge()

    def judge(self):
        """Waits for the oldest batch. Of each object the first answer that isn't ok is shown."""
        owners, batch = self.under_way.popleft()
        shown_already = None
        for path, answer in zip(owners, batch.wait()):
            if not answer.is_ok and path != shown_already:
                self.complain(path, answer)
                shown_already = path


def make_folders(session, backup, paths):
    """Makes folders, one after the other. One that is there already is left as it is."""
    for start in range(0, len(paths), 1000):
        part = paths[start : start + 1000]
        lines = [line for path in part for line in ("1 mkdir " + shown(path), "1 stat " + shown(path))]
        answers = session.run(lines)
        for path, made, found in zip(part, answers[::2], answers[1::2]):
            if not found.is_ok or found.words[1] != "2":
                backup.complain(path, made)


def make_links(session, backup, links):
    """Makes links: pairs of a path and what it leads to. One that is there already and leads to the same is left as it is."""
    for start in range(0, len(links), 400):
        part = links[start : start + 400]
        lines = [line for path, target in part for line in ("1 symlink %s %s" % (shown(path), shown(target)), "1 readlink " + shown(path))]
        answers = session.run(lines)
        for (path, target), made, found in zip(part, answers[::2], answers[1::2]):
            if not found.is_ok or found.words[1:] != [shown(target)]:
                backup.complain(path, made)


def copy_file(backup, lane, file, path):
    """Copies a file in a lane. The lane's slot stays open over batches."""
    try:
        with open(file, "rb") as source:
            backup.ask(path, "%d open 1 c %s" % (lane, shown(path)))
            backup.ask(path, "%d truncate 1 0" % lane)
            try:
                for offset in itertools.count(0, PIECE):
                    piece = source.read(PIECE)
                    if not piece:
                        break
                    backup.ask(path, "%d write 1 %d %s" % (lane, offset, piece.hex()))
            finally:
                backup.ask(path, "%d close 1" % lane)
    except OSError as error:
        backup.complain(file, error.strerror)


def main(folder, target, host, export, *arguments):
    folder, base = os.fsencode(folder), os.fsencode(target).rstrip(b"/")
    folders, files, links = [base] if base else [], [], []
    with Session(host, export, *arguments) as session:
        backup = Backup(session)
        for entry, path in objects(folder):
            to = base + b"/" + path
            if entry.is_symlink():
                links.append((to, os.readlink(entry.path)))
            elif entry.is_dir():
                folders.append(to)
            elif entry.is_file():
                files.append((entry.path, to))
            else:
                backup.complain(entry.path, "not copied")
        make_folders(session, backup, folders)
        for lane, (file, to) in zip(itertools.cycle(range(1, LANES + 1)), files):
            copy_file(backup, lane, file, to)
        backup.finish()
        make_links(session, backup, links)
    return 1 if backup.wrong else 0


if __name__ == "__main__":
    if len(sys.argv) < 5:
        sys.exit("usage: backup.py FOLDER PATH HOST EXPORT [ARGUMENTS]")
    try:
        sys.exit(main(*sys.argv[1:]))
    except (Lost, OSError) as error:
        sys.exit("backup: %s" % error)
