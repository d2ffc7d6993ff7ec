#!/usr/bin/env python3
"""Brings back what examples/backup.py copied, a folder or a file, in one session:

    examples/restore.py PATH FOLDER HOST EXPORT [ARGUMENTS]

FOLDER is made if it isn't there, and files that are there are written over. It ends with 0 only if each answer was ok. Links are made last, so that no file is
written through a link that came from the server.
"""

import os
import sys

from nfs3_session import LANES, PIECE, Lost, Session, plain, shown

AT_ONCE = 128  # so many pieces are read in a batch, 8 MiB

FILE, FOLDER, LINK = "1", "2", "5"


class Restore:
    """What is brought back, and what went wrong."""

    def __init__(self, session, base, folder):
        self.session = session
        self.base = base
        self.folder = folder
        self.wrong = 0

    def complain(self, path, why):
        self.wrong += 1
        print("restore: %s: %s" % (path, why), file=sys.stderr)

    def local(self, path):
        """Where the object at a path of the server comes to. A name is never `.` or `..`, and has no `/`."""
        return os.fsencode(self.folder) + plain(path[len(self.base) :])

    def ask_all(self, paths, line):
        """Asks the same of each path, lane by lane: pairs of a path and its answer. What is refused is named and left out."""
        for start in range(0, len(paths), 4000):
            part = paths[start : start + 4000]
            answers = self.session.run([line % (number % LANES + 1, path or "/") for number, path in enumerate(part)])
            for path, answer in zip(part, answers):
                if answer.is_ok:
                    yield path, answer
                else:
                    self.complain(path or "/", answer)

    def found(self):
        """All files and links at the base and below it, level by level; folders are made here. A file comes with its size."""
        paths, files, links = [self.base], [], []
        while paths:
            folders = []
            for path, answer in self.ask_all(paths, "%d stat %s"):
                kind, size = answer.words[1], int(answer.words[6])
                if kind == FOLDER:
                    os.makedirs(self.local(path), exist_ok=True)
                    folders.append(path)
                elif kind == FILE:
                    files.append((path, size))
                elif kind == LINK:
                    links.append(path)
                else:
                    self.complain(path, "not copied")
            paths = [path + "/" + name for path, answer in self.ask_all(folders, "%d list %s") for name in answer.words[1:]]
        return files, links

    def bring_files(self, files):
        """Brings files back, several in a batch as long as they are small."""
        part, pieces = [], 0
        for path, size in files:
            if pieces + size // PIECE + 1 > AT_ONCE and part:
                self.bring_part(part)
                part, pieces = [], 0
            part.append((path, size))
            pieces += size // PIECE + 1
        self.bring_part(part)

    def bring_part(self, part):
        """Brings a large file back, or several small ones: each is opened in a lane, read to its end, and closed."""
        if len(part) == 1:
            self.bring_one(*part[0])
            return
        lines, owners = [], []
        for number, (path, size) in enumerate(part):
            lane = number % LANES + 1
            reads = ["%d read 1 %d %d" % (lane, at, PIECE) for at in range(0, size + 1, PIECE)]
            own = ["%d open 1 r %s" % (lane, path), *reads, "%d close 1" % lane]
            lines += own
            owners += [(path, len(own))]
        answers = iter(self.session.run(lines))
        for path, count in owners:
            self.write(path, [next(answers) for _ in range(count)], "wb")

    def bring_one(self, path, size):
        """Brings a file back in as many batches as it takes. Its slot stays open."""
        self.write(path, self.session.run(["1 open 1 r " + path]), "wb")
        step = AT_ONCE * PIECE
        for start in range(0, size + 1, step):
            lines = ["1 read 1 %d %d" % (at, PIECE) for at in range(start, min(size + 1, start + step), PIECE)]
            self.write(path, self.session.run(lines), "ab")
        self.write(path, self.session.run(["1 close 1"]), "ab")

    def write(self, path, answers, mode):
        """Writes what the answers show. The first one that isn't ok is named."""
        with open(self.local(path), mode) as file:
            for answer in answers:
                if not answer.is_ok:
                    self.complain(path, answer)
                    return
                file.write(answer.bytes)

    def bring_links(self, links):
        for path, answer in self.ask_all(links, "%d readlink %s"):
            try:
                os.symlink(plain(answer.words[1]), self.local(path))
            except OSError as error:
                self.complain(path, error.strerror)


def main(path, folder, host, export, *arguments):
    with Session(host, export, *arguments) as session:
        restore = Restore(session, shown(os.fsencode(path).rstrip(b"/")), folder)
        files, links = restore.found()
        restore.bring_files(files)
        restore.bring_links(links)
    return 1 if restore.wrong else 0


if __name__ == "__main__":
    if len(sys.argv) < 5:
        sys.exit("usage: restore.py PATH FOLDER HOST EXPORT [ARGUMENTS]")
    try:
        sys.exit(main(*sys.argv[1:]))
    except (Lost, OSError) as error:
        sys.exit("restore: %s" % error)
