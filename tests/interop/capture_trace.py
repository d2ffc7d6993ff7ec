#!/usr/bin/env python3
"""Turns a capture of NFSv3 over TCP into a trace that `nfs3 check` judges.

    capture_trace.py CAPTURE PORT [PORT..] > TRACE

PORT are the server's ports of MOUNT and NFS. All connections to them are taken as those of one client. tshark takes the
segments from the capture; streams, records and what they spell are put together here.

A capture shows calls and replies, and no more. The rest of the trace is a guess that explains them:

- each call is executed just before its reply;
- the server holds at the start what the first replies show of it: attributes, names, and bytes that a READ gives before
  a WRITE changes them; other bytes are zeros;
- attributes change where replies show that they did, at a call that may change them, or else by another client;
- a write verifier that changes is a restart, before which all bytes became stable.

So `yes` says that such a server exists, and `no lawful N` that the guess explains no more than the entries before. There
are no operations in a capture, so the claims on bytes that a client answered for hold of it by themselves.
"""
import subprocess
import sys
from dataclasses import dataclass, field

NFS, MOUNT = 100003, 100005
(NULL, GETATTR, SETATTR, LOOKUP, ACCESS, READLINK, READ, WRITE, CREATE, MKDIR, SYMLINK, MKNOD, REMOVE, RMDIR, RENAME, LINK,
 READDIR, READDIRPLUS, FSSTAT, FSINFO, PATHCONF, COMMIT) = range(22)
FILE, DIRECTORY, SYMLINK_KIND = 1, 2, 5
UNSTABLE = 0


# ---- what the capture holds

def segments(capture, ports):
    """The segments of TCP to and from the ports, in the order of the capture."""
    terms = ' or '.join(f'tcp.port == {port}' for port in ports)
    fields = ['tcp.stream', 'tcp.srcport', 'tcp.dstport', 'tcp.seq', 'tcp.flags.syn', 'tcp.payload']
    words = ['tshark', '-r', capture, '-o', 'tcp.desegment_tcp_streams:FALSE', '-Y', f'({terms})', '-T', 'fields']
    for name in fields:
        words += ['-e', name]
    shown = subprocess.run(words, check=True, capture_output=True, text=True).stdout
    for line in shown.splitlines():
        stream, source, target, seq, syn, payload = line.split('\t')
        yield int(stream), int(source), int(target), int(seq), syn in ('1', 'True'), bytes.fromhex(payload.replace(':', ''))


@dataclass
class Flow:
    """One direction of a connection."""
    next: int = 1
    early: dict = field(default_factory=dict)
    unread: bytes = b''

    def take(self, seq, data):
        """Puts a segment in its place, and gives the records that are whole then."""
        self.early[seq] = max(data, self.early.get(seq, b''), key=len)
        while True:
            at = next((seq for seq in self.early if seq <= self.next), None)
            if at is None:
                return
            data = self.early.pop(at)[self.next - at:]
            self.next += len(data)
            self.unread += data
            yield from self.records()

    def records(self):
        """Cuts whole records off the front (RFC 5531, section 11)."""
        while True:
            record, at = b'', 0
            while True:
                if len(self.unread) < at + 4:
                    return
                head = int.from_bytes(self.unread[at:at + 4], 'big')
                size = head & 0x7fffffff
                if len(self.unread) < at + 4 + size:
                    return
                record += self.unread[at + 4:at + 4 + size]
                at += 4 + size
                if head >> 31:
                    break
            self.unread = self.unread[at:]
            yield record


def events(capture, ports):
    """What the client does and takes: ('dialed', port), ('sent', stream, record) and ('delivered', stream, record)."""
    flows = {}
    for stream, source, target, seq, syn, data in segments(capture, ports):
        sends = target in ports
        if syn:
            if sends:
                yield 'dialed', target
            continue
        if data:
            flow = flows.setdefault((stream, sends), Flow())
            for record in flow.take(seq, data):
                yield ('sent' if sends else 'delivered'), stream, record


# ---- what records spell (RFC 5531, section 9; RFC 1813, section 3)

class Malformed(Exception):
    """The bytes aren't of the form."""


@dataclass
class Reader:
    data: bytes
    at: int = 0

    def raw(self, size):
        if self.at + size > len(self.data):
            raise Malformed
        part = self.data[self.at:self.at + size]
        self.at += size
        return part

    def word(self):
        return int.from_bytes(self.raw(4), 'big')

    def long(self):
        return int.from_bytes(self.raw(8), 'big')

    def opaque(self):
        size = self.word()
        part = self.raw(size)
        self.raw(-size % 4)
        return part

    def maybe(self, read):
        return read() if self.word() else None

    def attr(self):
        return self.raw(84)

    def stamp(self):
        """Size, mtime and ctime, as `before` attributes have them."""
        return self.raw(24)

    def wcc(self):
        return self.maybe(self.stamp), self.maybe(self.attr)

    def sizes(self):
        """The size that is to be set, of all that may be."""
        for _ in range(3):
            self.maybe(self.word)
        size = self.maybe(self.long)
        for _ in range(2):
            if self.word() == 2:
                self.raw(8)
        return size


@dataclass
class Call:
    xid: int
    program: int
    procedure: int
    record: bytes
    # what is named: files and directories with names
    file: bytes = b''
    name: bytes = b''
    to: bytes = b''
    to_name: bytes = b''
    # what is asked for
    offset: int = 0
    count: int = 0
    size: int | None = None
    data: bytes = b''


def read_call(record):
    """The call that a record spells, or None where it is one of another program."""
    reader = Reader(record)
    xid, kind = reader.word(), reader.word()
    _, program, version, procedure = (reader.word() for _ in range(4))
    for _ in range(2):
        reader.word()
        reader.opaque()
    if kind != 0 or (program, version) not in ((NFS, 3), (MOUNT, 3)):
        return None
    call = Call(xid, program, procedure, record)
    if program == MOUNT:
        return call if procedure in (0, 1, 3, 5) else None
    if procedure == NULL:
        return call
    call.file = reader.opaque()
    if procedure in (LOOKUP, CREATE, MKDIR, SYMLINK, MKNOD, REMOVE, RMDIR, RENAME):
        call.name = reader.opaque()
    if procedure == RENAME:
        call.to, call.to_name = reader.opaque(), reader.opaque()
    if procedure == LINK:
        call.to, call.to_name = reader.opaque(), reader.opaque()
    if procedure == SETATTR:
        call.size = reader.sizes()
    if procedure == READ:
        call.offset, call.count = reader.long(), reader.word()
    if procedure == WRITE:
        call.offset, call.count, call.how, call.data = reader.long(), reader.word(), reader.word(), reader.opaque()
    if procedure == COMMIT:
        call.offset, call.count = reader.long(), reader.word()
    if procedure == CREATE:
        call.size = reader.sizes() if reader.word() != 2 else None
    if procedure == SYMLINK:
        reader.sizes()
        call.data = reader.opaque()
    if procedure == MKNOD:
        call.count = reader.word()
    return call


@dataclass
class Row:
    name: bytes
    cookie: int
    attr: bytes | None = None
    found: bytes | None = None


@dataclass
class Reply:
    record: bytes
    status: int = 0
    # attributes that are shown: of the file or directory of the call, of what is found, and before and after changes
    attr: bytes | None = None
    found: bytes | None = None
    found_attr: bytes | None = None
    wcc: tuple = (None, None)
    to_wcc: tuple = (None, None)
    # what is given
    data: bytes = b''
    count: int = 0
    eof: bool = False
    committed: int = 0
    verf: bytes | None = None
    rows: list = field(default_factory=list)


def read_reply(record, call):
    """The reply to a call, or None where the call is refused before it is looked at."""
    reader = Reader(record)
    reader.word()
    if reader.word() != 1 or reader.word() != 0:
        return None
    reader.word()
    reader.opaque()
    if reader.word() != 0:
        return None
    reply = Reply(record)
    if call.program == MOUNT:
        if call.procedure == 1:
            reply.status = reader.word()
            if reply.status == 0:
                reply.found = reader.opaque()
    elif call.procedure != NULL:
        reply.status = reader.word()
        read_results(reader, call, reply)
    return reply


def read_results(reader, call, reply):
    """Reads what stands behind the status."""
    done, procedure = reply.status == 0, call.procedure
    if procedure == GETATTR:
        reply.attr = reader.attr() if done else None
    elif procedure in (SETATTR, WRITE, COMMIT):
        reply.wcc = reader.wcc()
        if done and procedure == WRITE:
            reply.count, reply.committed = reader.word(), reader.word()
        if done and procedure != SETATTR:
            reply.verf = reader.raw(8)
    elif procedure == LOOKUP:
        if done:
            reply.found, reply.found_attr = reader.opaque(), reader.maybe(reader.attr)
        reply.attr = reader.maybe(reader.attr)
    elif procedure in (CREATE, MKDIR, SYMLINK, MKNOD):
        if done:
            reply.found, reply.found_attr = reader.maybe(reader.opaque), reader.maybe(reader.attr)
        reply.wcc = reader.wcc()
    elif procedure in (REMOVE, RMDIR):
        reply.wcc = reader.wcc()
    elif procedure == RENAME:
        reply.wcc, reply.to_wcc = reader.wcc(), reader.wcc()
    elif procedure == LINK:
        reply.attr, reply.to_wcc = reader.maybe(reader.attr), reader.wcc()
    else:
        reply.attr = reader.maybe(reader.attr)
        if done:
            read_shown(reader, procedure, reply)


def read_shown(reader, procedure, reply):
    """Reads what a reply shows that begins with attributes."""
    if procedure == READLINK:
        reply.data = reader.opaque()
    elif procedure == READ:
        reply.count, reply.eof, reply.data = reader.word(), bool(reader.word()), reader.opaque()
    elif procedure in (READDIR, READDIRPLUS):
        reader.raw(8)
        while reader.word():
            reader.long()
            row = Row(reader.opaque(), reader.long())
            if procedure == READDIRPLUS:
                row.attr, row.found = reader.maybe(reader.attr), reader.maybe(reader.opaque)
            reply.rows.append(row)


# ---- attributes (RFC 1813, section 2.5, fattr3)

def kind_of(attr):
    return int.from_bytes(attr[:4], 'big')


def stamp_of(attr):
    return attr[20:28] + attr[68:84]


def with_stamp(attr, stamp):
    return attr[:20] + stamp[:8] + attr[28:68] + stamp[8:]


def with_size(attr, size):
    return attr[:20] + size.to_bytes(8, 'big') + attr[28:]


def made_attr(kind, number):
    """Attributes that nothing shows."""
    words = [kind, 0o644, 1, 0, 0]
    return b''.join(word.to_bytes(4, 'big') for word in words) + bytes(32) + number.to_bytes(8, 'big') + bytes(24)


def later(attr):
    """The attributes with a ctime that is one nanosecond later."""
    nanos = int.from_bytes(attr[80:84], 'big') + 1
    return attr[:80] + nanos.to_bytes(4, 'big')


# ---- what the server held at the start

class Start:
    """What the replies show that was there before the first call."""

    def __init__(self):
        self.attrs, self.kinds, self.lengths, self.bytes, self.texts = {}, {}, {}, {}, {}
        self.born = set()
        # names as they are now: of an incarnation of a name, its object; None where it is absent
        self.turns, self.names, self.cookies = {}, {}, {}
        self.first_names = {}
        self.cells = {}
        self.verf = None
        self.unknown = 0

    def see(self, handle, attr=None, kind=None):
        """An object shows itself."""
        if attr is not None:
            kind = kind_of(attr)
        if kind is not None:
            self.kinds.setdefault(handle, kind)
        if attr is not None and handle not in self.attrs:
            self.attrs[handle] = attr
            if kind == FILE and handle not in self.cells:
                self.give_length(handle, int.from_bytes(attr[20:28], 'big'))

    def give_length(self, handle, length):
        """A file that was there had this length; its bytes aren't known yet."""
        if handle not in self.born and handle not in self.cells:
            self.lengths[handle] = length
            self.cells[handle] = [-1 - at for at in range(length)]

    def stand_in(self, kind):
        """A file handle that no reply shows."""
        self.unknown += 1
        handle = b'unseen' + self.unknown.to_bytes(2, 'big')
        self.kinds[handle] = kind
        return handle

    def note_name(self, dir, name, handle, cookie=None):
        """A directory has a name."""
        key = (dir, name)
        turn = self.turns.get(key, 0)
        if key not in self.names:
            self.first_names[key] = handle
        if self.names.get(key) is None or handle is not None:
            self.names[key] = handle
            if turn == 0 and handle is not None:
                self.first_names[key] = handle
        if cookie is not None:
            self.cookies.setdefault((dir, name, turn), cookie)

    def change_name(self, dir, name, handle):
        """A name enters or leaves."""
        key = (dir, name)
        self.turns[key] = self.turns.get(key, 0) + 1
        self.names[key] = handle

    def take(self, call, reply):
        """Learns from a call that was answered."""
        if call.program == MOUNT:
            if reply.found is not None:
                self.see(reply.found, kind=DIRECTORY)
            return
        if call.procedure == NULL:
            return
        self.take_attrs(call, reply)
        if reply.status == 0:
            self.take_done(call, reply)

    def take_attrs(self, call, reply):
        procedure = call.procedure
        kind = {READ: FILE, WRITE: FILE, COMMIT: FILE, READLINK: SYMLINK_KIND}.get(procedure)
        if procedure in (LOOKUP, CREATE, MKDIR, SYMLINK, MKNOD, REMOVE, RMDIR, RENAME, READDIR, READDIRPLUS):
            kind = DIRECTORY
        before = reply.wcc[0]
        if before is not None and kind_or(self, call.file, kind) == FILE:
            self.give_length(call.file, int.from_bytes(before[:8], 'big'))
        self.see(call.file, reply.attr, kind)
        self.see(call.file, reply.wcc[1], kind)
        if call.to:
            self.see(call.to, reply.to_wcc[1], DIRECTORY)

    def take_done(self, call, reply):
        procedure = call.procedure
        if procedure == LOOKUP:
            self.see(reply.found, reply.found_attr)
            self.note_name(call.file, call.name, reply.found)
        elif procedure in (READDIR, READDIRPLUS):
            for row in reply.rows:
                self.take_row(call.file, row)
        elif procedure == READ:
            self.take_bytes(call, reply)
        elif procedure == WRITE:
            self.put_bytes(call.file, call.offset, call.data[:reply.count])
        elif procedure == SETATTR and call.size is not None:
            self.resize(call.file, call.size)
        elif procedure in (CREATE, MKDIR, SYMLINK, MKNOD):
            self.take_made(call, reply)
        elif procedure in (REMOVE, RMDIR):
            self.take_name(call.file, call.name, FILE if procedure == REMOVE else DIRECTORY)
            self.change_name(call.file, call.name, None)
        elif procedure == RENAME:
            handle = self.take_name(call.file, call.name, FILE)
            if handle != self.names.get((call.to, call.to_name)):
                self.change_name(call.file, call.name, None)
                self.change_name(call.to, call.to_name, handle)
        elif procedure == LINK:
            self.change_name(call.to, call.to_name, call.file)
        elif procedure == READLINK:
            self.texts.setdefault(call.file, reply.data)
        if reply.verf is not None and self.verf is None:
            self.verf = reply.verf

    def take_row(self, dir, row):
        if row.found is not None:
            self.see(row.found, row.attr)
        self.note_name(dir, row.name, row.found, row.cookie)

    def take_name(self, dir, name, kind):
        """The object of a name that a call takes away."""
        handle = self.names.get((dir, name))
        if handle is None:
            handle = self.stand_in(kind)
            self.note_name(dir, name, handle)
        return handle

    def take_made(self, call, reply):
        """A name that a call makes, or a file that CREATE meets."""
        if meets(call, reply, self.names.get((call.file, call.name)), self.kinds):
            handle = reply.found or self.names.get((call.file, call.name))
            self.see(handle, reply.found_attr, FILE)
            self.note_name(call.file, call.name, handle)
            if call.size is not None:
                self.resize(handle, call.size)
            return
        kind = {CREATE: FILE, MKDIR: DIRECTORY, SYMLINK: SYMLINK_KIND}.get(call.procedure, call.count)
        handle = reply.found or self.stand_in(kind)
        self.born.add(handle)
        self.kinds.setdefault(handle, kind)
        self.cells[handle] = [0] * (call.size or 0)
        self.change_name(call.file, call.name, handle)

    def take_bytes(self, call, reply):
        """Bytes that a READ shows before any WRITE put them there were there at the start."""
        end = call.offset + len(reply.data)
        self.give_length(call.file, end)
        cells = self.cells[call.file]
        for at in range(call.offset, min(end, len(cells))):
            if cells[at] < 0:
                value = reply.data[at - call.offset]
                self.bytes[(call.file, -1 - cells[at])] = value
                cells[at] = value

    def put_bytes(self, handle, offset, data):
        self.give_length(handle, 0)
        cells = self.cells[handle]
        cells += [0] * (offset - len(cells))
        cells[offset:offset + len(data)] = data

    def resize(self, handle, size):
        self.give_length(handle, 0)
        cells = self.cells[handle]
        cells[size:] = [0] * max(0, size - len(cells))


def kind_or(start, handle, kind):
    return start.kinds.get(handle, kind)


def meets(call, reply, known, kinds):
    """Whether a CREATE met a file that was there: its name was known, or the directory stays as it was."""
    if call.procedure != CREATE:
        return False
    if known is not None:
        return True
    before, after = reply.wcc
    return reply.found in kinds or (before is not None and after is not None and before[8:16] == after[68:76])


# ---- the server, call after call

@dataclass
class Thing:
    """An object of the server."""
    attr: bytes
    now: bytes = b''
    stable: bytes = b''
    gone: bool = False
    names: dict = field(default_factory=dict)


class Server:
    """The server that explains the replies; it writes the trace."""

    def __init__(self, start, out):
        self.start, self.out = start, out
        self.verf = start.verf or bytes(8)
        self.things, self.turns = {}, {}
        self.seen_cookies = 0
        self.told = {}
        for number, (handle, kind) in enumerate(start.kinds.items(), 1 << 32):
            if handle not in start.born:
                self.things[handle] = self.first(handle, kind, number)
        for (dir, name), handle in start.first_names.items():
            if handle is None:
                handle = start.stand_in(FILE)
            self.things[dir].names[name] = (handle, self.cookie(dir, name))
        if self.verf != bytes(8):
            self.line('verf', self.verf)
        self.tell_all()

    def first(self, handle, kind, number):
        """An object as it is at the start."""
        attr = self.start.attrs.get(handle) or made_attr(kind, number)
        if kind == FILE:
            length = self.start.lengths.get(handle, 0)
            data = bytes(self.start.bytes.get((handle, at), 0) for at in range(length))
            return Thing(with_size(attr, length), data, data)
        return Thing(attr, self.start.texts.get(handle, b''))

    def cookie(self, dir, name):
        """The cookie of a name: the one that a list shows, or else one that none does."""
        found = self.start.cookies.get((dir, name, self.turns.get((dir, name), 0)))
        if found:
            return found
        self.seen_cookies += 1
        return (1 << 62) + self.seen_cookies

    # -- the trace

    def line(self, *words):
        shown = (word if isinstance(word, str) else str(word) if isinstance(word, int) else word.hex() or '-' for word in words)
        print(*shown, file=self.out)

    def tell_all(self):
        """Writes what changed of the objects."""
        handles = list(self.things)
        for handle in handles:
            self.tell_object(handle)
        for handle in handles:
            self.tell_names(handle)

    def tell_object(self, handle):
        thing = self.things[handle]
        stable = thing.stable if kind_of(thing.attr) == FILE else b''
        shown = (thing.attr, thing.now, stable)
        if self.told.get((handle, 'obj')) != shown:
            self.told[(handle, 'obj')] = shown
            self.line('obj', handle, *shown)
        if thing.gone and not self.told.get((handle, 'gone')):
            self.told[(handle, 'gone')] = True
            self.line('gone', handle)

    def tell_names(self, handle):
        old, new = self.told.get((handle, 'names'), {}), self.things[handle].names
        for name in old:
            if name not in new:
                self.line('unname', handle, name)
        for name, (found, cookie) in new.items():
            if old.get(name) != (found, cookie):
                self.line('name', handle, name, found, cookie)
        self.told[(handle, 'names')] = dict(new)

    # -- other clients

    def foreign(self, handle, attr):
        """Another client changes an object to these attributes, and a file to their size."""
        thing = self.things[handle]
        size = int.from_bytes(attr[20:28], 'big')
        sized = kind_of(thing.attr) == FILE and size != len(thing.now)
        wanted = (1).to_bytes(4, 'big') + size.to_bytes(8, 'big') if sized else bytes(4)
        args = opaque(handle) + bytes(12) + wanted + bytes(8) + bytes(4)
        call = words(0, 0, 2, NFS, 3, SETATTR, 0, 0, 0, 0) + args
        reply = words(0, 1, 0, 0, 0, 0) + words(0, 0, 0)
        self.line('foreign', call, reply)
        if sized:
            thing.now, thing.stable = resized(thing.now, size), resized(thing.stable, size)
        thing.attr = attr
        self.tell_all()

    def settle(self, handle, attr):
        """The object has these attributes, if another client has to see to it."""
        if attr is not None and handle in self.things and self.things[handle].attr != attr:
            self.foreign(handle, attr)

    def settle_stamp(self, handle, stamp):
        if stamp is not None and handle in self.things and stamp_of(self.things[handle].attr) != stamp:
            self.foreign(handle, with_stamp(self.things[handle].attr, stamp))

    # -- calls

    def serve(self, call, reply):
        """Executes a call as its reply says, and writes the entry and what it changes."""
        before = reply.status != 0
        if call.program == NFS and call.procedure != NULL:
            self.settle_stamp(call.file, reply.wcc[0])
            self.settle_stamp(call.to, reply.to_wcc[0])
            if before:
                for handle, attr in ((call.file, reply.attr), (call.file, reply.wcc[1]), (call.to, reply.to_wcc[1])):
                    self.settle(handle, attr)
            for row in reply.rows:
                self.settle(self.object_of(call.file, row.name), row.attr)
            if reply.verf is not None and reply.verf != self.verf:
                self.restart(reply.verf)
        self.line('executed', call.record, reply.record)
        if call.program == NFS and call.procedure != NULL and not before:
            self.do(call, reply)
            self.tell_all()

    def object_of(self, dir, name):
        entry = self.things[dir].names.get(name) if dir in self.things else None
        return entry[0] if entry else None

    def restart(self, verf):
        """The server restarts; before that all bytes became stable."""
        for handle, thing in self.things.items():
            if thing.now != thing.stable and not thing.gone:
                self.line('flushed', handle, 0, 0)
                thing.stable = thing.now
                self.tell_all()
        self.line('reboot', verf)
        self.line('verf', verf)
        self.verf = verf

    def do(self, call, reply):
        procedure = call.procedure
        if procedure in (SETATTR, WRITE, COMMIT):
            self.change_bytes(call, reply)
        elif procedure in (CREATE, MKDIR, SYMLINK, MKNOD):
            self.make(call, reply)
        elif procedure in (REMOVE, RMDIR):
            self.lose(self.unname(call.file, call.name))
        elif procedure == RENAME:
            self.rename(call)
        elif procedure == LINK:
            self.name(call.to, call.to_name, call.file)
        changed = procedure in (REMOVE, RMDIR, RENAME, LINK, CREATE, MKDIR, SYMLINK, MKNOD)
        self.show(call.file, reply.attr)
        self.show(call.file, reply.wcc[1], changed and procedure != LINK)
        self.show(call.to, reply.to_wcc[1], changed)
        if procedure == LOOKUP:
            self.show(reply.found, reply.found_attr)

    def show(self, handle, attr, changed=False):
        """The object has the attributes that a reply shows; if none does and it changed, later ones."""
        thing = self.things.get(handle)
        if thing is None:
            return
        if attr is not None:
            thing.attr = attr
        elif changed:
            thing.attr = later(thing.attr)

    def change_bytes(self, call, reply):
        thing = self.things[call.file]
        if call.procedure == SETATTR and call.size is not None:
            thing.now, thing.stable = resized(thing.now, call.size), resized(thing.stable, call.size)
        if call.procedure == WRITE:
            data = call.data[:reply.count]
            thing.now = put_at(call.offset, data, thing.now)
            if reply.committed != UNSTABLE:
                thing.stable = put_at(call.offset, data, thing.stable)
        if call.procedure == COMMIT:
            end = call.offset + call.count if call.count else len(thing.now)
            thing.stable = put_at(call.offset, thing.now[call.offset:end], thing.stable)
        if reply.wcc[1] is None and call.procedure != COMMIT:
            thing.attr = later(thing.attr)
        if kind_of(thing.attr) == FILE:
            thing.attr = with_size(thing.attr, len(thing.now))

    def make(self, call, reply):
        """A new object gets the name, or CREATE meets the file that has it."""
        met = self.object_of(call.file, call.name)
        if met is not None:
            thing = self.things[met]
            if call.size is not None:
                thing.now, thing.stable = resized(thing.now, call.size), resized(thing.stable, call.size)
                thing.attr = with_size(later(thing.attr), call.size)
            self.show(met, reply.found_attr)
            return
        kind = {CREATE: FILE, MKDIR: DIRECTORY, SYMLINK: SYMLINK_KIND}.get(call.procedure, call.count)
        handle = reply.found or self.start.stand_in(kind)
        data = bytes(call.size or 0) if kind == FILE else call.data
        attr = reply.found_attr or made_attr(kind, 1 + len(self.things))
        self.things[handle] = Thing(with_size(attr, len(data)) if kind == FILE else attr, data, data)
        self.name(call.file, call.name, handle)

    def name(self, dir, name, handle):
        key = (dir, name)
        self.turns[key] = self.turns.get(key, 0) + 1
        self.things[dir].names[name] = (handle, self.cookie(dir, name))

    def unname(self, dir, name):
        key = (dir, name)
        self.turns[key] = self.turns.get(key, 0) + 1
        entry = self.things[dir].names.pop(name, None)
        return entry[0] if entry else None

    def rename(self, call):
        handle, target = self.object_of(call.file, call.name), self.object_of(call.to, call.to_name)
        if handle == target:
            return
        self.unname(call.file, call.name)
        if target is not None:
            del self.things[call.to].names[call.to_name]
            self.lose(target)
        self.name(call.to, call.to_name, handle)

    def lose(self, handle):
        """A name of the object was taken away."""
        thing = self.things.get(handle)
        if thing is not None:
            thing.gone = not any(
                entry[0] == handle for other in self.things.values() for name, entry in other.names.items() if name not in (b'.', b'..'))


def resized(data, size):
    return data[:size] + bytes(max(0, size - len(data)))


def put_at(offset, data, old):
    if not data:
        return old
    front = resized(old, offset) if len(old) < offset else old[:offset]
    return front + data + old[offset + len(data):]


def words(*numbers):
    return b''.join(number.to_bytes(4, 'big') for number in numbers)


def opaque(data):
    return words(len(data)) + data + bytes(-len(data) % 4)


# ---- from the capture to the trace

def story(capture, ports):
    """The events in order, with the calls and replies that records spell. Each connection has xids of its own."""
    calls, xids, used = {}, {}, set()
    for event in events(capture, ports):
        if event[0] == 'dialed':
            yield event
            continue
        kind, stream, record = event
        key = (stream, record[:4])
        if kind == 'sent':
            if key not in xids:
                xid = int.from_bytes(record[:4], 'big')
                while xid in used:
                    xid = (xid + 1) % (1 << 32)
                used.add(xid)
                xids[key] = words(xid)
            record = xids[key] + record[4:]
            call = read_call(record)
            if call is None:
                print(f'left out: a call of another program, {record[:24].hex()}', file=sys.stderr)
                continue
            calls[key] = call
            yield 'sent', record
        elif key in calls:
            record = xids[key] + record[4:]
            yield 'delivered', record, calls[key], read_reply(record, calls[key])


def main():
    if len(sys.argv) < 3:
        sys.exit(__doc__)
    told = list(story(sys.argv[1], {int(port) for port in sys.argv[2:]}))
    start = Start()
    for event in told:
        if event[0] == 'delivered' and event[3] is not None:
            start.take(event[2], event[3])
    server = Server(start, sys.stdout)
    answered = set()
    for event in told:
        if event[0] == 'delivered':
            call, reply = event[2], event[3]
            if reply is not None and call.xid not in answered:
                answered.add(call.xid)
                server.serve(call, reply)
            server.line('delivered', event[1])
        else:
            server.line(event[0], event[1])


main()
