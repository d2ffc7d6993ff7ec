#!/usr/bin/python3
"""Makes records of NFS version 3, MOUNT version 3 and ONC RPC by scapy, an implementation that isn't ours.

  make.py           prints the records, one a line: its name, and its bytes in hex
  make.py --write   writes them to records.txt
  make.py --check   says whether the rows of crates/wire_rows hold them too, and ends with status 1 where they or that
                    file don't

It needs scapy with its layers for NFS (Debian's python3-scapy 2.5.0 is what the records were made with). The rows
need only the bytes. What scapy doesn't make, or makes otherwise than RFC 1813 says, is left out: see README.md.
"""
import pathlib
import sys

from scapy.contrib import mount, nfs, oncrpc

HERE = pathlib.Path(__file__).resolve().parent
TEXT = HERE / "records.txt"
ROWS = HERE.parent.parent / "crates" / "wire_rows" / "stdin"


def handle(digits):
    """A file handle of the bytes that these hex digits name."""
    made = nfs.File_Object()
    made.set(digits)
    return made


def name(text):
    """A name or a text, with its length and padding."""
    made = oncrpc.Object_Name()
    made.set(text)
    return made


def path(text):
    """The path of an export."""
    made = mount.Path()
    made.set(text)
    return made


FILE = handle("0a0b0c0d0e0f10111213")
DIR = handle("2021222324252627")
MADE = handle("30313233")
NAME = name(b"notes.txt")

FILE_ATTR = dict(
    type=1, mode=0o640, nlink=2, uid=1000, gid=100, size=0x100000005, used=0x2000, rdev=[8, 17],
    fsid=0x1122334455667788, fileid=0x99AABBCC, atime_s=1700000001, atime_ns=101, mtime_s=1700000002, mtime_ns=102,
    ctime_s=1700000003, ctime_ns=103,
)
DIR_ATTR = dict(
    type=2, mode=0o755, nlink=3, uid=0, gid=7, size=4096, used=512, rdev=[0, 0], fsid=0x1122334455667788, fileid=2,
    atime_s=1600000001, atime_ns=201, mtime_s=1600000002, mtime_ns=202, ctime_s=1600000003, ctime_ns=203,
)
BEFORE = dict(size=4095, mtime_s=1500000002, mtime_ns=302, ctime_s=1500000003, ctime_ns=303)


def file_attr():
    return nfs.Fattr3(**FILE_ATTR)


def dir_attr():
    return nfs.Fattr3(**DIR_ATTR)


def before():
    return nfs.WCC_Attr(**BEFORE)


def all_set():
    """Attributes to set: each of them, and the client's times."""
    return nfs.Sattr3(
        set_mode=1, mode=0o600, set_uid=1, uid=501, set_gid=1, gid=502, set_size=1, size=0x200000003,
        set_atime=2, atime_s=41, atime_ns=42, set_mtime=2, mtime_s=43, mtime_ns=44,
    )


def some_set():
    """Attributes to set: the group, and the server's time of change."""
    return nfs.Sattr3(set_gid=1, gid=503, set_mtime=1)


def wcc(ending=""):
    """The directory or file before and after."""
    return {
        "af_before" + ending: 1, "attributes_before" + ending: before(),
        "af_after" + ending: 1, "attributes_after" + ending: dir_attr(),
    }


def made_in():
    """The directory before and after, by the names that the replies of CREATE and its like have for it."""
    return dict(af_before=1, dir_attributes_before=before(), af_after=1, dir_attributes_after=dir_attr())


def listed():
    """Three entries of READDIR, each with the word that says whether one more follows."""
    return [
        nfs.File_From_Dir(fileid=2, filename=name(b"."), cookie=1, value_follows=1),
        nfs.File_From_Dir(fileid=0x99AABBCC, filename=NAME, cookie=0x100000002, value_follows=1),
        nfs.File_From_Dir(fileid=5, filename=name(b"\xc3\xa9"), cookie=0xFFFFFFFFFFFFFFFF, value_follows=0),
    ]


def listed_plus():
    """Three entries of READDIRPLUS: with attributes and a file handle, with neither, with a file handle alone."""
    return [
        nfs.File_From_Dir_Plus(
            fileid=0x99AABBCC, filename=NAME, cookie=11, attributes_follow=1, attributes=file_attr(),
            handle_follows=1, filehandle=FILE, value_follows=1,
        ),
        nfs.File_From_Dir_Plus(fileid=6, filename=name(b"ab"), cookie=12, value_follows=1),
        nfs.File_From_Dir_Plus(
            fileid=7, filename=name(b"abcd"), cookie=13, handle_follows=1, filehandle=MADE, value_follows=0,
        ),
    ]


def file_calls():
    yield "null-call", nfs.NULL_Call()
    yield "getattr-call", nfs.GETATTR_Call(filehandle=FILE)
    yield "setattr-call", nfs.SETATTR_Call(filehandle=FILE, attributes=all_set(), check=0)
    yield "setattr-some-call", nfs.SETATTR_Call(filehandle=FILE, attributes=some_set(), check=0)
    yield "access-call", nfs.ACCESS_Call(filehandle=FILE, check_access=0x2D)
    yield "read-call", nfs.READ_Call(filehandle=FILE, offset=0x300000004, count=65536)
    yield "write-call", nfs.WRITE_Call(
        filehandle=FILE, offset=0x400000005, count=5, stable=2, length=5, contents=b"hello", fill=b"\0\0\0",
    )
    yield "fsstat-call", nfs.FSSTAT_Call(filehandle=DIR)
    yield "fsinfo-call", nfs.FSINFO_Call(filehandle=DIR)
    yield "pathconf-call", nfs.PATHCONF_Call(filehandle=DIR)
    yield "commit-call", nfs.COMMIT_Call(filehandle=FILE, offset=0x500000006, count=7)


def file_replies():
    follows = dict(attributes_follow=1, attributes=file_attr())
    yield "null-reply", nfs.NULL_Reply()
    yield "getattr-reply", nfs.GETATTR_Reply(attributes=file_attr())
    yield "getattr-refusal", nfs.GETATTR_Reply(status=70)
    yield "setattr-reply", nfs.SETATTR_Reply(**wcc())
    yield "setattr-refusal", nfs.SETATTR_Reply(status=10002, af_after=1, attributes_after=dir_attr())
    yield "access-reply", nfs.ACCESS_Reply(access_rights=0x1F, **follows)
    yield "access-refusal", nfs.ACCESS_Reply(status=13, **follows)
    yield "read-reply", nfs.READ_Reply(count=6, eof=1, data_length=6, data=b"\0hello", fill=b"\0\0", **follows)
    yield "read-refusal", nfs.READ_Reply(status=21)
    yield "write-reply", nfs.WRITE_Reply(count=5, committed=2, verifier=0xA1A2A3A4A5A6A7A8, **wcc())
    yield "write-refusal", nfs.WRITE_Reply(status=28, **wcc())
    yield "fsstat-reply", nfs.FSSTAT_Reply(
        tbytes=0x600000001, fbytes=0x600000002, abytes=0x600000003, tfiles=0x600000004, ffiles=0x600000005,
        afiles=0x600000006, invarsec=77, **follows,
    )
    yield "fsstat-refusal", nfs.FSSTAT_Reply(status=5, **follows)
    yield "fsinfo-reply", nfs.FSINFO_Reply(
        rtmax=1048576, rtpref=65536, rtmult=4096, wtmax=524288, wtpref=32768, wtmult=512, dtpref=8192,
        maxfilesize=0x7FFFFFFFFFFFFFFF, timedelta_s=1, timedelta_ns=1000000, properties=0x1B, **follows,
    )
    yield "fsinfo-refusal", nfs.FSINFO_Reply(status=10001)
    yield "pathconf-reply", nfs.PATHCONF_Reply(
        linkmax=32000, name_max=255, no_trunc=1, chown_restricted=0, case_insensitive=1, case_preserving=0, **follows,
    )
    yield "pathconf-refusal", nfs.PATHCONF_Reply(status=10006, **follows)
    yield "commit-reply", nfs.COMMIT_Reply(verifier=0xB1B2B3B4B5B6B7B8, **wcc())
    yield "commit-refusal", nfs.COMMIT_Reply(status=5, af_before=1, attributes_before=before())


def dir_calls():
    yield "lookup-call", nfs.LOOKUP_Call(dir=DIR, filename=NAME)
    yield "readlink-call", nfs.READLINK_Call(filehandle=FILE)
    yield "create-call", nfs.CREATE_Call(dir=DIR, filename=NAME, create_mode=0, attributes=all_set())
    yield "create-guarded-call", nfs.CREATE_Call(dir=DIR, filename=NAME, create_mode=1, attributes=some_set())
    yield "create-exclusive-call", nfs.CREATE_Call(
        dir=DIR, filename=NAME, create_mode=2, verifier=0xC1C2C3C4C5C6C7C8,
    )
    yield "mkdir-call", nfs.MKDIR_Call(dir=DIR, dir_name=NAME, attributes=all_set())
    yield "symlink-call", nfs.SYMLINK_Call(
        dir=DIR, dir_name=NAME, attributes=some_set(), link_name=name(b"../over/there"),
    )
    yield "remove-call", nfs.REMOVE_Call(dir=DIR, filename=NAME)
    yield "rmdir-call", nfs.RMDIR_Call(dir=DIR, filename=NAME)
    yield "rename-call", nfs.RENAME_Call(dir_from=DIR, name_from=NAME, dir_to=MADE, name_to=name(b"b"))
    yield "link-call", nfs.LINK_Call(filehandle=FILE, link_dir=DIR, link_name=NAME)
    yield "readdir-call", nfs.READDIR_Call(filehandle=DIR, cookie=0x700000008, verifier=0xD1D2D3D4D5D6D7D8, count=4096)
    yield "readdirplus-call", nfs.READDIRPLUS_Call(
        filehandle=DIR, cookie=0x800000009, verifier=0x6162636465666768, dircount=1024, maxcount=32768,
    )


def dir_replies():
    follows = dict(attributes_follow=1, attributes=file_attr())
    made = dict(handle_follows=1, filehandle=MADE, **follows, **made_in())
    link_wcc = dict(
        af_link_before=1, link_attributes_before=before(), af_link_after=1, link_attributes_after=dir_attr(),
    )
    yield "lookup-reply", nfs.LOOKUP_Reply(
        filehandle=FILE, af_file=1, file_attributes=file_attr(), af_dir=1, dir_attributes=dir_attr(),
    )
    yield "lookup-refusal", nfs.LOOKUP_Reply(status=2, af_dir=1, dir_attributes=dir_attr())
    yield "readlink-reply", nfs.READLINK_Reply(filename=name(b"../over/there"), **follows)
    yield "readlink-refusal", nfs.READLINK_Reply(status=22, **follows)
    yield "create-reply", nfs.CREATE_Reply(**made)
    yield "create-refusal", nfs.CREATE_Reply(status=17, **made_in())
    yield "mkdir-reply", nfs.MKDIR_Reply(**made)
    yield "mkdir-refusal", nfs.MKDIR_Reply(status=69, **made_in())
    yield "symlink-reply", nfs.SYMLINK_Reply(**made)
    yield "symlink-refusal", nfs.SYMLINK_Reply(status=30, **made_in())
    yield "remove-reply", nfs.REMOVE_Reply(**wcc())
    yield "remove-refusal", nfs.REMOVE_Reply(status=20, **wcc())
    yield "rmdir-reply", nfs.RMDIR_Reply(**wcc())
    yield "rmdir-refusal", nfs.RMDIR_Reply(status=66, **wcc())
    yield "rename-reply", nfs.RENAME_Reply(**wcc("_f"), af_before_t=1, attributes_before_t=before())
    yield "rename-refusal", nfs.RENAME_Reply(status=18, af_before_f=1, attributes_before_f=before(), **wcc("_t"))
    yield "link-reply", nfs.LINK_Reply(af_file=1, file_attributes=file_attr(), **link_wcc)
    yield "link-refusal", nfs.LINK_Reply(status=31, af_file=1, file_attributes=file_attr(), **link_wcc)
    yield "readdir-reply", nfs.READDIR_Reply(
        attributes_follow=1, attributes=dir_attr(), verifier=0xD1D2D3D4D5D6D7D8, value_follows=1, files=listed(), eof=1,
    )
    yield "readdir-empty-reply", nfs.READDIR_Reply(verifier=0xD1D2D3D4D5D6D7D8, eof=1)
    yield "readdir-refusal", nfs.READDIR_Reply(status=10003, attributes_follow=1, attributes=dir_attr())
    yield "readdirplus-reply", nfs.READDIRPLUS_Reply(
        attributes_follow=1, attributes=dir_attr(), verifier=0x6162636465666768, value_follows=1, files=listed_plus(),
        eof=0,
    )
    yield "readdirplus-refusal", nfs.READDIRPLUS_Reply(status=10004)


def mount_records():
    yield "mnt-call", mount.MOUNT_Call(path=path(b"/export/home"))
    yield "mnt-reply", mount.MOUNT_Reply(filehandle=DIR, flavors=3, flavor=[0, 1, 390003])
    yield "mnt-refusal", mount.MOUNT_Reply(status=13)
    yield "umnt-call", mount.UNMOUNT_Call(path=path(b"/export/home"))
    yield "umnt-reply", mount.UNMOUNT_Reply()


def messages():
    """Whole messages. The layers name the program and the procedure themselves."""
    nobody = dict(aflavor=0)
    user = oncrpc.RPC_Call(aflavor=1)
    user.set_auth(mname=b"nfs3", uid=1000, gid=100)
    groups = oncrpc.RPC_Call(aflavor=1)
    groups.set_auth(stamp=0x5A5B5C5D, mname=b"client.example", uid=501, gid=502, num_auxgids=2, auxgids=[503, 504])
    yield "null-message", oncrpc.RPC(xid=1) / oncrpc.RPC_Call(**nobody) / nfs.NULL_Call()
    yield "lookup-message", oncrpc.RPC(xid=0xFEDCBA98) / user / nfs.LOOKUP_Call(dir=DIR, filename=NAME)
    yield "mnt-message", oncrpc.RPC(xid=3) / groups / mount.MOUNT_Call(path=path(b"/export/home"))
    yield "accepted-message", oncrpc.RPC(xid=0xFEDCBA98, mtype=1) / oncrpc.RPC_Reply() / nfs.LOOKUP_Reply(
        status=2, af_dir=1, dir_attributes=dir_attr(),
    )
    yield "prog-unavail-message", oncrpc.RPC(xid=4, mtype=1) / oncrpc.RPC_Reply(accept_stat=1)
    yield "proc-unavail-message", oncrpc.RPC(xid=5, mtype=1) / oncrpc.RPC_Reply(accept_stat=3)
    yield "garbage-args-message", oncrpc.RPC(xid=6, mtype=1) / oncrpc.RPC_Reply(accept_stat=4)
    yield "system-err-message", oncrpc.RPC(xid=7, mtype=1) / oncrpc.RPC_Reply(accept_stat=5)


def records():
    for made in (file_calls, file_replies, dir_calls, dir_replies, mount_records, messages):
        for key, packet in made():
            yield key, bytes(packet).hex()


def as_text():
    return "".join(f"{key} {digits}".rstrip() + "\n" for key, digits in records())


def missing():
    """The records that no row has."""
    rows = {line.split(" ")[2] for line in ROWS.read_text().splitlines() if not line.startswith("#")}
    return [key for key, digits in records() if (digits or "-") not in rows]


def main(words):
    if words == ["--write"]:
        TEXT.write_text(as_text())
    elif words == ["--check"]:
        if not TEXT.is_file() or TEXT.read_text() != as_text():
            sys.exit("make.py: records.txt isn't what scapy makes")
        if missing():
            sys.exit("make.py: no row has " + ", ".join(missing()))
    elif words:
        sys.exit(__doc__)
    else:
        print(as_text(), end="")


main(sys.argv[1:])
