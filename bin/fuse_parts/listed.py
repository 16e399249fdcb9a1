"""READDIRPLUS, as it is: each entry that is told is looked up once, and no other is; long listings on a mount, beside the host's."""
import os, pathlib, struct, subprocess
from .files import file_row, forget
from .hostile import HEAD, INIT
from .rows import Wrong, ran, row, same
from .volume import Volume

LOOKUP, FORGET, GETATTR, MKNOD, INIT_, OPENDIR, READDIR, READDIRPLUS = 1, 2, 3, 8, 26, 27, 28, 44
OFFERED = 0x6000  # READDIRPLUS, and READDIR beside it
FOUND = 128  # bytes of what a name leads to
STALE = -116
FILES = 1000


class Talk:
    """The program, asked by messages of our own."""

    def __init__(self, trial, image):
        words = [trial.program, image, "--out", image]
        self.process = subprocess.Popen(words, stdin=subprocess.PIPE, stdout=subprocess.PIPE, stderr=subprocess.PIPE)
        self.count = 0
        error, settled = self.ask(INIT_, 1, INIT[:12] + struct.pack("<I", OFFERED))
        same("INIT", error, 0)
        same("what INIT takes of READDIRPLUS", struct.unpack_from("<4I", settled)[3] & OFFERED, OFFERED)

    def send(self, kind, node, body=b""):
        self.count += 1
        self.process.stdin.write(HEAD.pack(40 + len(body), kind, self.count, node, 0, 0, 0, 0) + body)
        self.process.stdin.flush()

    def ask(self, kind, node, body=b""):
        """The error of an answer, and what it tells."""
        self.send(kind, node, body)
        head = self.process.stdout.read(16)
        if len(head) < 16:
            raise Wrong(f"no answer to a message of type {kind}")
        size, error, number = struct.unpack("<IiQ", head)
        same("the number of an answer", number, self.count)
        return error, self.process.stdout.read(size - 16)

    def done(self, kind, node, body=b""):
        error, told = self.ask(kind, node, body)
        same(f"the error of a message of type {kind}", error, 0)
        return told

    def error_of(self, node):
        return self.ask(GETATTR, node, bytes(16))[0]

    def end(self):
        self.process.stdin.close()
        self.process.stdout.read()
        if self.process.wait(60) != 0:
            raise Wrong(f"status {self.process.returncode}: {self.process.stderr.read()[:300]}")

    def __enter__(self):
        return self

    def __exit__(self, *_):
        self.process.kill()
        self.process.wait()


def entries_of(told, found):
    """Each entry of an answer: its node, the inode of that, its own inode, the next offset, its type, and its name."""
    at = 0
    while at < len(told):
        node, inode = (struct.unpack_from("<Q", told, at + place)[0] if found else 0 for place in (0, 40))
        own, offset, size, kind = struct.unpack_from("<QQII", told, at + found)
        yield node, inode, own, offset, kind, told[at + found + 24:at + found + 24 + size]
        at += found + (24 + size + 7) // 8 * 8
    same("the end of the last entry", at, len(told))


def listing(talk, handle, kind, count, found):
    """All entries, asked for so many bytes at a time."""
    offset = 0
    while told := talk.done(kind, 1, struct.pack("<QQIIQII", handle, offset, count, 0, 0, 0, 0)):
        if len(told) > count:
            raise Wrong(f"{len(told)} bytes, where {count} were asked for")
        for it in entries_of(told, found):
            yield it
            offset = it[3]


def names_and_numbers(talk, count):
    """How often each node was told, in a listing whose messages ask for so many bytes."""
    handle = struct.unpack_from("<Q", talk.done(OPENDIR, 1, bytes(8)))[0]
    plain = [it[2:4] + it[5:] for it in listing(talk, handle, READDIR, count, 0)]
    told = list(listing(talk, handle, READDIRPLUS, count, FOUND))
    same(f"what READDIRPLUS and READDIR tell in {count} bytes", [it[2:4] + it[5:] for it in told] == plain, True)
    same("the nodes of the directory itself and the one above", [it[0] for it in told[:2]], [0, 0])
    same("the types", {it[4] for it in told[2:]}, {8})
    same("the inodes", [it[1] for it in told[2:]], [it[2] for it in told[2:]])
    same("the names", [it[5] for it in told[2:]], [f"f{at:04}".encode() for at in range(FILES)])
    return [it[0] for it in told[2:]]


@row("ends", "listed")
def listed(trial):
    """What is told is what is counted: a node goes with as many FORGETs as it was told, and no earlier."""
    with Volume(trial, "listed", {"blocks": 4096, "inodes": 2048, "block_size": 1024}) as volume:
        with Talk(trial, volume.image) as talk:
            for at in range(FILES):
                told = talk.done(MKNOD, 1, struct.pack("<IIII", 0o100644, 0, 0, 0) + f"f{at:04}\0".encode())
                talk.send(FORGET, struct.unpack_from("<Q", told)[0], struct.pack("<Q", 1))
            rounds = [names_and_numbers(talk, count) for count in (168, 1000, 4096, 65536)]
            same("a node has one number", all(it == rounds[0] for it in rounds), True)
            for node in rounds[0]:
                talk.send(FORGET, node, struct.pack("<Q", len(rounds) - 1))
            same("nodes that were told once more", {talk.error_of(node) for node in rounds[0]}, {0})
            for node in rounds[0]:
                talk.send(FORGET, node, struct.pack("<Q", 1))
            last = max(rounds[0])
            same("nodes that are forgotten", {talk.error_of(node) for node in range(2, last + 10)}, {STALE})
            same("the root", talk.error_of(1), 0)
            talk.end()
        volume.check()
    return f"{FILES} files"


def filled(folder):
    """Some 300 files, with folders, links and another name for one."""
    for at in range(10):
        (folder / f"d{at}").mkdir()
        for name in range(30):
            path = folder / f"d{at}" / f"name-{name * 7919 % 1000:03}"
            path.write_bytes(bytes(at * 100 + name))
            path.chmod(0o400 + name)
            os.utime(path, (1_000_000_000, 1_000_000_000 + at * 100_000 + name))
        os.symlink(f"name-{at}", folder / f"d{at}" / "link")
        os.link(folder / f"d{at}" / "name-000", folder / f"d{at}" / "other")


def long_listings(folder):
    """What `ls -lR` and `find -ls` say, but for inodes and blocks, the size, links and time of what isn't a file, and whose a link is."""
    told = lambda it, name: it if it[0][0] == "-" else [it[0], *(it[2:4] if it[0][0] == "d" else ()), *it[name:]]
    lines = [line.split() for line in ran("ls", "-lR", "--time-style=+%s", cwd=folder).splitlines() if not line.startswith("total ")]
    found = [line.split()[2:] for line in ran("find", ".", "-ls", cwd=folder).splitlines()]
    return [told(it, 6) if len(it) > 1 else it for it in lines], sorted(told(it, 8) for it in found)


@file_row("listed-long")
def listed_long(at, trial):
    """`ls -lR` and `find -ls` say the same of 300 files as of those in a folder of the host, also once the kernel has forgotten them."""
    host = pathlib.Path(trial.folder) / "listed-long"
    host.mkdir()
    filled(at)
    filled(host)
    for forgets in False, True:
        if forgets:
            forget()
        ours, theirs = long_listings(at), long_listings(host)
        for what, one, two in zip(("ls -lR", "find -ls"), ours, theirs):
            differs = next((pair for pair in zip(one, two) if pair[0] != pair[1]), None)
            same(what, differs, None)
            same(f"the lines of {what}", len(one), len(two))
