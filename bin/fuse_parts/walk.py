"""Drawn calls on a mounted volume beside a folder of the host, in which each has to come to the same.

usage: python3 -m fuse_parts.walk MOUNTED HOST CALLS SEED

A directory that was removed while it was open answers ESTALE to what is asked by its descriptor (docs/MOUNT.md)."""
import errno, mmap, os, pathlib, random, stat, sys

from .files import forget
from .volume import differ, tree_of

NAMES = ["a", "b", "c", "d", "e", "f", "n" * 60, "with a space"]
LARGEST = 120_000
FILES = 16  # open at a time


class Differ(Exception):
    """The two came to different things."""


def outcome(function, *given):
    """What a call returns, or by which error it is refused."""
    try:
        return function(*given)
    except OSError as error:
        return errno.errorcode[error.errno]


def told(it):
    """What of a stat has to be the same."""
    kind = stat.S_IFMT(it.st_mode)
    is_folder = kind == stat.S_IFDIR
    return oct(it.st_mode), it.st_uid, it.st_gid, None if is_folder else it.st_nlink, None if is_folder else it.st_size


class Open:
    """A file that is open in both."""

    def __init__(self, files, writes):
        self.files, self.writes = files, writes


class Walk:
    def __init__(self, roots, seed):
        self.roots, self.draw = roots, random.Random(seed)
        self.open, self.known, self.notes = [], [], []
        self.bytes = bytes(self.draw.randrange(256) for _ in range(8192)) * 20

    # ---- what is drawn

    def path(self):
        """A path that is there, more often than one that may not be."""
        if self.known and self.draw.random() < 0.65:
            return self.draw.choice(self.known)
        return self.place()

    def place(self):
        """A name in a folder that is there, or somewhere else."""
        above = self.draw.choice(["", *self.known])
        return os.path.join(above, self.draw.choice(NAMES)) if above.count("/") < 4 else self.draw.choice(NAMES)

    def range(self):
        return self.draw.randrange(LARGEST), self.draw.choice([1, 100, 4096, self.draw.randrange(1, 70_000)])

    def data(self, size):
        at = self.draw.randrange(8192)
        return self.bytes[at:at + size]

    def look(self):
        """Notes which paths are there."""
        host = self.roots[1]
        self.known = sorted(os.path.relpath(os.path.join(at, it), host) for at, folders, files in os.walk(host) for it in folders + files)

    # ---- a call in both

    def both(self, name, function, *paths, more=()):
        """Does a call in both roots, on these paths of each."""
        results = [outcome(function, *(os.path.join(root, it) for it in paths), *more) for root in self.roots]
        return self.compare((name, *paths, *more), *results)

    def compare(self, what, one, two):
        what = tuple(it if not isinstance(it, bytes) else f"{len(it)} bytes" for it in what)
        self.notes.append((what, short(one)))
        if one != two:
            raise Differ(f"{what}: {short(one)} on the volume, {short(two)} on the host")
        return one

    def by_file(self, name, function, *more):
        """The same by a descriptor."""
        if not self.open:
            return None
        it = self.draw.choice(self.open)
        one = outcome(function, it.files[0], *more)
        host = os.fstat(it.files[1])
        if one == "ESTALE" and stat.S_ISDIR(host.st_mode) and host.st_nlink == 0:
            return None  # a directory that was removed while it was open
        return self.compare((name, *more), one, outcome(function, it.files[1], *more))

    # ---- the calls

    def open_file(self):
        if len(self.open) >= FILES:
            return self.close()
        draw = self.draw
        writes = draw.random() < 0.8
        flags = os.O_RDWR if writes else os.O_RDONLY
        for flag, chance in ((os.O_CREAT, 0.7), (os.O_EXCL, 0.1), (os.O_TRUNC, 0.1), (os.O_APPEND, 0.1), (os.O_NOFOLLOW, 0.1)):
            flags |= flag if draw.random() < chance else 0
        path, mode = self.path(), draw.choice([0o644, 0o600, 0o666, 0o755])
        files = [outcome(os.open, os.path.join(root, path), flags, mode) for root in self.roots]
        self.compare(("open", path, oct(flags)), *(it if isinstance(it, str) else "open" for it in files))
        if not isinstance(files[0], str):
            self.open.append(Open(files, writes))

    def close(self):
        if self.open:
            it = self.open.pop(self.draw.randrange(len(self.open)))
            self.compare(("close",), *(outcome(os.close, file) for file in it.files))

    def write(self):
        at, size = self.range()
        data = self.data(size)
        self.by_file(f"write {len(data)} at {at}", lambda file: os.pwrite(file, data, at))

    def read(self):
        at, size = self.range()
        self.by_file(f"read {size} at {at}", lambda file: os.pread(file, size, at))

    def resize(self):
        self.by_file("ftruncate", os.ftruncate, self.draw.randrange(LARGEST))

    def stat_file(self):
        self.by_file("fstat", lambda file: told(os.fstat(file)))

    def chmod_file(self):
        self.by_file("fchmod", os.fchmod, self.draw.choice([0o600, 0o640, 0o755]))

    def sync(self):
        self.by_file("fsync", os.fsync)

    def map(self):
        """Writes by a shared mapping."""
        writable = [it for it in self.open if it.writes and os.fstat(it.files[1]).st_size > 1]
        if not writable:
            return
        it = self.draw.choice(writable)
        size = os.fstat(it.files[1]).st_size
        at = self.draw.randrange(size)
        data = self.data(min(size - at, self.draw.randrange(1, 20_000)))
        self.compare(("map", size, at, data), *(outcome(mapped, file, size, at, data) for file in it.files))

    def copy(self):
        """Copies a range of one file to another, or fails as the host does."""
        if len(self.open) < 2:
            return
        one, two = self.draw.sample(self.open, 2)
        size, from_, to = self.draw.randrange(1, 30_000), self.draw.randrange(50_000), self.draw.randrange(50_000)
        self.compare(("copy", size, from_, to),
                     *(outcome(os.copy_file_range, a, b, size, from_, to) for a, b in zip(one.files, two.files)))

    def unlink(self):
        path = self.path()
        self.both("unlink", os.unlink, path)

    def rename(self):
        old, new = self.path(), self.path() if self.draw.random() < 0.4 else self.place()
        self.both("rename", os.rename, old, new)

    def others(self):
        """The calls by paths that need nothing of their own."""
        draw = self.draw
        path, number = self.path(), draw.randrange(10 ** 9)
        calls = {
            "mkdir": (os.mkdir, (self.place(),), (draw.choice([0o755, 0o700]),)),
            "rmdir": (os.rmdir, (path,), ()),
            "link": (linked, (self.path(), self.place()), ()),
            "truncate": (os.truncate, (path,), (draw.randrange(LARGEST),)),
            "stat": (lambda it: told(os.stat(it)), (path,), ()),
            "lstat": (lambda it: told(os.lstat(it)), (path,), ()),
            "readlink": (os.readlink, (path,), ()),
            "chmod": (os.chmod, (path,), (draw.choice([0o644, 0o600, 0o755]),)),
            "list": (lambda it: sorted(os.listdir(it)), (path,), ()),
            "times": (times, (path,), (number,)),
            "read": (whole, (path,), ()),
        }
        if os.getuid() == 0:
            calls["chown"] = (os.chown, (path,), (draw.randrange(5), draw.randrange(5)))
        name = draw.choice([*calls])
        function, paths, more = calls[name]
        self.both(name, function, *paths, more=more)

    def symlink(self):
        target = "/".join(self.draw.choice(NAMES) for _ in range(self.draw.randrange(1, 3)))
        self.both("symlink", lambda path: os.symlink(target, path), self.place())

    def drop(self):
        forget(*(it.files[0] for it in self.open))

    def step(self):
        weights = {self.open_file: 14, self.close: 6, self.write: 12, self.read: 10, self.resize: 4, self.stat_file: 4, self.chmod_file: 1,
                   self.sync: 1, self.map: 5, self.copy: 3, self.unlink: 5, self.rename: 8, self.others: 30, self.symlink: 3, self.drop: 1}
        self.draw.choices([*weights], [*weights.values()])[0]()

    def trees(self):
        one, two = (tree_of(it, False) for it in self.roots)
        differs = differ(one, two, ("on the volume", "on the host"))
        same_files = [sorted(groups(it)) for it in self.roots]
        if differs or same_files[0] != same_files[1]:
            raise Differ(differs or "names of one file are of two")


def short(it):
    return f"{len(it)} bytes, hash {hash(it) & 0xffff:04x}" if isinstance(it, bytes) and len(it) > 40 else it


def mapped(file, size, at, data):
    with mmap.mmap(file, size) as it:
        before = it[:]
        it[at:at + len(data)] = data
    return before


def linked(old, new):
    """A further name, without following a link."""
    os.link(old, new, follow_symlinks=False)


def times(path, seconds):
    os.utime(path, (seconds, seconds + 1))
    return int(os.stat(path).st_mtime)


def whole(path):
    with open(path, "rb") as file:
        return file.read()


def groups(root):
    """The names of each file that has more than one."""
    found = {}
    for at, _, files in os.walk(root):
        for it in files:
            path = os.path.join(at, it)
            found.setdefault(os.lstat(path).st_ino, []).append(os.path.relpath(path, root))
    return [sorted(it) for it in found.values() if len(it) > 1]


def main():
    mounted, host, calls, seed = sys.argv[1:]
    os.umask(0o022)
    pathlib.Path(host).mkdir()
    walk = Walk((mounted, host), seed)
    try:
        for at in range(int(calls)):
            if at % 10 == 0:
                walk.look()
            walk.step()
            if at % 1000 == 999:
                walk.trees()
    except Differ as differs:
        before = "; ".join(map(str, walk.notes[-6:-1]))
        print(f"call {at}: {differs}; before it: {before}")
        return 1
    while walk.open:
        walk.close()
    walk.trees()
    refused = sum(isinstance(it, str) and it.isupper() and it.startswith("E") for _, it in walk.notes)
    print(f"{calls} calls, {refused} of them refused; {len(walk.known)} paths in the end")
    return 0


if __name__ == "__main__":
    sys.exit(main())
