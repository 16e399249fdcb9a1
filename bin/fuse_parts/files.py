"""Files as programs use them: mapped, open while they are removed or replaced, many at a time; beside a model or a folder of the host."""
import fcntl, mmap, os, pathlib, random, subprocess, sys
from .rows import Wrong, holds, row, same

file_row = lambda name: row("files", name)


class Modelled:
    """A file, and its bytes as they have to be."""

    LONGEST = 100_000

    def __init__(self, path, draw):
        self.path, self.draw, self.bytes = path, draw, bytearray()
        self.file = os.open(path, os.O_RDWR | os.O_CREAT | os.O_TRUNC)

    def place(self):
        return self.draw.randrange(self.LONGEST), self.draw.choice([1, 100, 4096, self.draw.randrange(1, 30_000)])

    def write(self):
        at, size = self.place()
        data = self.draw.randbytes(size)
        os.pwrite(self.file, data, at)
        self.bytes.extend(bytes(max(0, at - len(self.bytes))))
        self.bytes[at:at + size] = data

    def read(self):
        at, size = self.place()
        holds(f"{size} bytes at {at} are those written", os.pread(self.file, size, at) == self.bytes[at:at + size])

    def cut(self):
        size = self.draw.randrange(self.LONGEST)
        os.ftruncate(self.file, size)
        self.bytes[size:] = bytes(max(0, size - len(self.bytes)))

    def map(self):
        if len(self.bytes) < 2:
            return
        with mmap.mmap(self.file, len(self.bytes)) as map_:
            holds("the mapped bytes are those written", map_[:] == self.bytes)
            at = self.draw.randrange(len(self.bytes))
            data = self.draw.randbytes(min(self.draw.randrange(1, 20_000), len(self.bytes) - at))
            map_[at:at + len(data)] = self.bytes[at:at + len(data)] = data
            if self.draw.random() < 0.5:
                map_.flush()

    def again(self):
        os.close(self.file)
        self.file = os.open(self.path, os.O_RDWR)
        same("the size", os.fstat(self.file).st_size, len(self.bytes))

    def whole(self):
        holds("all bytes are those written", pathlib.Path(self.path).read_bytes() == self.bytes)

    def drop(self):
        forget(self.file)


def forget(*files):
    """Lets the kernel forget what it keeps of these open files, and of names, where this user may."""
    for it in files:
        os.fsync(it)
        os.posix_fadvise(it, 0, 0, os.POSIX_FADV_DONTNEED)
    if os.getuid() == 0:
        pathlib.Path("/proc/sys/vm/drop_caches").write_text("2")


@file_row("mapped")
def mapped(at, trial):
    """Drawn reads, writes, sizes and shared mappings of a file."""
    file = Modelled(at / "file", random.Random(f"{trial.seed} mapped"))
    steps = [file.write] * 6 + [file.read] * 6 + [file.cut] * 2 + [file.map] * 3 + [file.again, file.whole, file.drop]
    for _ in range(400):
        file.draw.choice(steps)()
    os.close(file.file)
    os.unlink(file.path)


@file_row("removed-open")
def removed_open(at, trial):
    """A removed file that is open is read and written on."""
    with open(at / "gone", "w+b") as file:
        file.write(b"x" * 10_000)
        file.flush()
        os.unlink(at / "gone")
        os.pwrite(file.fileno(), b"end", 200_000)
        forget(file.fileno())
        same("its size", os.fstat(file.fileno()).st_size, 200_003)
        same("its bytes", os.pread(file.fileno(), 200_100, 9_999), b"x" + bytes(190_000) + b"end")
        same("its names", os.fstat(file.fileno()).st_nlink, 0)
    same("what is left", os.listdir(at), [])


@file_row("replaced-open")
def replaced_open(at, trial):
    """A file that is open while another takes its name stays what it was; the name leads to the other."""
    for it in "one", "two":
        (at / it).write_text(it)
    with open(at / "two") as file:
        os.rename(at / "one", at / "two")
        forget(file.fileno())
        same("the open file", file.read(), "two")
        same("the name's file", (at / "two").read_text(), "one")
        same("the files", os.listdir(at), ["two"])


@file_row("open-200")
def open_200(at, trial):
    """More files than the server has descriptors."""
    files = [open(at / f"f{it}", "w+") for it in range(200)]
    for count, file in enumerate(files):
        file.write(f"{count}")
        file.flush()
    forget(*(it.fileno() for it in files))
    for count, file in enumerate(files):
        file.seek(0)
        same(f"file {count}", file.read(), f"{count}")
        file.close()


@file_row("listed-and-removed")
def listed_and_removed(at, trial):
    """Each of 600 names is told once while they are removed."""
    for it in range(600):
        (at / f"a-name-that-is-longer-{it:05}").touch()
    found = 0
    with os.scandir(at) as entries:
        for it in entries:
            os.unlink(it.path)
            found += 1
    same("the names told", found, 600)
    same("the names left", os.listdir(at), [])


@file_row("hard-links")
def hard_links(at, trial):
    (at / "one").write_text("1")
    os.link(at / "one", at / "two")
    with open(at / "two", "a") as file:
        file.write("2")
    same("by the other name", ((at / "one").read_text(), os.stat(at / "one").st_nlink), ("12", 2))
    same("inodes", os.stat(at / "one").st_ino, os.stat(at / "two").st_ino)
    os.rename(at / "one", at / "two")
    same("a rename to another name of the same file leaves both", sorted(os.listdir(at)), ["one", "two"])
    os.unlink(at / "one")
    forget()
    os.truncate(at / "two", 1)
    os.chmod(at / "two", 0o600)
    same("what is left", ((at / "two").read_text(), os.stat(at / "two").st_nlink), ("1", 1))


@file_row("locks")
def locks(at, trial):
    """Locks of the kernel's own exclude within this machine."""
    with open(at / "file", "w") as one, open(at / "file") as two:
        fcntl.flock(one, fcntl.LOCK_EX)
        try:
            fcntl.flock(two, fcntl.LOCK_EX | fcntl.LOCK_NB)
        except BlockingIOError:
            return
    raise Wrong("two have the lock")


@file_row("walk")
def walk(at, trial):
    """Drawn calls beside a folder of the host, in a process of their own."""
    words = [sys.executable, "-m", "fuse_parts.walk", str(at), str(trial.folder / "walk"), str(trial.calls), str(trial.seed)]
    done = subprocess.run(words, cwd=pathlib.Path(__file__).parent.parent, capture_output=True, text=True, timeout=1200)
    if done.returncode != 0:
        raise Wrong(f"{done.stdout[-600:]} {done.stderr[-600:]}".strip())
    return done.stdout.strip()
