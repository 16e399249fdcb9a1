"""The file of bin/recovery, through a mount or by messages of 9P."""
import os, subprocess, time
from fuse_parts.rows import Wrong
from fuse_parts.volume import Volume
from interop_parts.ninep_client import Client, number

PIECE = 1 << 20
ASKED = 65536 - 1024  # bytes that a message of 9P moves
SPARES = ("--spares", "4095")
TOLD = 0.3  # seconds after which a program has told of its drivers


class Mounted:
    """The file through a mount, past the page cache: each read takes what the program answers."""

    def __init__(self, trial, size):
        self.volume, self.words = Volume(trial, "volume", size), trial.words
        self.file = self.volume.folder / "file"

    def begin(self, *words):
        self.volume.mount(*SPARES, *self.words, *words)

    def make(self, bytes_):
        self.file.write_bytes(bytes_)

    def read(self, into):
        with open(self.file, "rb", buffering=0) as file:
            os.posix_fadvise(file.fileno(), 0, 0, os.POSIX_FADV_DONTNEED)
            begin, at, room = time.monotonic(), 0, memoryview(into)
            while at < len(into) and (count := file.readinto(room[at:at + PIECE])):
                at += count
        return time.monotonic() - begin

    def write(self, bytes_):
        begin, room = time.monotonic(), memoryview(bytes_)
        with open(self.file, "r+b", buffering=0) as file:
            for at in range(0, len(bytes_), PIECE):
                file.write(room[at:at + PIECE])
            os.fsync(file.fileno())
        return time.monotonic() - begin

    def process(self):
        return self.volume.process()

    def deaths(self):
        """How many drivers took the place of another one."""
        time.sleep(TOLD)
        return self.volume.deaths()[0]

    def end(self):
        """Unmounts it, and mfsck looks at it."""
        self.volume.umount()
        given_up = self.volume.deaths()[1]
        self.volume.log.unlink(missing_ok=True)
        if given_up:
            raise Wrong("the device was given up")

    def let_go(self):
        self.volume.__exit__()


class Asked:
    """The file by messages of 9P, each asked for once the one before is answered."""

    def __init__(self, trial, size):
        self.trial, self.volume = trial, Volume(trial, "volume", size)
        self.client, self.said = None, self.volume.home / "said"

    def begin(self, *words):
        image = self.volume.image
        self.client = Client(None)
        line = [self.trial.program, image, "--out", image, *SPARES, *self.trial.words, *words]
        with open(self.said, "wb") as said:
            self.client.process = subprocess.Popen(line, stdin=subprocess.PIPE, stdout=subprocess.PIPE, stderr=said)
        self.client.begin()

    def make(self, bytes_):
        self.client.make("file", bytes_)

    def opened(self):
        self.client.walk("file")
        self.client.ask(12, number(1, 4), number(2, 4))

    def read(self, into):
        self.opened()
        begin = time.monotonic()
        for at in range(0, len(into), ASKED):
            answer = self.client.ask(116, number(1, 4), number(at, 8), number(min(ASKED, len(into) - at), 4))
            into[at:at + len(answer) - 4] = answer[4:]
        took = time.monotonic() - begin
        self.client.let_go()
        return took

    def write(self, bytes_):
        self.opened()
        begin = time.monotonic()
        self.client.put(0, bytes_)
        self.client.ask(50, number(1, 4), number(0, 4))
        took = time.monotonic() - begin
        self.client.let_go()
        return took

    def process(self):
        return self.volume.process()

    def lines(self):
        """What the program said."""
        return self.said.read_text("utf-8", "replace").splitlines() if self.said.exists() else []

    def deaths(self):
        time.sleep(TOLD)
        return sum(it.startswith("started ") for it in self.lines())

    def end(self):
        self.client.process.stdin.close()
        if status := self.client.process.wait():
            raise Wrong(f"mfs9p ended with status {status}: {[it for it in self.lines() if not it.startswith('started ')]}")
        self.volume.check()

    def let_go(self):
        if self.client and self.client.process.poll() is None:
            self.client.kill()


WAYS = {"fuse": (Mounted, "mfsfuse"), "9p": (Asked, "mfs9p")}
