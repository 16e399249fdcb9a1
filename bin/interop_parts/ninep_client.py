"""A client of 9P2000.L, message by message, in the root of a volume."""
import subprocess, tempfile, pathlib

ROOT_FID, FILE_FID = 0, 1
FSYNC = 50
MSIZE = 65536
ENOENT = 2


class Ended(Exception):
    """The program answers no more."""


class Refused(Exception):
    """A message was answered with an error."""

    def __init__(self, error):
        super().__init__(f"error {error}")
        self.error = error


def number(value, size):
    return value.to_bytes(size, "little")


def text(it):
    return number(len(it), 2) + it.encode()


class Client:
    """A client of the program that these words start; with None what it sends is kept alone, and taken for answered ok."""

    def __init__(self, words):
        self.sent, self.tag = b"", 0
        self.process = words and subprocess.Popen(words, stdin=subprocess.PIPE, stdout=subprocess.PIPE, stderr=subprocess.DEVNULL)

    def ask(self, kind, *fields):
        """Sends a message, and returns what its answer says."""
        self.tag = 0xffff if kind == 100 else (self.tag + 1) % 0xffff
        body = bytes([kind]) + number(self.tag, 2) + b"".join(fields)
        message = number(len(body) + 4, 4) + body
        if not self.process:
            self.sent += message
            return b""
        try:
            self.process.stdin.write(message)
            self.process.stdin.flush()
        except OSError:
            raise Ended from None
        answer = self.take(int.from_bytes(self.take(4), "little") - 4)
        if answer[0] == 7:
            raise Refused(int.from_bytes(answer[3:7], "little"))
        return answer[3:]

    def take(self, count):
        bytes_ = self.process.stdout.read(count)
        if len(bytes_) < count:
            raise Ended
        return bytes_

    def begin(self):
        self.ask(100, number(MSIZE, 4), text("9P2000.L"))
        self.ask(104, number(ROOT_FID, 4), b"\xff" * 4, text(""), text(""), b"\xff" * 4)

    def walk(self, *names):
        self.ask(110, number(ROOT_FID, 4), number(FILE_FID, 4), number(len(names), 2), *map(text, names))

    def let_go(self):
        self.ask(120, number(FILE_FID, 4))

    def put(self, at, bytes_):
        for place in range(0, len(bytes_), MSIZE - 1000):
            piece = bytes_[place:place + MSIZE - 1000]
            self.ask(118, number(FILE_FID, 4), number(at + place, 8), number(len(piece), 4), piece)

    def make(self, name, bytes_):
        self.walk()
        self.ask(14, number(FILE_FID, 4), text(name), number(0o102, 4), number(0o644, 4), number(0, 4))
        self.put(0, bytes_)
        self.let_go()

    def write(self, name, at, bytes_):
        self.walk(name)
        self.ask(12, number(FILE_FID, 4), number(2, 4))
        self.put(at, bytes_)
        self.let_go()

    def remove(self, name):
        self.ask(76, number(ROOT_FID, 4), text(name), number(0, 4))

    def sync(self):
        """An fsync of the root, which is one of the volume."""
        self.walk()
        self.ask(12, number(FILE_FID, 4), number(0, 4))
        self.ask(FSYNC, number(FILE_FID, 4), number(0, 4))
        self.let_go()

    def files(self, names):
        """The bytes of those of these files that there are."""
        found = {}
        for name in names:
            try:
                self.walk(name)
            except Refused as refused:
                if refused.error != ENOENT:
                    raise
                continue
            self.ask(12, number(FILE_FID, 4), number(0, 4))
            bytes_ = b""
            while piece := self.ask(116, number(FILE_FID, 4), number(len(bytes_), 8), number(MSIZE - 1000, 4))[4:]:
                bytes_ += piece
            found[name] = bytes_
            self.let_go()
        return found

    def kill(self):
        """Kills the program, unless it has ended; how it ended."""
        self.process.kill()
        status = self.process.wait()
        for it in (self.process.stdin, self.process.stdout):
            try:
                it.close()
            except OSError:
                pass
        return status


def files_of(ours, image, work):
    """The bytes of the files in an image, as mfs reads them: of all in its root, as a name that `work` doesn't know shows by their number."""
    names = sorted(set(work.synced) | set(work.asked or {}))
    with tempfile.TemporaryDirectory() as folder:
        script = pathlib.Path(folder, "script")
        lines = ["user 0 0", "1 open / r 0", "1 readdir 0", "1 close 0"]
        for name in names:
            lines += [f"1 open /{name} r 0", "1 read 0 65536", "1 close 0"]
        script.write_text("\n".join(lines) + "\n")
        sessions, fault = ours.play(image, [script])
    if fault:
        return {"": fault.encode()}
    lines = sessions[0][1:]
    listed = [bytes.fromhex(it.split(b":")[0].decode()).decode() for it in lines[0].split()[2:]]
    found = {name: b"" for name in listed}
    for at, name in enumerate(names):
        if lines[2 + 3 * at].startswith(b"fd "):
            words = lines[3 + 3 * at].split()
            found[name] = bytes.fromhex(words[1].decode()) if len(words) > 1 and words[1] != b"-" else b""
    return found
