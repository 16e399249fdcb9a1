"""Scripts of random calls."""
from .common import LAST
from .trees import joined, places_of


class Calls:
    """Scripts of random calls, a session each. What the tree is thought to be decides what they name, so that most calls find something:
    user 0 names what it likes, others what they made in /pub. Symbolic links stand among the files, but none of these is opened or changed
    by its name."""

    ODD = b"!\"#$%&'()*+,-.:;<=>?@[\\]^_`{|}~\t\r\x01\x7f\x80\xc3\xa9\xff"

    def __init__(self, chance, tree, block):
        self.chance, self.block, self.now = chance, block, 1000000000
        self.folders, self.files, self.links = set(tree.folders()) | {b"/pub"}, set(tree.files()), set(tree.links())
        self.far = 2  # files that may still be made long
        self.spare = 150000  # bytes that may still be written or left as holes in short files
        self.user, self.own, self.open, self.lines = (0, 0), set(), [], []

    def sessions(self, calls):
        """Scripts with so many calls."""
        scripts = []
        while calls > 0:
            count = min(calls, self.chance.randint(30, 70))
            others = scripts and calls > count  # the first and the last are those of user 0
            self.user = self.chance.choice([(0, 0), (0, 0), (0, 0), (5, 7), (65535, 65535)]) if others else (0, 0)
            self.own, self.open = set(), []
            self.lines = [] if scripts else [b"100 mkdir /pub 755", b"100 chmod /pub 777"]
            while len(self.lines) < count:
                self.one()
            scripts.append(b"user %d %d\n" % self.user + b"".join(it + b"\n" for it in self.lines[:count]))
            calls -= count
        return scripts

    def call(self, text, *values):
        self.now = min(self.now + self.chance.choice([0, 0, 1, 7, 1000, 5000000]), (1 << 32) - 1)
        self.lines.append(b"%d " % self.now + text % values)

    def one(self):
        kinds = {self.make_file: 16, self.open_file: 9, self.write: 22, self.seek: 6, self.close: 12, self.mkdir: 7, self.unlink: 6,
                 self.link: 6, self.symlink: 5, self.rename: 9, self.attributes: 10, self.truncate: 5, self.rmdir: 3, self.ask: 6}
        many = len(self.open) - self.open.count(None) > 9
        kind = self.close if many else self.chance.choices(list(kinds), list(kinds.values()))[0]
        kind()

    def name(self):
        kind = self.chance.random()
        if kind < .6:
            return b"%c%d" % (self.chance.choice(b"abcdef"), self.chance.randint(0, 40))
        if kind < .75:
            return b"%d" % self.chance.randint(0, 9) + b"x" * self.chance.choice([58, 59, 59, 60])
        name = bytes(self.chance.choice(self.ODD) for _ in range(self.chance.randint(1, 12)))
        return b"z" + name if name in (b".", b"..") else name

    def new(self):
        """A path that may lead to nothing yet; and the plain one, or none where it is refused."""
        near, name = self.chance.choice(sorted(self.folders)) if self.user == (0, 0) else b"/pub", self.name()
        path = joined(near, name)
        plain = path if len(name) <= 60 and len(path) <= 1024 else None
        if plain and self.chance.random() < .08:
            kinds = [(path + b"/", plain), (b"/" + path, plain), (b"/." + path, plain), (b"/pub/.." + path, plain), (path[1:], None),
                     (b"/none" + path, None)]
            return self.chance.choice(kinds)
        return path, plain

    def old(self, kind):
        """A path of this kind that this user may change."""
        there = sorted(kind if self.user == (0, 0) else kind & self.own)
        return self.chance.choice(there) if there and self.chance.random() < .97 else b"/pub/none"

    def made(self, kind, path):
        kind.add(path)
        self.own.add(path)

    def opened(self, path):
        at = self.open.index(None) if None in self.open else len(self.open)
        self.open[at:at + 1] = [path]
        return at

    def mode(self):
        return self.chance.randint(0, 0o777) | (0 if self.user == (0, 0) else 0o700)

    def make_file(self):
        (text, path), flags = self.new(), self.chance.choice([b"rwc", b"rwcx", b"wc", b"wca", b"rwct"])
        there = path in self.files and (flags == b"rwcx" or self.user != (0, 0) and path not in self.own)
        if not there and path not in self.links:
            self.call(b"open %b %b %o", text, flags, self.mode())
            if path and path not in self.folders:
                self.made(self.files, path)
                self.opened(path)

    def open_file(self):
        path = self.old(self.files)
        self.call(b"open %b %b 0", path, self.chance.choice([b"rw", b"w", b"wa", b"rwt", b"r"]))
        if path in self.files:
            self.opened(path)

    def descriptor(self):
        there = [at for at, path in enumerate(self.open) if path is not None]
        return self.chance.choice(there) if there and self.chance.random() < .97 else self.chance.randint(0, 33)

    def write(self):
        count = min(self.chance.choice([1, 60, 300, self.block, 3000, self.block + 1, 20000]), self.spare)
        self.spare -= count
        if count <= 300 and self.chance.random() < .7:
            self.call(b"write %d %b", self.descriptor(), self.chance.randbytes(count).hex().encode() or b"-")
        else:
            self.call(b"fill %d %d %02x", self.descriptor(), count, self.chance.randint(1, 255))

    def seek(self):
        at, kind = self.descriptor(), self.chance.random()
        if kind < .2 and self.far > 0 and at < len(self.open):
            self.far -= 1
            self.call(b"seek %d set %d", at, max(0, self.chance.choice(places_of(self.block)) - self.chance.choice([0, 1, 100])))
            self.call(b"write %d %b", at, self.chance.randbytes(150).hex().encode())
        elif kind < .6:
            self.call(b"seek %d set %d", at, self.chance.choice([0, 1, self.block, self.chance.randint(0, 9000)]))
        else:
            self.call(b"seek %d %b %d", at, self.chance.choice([b"cur", b"end"]), self.chance.randint(-500, 500))

    def close(self):
        at = self.descriptor()
        self.call(b"close %d", at)
        if at < len(self.open):
            self.open[at] = None

    def mkdir(self):
        text, path = self.new()
        self.call(b"mkdir %b %o", text, self.mode())
        if path and path not in self.all():
            self.made(self.folders, path)

    def unlink(self):
        path = self.old(self.files | self.links)
        self.call(b"unlink %b", path)
        self.files.discard(path)
        self.links.discard(path)

    def all(self):
        return self.files | self.folders | self.links

    def target(self):
        """A target: a path that leads somewhere, as it stands or from the root's own folders on, or any bytes."""
        path, kind = self.chance.choice(sorted(self.all())), self.chance.random()
        if kind < .4:
            return path
        if kind < .7:
            return b"../" * self.chance.randint(0, 2) + (path[1:] or b".")
        long = b"x" * self.chance.choice([60, 61, 1022, 1023, 1024])
        return self.chance.choice([b".", b"..", b"/", b"none/" + self.name(), self.name(), long])

    def symlink(self):
        text, path = self.new()
        target = self.target()
        self.call(b"symlink %b %b", target, text)
        if path and len(target) < 1024 and path not in self.all():
            self.made(self.links, path)

    def rmdir(self):
        path = self.old(self.folders - {b"/", b"/pub"})
        self.call(b"rmdir %b", path)
        if not any(it.startswith(path + b"/") for it in self.all()):
            self.folders.discard(path)

    def link(self):
        old, (text, path) = self.old(self.files | self.links), self.new()
        self.call(b"link %b %b", old, text)
        if path and old in self.files | self.links and path not in self.all():
            self.made(self.files if old in self.files else self.links, path)

    def rename(self):
        named = self.files | self.links
        old = self.old(named if self.chance.random() < .6 else self.folders - {b"/", b"/pub"})
        text, new = (it := self.old(named), it) if old in named and self.chance.random() < .5 else self.new()
        self.call(b"rename %b %b", old, text)
        below = new is not None and (new + b"/").startswith(old + b"/")
        if new is None or below or new in self.folders or old in self.folders and new in named:
            return
        if old != new:
            self.files.discard(new)
            self.links.discard(new)
        for kind in (self.files, self.folders, self.links, self.own):
            moved = {it for it in kind if (it + b"/").startswith(old + b"/")}
            kind -= moved
            kind |= {new + it[len(old):] for it in moved}

    def attributes(self):
        path, kind = self.old(self.chance.choice([self.files, self.folders - {b"/", b"/pub"}])), self.chance.randint(0, 2)
        if kind == 0:
            self.call(b"chmod %b %o", path, self.mode())
        elif kind == 1:
            self.call(b"chown %b %d %d", path, *(self.chance.choice([0, 5, 7, 1000, 65535]) for _ in range(2)))
        else:
            self.call(b"utime %b %d %d", path, *(self.chance.choice([0, 1, LAST, LAST + 1, (1 << 32) - 1, self.now]) for _ in range(2)))

    def truncate(self):
        size = min(self.chance.choice([0, 1, 10, self.block - 1, self.block, 7 * self.block, self.chance.randint(0, 40000)]), self.spare)
        self.spare -= size // 4
        if self.far > 0 and self.chance.random() < .1:
            self.far -= 1
            size = self.chance.choice(places_of(self.block)) + self.chance.randint(0, 1)
        self.call(b"truncate %b %d", self.old(self.files), size)

    def ask(self):
        path, at = self.chance.choice(sorted(self.all())), self.descriptor()
        kind = self.chance.randint(0, 9)
        if kind < 6:
            self.call([b"stat %b" % path, b"fstat %d" % at, b"read %d 300" % at, b"statfs", b"sync", b"sync"][kind].replace(b"%", b"%%"))
        elif kind > 7:
            self.call(b"%b %b", (b"lstat", b"readlink")[kind - 8], path)
        elif kind == 6:
            self.call(b"dup %d", at)
            if at < len(self.open) and self.open[at] is not None:
                self.opened(self.open[at])
        else:
            self.call(b"open /pub r 0")
            self.call(b"readdir %d", self.opened(b"/pub"))
