"""A volume of a trial: it is made, mounted by bin/mount, unmounted by bin/umount, and looked at by mfsck."""
import hashlib, os, pathlib, signal, stat, time
from .mounted import let_go, mount_at
from .rows import Wrong, ran, run, said

BIN = pathlib.Path(__file__).resolve().parent.parent
LARGE = {"blocks": 16384, "inodes": 16000, "block_size": 4096}
SMALL = {"blocks": 1024, "inodes": 320, "block_size": 1024}


class Volume:
    """An image and a folder of their own, in a folder that belongs to the user who is to have the volume."""

    def __init__(self, trial, name, size=SMALL, user=None):
        self.trial, self.name, self.user = trial, name, user
        self.home = trial.folder / name
        self.image, self.folder, self.log = self.home / "v.img", self.home / "mnt", self.home / "log"
        self.folder.mkdir(parents=True)
        uid, gid = (user, user) if user is not None else (os.getuid(), os.getgid())
        words = size | {"uid": uid, "gid": gid}
        ran(trial.ours["mkmfs"], self.image, *(it for key, value in words.items() for it in (f"--{key.replace('_', '-')}", str(value))))
        if user is not None:
            for it in (self.home, self.image, self.folder):
                os.chown(it, user, user)

    def __enter__(self):
        return self

    def __exit__(self, *_):
        while mount := mount_at(str(self.folder)):
            let_go(mount, "-z")
        try:
            self.wait_for_end()
        except Wrong:  # what the row itself says counts
            self.kill()

    def try_mount(self, *words, folder=None, **how):
        """Runs bin/mount, and returns what came of it."""
        return run(BIN / "mount", "--program", self.trial.program, "--log", self.log, *words, self.image, folder or self.folder,
                   **self.as_user(), **how)

    def mount(self, *words, **how):
        done = self.try_mount(*words, **how)
        if done.returncode != 0:
            raise Wrong(f"bin/mount: {said(done)}")
        return self

    def try_umount(self, *words, **how):
        return run(BIN / "umount", *words, self.folder, **self.as_user(), **how)

    def umount(self):
        """Unmounts it, and looks at the image."""
        done = self.try_umount()
        if done.returncode != 0:
            raise Wrong(f"bin/umount: {said(done)}")
        self.check()

    def check(self):
        done = run(self.trial.ours["mfsck"], self.image)
        if done.stdout != b"clean\n":
            raise Wrong(f"mfsck: {said(done)}")

    def as_user(self):
        return {} if self.user is None else {"user": self.user, "group": self.user, "extra_groups": []}

    def process(self):
        """The number of the program that serves the image; None where there is none."""
        for at in pathlib.Path("/proc").glob("[0-9]*/cmdline"):
            try:
                if at.read_bytes().split(b"\0")[1:2] == [os.fsencode(self.image)]:
                    return int(at.parent.name)
            except OSError:
                pass
        return None

    def kill(self):
        if process := self.process():
            os.kill(process, signal.SIGKILL)

    def wait_for_end(self, seconds=60):
        """Waits until the program has ended and the folder is let go."""
        until = time.monotonic() + seconds
        while self.process() or mount_at(str(self.folder)):
            if time.monotonic() > until:
                raise Wrong("the program hasn't ended, or the folder wasn't let go")
            time.sleep(0.05)

    def deaths(self):
        lines = self.log.read_text().splitlines() if self.log.exists() else []
        return sum(it.startswith("started ") for it in lines), "given up" in lines


def told(path, root, with_times):
    """What is told of a path: its kind, permissions, owners, links of a file, size, the second of its last change, and its bytes."""
    it = os.lstat(path)
    mode, owner = stat.filemode(it.st_mode), (it.st_uid, it.st_gid)
    if stat.S_ISLNK(it.st_mode):
        return mode[0], owner, os.readlink(path)
    if stat.S_ISDIR(it.st_mode):
        return mode, owner
    with open(path, "rb") as file:
        sum_ = hashlib.sha256(file.read()).hexdigest()
    return mode, owner, it.st_nlink, it.st_size, int(it.st_mtime) if with_times else None, sum_


def tree_of(root, with_times=True):
    """Each path below a folder, with what is told of it."""
    root = os.fspath(root)
    found = {"": told(root, root, with_times)}
    for at, folders, files in os.walk(root):
        for name in (*folders, *files):
            path = os.path.join(at, name)
            found[os.path.relpath(path, root)] = told(path, root, with_times)
    return found


def differ(one, two, names=("one", "two")):
    """The first paths in which two trees differ."""
    keys = sorted(it for it in one.keys() | two.keys() if one.get(it) != two.get(it))
    shown = [f"{it!r} is {one.get(it, 'missing')} {names[0]}, {two.get(it, 'missing')} {names[1]}" for it in keys[:3]]
    return "; ".join(shown) + (f"; and {len(keys) - 3} more" if len(keys) > 3 else "")


def same_trees(one, two, with_times=True):
    """Two folders hold the same."""
    differs = differ(tree_of(one, with_times), tree_of(two, with_times), (f"in {one}", f"in {two}"))
    if differs:
        raise Wrong(differs)
