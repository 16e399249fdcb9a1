"""A volume of 64 MiB mounted by FUSE, beside ext2 of the same size by fuse2fs and a folder of the host's file system."""
import json, os, pathlib, shutil, signal, sqlite3, subprocess, sys, tarfile, time
from .source import project_in, source_in

BIN = pathlib.Path(__file__).resolve().parent.parent
BLOCKS, BLOCK, INODES = 16384, 4096, 16000
FILES, SIZE = 1000, 4096  # of the archive
MOVED, LARGE = 16 << 20, 48 << 20  # bytes of the files of fio
FULL = 50 << 20  # bytes of a file that fills a volume, beside what else is there
TRANSACTIONS = 1000


def refuse(why):
    print(f"mount-bench: {why}", file=sys.stderr)
    sys.exit(1)


def run(*words, **how):
    words = [str(it) for it in words]
    done = subprocess.run(words, stdin=subprocess.DEVNULL, capture_output=True, text=True, errors="replace", **how)
    if done.returncode != 0:
        refuse(f"{' '.join(words)[:200]}: status {done.returncode}: {done.stderr.strip()[-300:]}")
    return done.stdout


def run_script(name, *words):
    """Runs bin/NAME by this interpreter: a `python3` of the path may be a script that looks for one, which takes longer than a mount."""
    run(sys.executable, "-SEs", BIN / name, *words)


def drop_caches():
    os.sync()
    pathlib.Path("/proc/sys/vm/drop_caches").write_text("3")


class Ours:
    """A volume of the program's."""
    name = "mfsfuse"

    def __init__(self, room, program, mkmfs):
        self.folder, self.image, self.program = room / "ours", room / "ours.img", program
        self.folder.mkdir()
        run(mkmfs, self.image, "--blocks", BLOCKS, "--inodes", INODES, "--block-size", BLOCK)
        self.mount()

    def mount(self):
        run_script("mount", "--program", self.program, self.image, self.folder)

    def end(self):
        run_script("umount", self.folder)


class Theirs:
    """A volume of ext2, by fuse2fs."""
    name = "fuse2fs"

    def __init__(self, room):
        self.folder, self.image = room / "theirs", room / "theirs.img"
        self.folder.mkdir()
        run("mke2fs", "-q", "-F", "-t", "ext2", "-b", BLOCK, "-N", INODES, self.image, BLOCKS)
        self.mount()

    def mount(self):
        self.process = subprocess.Popen(["fuse2fs", self.image, self.folder, "-f", "-o", "fakeroot"], stdin=subprocess.DEVNULL,
                                        stdout=subprocess.DEVNULL, stderr=subprocess.DEVNULL)
        until = time.monotonic() + 60
        while not os.path.ismount(self.folder):
            if time.monotonic() > until or self.process.poll() is not None:
                refuse("fuse2fs mounts nothing")
            time.sleep(0.002)

    def end(self):
        run("fusermount3", "-u", "--", self.folder)
        self.process.wait()


class Host:
    """A folder beside the images."""
    name = "host"

    def __init__(self, room):
        self.folder = room / "host"
        self.folder.mkdir()

    def end(self):
        pass


# ---- the works; each is timed as a whole, but for what stands in its `begin`


def archive_of(room):
    """An archive of small files in ten folders."""
    made = room / "small.tar"
    if not made.exists():
        with tarfile.open(made, "w") as archive:
            for it in range(FILES):
                file = room / "small"
                file.write_bytes(f"{it:08} ".encode() * (SIZE // 9) + b"." * (SIZE % 9))
                archive.add(file, f"small/d{it % 10}/f{it:04}")
    return made


def timed(function, *given):
    begin = time.perf_counter()
    came = function(*given)
    return time.perf_counter() - begin, came


def small_files(at, room, tell):
    """Small files are unpacked, looked at, read and removed."""
    took, _ = timed(run, "tar", "-C", at, "-xf", archive_of(room))
    tell(f"untar of {FILES:,} files of 4 KiB", took)
    drop_caches()
    took, out = timed(run, "find", at / "small", "-ls")
    if out.count("\n") != FILES + 11:
        refuse(f"find tells {out.count(chr(10))} lines")
    tell("`find -ls` of them", took)
    drop_caches()
    took, out = timed(run, "grep", "-rc", f"{FILES - 1:08}", at / "small")
    if sum(int(it.rsplit(":", 1)[1]) for it in out.splitlines()) != 1:
        refuse("grep doesn't find what is there once")
    tell("`grep -r` of them", took)
    drop_caches()
    took, _ = timed(run, "rm", "-r", at / "small")
    tell("`rm -r` of them", took)


def moved(at, how, size, much=MOVED):
    """The seconds in which fio reads or writes its file, whose pages aren't kept."""
    drop_caches()
    words = [f"--rw={how}", f"--bs={size}", f"--size={much}", f"--filename={at / 'fio'}", "--name=it", "--ioengine=psync", "--randseed=1"]
    told = json.loads(run("fio", *words, "--output-format=json", cwd="/"))["jobs"][0]
    return told["read" if "read" in how else "write"]["runtime"] / 1000


def large_file(at, room, tell):
    """A file is written in order, and then read and written as programs do."""
    tell("16 MiB written in order, 128 KiB at a time", moved(at, "write", "128k"))
    tell("16 MiB read in order, 128 KiB at a time", moved(at, "read", "128k"))
    tell("16 MiB read at random, 4 KiB at a time", moved(at, "randread", "4k"))
    tell("16 MiB written at random, 4 KiB at a time", moved(at, "randwrite", "4k"))
    os.unlink(at / "fio")


def larger_file(at, room, tell):
    """A file that is larger than what is kept of it is read and written at random."""
    moved(at, "write", "128k", LARGE)
    tell("48 MiB read at random, 4 KiB at a time", moved(at, "randread", "4k", LARGE))
    tell("48 MiB written at random, 4 KiB at a time", moved(at, "randwrite", "4k", LARGE))
    os.unlink(at / "fio")


def repository_of(room):
    """A repository with files of this one."""
    made = room / "repository"
    if not made.exists():
        files = source_in(room)
        run("git", "init", "-q", "-b", "main", made)
        shutil.copytree(files, made / "all", symlinks=True)
        run("git", "-C", made, "add", "-A")
        run("git", "-C", made, "-c", "user.name=a", "-c", "user.email=a@b", "commit", "-q", "-m", "all")
    return made


def cloned_and_made(at, room):
    """The seconds in which a repository is cloned, and those in which a small project is made."""
    cloned, _ = timed(run, "git", "clone", "-q", "--no-local", repository_of(room), at / "clone")
    project_in(at / "made")
    made, _ = timed(run, "make", "-s", "-C", at / "made")
    for it in ("clone", "made"):
        shutil.rmtree(at / it)
    return cloned, made


def projects(at, room, tell):
    """A repository is cloned, and a small project made. Both are done beside the volumes first: the page cache then has git and the compiler,
    whoever's turn it is."""
    cloned_and_made(room, room)
    cloned, made = cloned_and_made(at, room)
    tell("`git clone` of this repository's pages and scripts", cloned)
    tell("`make` of a project of five files", made)


def mounts(peer, tell):
    """A volume is filled, unmounted and mounted."""
    with open(peer.folder / "full", "wb") as file:
        for it in range(0, FULL, 1 << 20):
            file.write(bytes([it >> 20]) * (1 << 20))
    tell("a volume, unmounted behind 50 MiB written", timed(peer.end)[0])
    tell("a full volume, mounted", timed(peer.mount)[0])
    os.unlink(peer.folder / "full")


def transactions(at, room, tell):
    """Rows, each in a transaction of its own, which is on the disk once it is done."""
    with_rows = sqlite3.connect(at / "a.db", isolation_level=None)
    with_rows.execute("create table t (a integer primary key, b text)")
    took, _ = timed(lambda: [with_rows.execute("insert into t (b) values (?)", (f"row {it}",)) for it in range(TRANSACTIONS)])
    if with_rows.execute("pragma integrity_check").fetchone() != ("ok",):
        refuse("sqlite finds its file broken")
    with_rows.close()
    tell(f"sqlite, {TRANSACTIONS:,} transactions of a row", took)
    os.unlink(at / "a.db")


def rounds_of(peers, room, rounds):
    """The least seconds of each work, by its name and by who did it."""
    least = {}
    for count in range(rounds):
        for work in (small_files, large_file, larger_file, projects, transactions):
            for peer in peers:
                at = peer.folder / f"round{count}"
                at.mkdir(exist_ok=True)

                def tell(what, took):
                    key = what, peer.name
                    least[key] = min(took, least.get(key, took))

                work(at, room, tell)
                if not os.listdir(at):
                    at.rmdir()
        for peer in peers:
            if hasattr(peer, "mount"):
                mounts(peer, lambda what, took: least.update({(what, peer.name): min(took, least.get((what, peer.name), took))}))
    return least


def table(least):
    print("| Work | `mfsfuse`, ms | `fuse2fs`, ms | Ours by theirs | At most 1 | The host's own, ms |\n|---|---|---|---|---|---|")
    for what in dict.fromkeys(it for it, _ in least):
        ours, theirs = (1000 * least[what, it] for it in ("mfsfuse", "fuse2fs"))
        met = "met" if ours <= theirs else "not met"
        host = f"{1000 * least[what, 'host']:,.0f}" if (what, "host") in least else ""
        print(f"| {what} | {ours:,.0f} | {theirs:,.0f} | {ours / theirs:.2f} | {met} | {host} |")


def lacking():
    """What isn't there, or nothing."""
    lacks = [it for it in ("fusermount3", "fuse2fs", "mke2fs", "fio", "tar", "find", "grep", "git", "make", "gcc") if not shutil.which(it)]
    return ", ".join(lacks) or ("" if os.getuid() == 0 else "the rights of root, who alone drops the page cache")


def bench(room, program, mkmfs, rounds):
    """Measures all, and prints the table."""
    signal.signal(signal.SIGTERM, lambda *_: sys.exit(143))
    peers = []
    try:
        peers.append(Ours(room, program, mkmfs))
        peers.append(Theirs(room))
        peers.append(Host(room))
        least = rounds_of(peers, room, rounds)
    finally:
        for it in peers:
            it.end()
    table(least)
