"""How a mount begins and ends: refusals, a busy folder, an image that is being written, a full volume, kills, drivers that are used up."""
import contextlib, errno, fcntl, os, random, signal, socket, struct, subprocess, time
from .mounted import TOOL, answer, ask, let_go, mount_at, room_at
from .rows import Skip, Wrong, holds, need_root, ran, row, run, said, same
from .volume import BIN, LARGE, SMALL, Volume, differ, tree_of
from .users import refused

end = lambda name: row("ends", name)


def filled(folder, draw, count=20):
    """Makes files of drawn bytes."""
    for it in range(count):
        (folder / f"f{it}").write_bytes(draw.randbytes(draw.randrange(20_000)))


def nothing_mounted(folder):
    holds("the folder is let go", mount_at(str(folder)) is None and os.listdir(folder) == [])


@end("refused")
def refused_image(trial):
    """An image that isn't clean, is none, or isn't there: a line says why, and the folder is let go."""
    with Volume(trial, "refused") as volume:
        good = volume.image.read_bytes()
        for bytes_, why in ((good[:1024] + bytes(1024) + good[2048:], b"no volume of MINIX"), (b"no image", b"multiple of 512"),
                            (b"", b"ends before"), (good[:2048] + b"\xff" + good[2049:], b"is damaged")):
            volume.image.write_bytes(bytes_)
            refused(volume.try_mount(), why)
            nothing_mounted(volume.folder)
        volume.image.write_bytes(good)
        refused(volume.try_mount("--minor", "1"), b"Partition")
        refused(volume.try_mount(folder=volume.home / "none"), b"no such folder")
        refused(volume.try_mount(folder=volume.image), b"is no folder")
        volume.mount()
        refused(volume.try_mount(), b"is mounted there")
        volume.umount()
        volume.image.unlink()
        refused(volume.try_mount(), b"no such file")
        same("files that are left", sorted(os.listdir(volume.home)), ["log", "mnt"])


@end("twice")
def twice(trial):
    """An image that is mounted is refused to all other programs that would write or read it."""
    with Volume(trial, "twice") as volume:
        volume.mount()
        other = volume.home / "other"
        other.mkdir()
        done = volume.try_mount(folder=other)
        if it := mount_at(str(other)):
            let_go(it, "-z")
        refused(done, b"is being served")
        refused(run(trial.ours["mfsck"], volume.image), b"is being served")
        holds("it is still mounted, and the other isn't", mount_at(str(volume.folder)) and not mount_at(str(other)))
        (volume.folder / "file").write_text("x")
        volume.umount()
        volume.mount()
        same("what is there", os.listdir(volume.folder), ["file"])
        volume.umount()


@end("linked")
def linked(trial):
    """An image that is mounted is refused by another name of the file too, and where its log was removed; no file is left beside it then."""
    with Volume(trial, "linked") as volume:
        volume.mount()
        link, log, other = volume.home / "link.img", volume.home / "v.img.redo", volume.home / "other"
        other.mkdir()
        link.hardlink_to(volume.image)
        for name in (link, volume.image):
            refused(run(BIN / "mount", "--program", trial.program, name, other), b"is being served")
            refused(run(trial.ours["mfsck"], name), b"is being served")
            log.unlink(missing_ok=True)
        same("files beside it", sorted(os.listdir(volume.home)), ["link.img", "log", "mnt", "other", "v.img"])
        (volume.folder / "file").write_text("x")
        volume.umount()
        volume.mount()
        same("the file", (volume.folder / "file").read_text(), "x")
        volume.umount()


@end("words")
def words_refused(trial):
    """Names that are empty, an image in the folder, the image or its redo log as the file of --log, and options that would keep fusermount3
    waiting: refused, nothing is mounted, and the image is as it was."""
    with Volume(trial, "words") as volume:
        before, hard = volume.image.read_bytes(), volume.home / "hard"
        os.link(volume.image, hard)
        mount, program = BIN / "mount", ("--program", trial.program)
        for status, why, words in ((2, b"a name is empty", ("", volume.folder)), (2, b"a name is empty", (volume.image, "")),
                                   (1, b"couldn't be reached there", (volume.image, volume.home)),
                                   *((2, b"is the image or its redo log", ("--log", it, volume.image, volume.folder))
                                     for it in (volume.image, hard, f"{volume.image}.redo")),
                                   *((2, b"isn't taken", ("-o", it, volume.image, volume.folder))
                                     for it in ("auto_unmount", "subtype=x", "ro,fsname=y"))):
            done = run(mount, *program, *words)
            if done.returncode != status or why not in done.stderr or done.stderr.count(b"\n") != 1:
                raise Wrong(f"{words}: {said(done)}")
        nothing_mounted(volume.folder)
        holds("nothing is mounted at the image's folder", not mount_at(str(volume.home)))
        same("the image", volume.image.read_bytes() == before, True)
        same("files beside it", sorted(os.listdir(volume.home)), ["hard", "mnt", "v.img"])


@end("bound")
def bound(trial):
    """A volume that is mounted at two folders stays mounted until one of them was taken away."""
    need_root("mounts by --bind")
    with Volume(trial, "bound") as volume:
        volume.mount()
        other = volume.home / "other"
        other.mkdir()
        ran("mount", "--bind", volume.folder, other)
        try:
            refused(volume.try_umount(), b"mounted at")
            refused(run(BIN / "umount", other), b"mounted at")
        finally:
            ran("umount", other)
        volume.umount()


@end("numbers-again")
def numbers_again(trial):
    """A volume is mounted while the program of one that was unmounted before still writes its image. It gets that one's numbers, and stays."""
    with Volume(trial, "numbers", LARGE) as first, Volume(trial, "again") as second:
        first.mount("--sync-every", "0")
        (first.folder / "big").write_bytes(os.urandom(48 << 20))
        was = mount_at(str(first.folder))
        asked = ask(was)
        ran(TOOL, "-u", first.folder)
        second.mount()
        now = mount_at(str(second.folder))
        if first.process() is None or (was.number, was.device) != (now.number, now.device):
            raise Skip("the numbers aren't the first one's, or its program has ended")
        same("how the first one ended", answer(asked, lambda: None), (0, []))
        same("the second one", mount_at(str(second.folder)), now)
        (second.folder / "late").write_bytes(b"late")
        second.umount()
        second.mount()
        same("its file", (second.folder / "late").read_bytes(), b"late")
        second.umount()
        first.check()


@end("file-limit")
def file_limit(trial):
    """Where a limit of the size of files stops a write of the image an fsync is EIO, and the mount goes on."""
    with Volume(trial, "file-limit") as volume:
        words = ("--program", trial.program, "--sync-every", "0", volume.image, volume.folder)
        ran("sh", "-c", 'ulimit -f 1024; exec "$0" "$@"', BIN / "mount", *words)
        (volume.folder / "small").write_text("x")
        file = os.open(volume.folder / "file", os.O_WRONLY | os.O_CREAT)
        os.write(file, random.Random(trial.seed).randbytes(700_000))
        try:
            os.fsync(file)
            raise Wrong("an fsync past the limit is answered ok")
        except OSError as error:
            same("the error", errno.errorcode[error.errno], "EIO")
        os.close(file)
        same("the small file", (volume.folder / "small").read_text(), "x")
        done = volume.try_umount()
        if done.returncode != 1 or b"cannot write" not in done.stderr:
            raise Wrong(f"bin/umount: {said(done)}")


@end("busy")
def busy(trial):
    """A volume in which somebody works stays mounted, and nothing is lost."""
    with Volume(trial, "busy") as volume:
        volume.mount()
        with open(volume.folder / "file", "w") as file:
            file.write("one ")
            file.flush()
            refused(volume.try_umount(), b"somebody works in it")
            file.write("two")
        with subprocess.Popen(["sleep", "60"], cwd=volume.folder) as sleeper:
            refused(volume.try_umount(), b"somebody works in it")
            sleeper.kill()
        volume.umount()
        volume.mount()
        same("the file", (volume.folder / "file").read_text(), "one two")
        volume.umount()
        refused(volume.try_umount(), b"no volume is mounted there")


@end("written")
def written(trial):
    """When bin/umount comes back the image has all: a copy of it, made at once, is the volume."""
    with Volume(trial, "written", {**LARGE, "blocks": 3000, "inodes": 1000}) as volume, Volume(trial, "copy", SMALL) as copy:
        volume.mount("--sync-every", "0")
        draw = random.Random(f"{trial.seed} written")
        for it in range(8):
            (volume.folder / f"d{it}").mkdir()
            filled(volume.folder / f"d{it}", draw)
        (volume.folder / "large").write_bytes(draw.randbytes(6 << 20))
        tree = tree_of(volume.folder)
        volume.umount()
        copy.image.write_bytes(volume.image.read_bytes())
        copy.mount("-o", "ro")
        same("the tree", differ(tree_of(copy.folder), tree), "")
        copy.umount()


@end("read-only")
def read_only(trial):
    """With -o ro all is read, nothing is written, and neither image nor folder has to be writable."""
    with Volume(trial, "read-only") as volume:
        volume.mount()
        (volume.folder / "file").write_text("x")
        volume.umount()
        before = volume.image.read_bytes(), sorted(os.listdir(volume.home))
        volume.mount("-o", "ro")
        same("the file", (volume.folder / "file").read_text(), "x")
        try:
            (volume.folder / "more").touch()
            raise Wrong("a file was made")
        except OSError as error:
            same("the error", errno.errorcode[error.errno], "EROFS")
        volume.umount()
        same("the image", volume.image.read_bytes() == before[0] and sorted(os.listdir(volume.home)) == before[1], True)
        volume.mount("-o", "ro,rw")
        (volume.folder / "more").touch()
        volume.umount()
        volume.mount()
        same("the files", sorted(os.listdir(volume.folder)), ["file", "more"])
        volume.umount()


@end("from-within")
def from_within(trial):
    """A volume is mounted at the folder that a shell calls its own, by a program that is a shell's script."""
    with Volume(trial, "from-within") as volume:
        script = volume.home / "program"
        script.write_text(f"#!/bin/sh\nexec '{trial.program}' \"$@\"\n")
        script.chmod(0o755)
        words = ("--program", script, volume.image, ".")
        same("the status", said(run(BIN / "mount", *words, cwd=volume.folder, env=os.environ | {"PWD": str(volume.folder)})), "status 0: ")
        (volume.folder / "file").write_text("x")
        volume.umount()


@end("in-front")
def in_front(trial):
    """--foreground comes back when the volume is unmounted, by bin/umount or by Ctrl-C."""
    with Volume(trial, "in-front") as volume:
        for count, how in enumerate((volume.try_umount, None)):
            words = [BIN / "mount", "--foreground", "--program", trial.program, volume.image, volume.folder]
            with subprocess.Popen(list(map(str, words)), stderr=subprocess.PIPE) as process:
                until = time.monotonic() + 60
                while not mount_at(str(volume.folder)) and time.monotonic() < until:
                    time.sleep(0.05)
                (volume.folder / f"f{count}").touch()
                how() if how else process.send_signal(signal.SIGINT)
                same("its status", (process.wait(60), process.stderr.read()), (0, b""))
            volume.check()
        volume.mount()
        same("the files", sorted(os.listdir(volume.folder)), ["f0", "f1"])
        volume.umount()


@end("tick")
def tick(trial):
    """A tick of ten milliseconds: drivers die every fifty, others take their places, and all bytes are right."""
    with Volume(trial, "tick") as volume:
        volume.mount("--tick", "10", "--kill-every", "53")
        wanted, until = os.urandom(65536), time.monotonic() + 60
        while volume.deaths()[0] < 10 and time.monotonic() < until:
            (volume.folder / "file").write_bytes(wanted)
            os.sync()
            same("the file", (volume.folder / "file").read_bytes(), wanted)
        holds("ten drivers died", volume.deaths()[0] >= 10)
        volume.umount()


@end("small")
def small(trial):
    """Drivers that have ended take no memory: forty deaths later the program has no forty threads' addresses more, of 8 MiB each (but those
    that the C library keeps for a thread that comes, 64 MiB at a time)."""
    with Volume(trial, "small") as volume:
        volume.mount("--kill-every", "150")
        sizes = []
        for deaths in (10, 50):
            until = time.monotonic() + 120
            while volume.deaths()[0] < deaths and time.monotonic() < until:
                (volume.folder / "file").write_bytes(os.urandom(8192))
                os.sync()
            holds(f"{deaths} drivers died", volume.deaths()[0] >= deaths)
            status = open(f"/proc/{volume.process()}/status").read()
            sizes.append(int(status.split("VmSize:")[1].split()[0]))
        holds(f"it has {sizes[0]} KiB, and then {sizes[1]}", sizes[1] - sizes[0] < 204800)
        volume.umount()


@end("full-to-the-last")
def full_to_the_last(trial):
    """A write that finds less room than it needs takes all there is: large ones fill the volume to the last block, at blocks of each size."""
    for block_size in 1024, 2048, 4096:
        with Volume(trial, f"last-{block_size}", {**SMALL, "block_size": block_size}) as volume:
            volume.mount()
            file, data = volume.folder / "large", random.Random(trial.seed).randbytes(5 << 20)
            with open(file, "wb", buffering=0) as opened:
                opened.write(data[:1000])  # so that no write begins where a block does
                wrote = 1000 + filled_with(opened, data[1000:], 300_000)
            same("blocks that are free", os.statvfs(volume.folder).f_bfree, 0)
            same("bytes behind the last full block", wrote % block_size, 0)
            volume.umount()
            volume.mount()
            same("the bytes at the next mount", file.read_bytes() == data[:wrote], True)
            os.unlink(file)
            for words in ("cp", volume.image, file), ("dd", "if=/dev/zero", f"of={file}", "bs=1M", "status=none"):
                said_so = run(*words).stderr
                holds(f"{words[0]} says why", b"No space left" in said_so)
                same(f"blocks that are free behind {words[0]}", os.statvfs(volume.folder).f_bfree, 0)
                os.unlink(file)
            volume.umount()


def filled_with(opened, data, size):
    """Writes pieces of bytes to an open file until there is no room: how many were written."""
    wrote = 0
    try:
        while wrote < len(data):
            wrote += opened.write(data[wrote:wrote + size])
    except OSError as error:
        same("the error", errno.errorcode[error.errno], "ENOSPC")
    return wrote


@end("full")
def full(trial):
    """A full volume refuses with ENOSPC what finds no room, keeps all else, and has its room back behind a removal."""
    with Volume(trial, "full") as volume:
        volume.mount()
        at, before = volume.folder, os.statvfs(volume.folder)
        wrote, data = 0, random.Random(trial.seed).randbytes(2 << 20)
        with open(at / "large", "wb", buffering=0) as file:
            try:
                while wrote < len(data):
                    wrote += file.write(data[wrote:wrote + 10_000])
            except OSError as error:
                same("the error", errno.errorcode[error.errno], "ENOSPC")
        holds("the volume was filled", wrote < len(data) and os.statvfs(at).f_bfree < 8)
        same("the bytes that were taken", (at / "large").read_bytes() == data[:wrote], True)
        made = 0
        try:
            for made in range(1000):
                (at / f"empty{made}").touch()
        except OSError as error:
            same("the error without inodes or room", errno.errorcode[error.errno], "ENOSPC")
        volume.umount()
        volume.mount()
        same("the bytes at the next mount", (at / "large").read_bytes() == data[:wrote], True)
        for it in os.listdir(at):
            os.unlink(at / it)
        (at / "again").write_bytes(data[:500_000])
        os.unlink(at / "again")
        after = os.statvfs(at)
        same("inodes that are free", after.f_ffree, before.f_ffree)
        holds("blocks that are free, but for those of the folder", before.f_bfree - after.f_bfree <= 24)
        volume.umount()


@end("killed")
def killed(trial):
    """Behind kill -9 the folder is let go, and the next mount has at least what was synced, and a clean image."""
    with Volume(trial, "killed") as volume:
        draw = random.Random(f"{trial.seed} killed")
        for count in range(5):
            volume.mount("--sync-every", "0")
            synced, later = volume.folder / f"synced{count}", volume.folder / f"later{count}"
            data = draw.randbytes(50_000)
            with open(synced, "wb") as file:
                file.write(data)
                file.flush()
                os.fsync(file.fileno())
            later.write_bytes(b"x")
            volume.kill()
            volume.wait_for_end()
            volume.check()
            nothing_mounted(volume.folder)
            volume.mount()
            same("the synced file", synced.read_bytes() == data, True)
            for it in range(count + 1):
                holds("each earlier one is there", (volume.folder / f"synced{it}").exists())
            volume.umount()


def synced(volume, name):
    """Makes a file, with an fsync of it."""
    with open(volume.folder / name, "wb") as file:
        file.write(b"x" * 20_000)
        file.flush()
        os.fsync(file.fileno())


def synced_and_killed(volume, name):
    """The same, and kills the program behind it."""
    synced(volume, name)
    volume.kill()
    volume.wait_for_end()


@end("unlogged")
def unlogged(trial):
    """A log that is removed while its image is mounted is made again at the next fsync: a kill behind that loses nothing."""
    with Volume(trial, "unlogged") as volume:
        volume.mount("--sync-every", "0")
        synced(volume, "before")
        (volume.home / "v.img.redo").unlink()
        synced_and_killed(volume, "behind")
        volume.mount()
        same("the files", sorted(os.listdir(volume.folder)), ["before", "behind"])
        volume.umount()


@end("restored")
def restored(trial):
    """Where a copy takes the place of an image that a kill left with a log, nothing is mounted until the user says which of both counts."""
    with Volume(trial, "restored") as volume:
        log, copy = volume.home / "v.img.redo", volume.image.read_bytes()
        for keeps_log in True, False:
            volume.mount("--sync-every", "0")
            synced_and_killed(volume, f"kept {keeps_log}")
            time.sleep(1.5)
            with open(volume.image, "r+b") as image:
                image.write(volume.image.read_bytes() if keeps_log else copy)
            for how in (), ("-o", "ro"):
                refused(volume.try_mount(*how), b"changed later than")
            nothing_mounted(volume.folder)
            os.utime(log) if keeps_log else log.unlink()
            volume.mount()
            same("the files", os.listdir(volume.folder), ["kept True"] if keeps_log else [])
            volume.umount()


@end("copied")
def copied(trial):
    """Copies of an image and of the log that a kill left, while a removed file was open, aren't mounted; bin/settle makes an image of them, and
    nothing of other logs."""
    with Volume(trial, "copied") as volume:
        image, log = volume.image, volume.home / "v.img.redo"
        settle = lambda: run(BIN / "settle", "--program", trial.ours["mfsck"], volume.home / "c.img", image)
        for count in range(3):
            volume.mount("--sync-every", "0")
            with open(volume.folder / "gone", "wb"):
                (volume.folder / "gone").unlink()
                synced(volume, f"f{count}")
                volume.kill()
            volume.wait_for_end()
            for it in image, log:
                (volume.home / it.name.replace("v", "c", 1)).write_bytes(it.read_bytes())
            log.unlink()
            image.write_bytes((volume.home / "c.img").read_bytes())
            refused(settle(), b"File exists")
            image.unlink()
            (volume.home / "c.img").rename(image)
            (volume.home / "c.img.redo").rename(log)
            refused(volume.try_mount(), b"both are copies")
            image.rename(volume.home / "c.img")
            log.rename(volume.home / "c.img.redo")
            same("the status", said(settle()), "status 0: ")
        (volume.home / "c.img").write_bytes(bytes(1 << 20))
        image.rename(volume.home / "good")
        refused(settle(), b"no clean image")
        holds("nothing is left", not image.exists())
        (volume.home / "good").rename(image)
        volume.mount()
        same("the files", [(it.name, it.stat().st_size) for it in sorted(volume.folder.iterdir())], [(f"f{it}", 20_000) for it in range(3)])
        volume.umount()


@end("replaced")
def replaced(trial):
    """Where another file took the image's place meanwhile, or none has its name, the volume stays mounted, and who unmounts it all the same is
    told so."""
    with Volume(trial, "replaced") as volume:
        for is_there in True, False:
            volume.mount()
            copy, other = volume.image.read_bytes(), volume.home / "other"
            volume.image.rename(other)
            if is_there:
                volume.image.write_bytes(copy)
            (volume.folder / "file").write_text("x")
            refused(volume.try_umount(), b"moved, replaced or removed")
            same("the file", (volume.folder / "file").read_text(), "x")
            refused(volume.try_umount("--force"), b"moved, replaced or removed")
            other.replace(volume.image)
        volume.mount()
        same("the file", (volume.folder / "file").read_text(), "x")
        volume.image.rename(other)
        refused(volume.try_umount(), b"moved, replaced or removed")
        other.rename(volume.image)
        volume.umount()


@end("terminated")
def terminated(trial):
    """SIGTERM for all, as at a shutdown, unmounts a volume, and what was written is in the image; a busy one ends with who works in it."""
    with Volume(trial, "terminated") as volume:
        for is_busy in False, True:
            volume.mount("--sync-every", "0")
            file = open(volume.folder / f"file{int(is_busy)}", "w")
            file.write("x")
            file.flush()
            if not is_busy:
                file.close()
            for process in server_of(volume), volume.process():
                os.kill(process, signal.SIGTERM)
            file.close()
            volume.wait_for_end()
            volume.check()
        volume.mount()
        same("the files", sorted(os.listdir(volume.folder)), ["file0", "file1"])
        volume.umount()


def server_of(volume):
    """The number of the process that serves a volume's mount."""
    with ask(mount_at(str(volume.folder))) as asked:
        return struct.unpack("3i", asked.getsockopt(socket.SOL_SOCKET, socket.SO_PEERCRED, 12))[0]


@end("dead")
def dead(trial):
    """Where both the program and the process that serves it were killed, the next bin/mount takes the folder back."""
    with Volume(trial, "dead") as volume:
        volume.mount()
        for process in server_of(volume), volume.process():
            os.kill(process, signal.SIGKILL)
        while volume.process():
            time.sleep(0.02)
        volume.mount()
        volume.umount()


@end("readers")
def readers(trial):
    """A volume that is only read is unmounted at once, while another program writes its image."""
    with Volume(trial, "readers") as volume:
        other = volume.home / "other"
        other.mkdir()
        done = volume.try_mount("-o", "ro", folder=other)
        same("bin/mount -o ro", done.returncode, 0)
        volume.mount()
        done = run("timeout", "20", BIN / "umount", other)
        same("bin/umount of the one that is read", (done.returncode, done.stderr), (0, b""))
        volume.umount()


@end("at-once")
def at_once(trial):
    """Of two bin/mount at one moment one mounts the volume, and the other is refused; of two bin/umount neither takes the other for work in it.
    A lock of who calls isn't held by what serves."""
    with Volume(trial, "at-once") as volume:
        words = (BIN / "mount", "--program", trial.program, volume.image, volume.folder)
        for _ in range(10):
            both = [subprocess.Popen(words, stderr=subprocess.PIPE) for _ in range(2)]
            said_ = [it.communicate()[1] for it in both]
            same("the statuses", sorted(it.returncode for it in both), [0, 1])
            if not any(b"is mounted there" in it or b"is being served" in it for it in said_):
                raise Wrong(f"{said_}")
            both = [subprocess.Popen((BIN / "umount", volume.folder), stderr=subprocess.PIPE) for _ in range(2)]
            said_ = [it.communicate()[1] for it in both]
            if both[0].returncode and both[1].returncode or any(b"works in it" in it for it in said_):
                raise Wrong(f"{said_}")
            volume.wait_for_end()
            volume.check()
        with open(volume.home / "lock", "w") as lock:
            fcntl.flock(lock, fcntl.LOCK_EX)
            done = run(*words, pass_fds=(lock.fileno(),))
            same("bin/mount", done.returncode, 0)
        with open(volume.home / "lock") as lock:
            fcntl.flock(lock, fcntl.LOCK_EX | fcntl.LOCK_NB)
        volume.umount()


def fill_disk(volume, data, first=0):
    """Writes files, each with an fsync, from this number on, until one finds no room: its number. What was written of it to the log is gone
    then, so that others have room."""
    done = first
    try:
        for done in range(first, first + 15):
            before = room_at(volume.home)
            with open(volume.folder / f"f{done}", "wb") as file:
                file.write(data)
                file.flush()
                os.fsync(file.fileno())
    except OSError as error:
        same("the error", errno.errorcode[error.errno], "ENOSPC")
    holds("the room is there again that the log took", room_at(volume.home) > before - 50_000)
    return done


@end("no-room-for-log")
def no_room_for_log(trial):
    """An image with holes, for which the disk has no room though all was synced, stays mounted until there is room."""
    need_root("mounts a tmpfs")
    with Volume(trial, "no-room-for-log") as volume, small_disk(volume, "1500k"):
        volume.mount("--sync-every", "0")
        data, taken = random.Random(f"{trial.seed} log").randbytes(400_000), volume.home / "taken"
        with open(volume.folder / "synced", "wb") as file:
            file.write(data)
            file.flush()
            os.fsync(file.fileno())
        disk = os.statvfs(volume.home)
        taken.write_bytes(bytes(disk.f_bavail * disk.f_frsize - 100_000))
        refused(volume.try_umount(), b"bytes more: make room, or lose")
        taken.unlink()
        volume.umount()
        volume.mount()
        same("the synced file", (volume.folder / "synced").read_bytes() == data, True)
        volume.umount()


@end("no-room")
def no_room(trial):
    """On a disk that gets full an fsync is refused, and the volume stays mounted until there is room: then all is kept. Unmounted by force
    it keeps all that was synced, and the next start has it once there is room."""
    need_root("mounts a tmpfs")
    with Volume(trial, "no-room") as volume, small_disk(volume, "700k"):
        volume.mount("--sync-every", "0")
        data = random.Random(f"{trial.seed} no-room").randbytes(150_000)
        done = fill_disk(volume, data)
        holds(f"some files were synced, {done}", 1 <= done < 6)
        refused(volume.try_umount(), b"make room, or lose")
        ran("mount", "-o", "remount,size=1500k", volume.home)
        volume.umount()
        volume.mount("--sync-every", "0")
        for it in range(done + 1):
            same(f"the bytes of file {it}", (volume.folder / f"f{it}").read_bytes() == data, True)
        more = fill_disk(volume, data, done + 1)
        holds(f"more files were synced, {more}", done + 1 < more < 12)
        forced = volume.try_umount("--force")
        if forced.returncode != 1 or b"no room is left there" not in forced.stderr:
            raise Wrong(f"bin/umount --force: {said(forced)}")
        ran("mount", "-o", "remount,size=8m", volume.home)
        volume.mount()
        for it in range(more):
            same(f"the bytes of file {it}", (volume.folder / f"f{it}").read_bytes() == data, True)
        volume.umount()


@contextlib.contextmanager
def small_disk(volume, size):
    """Moves a volume that isn't mounted to a file system of its own."""
    image = volume.image.read_bytes()
    ran("mount", "-t", "tmpfs", "-o", f"size={size}", "none", volume.home)
    try:
        with open(volume.image, "wb") as file:
            for at in range(0, len(image), 4096):
                file.seek(at)
                if any(image[at:at + 4096]):
                    file.write(image[at:at + 4096])
            file.truncate(len(image))
        volume.folder.mkdir()
        yield
    finally:
        volume.__exit__()
        run("umount", volume.home)


@end("new-volume")
def new_volume(trial):
    """bin/new-volume replaces no file in which something is, but for --force."""
    with Volume(trial, "new-volume") as volume:
        make = lambda *words: run(BIN / "new-volume", "--program", trial.ours["mkmfs"], volume.image, "1", *words)
        before = volume.image.read_bytes()
        refused(make(), b"is there already")
        holds("the image stays", volume.image.read_bytes() == before)
        same("the status", make("--force").returncode, 0)
        same("its size", volume.image.stat().st_size, 1 << 20)


@end("killed-and-told")
def killed_and_told(trial):
    """What was done more than some seconds before a kill is there without an fsync; bin/umount tells of a kill while it waits."""
    with Volume(trial, "told") as volume:
        volume.mount("--sync-every", "1")
        (volume.folder / "file").write_text("x")
        time.sleep(3)
        volume.kill()
        volume.wait_for_end()
        volume.mount()
        same("the file", (volume.folder / "file").read_text(), "x")
        volume.umount()


@end("given-up")
def given_up(trial):
    """Where no driver is left each call is EIO; the volume is unmounted, which tells it, and the image is that of the last sync."""
    with Volume(trial, "given-up") as volume:
        before = volume.image.read_bytes()
        volume.mount("--spares", "1", "--die-every", "400", "--frames", "16", "--sync-every", "0")
        try:
            for it in range(500):
                (volume.folder / f"f{it % 20}").write_bytes(bytes([it % 256]) * 20_000)
        except OSError as error:
            same("the error", errno.errorcode[error.errno], "EIO")
        else:
            raise Skip("the drivers weren't used up")
        done = volume.try_umount()
        if done.returncode != 3 or b"given up" not in done.stderr:
            raise Wrong(f"bin/umount: {said(done)}")
        volume.wait_for_end()
        volume.check()
