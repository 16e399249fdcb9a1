"""What a volume can't do, each with the error by which it is refused (docs/MOUNT.md)."""
import ctypes, errno, os, time
from .files import forget
from .rows import Skip, Wrong, need, need_root, ran, row, same

LIBRARY = ctypes.CDLL(None, use_errno=True)
FROM_HERE = -100  # AT_FDCWD


def limit(name):
    return row("limits", name)


def refused(wanted, function, *given, **more):
    """The call is refused with this error."""
    try:
        came = function(*given, **more)
    except OSError as error:
        came = errno.errorcode[error.errno]
    if came != wanted:
        raise Wrong(f"{came}, and not {wanted}")


def made(path, data=b""):
    path.write_bytes(data)
    return path


@limit("long-names")
def long_names(at, trial):
    """60 bytes a name; none that is longer is there."""
    made(at / ("n" * 60))
    refused("ENAMETOOLONG", (at / ("n" * 61)).touch)
    refused("ENAMETOOLONG", os.mkdir, at / ("n" * 61))
    refused("ENAMETOOLONG", os.rename, at / ("n" * 60), at / ("m" * 61))
    refused("ENAMETOOLONG", os.symlink, "n", at / ("n" * 61))
    for length in (61, 255):
        refused("ENOENT", os.lstat, at / ("n" * length))
        refused("ENOENT", os.unlink, at / ("n" * length))
    same("the names", os.listdir(at), ["n" * 60])


@limit("long-paths")
def long_paths(at, trial):
    """A path may be longer than 1024 bytes: 60 folders of 50 bytes one in the other, a file in the last, all by the current folder."""
    here = os.getcwd()
    try:
        os.chdir(at)
        for depth in range(60):
            os.mkdir("d" * 50)
            os.chdir("d" * 50)
        with open("file", "w") as file:
            file.write("deep")
        forget()
        same("its bytes", open("file").read(), "deep")
        os.rename("file", "moved")
        same("the names", os.listdir("."), ["moved"])
        os.unlink("moved")
        for depth in range(60):
            os.chdir("..")
            os.rmdir("d" * 50)
    finally:
        os.chdir(here)
    same("what is left", os.listdir(at), [])


@limit("large-files")
def large_files(at, trial):
    """2147483647 bytes a file."""
    with open(at / "file", "wb") as file:
        refused("EFBIG", os.pwrite, file.fileno(), b"x", 2**31)
        refused("EFBIG", os.ftruncate, file.fileno(), 2**31)
        os.ftruncate(file.fileno(), 2**31 - 1)
        same("its size", os.fstat(file.fileno()).st_size, 2**31 - 1)
    os.unlink(at / "file")


@limit("mode-bits")
def mode_bits(at, trial):
    """Set-user-id, set-group-id and sticky bits are dropped, and nothing is refused for them."""
    for bit in 0o4000, 0o2000, 0o1000:
        room = at / f"{bit:o}"
        os.mkdir(room, bit | 0o711)
        os.mkdir(room / "folder")
        os.chmod(room / "folder", bit | 0o750)
        os.chmod(made(room / "file"), bit | 0o755)
        os.mknod(room / "node", bit | 0o100640)
        os.close(os.open(room / "opened", os.O_CREAT | os.O_WRONLY, bit | 0o600))
        for _ in range(2):  # what the answers tell, and what the volume has
            modes = [os.stat(room / it).st_mode & 0o7777 for it in ("", "folder", "file", "node", "opened")]
            same(f"the modes without {bit:o}", modes, [0o711, 0o750, 0o755, 0o640, 0o600])
            forget()


def carried(at, source):
    """The names of the copies of a tree that cp, tar and rsync make in this folder, with all that they can keep."""
    need("rsync")
    ran("cp", "-a", source, at / "cp")
    ran("tar", "-C", source.parent, "-cf", at / "all.tar", source.name)
    ran("tar", "-C", at, "-xpf", at / "all.tar")
    os.rename(at / source.name, at / "tar")
    ran("rsync", "-a", f"{source}/", at / "rsync")
    return "cp", "tar", "rsync"


@limit("set-group-id")
def set_group_id(at, trial):
    """A tree with such bits is copied by cp, tar and rsync, without them; git makes a repository that a group shares."""
    need("git")
    source = trial.folder / "shared-source"
    modes = {"": 0o2775, "file": 0o6755, "all": 0o1777}
    source.mkdir()
    (source / "all").mkdir()
    made(source / "file", b"text")
    for it, mode in modes.items():
        os.chmod(source / it, mode)
    for copy in carried(at, source):
        forget()
        same(f"the modes by {copy}", [os.stat(at / copy / it).st_mode & 0o7777 for it in modes], [0o775, 0o755, 0o777])
        same(f"the bytes by {copy}", (at / copy / "file").read_bytes(), b"text")
    ran("git", "init", "-q", "--shared=group", at / "repo")
    made(at / "repo" / "file")
    for words in ("add", "file"), ("commit", "-q", "-m", "one"), ("fsck", "--strict"):
        ran("git", "-C", at / "repo", *words)


@limit("kinds")
def kinds(at, trial):
    """No pipes, sockets and devices."""
    refused("EPERM", os.mkfifo, at / "fifo")
    if os.getuid() == 0:
        refused("EPERM", os.mknod, at / "null", 0o20666, os.makedev(1, 3))
    os.mknod(at / "file", 0o100644)
    same("what is there", os.listdir(at), ["file"])


@limit("attributes")
def attributes(at, trial):
    """No extended attributes, and none are listed."""
    file = made(at / "file")
    refused("ENOTSUP", os.setxattr, file, "user.a", b"1")
    refused("ENOTSUP", os.getxattr, file, "user.a")
    same("those listed", outcome_of_list(file), [])


def outcome_of_list(file):
    try:
        return os.listxattr(file)
    except OSError as error:
        same("the error", errno.errorcode[error.errno], "ENOTSUP")
        return []


@limit("links-own")
def links_own(at, trial):
    """A symbolic link has an owner and times of its own; what it leads to keeps its own."""
    need_root("gives files away")
    made(at / "file")
    before = os.stat(at / "file")
    os.symlink("file", at / "link")
    os.lchown(at / "link", 5, 6)
    os.utime(at / "link", (1, 2), follow_symlinks=False)
    forget()
    link = os.lstat(at / "link")
    same("the link's", (link.st_uid, link.st_gid, link.st_atime, link.st_mtime), (5, 6, 1, 2))
    after = os.stat(at / "file")
    same("the file's", (after.st_uid, after.st_gid, after.st_mtime), (before.st_uid, before.st_gid, before.st_mtime))
    same("where it leads", os.readlink(at / "link"), "file")


@limit("removed-open-changes")
def removed_open_changes(at, trial):
    """A removed file that is open has its size, mode and times changed by its descriptor."""
    with open(at / "file", "w+") as file:
        file.write("text")
        file.flush()
        os.unlink(at / "file")
        os.ftruncate(file.fileno(), 2)
        os.fchmod(file.fileno(), 0o600)
        os.utime(file.fileno(), (1, 2))
        told = os.fstat(file.fileno())
        same("what it has", (told.st_size, told.st_mode & 0o777, told.st_mtime, told.st_nlink), (2, 0o600, 2, 0))
        file.seek(0)
        same("its bytes", file.read(), "te")


@limit("other-name-lost")
def other_name_lost(at, trial):
    """A file that lost the name by which it was looked up last is changed by its descriptor, and by its other name."""
    file = made(at / "one", b"text")
    os.link(file, at / "two")
    with open(at / "two", "r+") as opened:
        os.unlink(at / "two")
        os.ftruncate(opened.fileno(), 3)
        same("its bytes by the other name", file.read_bytes(), b"tex")
        os.chmod(file, 0o600)
        same("its mode", os.fstat(opened.fileno()).st_mode & 0o777, 0o600)


@limit("many-removed-open")
def many_removed_open(at, trial):
    """127 removed files may be open; the next removal of an open one is refused, and that file stays. Other files go on."""
    files, removed = [open(at / f"f{it}", "w+") for it in range(140)], 0
    for count, file in enumerate(files):
        file.write(f"{count}")
        file.flush()
    try:
        for it in range(140):
            os.unlink(at / f"f{it}")
            removed += 1
    except OSError as error:
        same("the error", errno.errorcode[error.errno], "ENFILE")
    same("removed", 120 <= removed <= 127, True)
    for count, file in enumerate(files):
        file.seek(0)
        same(f"file {count}", file.read(), f"{count}")
    made(at / "other", b"other")
    forget()
    same("another file", (at / "other").read_bytes(), b"other")
    same("its name", "other" in os.listdir(at), True)
    (at / "other").unlink()
    for file in files:
        file.close()
    for it in range(removed, 140):
        os.unlink(at / f"f{it}")
    same("what is left", os.listdir(at), [])


@limit("unnamed-files")
def unnamed_files(at, trial):
    """No files without a name from the beginning, no room asked for ahead, and no exchange of two names."""
    refused("ENOTSUP", os.open, at, os.O_TMPFILE | os.O_RDWR)
    with open(at / "one", "w") as file:
        refused("ENOTSUP", fallocate, file.fileno(), 100_000)
        os.posix_fallocate(file.fileno(), 0, 10_000)
    same("its size", os.stat(at / "one").st_size, 10_000)
    made(at / "two")
    refused("EINVAL", renameat2, at / "one", at / "two", 2)
    refused("EEXIST", renameat2, at / "one", at / "two", 1)


def checked(status):
    if status != 0:
        raise OSError(ctypes.get_errno(), "")


def fallocate(file, size):
    """The system's own call, which posix_fallocate doesn't need."""
    checked(LIBRARY.fallocate64(file, 0, ctypes.c_int64(0), ctypes.c_int64(size)))


def renameat2(old, new, flags):
    checked(LIBRARY.renameat2(FROM_HERE, os.fsencode(old), FROM_HERE, os.fsencode(new), flags))


@limit("removed-folder")
def removed_folder(at, trial):
    """In a folder that was removed nothing is found."""
    here = os.getcwd()
    os.mkdir(at / "folder")
    os.chdir(at / "folder")
    try:
        os.rmdir(at / "folder")
        refused("ENOENT", open, "file", "w")
        forget()
        refused("ESTALE", os.listdir, ".")
    finally:
        os.chdir(here)


@limit("large-owners")
def large_owners(at, trial):
    """Owners are numbers up to 65535."""
    need_root("gives files away")
    file = made(at / "file")
    os.chown(file, 65535, 65535)
    refused("EINVAL", os.chown, file, 65536, 0)
    same("whose it is", (os.stat(file).st_uid, os.stat(file).st_gid), (65535, 65535))


@limit("times")
def times(at, trial):
    """Whole seconds from 1970 to 2106; a time before or behind becomes the nearest of these."""
    file, last = made(at / "file"), 2**32 - 1
    for given, kept in ((100.75, 200.75), (100, 200)), ((0, last), (0, last)), ((-1, last + 1), (0, last)), ((-2**40, 2**40), (0, last)), \
            ((2**62, -2**62), (last, 0)), ((-0.5, 5), (0, 5)):
        os.utime(file, given)
        for _ in range(2):  # what the answer tells, and what the volume has
            same(f"its times for {given}", (os.stat(file).st_atime, os.stat(file).st_mtime), kept)
            forget()


@limit("far-times")
def far_times(at, trial):
    """Files of 1960 and 2200 are touched, and copied by cp, tar and rsync."""
    source, far = trial.folder / "far-source", {"1960-01-01": 0, "2200-01-01": 2**32 - 1}
    source.mkdir()
    for day in far:
        ran("touch", "-d", f"{day} UTC", at / day, made(source / day, day.encode()))
        if time.gmtime(os.stat(source / day).st_mtime).tm_year != int(day[:4]):
            raise Skip(f"{source} keeps no time of {day}")
    copies = carried(at, source)
    forget()
    for day, kept in far.items():
        same(f"the time of {day}", os.stat(at / day).st_mtime, kept)
        for copy in copies:
            same(f"the time of {day} by {copy}", os.stat(at / copy / day).st_mtime, kept)
            same(f"the bytes of {day} by {copy}", (at / copy / day).read_bytes(), day.encode())
