"""The mounts of this machine that are volumes, and how the one who serves a volume tells in the end what came of it."""
import collections, errno, fcntl, hashlib, os, re, socket, struct, subprocess
from .image_log import room_wanted

KIND = "fuse.mfs"
TOOL = "fusermount3"


# A mounted volume: its number among the mounts and that of its device, its folder, the image, the user who mounted it, and whether it is
# only read.
Mount = collections.namedtuple("Mount", "number device folder image user is_read_only")


def plain(text):
    """A path of the system's table, in which some bytes are octal."""
    return re.sub(r"\\([0-7]{3})", lambda it: chr(int(it[1], 8)), text).encode("latin-1").decode("utf-8", "surrogateescape")


def mounts():
    """All volumes that are mounted, the newest last."""
    found = []
    with open("/proc/self/mountinfo", encoding="latin-1") as table:
        lines = table.read().splitlines()
    for line in lines:
        head, _, tail = line.partition(" - ")
        number, _, device, _, folder, *_ = head.split(" ")
        kind, image, options = tail.split(" ", 2)
        if kind == KIND:
            user = re.search(r"(?:^|,)user_id=(\d+)", options)
            is_read_only = "ro" in options.split(",")
            found.append(Mount(int(number), device, plain(folder), plain(image), int(user[1]) if user else 0, is_read_only))
    return found


def mount_at(folder):
    """The volume that is mounted at a folder, the newest one; None where there is none."""
    return next((it for it in reversed(mounts()) if it.folder == folder), None)


def mounted_still(mount):
    """A volume as it is mounted now, since its folder may have another name; None where it isn't. Linux gives the numbers of a mount that is
    gone to the next one, so its image counts, too."""
    return next((it for it in mounts() if (it.number, it.device, it.image) == (mount.number, mount.device, mount.image)), None)


def let_go(mount, *how):
    """Unmounts a volume, where it is mounted still, by the name that its folder has now. Why it couldn't, else nothing."""
    now = mounted_still(mount)
    if now is None:
        return ""
    done = subprocess.run([TOOL, "-u", *how, "--", now.folder], stdin=subprocess.DEVNULL, capture_output=True, text=True, errors="replace")
    if done.returncode == 0:
        return ""
    why = one_line(done.stderr) or f"{TOOL} has the status {done.returncode}"
    return "somebody works in it; it stays mounted" if "busy" in why else why


def is_dead(folder):
    """Whether the program of the volume at a folder has ended."""
    try:
        os.statvfs(folder)
    except OSError as error:
        return error.errno in (errno.ENOTCONN, errno.ECONNABORTED, errno.ECONNREFUSED)
    return False


def let_go_of_dead(mount):
    """Lets the folder of a volume go, whose program has ended. One that was mounted in its place since is served, and stays."""
    now = mounted_still(mount)
    if now and is_dead(now.folder):
        let_go(now, "-z")


def elsewhere(mount):
    """Another folder at which the same volume is mounted, as by `mount --bind`; None where there is none."""
    return next((it.folder for it in mounts() if it.device == mount.device and it.number != mount.number), None)


def one_line(text):
    return "; ".join(it.strip() for it in text.splitlines() if it.strip())


# ---- what the program's lines mean

MEANINGS = (
    ("Media NotWholeSectors", "its size is no multiple of 512 bytes"),
    ("Media TooLarge", "it has more than 64 MiB"),
    ("Partition NoSignature", "it has no partition table"),
    ("Partition PastMedia", "one of its partitions ends behind it"),
    ("Partition Overlap", "two of its partitions share a sector, or one has its first"),
    ("Mount Layout BadMagic", "it is no volume of MINIX version 3"),
    ("Mount Eio", "it ends before its volume does"),
    ("Mount Inconsistent", "the volume is damaged"),
    ("given up", "its drivers failed too often: the image has what was synced before, and may lack what was written since"),
    ("image left in ", "the newest bytes are there: put that file in the image's place if mfsck finds it clean"),
    ("NotAsRead", "what was read back through the drivers isn't what the image has, or it couldn't be read back"),
    ("redo is of another image", "it is of a file in whose place this one came, or both are copies"),
)


def room_at(path):
    """How many bytes an ordinary user may still write to the disk of a file or folder; as many as one likes where that isn't known."""
    try:
        told = os.statvfs(path)
    except OSError:
        return 1 << 62
    return told.f_bavail * told.f_frsize


def is_full(folder):
    """Whether the disk below a folder has no room for an ordinary user."""
    return room_at(folder) < 1 << 20


def lacks_room(mount):
    """Why what changed in a volume finds no room on the disk of its image, or nothing. An fsync says whether what wasn't synced does. What
    was synced goes from the log to the image, whose holes it may fill."""
    least = 0
    try:
        root = os.open(mount.folder, os.O_RDONLY | os.O_DIRECTORY)
    except OSError:  # as where the user may not list it: then there has to be room for all that may have changed
        least = os.path.getsize(mount.image) if os.path.exists(mount.image) else 0
    else:
        try:
            os.fsync(root)
        except OSError as error:
            if error.errno == errno.ENOSPC:
                return f"no room is left for what changed beside {mount.image}: make room"
        finally:
            os.close(root)
    wanted = max(least, room_wanted(mount.image))
    if room_at(mount.image) < wanted:
        return f"no room is left for what changed, since {mount.image} may take {wanted} bytes more: make room"
    return ""


def is_being_written(image):
    """Whether the file of this name is the one that a program has locked to write it, as far as one can tell."""
    try:
        file = os.open(image, os.O_RDONLY | os.O_CLOEXEC)
    except FileNotFoundError:
        return False
    except OSError:
        return True
    try:
        fcntl.flock(file, fcntl.LOCK_SH | fcntl.LOCK_NB)
    except OSError:
        return True
    finally:
        os.close(file)
    return False


def lacks(mount):
    """Why what changed in a volume would be lost if it were unmounted now, or nothing."""
    if mount.is_read_only:
        return ""
    if not is_being_written(mount.image):
        return (f"{mount.image} was moved, replaced or removed, and what changed goes to the file that it was, which may have no name any "
                "more: put it back")
    return lacks_room(mount)


def explained(line):
    """A line of the program, with what it means where it doesn't say so itself."""
    if line.startswith("cannot write ") and not line.endswith(".given-up") and is_full(os.path.dirname(line[13:].partition(": ")[0])):
        return f"{line} (no room is left there; what was synced is in it and its log: make room and mount it again)"
    if line == "Partition":
        return f"{line} (its table has no partition of this number, or one that isn't of type 0x81)"
    return next((f"{line} ({meaning})" for start, meaning in MEANINGS if start in line), line)


# ---- whether an image is the one that was meant


def same_file(image):
    """What tells a file from another that takes its name; None where there is none."""
    try:
        told = os.stat(image)
    except OSError:
        return None
    return told.st_dev, told.st_ino


# ---- what came of a mount: the one who serves it tells those who ask, by a socket that has no file and goes with its process


def place_of(mount):
    """Its name: that of the device, wherever it is mounted. A device's number is soon another's, while a program still writes; no image is
    written by two."""
    image = hashlib.sha256(os.fsencode(mount.image)).hexdigest()[:32]
    return f"\0lecternowl {mount.device} {image}"


def listen(mount):
    """The socket at which those who unmount a volume ask; None where another program has its name."""
    listener = socket.socket(socket.AF_UNIX, socket.SOCK_STREAM)
    try:
        listener.bind(place_of(mount))
    except OSError:
        return None
    listener.listen(64)
    listener.setblocking(False)
    return listener


def tell_all(listener, status, lines):
    """Tells all who ask the program's status, and what it said in the end."""
    while True:
        try:
            asker, _ = listener.accept()
        except OSError:
            return
        with asker:
            try:
                asker.sendall("\n".join([str(status), *lines]).encode("utf-8", "surrogateescape"))
            except OSError:
                pass


def ask(mount):
    """A connection to the one who serves this mount; None where nobody, or another user, has its name."""
    asked = socket.socket(socket.AF_UNIX, socket.SOCK_STREAM)
    try:
        asked.connect(place_of(mount))
        _, user, _ = struct.unpack("3i", asked.getsockopt(socket.SOL_SOCKET, socket.SO_PEERCRED, 12))
    except OSError:
        return None
    return asked if user in (0, mount.user) else None


def answer(asked, tell_of_waiting):
    """The status and the lines that were told, once they are, and after two seconds that this waits; no status where the other end is gone."""
    told = b""
    asked.settimeout(2)
    while True:
        try:
            more = asked.recv(65536)
        except socket.timeout:
            asked.settimeout(None)
            tell_of_waiting()
            continue
        except OSError:
            break
        if not more:
            break
        told += more
    status, *lines = told.decode("utf-8", "surrogateescape").split("\n")
    return (int(status) if re.fullmatch(r"-?\d+", status) else None), lines


def lock_of(image):
    """The log of an image, which the program that writes the image has locked until it ended; None where there is none to be read."""
    try:
        return os.open(f"{image}.redo", os.O_RDONLY | os.O_CLOEXEC)
    except OSError:
        return None


def wait_for(lock):
    """Waits until a lock is free."""
    fcntl.flock(lock, fcntl.LOCK_SH)
    os.close(lock)
