"""Several users: who may mount, and whose rights the kernel looks at."""
import os, stat
from .rows import Skip, Wrong, holds, need_root, ran, run, row, said, same
from .volume import Volume

USER, OTHER, GROUP = 65534, 65533, 65000  # users and groups that need no entry anywhere


def users(name):
    return row("users", name)


def need_device():
    """Others than root need the device that the kernel asks by."""
    if not os.stat("/dev/fuse").st_mode & stat.S_IWOTH:
        raise Skip("/dev/fuse is root's alone here; udev makes it 0666")
    need_root("becomes another user")


def sh(user, groups, line, folder):
    """A line of the shell as a user with further groups, in a folder."""
    return run("sh", "-c", f'cd "$0" && {line}', folder, cwd="/", user=user, group=user, extra_groups=groups)


def may(user, groups, line, folder, wanted=""):
    """The line is done, or is refused by saying so."""
    done = sh(user, groups, line, folder)
    if (done.returncode == 0) != (not wanted) or wanted.encode() not in done.stderr:
        raise Wrong(f"user {user} of {groups or 'no more groups'}, {line!r}: {said(done)}, wanted {wanted or 'that it is done'}")


@users("ordinary-user")
def ordinary_user(trial):
    """A user without rights mounts a volume that is his, works, and unmounts it."""
    need_device()
    with Volume(trial, "ordinary", user=USER) as volume:
        volume.mount()
        line = "mkdir d && echo hello > d/f && ln d/f g && ln -s g s && cat s && chmod 600 g && mv d e && rm e/f && touch -d @5 g"
        may(USER, [], line, volume.folder)
        may(USER, [], 'cp -a s t && touch -hd @7 t && test "$(stat -c "%u %g %Y" t)" = "65534 65534 7"', volume.folder)
        may(USER, [], "chown 1 g", volume.folder, "Operation not permitted")
        same("what another user is told", run("ls", volume.folder, user=OTHER, group=OTHER, extra_groups=[]).returncode != 0, True)
        volume.umount()
        volume.mount()
        may(USER, [], 'test "$(cat s)" = hello && test "$(stat -c "%u %g %a %h %Y" g)" = "65534 65534 600 1 5"', volume.folder)
        volume.umount()


@users("not-his")
def not_his(trial):
    """What a user may not mount, or where: a line says so, and nothing is mounted."""
    need_device()
    with Volume(trial, "not-his", user=USER) as volume:
        volume.image.chmod(0o644)
        os.chown(volume.image, 0, 0)
        refused(volume.try_mount(), b"can't be written")
        os.chown(volume.image, USER, USER)
        refused(volume.try_mount("-o", "allow_other"), b"user_allow_other")
        os.chown(volume.folder, 0, 0)
        refused(volume.try_mount(), b"no write access")
        os.chown(volume.folder, USER, USER)
        volume.mount()
        volume.user = OTHER
        refused(volume.try_umount(), f"user {USER} mounted it".encode())
        volume.user = USER
        volume.umount()


@users("another's-root")
def anothers_root(trial):
    """Who mounts a volume in which only another user may make files is told."""
    need_device()
    with Volume(trial, "anothers", user=USER) as volume:
        ran(trial.ours["mkmfs"], volume.image, "--blocks", "64", "--inodes", "32")
        os.chown(volume.image, USER, USER)
        done = volume.try_mount()
        holds("it is mounted, and a line tells of user 0", done.returncode == 0 and b"of user 0" in done.stderr)
        volume.umount()


def refused(done, why):
    if done.returncode != 1 or why not in done.stderr or done.stderr.count(b"\n") != 1:
        raise Wrong(f"it isn't refused in one line with `{why.decode()}`: {said(done)}")


@users("permissions")
def permissions(trial):
    """On root's mount each user has the rights that owners, groups (the further ones, too) and bits give."""
    need_root("mounts for others")
    with Volume(trial, "permissions") as volume:
        volume.mount()
        at = volume.folder
        at.chmod(0o777)
        for name, mode in (("group", 0o750), ("none", 0o700), ("write", 0o777)):
            (at / name).mkdir()
            os.chown(at / name, 0, GROUP)
            (at / name).chmod(mode)
        (at / "group/file").write_text("text\n")
        os.chown(at / "group/file", 0, GROUP)
        (at / "group/file").chmod(0o640)
        may(USER, [GROUP], "cat group/file && ls group", at)
        may(USER, [], "cat group/file", at, "Permission denied")
        may(USER, [GROUP], "echo x >> group/file", at, "Permission denied")
        may(USER, [GROUP], "touch group/more", at, "Permission denied")
        may(USER, [GROUP], "rm -f group/file", at, "Permission denied")
        may(USER, [GROUP], "ls none", at, "Permission denied")
        may(USER, [GROUP], "chmod 777 group/file", at, "Operation not permitted")
        may(USER, [], "echo mine > write/mine && mkdir write/d && mkfifo write/fifo", at, "Operation not permitted")
        same("whose a new file is", told(at / "write/mine"), (USER, USER, 0o644))
        same("whose a new folder is", told(at / "write/d"), (USER, USER, 0o755))
        may(USER, [GROUP], f"chgrp {GROUP} write/mine && chmod 660 write/mine", at)
        may(OTHER, [GROUP], "echo more >> write/mine && cat write/mine", at)
        may(OTHER, [], "cat write/mine", at, "Permission denied")
        may(OTHER, [GROUP], "touch -d @5 write/mine", at, "Operation not permitted")
        may(OTHER, [GROUP], "touch write/mine", at)
        may(USER, [], f"chgrp {GROUP} write/d", at, "Operation not permitted")
        same("its bytes", (at / "write/mine").read_text(), "mine\nmore\n")
        volume.umount()


def told(path):
    it = os.lstat(path)
    return it.st_uid, it.st_gid, stat.S_IMODE(it.st_mode)
