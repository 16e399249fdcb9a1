"""Whether a volume is mounted in a fresh root by what the package brought, and worked on, by a user without rights."""
import os
from .common import DOC, run, said
from .try_root import NOBODY, WHERE, Bare

# Runs in a namespace of mounts of its own, so that nothing of it is left: $1 is the root, $2 the user, $3 the work. A Debian that was
# started has /etc/mtab, by which fusermount3 knows what a user mounted.
APART = """mount -t tmpfs -o mode=755 tmpfs "$1/dev" &&
mknod -m 666 "$1/dev/fuse" c 10 229 &&
mknod -m 666 "$1/dev/null" c 1 3 &&
mount -t proc proc "$1/proc" || exit
[ -L "$1/etc/mtab" ] || { ln -s ../proc/self/mounts "$1/etc/mtab" && trap 'rm "$1/etc/mtab"' EXIT; }
chroot --userspec="$2:$2" "$1" sh -ec "$3" sh
"""
# Prints what is in the volume at each of two mounts, and what mfsck says.
WORK = f"""cd /work
mfs-new mounted.img 8 > /dev/null
mkdir mnt
mfs-mount --die-every 50 --log mounted.log mounted.img mnt
cp -r /{DOC} mnt/pages
echo hello > mnt/file
cat mnt/file
mfs-umount mnt
mfsck mounted.img
mfs-mount mounted.img mnt
diff -r /{DOC} mnt/pages
cat mnt/file
rm -r mnt/pages
mfs-umount mnt
mfsck mounted.img
grep -c '^started ' mounted.log > /dev/null
rm -r mounted.img mounted.log mnt
"""
PRINTS = b"hello\nclean\nhello\nclean\n"
WHAT = "mfs-new, mfs-mount and mfs-umount: a user's volume is mounted, written while drivers die, and mounted again"


def try_mount(tally, root):
    """A volume in the root is made, mounted, written, unmounted, looked at, and mounted again."""
    if isinstance(root, Bare):
        tally.skip(WHAT, "a bare folder has no python3 and no fusermount3")
    elif not os.path.exists("/dev/fuse"):
        tally.skip(WHAT, "there is no /dev/fuse")
    else:
        done = run(["unshare", "--mount", "--propagation", "private", "sh", "-c", APART, "sh", root.folder, str(NOBODY), WORK], env=WHERE)
        tally.judge(WHAT, "" if done.returncode == 0 and done.stdout == PRINTS else said(done))
