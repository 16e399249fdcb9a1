"""Boots of Linux in QEMU."""
import io, itertools, pathlib, stat, subprocess, tarfile, time
from .common import WINDOW, run, said
from .programs import modules_for
from .trees import places_of

INIT = """#!/bin/busybox sh
/bin/busybox mkdir -p /proc /sys /dev /mnt /to /out
/bin/busybox --install -s /bin
export PATH=/bin
mount -t proc none /proc; mount -t sysfs none /sys; mount -t devtmpfs none /dev
for it in /modules/*; do insmod $it; done
# disk NAME: the device of the disk of this name.
disk() { for it in /sys/block/vd*; do [ "$(cat $it/serial)" = "$1" ] && echo /dev/${it##*/}; done; }
# begin NAME: mounts a volume for changes. look NAME [DEVICE]: tells of a volume what Linux finds in it.
begin() { cd /; mount -t minix "$(disk $1)" /mnt && cd /mnt; }
end() { cd /; umount /mnt; }
look() {
    mount -t minix -o ro,noatime ${2:-$(disk $1)} /mnt 2> /out/$1.error || return
    cd /mnt
    stat -f -c '%s %b %f %c %d' . > /out/$1.room
    find . -exec stat -c '%i %f %h %u %g %s %X %Y %Z %n' {} + > /out/$1.stat
    find . -type f -size -1048577c -exec md5sum {} + > /out/$1.sums
    find . -type l > /out/links
    while IFS= read -r f; do echo "$(readlink -n "$f" | md5sum | cut -c1-32)  $f"; done < /out/links >> /out/$1.sums
    find . -type f -size +1048576c > /out/long
    while IFS= read -r f; do
        n=$(stat -c %s "$f")
        for at in 0 $(((n - 1) / 4096)) $(cat /windows/$(stat -f -c %s .)); do
            [ $((at * 4096)) -lt $n ] && echo "$(dd if="$f" bs=4096 skip=$at count=1 2> /dev/null | md5sum | cut -c1-32) $at $f"
        done
    done < /out/long > /out/$1.windows
    end
}
. /job
uname -r > /out/kernel
cd /out && echo done > done && tar -cf "$(disk results)" *
sync
poweroff -f
"""


def archive(files):
    """An initramfs: a cpio archive of these files, each with its mode and bytes, or a device's number."""
    out, number = io.BytesIO(), itertools.count(1)

    def add(name, mode, data=b"", device=(0, 0)):
        head = [next(number), mode, 0, 0, 1, 0, len(data), 0, 0, *device, len(name) + 1, 0]
        out.write(b"070701" + b"".join(b"%08x" % it for it in head) + name.encode() + b"\0")
        out.write(bytes(-out.tell() % 4) + data)
        out.write(bytes(-out.tell() % 4))

    for folder in sorted({str(it) for name in files for it in pathlib.PurePath(name).parents} - {"."}):
        add(folder, stat.S_IFDIR | 0o755)
    add("dev/console", stat.S_IFCHR | 0o600, device=(5, 1))
    for name, data in files.items():
        add(name, stat.S_IFREG | 0o755, data)
    add("TRAILER!!!", 0)
    return out.getvalue()


class Linux:
    """Boots of Linux with disks, each of which does a job and ends."""

    def __init__(self, peers, folder, seconds):
        (self.image, home), _ = peers.kernel()
        self.peers, self.folder, self.seconds = peers, folder, seconds
        self.files = {"init": INIT.encode(), "bin/busybox": pathlib.Path(peers.find("busybox")).read_bytes()}
        for at, (name, data) in enumerate(modules_for(home, ["virtio_pci", "virtio_blk", "minix"]).items()):
            self.files[f"modules/{at:02}-{name}"] = data
        for block in (1024, 2048, 4096):
            windows = sorted({it // WINDOW + step for it in places_of(block) for step in (-1, 0, 1)})
            self.files[f"windows/{block}"] = "\n".join(map(str, windows)).encode()

    def boot(self, name, disks, job):
        """What the job left in the folder /out, by name; or why there is nothing."""
        results, first = self.folder / f"{name}.results", self.folder / f"{name}.initramfs"
        results.write_bytes(bytes(32 << 20))
        first.write_bytes(archive({**self.files, "job": job.encode("latin-1")}))
        words = [self.peers.find("qemu-system-x86_64"), "-accel", "tcg", "-nodefaults", "-display", "none", "-no-reboot", "-m", "512",
                 "-serial", "stdio", "-kernel", self.image, "-initrd", first, "-append", "console=ttyS0 panic=-1 quiet no_timer_check"]
        for at, (disk, path) in enumerate({**disks, "results": results}.items()):
            words += ["-drive", f"file={path},format=raw,if=none,id=d{at}", "-device", f"virtio-blk-pci,drive=d{at},serial={disk}"]
        began = time.monotonic()
        try:
            done = run(words, env=self.peers.environment, timeout=self.seconds)
        except subprocess.TimeoutExpired:
            return None, f"Linux wasn't done within {self.seconds} seconds"
        spent = time.monotonic() - began
        (self.folder / f"{name}.console").write_bytes(done.stdout + done.stderr)
        told = {}
        if any(results.read_bytes()[:512]):
            with tarfile.open(results) as archived:
                told = {it.name: archived.extractfile(it).read() for it in archived.getmembers()}
        if "done" not in told:
            return told, f"Linux didn't come to its end: {said(done)[-300:]}"
        print(f"linux  {told['kernel'].decode().strip()}, `{name}`: {spent:.0f} seconds", flush=True)
        return told, ""
