"""New volumes, beside those of others."""
import os, struct
from .common import run, said


def new_volumes(tally, ours, peers, chance, folder):
    for tool in ("mkfs.minix", "fsck.minix", "blkid"):
        if not peers.find(tool):
            tally.skip(f"new volumes beside {tool}", f"no {tool}")
    sizes = [(10, 16), (64, 32), (8192, 64), (8193, 64), (8199, 64), (8200, 64), (65535, 21840), (65536, 65520)]
    sizes += [(chance.randint(100, 20000), 16 * chance.randint(1, 300)) for _ in range(12)]
    if peers.find("mkfs.minix"):
        for blocks, inodes in sizes:
            beside_mkfs(tally, ours, peers, folder, blocks, inodes)
        foreign(tally, ours, peers, folder)
    for block in (1024, 2048, 4096):
        blocks, inodes = chance.randint(100, 9000), chance.randint(1, 3000)
        check_new(tally, ours, peers, folder / "new.img", (blocks, inodes, block))


def mkfs_minix(peers, image, blocks, *words):
    """Makes a volume by mkfs.minix in blocks of 1024 bytes, owned by user 0; or says why not."""
    image.unlink(missing_ok=True)
    with open(image, "wb") as file:
        file.truncate(blocks * 1024)
    words = [peers.find("mkfs.minix"), *words, image]
    if os.getuid() != 0:  # it gives the root to the user who runs it
        words = ["unshare", "-r", *words]
    done = run(words, env=peers.environment)
    return "" if done.returncode == 0 else said(done)


def beside_mkfs(tally, ours, peers, folder, blocks, inodes):
    what = f"a new volume of {blocks} blocks of 1024 and {inodes} inodes"
    one, two = folder / "mkmfs.img", folder / "mkfs.minix.img"
    why = mkfs_minix(peers, two, blocks, "-3", "-i", str(inodes))
    if why:
        tally.skip(what, f"mkfs.minix: {why}")
        return
    theirs = two.read_bytes()
    imap, zmap, first = struct.unpack_from("<HHH", theirs, 1024 + 6)
    now, = struct.unpack_from("<I", theirs, (2 + imap + zmap) * 1024 + 12)
    why = ours.make(one, blocks, inodes, 1024, now)
    if why:
        tally.judge(what, why)
        return
    mine = one.read_bytes()
    own, = struct.unpack_from("<H", mine, 1024 + 8)
    if own == zmap:
        at = next((at for at, (a, b) in enumerate(zip(mine, theirs)) if a != b), min(len(mine), len(theirs)))
        tally.judge(f"{what} is that of mkfs.minix -3", "" if mine == theirs else f"byte {at} and perhaps others differ")
    else:
        tally.judge(f"{what} has {own} blocks of zone map; mkfs.minix -3 takes {zmap}",
                    "" if own == -(-blocks // 8192) else "docs/FORMAT.md says another number")
    tally.judge(f"{what}, made by mkfs.minix: mfsck says clean", "" if ours.check(two) == "clean" else ours.check(two))
    if peers.find("fsck.minix"):
        done = peers.run("fsck.minix", "-f", one)
        tally.judge(f"{what}, made by mkmfs: fsck.minix -f finds nothing", "" if done.returncode == 0 else said(done))


def foreign(tally, ours, peers, folder):
    """What mkfs.minix makes that isn't of this profile, and what mfsck says of it."""
    image, bad = folder / "foreign.img", folder / "bad"
    bad.write_text("100\n101\n250\n")
    kinds = [(("-1", "-n", "14"), 300, "finding 1 at 2"), (("-1", "-n", "30"), 300, "finding 1 at 2"),
             (("-2", "-n", "14"), 300, "finding 1 at 2"), (("-2", "-n", "30"), 300, "finding 1 at 2"),
             (("-3", "-i", "65535"), 20000, "finding 1 at 5"), (("-3", "-i", "64"), 65537, "finding 1 at 5"),
             (("-3", "-i", "64", "-l", bad), 300, "clean")]
    for words, blocks, wanted in kinds:
        what = f"mkfs.minix {' '.join(map(str, words)).replace(str(bad), 'LIST')} of {blocks} blocks: mfsck says {wanted}"
        why = mkfs_minix(peers, image, blocks, *words)
        if why:
            tally.skip(what, f"mkfs.minix: {why}")
        else:
            found = ours.check(image)
            tally.judge(what, "" if found == wanted else f"it says {found}")


def check_new(tally, ours, peers, image, sizes):
    """Of a new volume of any size of blocks: who finds it to be one."""
    what = "a new volume of %d blocks, %d inodes, blocks of %d" % sizes
    why = ours.make(image, *sizes)
    if why:
        tally.judge(what, why)
        return
    if peers.find("blkid"):
        done = peers.run("blkid", "-p", "-o", "export", image)
        kinds = dict(it.split("=", 1) for it in done.stdout.decode().splitlines() if "=" in it)
        right = (kinds.get("TYPE"), kinds.get("VERSION")) == ("minix", "3")
        tally.judge(f"{what}: blkid says minix, version 3", "" if right else said(done))
    if sizes[2] == 1024 and peers.find("fsck.minix"):
        done = peers.run("fsck.minix", "-f", image)
        tally.judge(f"{what}: fsck.minix -f finds nothing", "" if done.returncode == 0 else said(done))
