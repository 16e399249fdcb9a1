"""Volumes of version 2 that Linux fills and mfmig migrates."""
import stat
from .common import LAST, SERVED
from .filled_volumes import fill, from_image
from .new_volumes import mkfs_minix
from .trees import attributes, differences, linux_tree, script_of, without_listings

INODES = 1024

REMADE = [
    "find . -type f | while IFS= read -r f; do n=$((n + 1)); [ $((n % 4)) = 0 ] && rm \"$f\"; done",
    "find . -type f | while IFS= read -r f; do n=$((n + 1)); [ $((n % 3)) = 0 ] && mv \"$f\" \"${f%/*}/moved$n\"; done",
    "find . -type d -empty | tail -n 2 | while IFS= read -r d; do rmdir \"$d\"; done",
    "for i in $(seq 9); do echo $i > again$i; done"]
FIRST = [": > a", ": > b", "mkdir d", "echo 1 > d/e", "echo 14 > 12345678901234"]
# A volume's name, its blocks, what Linux does with it, and why mfmig refuses it.
OLD = [
    ("removed", 200, [*FIRST, "rm a", "rm d/e", ": > d/g"], ""),
    ("removed-dir", 200, [*FIRST, "mkdir d/d", "rmdir d/d", "rm b", "mkdir b"], ""),
    ("moved", 200, [*FIRST, "mv d/e f", "mv d z", "mkdir y", "mv z y/x"], ""),
    ("many-names", 2000, ["mkdir d", "for i in $(seq 600); do : > d/n$i; done", "for i in $(seq 100 270); do rm d/n$i; done"], ""),
    ("symlinks", 200, ["mkdir d", "echo 1 > d/f", "ln -s d/f r", "ln -s /d/f a", "ln -s . d/s", "ln -s none n", "ln r hard", "ln -s a b",
                       "ln -s $(printf %060d 0) s60", "ln -s $(printf %01023d 0) s1023", "chown -h 5:7 r", "rm a"], ""),
    ("links", 3000, ["mkdir -p z/1", ": > z/1/0", "for i in $(seq 216); do ln z/1/0 z/1/$i; done",
                     "for i in $(seq 2 151); do cp -rl z/1 z/$i; done"], ""),  # 217 by 151 is 32767
    ("one-link-more", 3000, [], "migrate refusal 2 finding 16 at 4"),
    ("device", 200, [": > f", "mknod d c 1 3"], "migrate refusal 2 finding 5 at 3"),
    ("block-device", 200, ["mknod d b 1 3"], "migrate refusal 2 finding 5 at 2"),
    ("fifo", 200, ["mkfifo p"], "migrate refusal 2 finding 5 at 2"),
    ("setuid", 200, [": > f", "chmod 4755 f"], "migrate refusal 2 finding 5 at 2"),
    ("sticky", 200, ["mkdir t", "chmod 1777 t"], "migrate refusal 2 finding 5 at 2"),
    ("orphan", 200, ["exec 9> f", "rm f", ": > g", "sync", "cat $(disk orphan) > $(disk pulled)", "exec 9>&-"], ""),
    ("pulled", 200, [], "migrate refusal 2 finding 16 at 2"),
]


def migrated_volumes(tally, ours, peers, linux, chance, folder):
    """Boots Linux, which fills volumes of version 2, migrates each, and boots Linux again to look at what came of them."""
    if not peers.find("mkfs.minix"):
        tally.skip("volumes of version 2", "no mkfs.minix")
        return
    refused_forms(tally, ours, peers, folder)
    if not linux:
        return
    made = volumes_to_fill(chance)
    disks = {f"old-{name}": folder / f"old-{name}.img" for name in made}
    job = ["date -s @1100000000 > /dev/null"]
    for name, (blocks, lines, _) in made.items():
        why = mkfs_minix(peers, disks[f"old-{name}"], blocks, "-2", "-n", "14", "-i", str(INODES))
        if why:
            tally.skip("volumes of version 2", f"mkfs.minix: {why}")
            return
        job += job_of(name, lines)
    told, why = linux.boot("migrate", disks, "\n".join(job) + "\n")
    if told is None:
        tally.skip("volumes of version 2 that Linux filled", why)
    elif why:
        tally.judge("Linux fills volumes of version 2", why)
    else:
        beside_linux(tally, ours, linux, folder, made, told)


def volumes_to_fill(chance):
    """Of each volume that Linux fills its blocks, what Linux does, and why mfmig refuses it."""
    made = {f"filled-{at}": (1200, [*fill(chance, 1024, 14), *REMADE], "") for at in range(3)}
    deep = ["yes direct | head -c 7168 > direct", "yes single | head -c 269312 > single", "yes double | head -c 3000001 > double",
            "for at in 67378166 67640310 134217728 2147483000; do echo triple | dd of=triple bs=1 seek=$at conv=notrunc 2> /dev/null; done",
            f"truncate -s {LAST} hole", "ln double d2", "rm double", "chmod 400 d2", "chown 65535:5 triple"]
    made["each-range"] = (4000, deep, "")
    made["large"] = (65535, ["yes large | head -c 50000000 > large", "yes more | head -c 10000000 > more", "rm more", ": > f"], "")
    return made | {name: (blocks, lines, refusal) for name, blocks, lines, refusal in OLD}


def job_of(name, lines):
    """What the shell of Linux does to fill a volume, and to tell of it."""
    disk = f"old-{name}"
    if name == "one-link-more":
        return [f"cat $(disk old-links) > $(disk {disk})", f"begin {disk}", "ln z/1/0 more", "end"]
    if name == "pulled":
        return []
    lines = [it.replace("$(disk ", "$(disk old-") for it in lines]
    return [f"begin {disk}", *lines, "end", f"look {disk}"]


def refused_forms(tally, ours, peers, folder):
    """Volumes of mkfs.minix, as they are made: which are migrated."""
    old, bad = folder / "form.img", folder / "bad"
    bad.write_text("100\n101\n250\n")
    kinds = [(("-2", "-n", "30"), 300, "migrate refusal 1 at 2"), (("-1", "-n", "14"), 300, "migrate refusal 1 at 2"),
             (("-1", "-n", "30"), 300, "migrate refusal 1 at 2"), (("-3",), 300, "migrate refusal 1 at 2"),
             (("-2", "-n", "14", "-i", "64"), 65537, "migrate refusal 1 at 4"), (("-2", "-n", "14"), 300, ""),
             (("-2", "-n", "14", "-i", "320"), 65535, ""), (("-2", "-n", "14", "-l", bad), 300, "")]
    for words, blocks, refusal in kinds:
        what = f"mkfs.minix {' '.join(map(str, words)).replace(str(bad), 'LIST')} of {blocks} blocks: mfmig "
        why = mkfs_minix(peers, old, blocks, *words)
        if why:
            tally.skip(what + "takes it, or says why not", f"mkfs.minix: {why}")
        elif refusal:
            said = ours.migrate(old, folder / "form-3.img", 300)[1]
            tally.judge(f"{what}says {refusal}", "" if said == refusal else f"it says {said or 'nothing'}")
        else:
            _, why = ours.migrate(old, folder / "form-3.img", min(blocks + 1, 65536))
            found = why or ours.check(folder / "form-3.img")
            tally.judge(f"{what}makes a volume that mfsck finds clean", "" if found == "clean" else f"it says {found}")


def beside_linux(tally, ours, linux, folder, made, told):
    """Migrates what Linux filled, and compares what mfs and Linux tell of the new volumes with what Linux told of the old ones."""
    fresh = {}
    for name, (_, _, refusal) in made.items():
        old, new = folder / f"old-{name}.img", folder / f"new-{name}.img"
        if refusal:
            said = ours.migrate(old, new, 65536)[1]
            tally.judge(f"{name}, filled by Linux: mfmig says {refusal}", "" if said == refusal else f"it says {said or 'nothing'}")
        elif f"old-{name}.room" not in told:
            why = told.get(f"old-{name}.error", b"nothing was told").decode("latin-1").strip()
            tally.judge(f"{name}: Linux tells of it", why)
        else:
            tree = wanted_tree(told, f"old-{name}", made[name][0] + 1)
            if is_migrated(tally, ours, name, old, new, tree):
                fresh[name] = tree
                beside_old(tally, ours, folder, name, new, tree)
    told, why = linux.boot("migrated", {f"new-{name}": folder / f"new-{name}.img" for name in fresh},
                           "".join(f"look new-{name}\n" for name in fresh))
    if told is None:
        tally.skip("migrated volumes beside Linux", why)
        return
    for name, tree in fresh.items():
        told_new = linux_tree(told, f"new-{name}") if not why and f"new-{name}.room" in told else None
        fault = differences(told_new, tree, ("Linux in the new one", "Linux in the old one")) if told_new else why or "nothing was told"
        tally.judge(f"{name}, migrated: Linux finds the old volume's {len(tree.nodes)} nodes in the new one", fault)


def pages_of(size):
    return -(-size // 1024)


def zones_for(pages):
    """How many zones the first pages of a file take, with their indirect blocks; it has no page below the triple one."""
    return pages + (pages > 7) + (pages > 263) + max(0, -(-(pages - 263) // 256))


def first_zone(blocks, inodes):
    """The first data zone of a new volume with blocks of 1024 bytes, as docs/FORMAT.md has it."""
    return 2 + pages_of(-(-(inodes + 1) // 8)) + pages_of(-(-blocks // 8)) + pages_of(64 * inodes)


def wanted_tree(told, name, blocks):
    """What is to be told of a new volume of so many blocks, by what Linux told of the old one. Entries have 64 bytes, and none is free."""
    tree = linux_tree(told, name)
    _, zones, free, inodes, free_inodes = tree.room
    used = zones - free
    names = {}
    for path in tree.nodes:
        above = path.rsplit(b"/", 1)[0] or b"/"
        names[above] = names.get(above, 0) + (path != b"/")
    for path, node in tree.nodes.items():
        if stat.S_ISDIR(node[1]):
            size = 64 * (2 + names.get(path, 0))
            used += zones_for(pages_of(size)) - zones_for(pages_of(node[5]))
            tree.nodes[path] = (*node[:5], size, *node[6:])
    first = first_zone(blocks, inodes)
    tree.room = (1024, blocks - first, blocks - first - used, inodes, free_inodes)
    return tree


def is_migrated(tally, ours, name, old, new, tree):
    """Whether mfmig makes the new volume, with the line that its room wants, and refuses to make one that is a block too small."""
    _, zones, free, inodes, _ = tree.room
    blocks = next(it for it in range(65537) if it - first_zone(it, inodes) == zones)
    small = next(it for it in range(65537) if it - first_zone(it, inodes) == zones - free)
    before = old.read_bytes()
    line, why = ours.migrate(old, new, blocks)
    wanted = f"first {blocks - zones} zones {zones} free {free}"
    fault = why or ("" if line == wanted else f"it says {line}") or ("" if old.read_bytes() == before else "it wrote the old volume")
    tally.judge(f"{name}, filled by Linux: mfmig says {wanted}", fault)
    if fault:
        return False
    tight = new.with_name("tight.img")
    line, why = ours.migrate(old, tight, small)
    _, refused = ours.migrate(old, tight.with_name("none.img"), small - 1)
    found = why or ours.check(tight)
    fault = "" if (found, refused) == ("clean", "migrate refusal 4") else f"{line} {found}; {refused or 'one block less is taken'}"
    tally.judge(f"{name}, filled by Linux: mfmig fills {small} blocks to the last, and says migrate refusal 4 of one block less", fault)
    return True


def beside_old(tally, ours, folder, name, new, tree):
    """What mfsck and mfs say of a new volume, beside what Linux told of the old one."""
    found = ours.check(new)
    tally.judge(f"{name}, migrated: mfsck says clean", "" if found == "clean" else f"it says {found}")
    if name == "links":  # too many names to look at each
        script = folder / "look.txt"
        script.write_bytes(script_of([b"stat /z/1/0", b"stat /z/151/216"]))
        sessions, why = ours.play(new, [script])
        nodes = sessions and [attributes(it) for it in sessions[0]]
        seen = tree.nodes.get(b"/z/1/0")
        fault = "" if nodes == [seen, seen] and seen[2] == SERVED else f"{why} {nodes} {seen}"
        tally.judge(f"{name}, migrated: mfs finds {SERVED} links", fault)
        return
    mine, faults = from_image(ours, folder, new)
    tally.judge(f"{name}, migrated: mfs reads {len(mine.nodes)} nodes as Linux read them in the old volume",
                "; ".join((faults + without_listings(mine))[:3]) or differences(mine, tree, ("mfs", "Linux")))
