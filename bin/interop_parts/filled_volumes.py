"""Volumes that Linux fills."""
import struct
from .common import LAST, PARTITIONS, ROOT, SERVED
from .new_volumes import mkfs_minix
from .trees import Tree, attributes, differences, linux_tree, look_lines, places_of, script_of, tree_told, walk, without_listings

FIRST = [": > a", ": > b", "mkdir d", "echo 1 > d/e"]
# A volume's name, what Linux does with it, and what mfsck says.
ODD = [
    ("symlinks", ["mkdir d", "echo 1 > d/f", "ln -s d/f r", "ln -s /d/f a", "ln -s ../d d/e", "ln -s . d/s", "ln -s f d/g", "ln -s none n",
                  "ln -s self self", "ln -s / root", "ln r hard", "ln -s $(printf %060d 0) s60", "ln -s $(printf %061d 0) s61",
                  "ln -s $(printf %01023d 0) s1023", "chown -h 5:7 r", "for i in $(seq 9); do ln -s l$((i - 1)) l$i; done"], "clean"),
    ("long-target", ["ln -s $(printf %01023d 0) t", "ln -s $(printf %01024d 0) s"], "finding 17 at 3"),
    ("device", ["mknod d c 1 3"], "finding 5 at 2"),
    ("fifo", ["mkfifo p"], "finding 5 at 2"),
    ("setuid", [": > f", "chmod 4755 f"], "finding 5 at 2"),
    ("sticky", ["mkdir t", "chmod 1777 t"], "finding 5 at 2"),
    ("removed", [*FIRST, "rm a"], "finding 13 at 1"),
    ("removed-dir", [*FIRST, "rm d/e", "rmdir d"], "finding 13 at 1"),
    ("moved", [*FIRST, "mv d/e f"], "finding 13 at 4"),
    ("taken-again", [*FIRST, "rm a", ": > c"], "clean"),
    ("links", ["mkdir -p z/1", ": > z/1/0", "for i in $(seq 216); do ln z/1/0 z/1/$i; done",
               "for i in $(seq 2 151); do cp -rl z/1 z/$i; done"], "clean"),  # 217 by 151 is 32767
    ("one-link-more", [], "finding 16 at 4"),
    ("orphan", ["exec 9> f", "rm f", ": > g", "sync", "cat $(disk orphan) > $(disk pulled)", "exec 9>&-"], "clean"),
    ("pulled", [], "finding 16 at 2"),
    ("copied", [], "clean"),
]


def fill(chance, block, longest=60):
    """Lines of a shell that fill a volume by the seed, with no name taken away and none longer than so many bytes."""
    folders, files, links, lines = ["."], [], [], []
    def new():
        while True:
            name = chance.choice(["n%d", "Name-%d.txt", "x%d" + "x" * 56, "\xff\xe9%d", ".%d", "%d~"]) % chance.randint(0, 999)
            path = f"{chance.choice(folders)}/{name[:longest]}"
            if path not in files + folders + links:
                return path
    for at in range(160):
        kind = chance.random() if files else 0
        if kind < .35:
            files.append(new())
            lines.append(f"yes {chance.randint(0, 99)} | head -c {chance.choice([0, 1, 100, block, 3000, 9000])} > '{files[-1]}'")
        elif kind < .5:
            folders.append(new())
            lines.append(f"mkdir '{folders[-1]}'")
        elif kind < .6:
            files.append(new())
            lines.append(f"ln '{chance.choice(files[:-1])}' '{files[-1]}'")
        elif kind < .64:
            links.append(new())
            lines.append(f"ln -s '{chance.choice([*files, *folders, *links, 'none'])}' '{links[-1]}'")
        elif kind < .7:
            at, path = chance.choice([chance.randint(0, 30000), 7 * block, (7 + block // 4) * block - 3]), chance.choice(files)
            lines.append(f"echo word | dd of='{path}' bs=1 seek={at} conv=notrunc 2> /dev/null")
        elif kind < .76:
            lines.append(f"truncate -s {chance.choice([0, 10, 3000, 30000])} '{chance.choice(files)}'")
        else:
            path = chance.choice(files + folders)
            lines.append(chance.choice([f"chmod {chance.randint(0, 0o777):o} '{path}'",
                                        f"chown {chance.choice([0, 5, 65535])}:{chance.choice([0, 7, 65535])} '{path}'",
                                        f"touch -d @{chance.choice([0, 1, LAST, LAST + 1, (1 << 32) - 1])} '{path}'"]))
    far = places_of(block)[-2] - 10
    lines.append(f"yes far | head -c 9000 | dd of=./far bs=1 seek={far} 2> /dev/null; truncate -s {LAST} ./long")
    return lines


def filled_volumes(tally, ours, peers, linux, chance, folder):
    """Boots Linux, which fills volumes; compares what it told of each with what mfs tells, and tells those that mfs reads."""
    disks, job = {}, ["date -s @1100000000 > /dev/null"]
    for block in (1024, 2048, 4096):
        image = disks[f"filled-{block}"] = folder / f"filled-{block}.img"
        made = block == 1024 and peers.find("mkfs.minix") and not mkfs_minix(peers, image, 1200, "-3", "-i", "240")
        if not made:
            ours.make(image, 1200 if block == 1024 else 1600 * 1024 // block, 240, block)
        job += [f"begin filled-{block}", *fill(chance, block), "end", f"look filled-{block}"]
    for name, lines, wanted in ODD:
        image, blocks = folder / f"{name}.img", 3000 if "link" in name and name != "symlinks" else 200
        if name == "long-target":  # blocks of 1024 have no room for one
            ours.make(image, blocks, 320, 2048)
        elif not peers.find("mkfs.minix") or mkfs_minix(peers, image, blocks, "-3", "-i", "320"):
            ours.make(image, blocks, 320, 1024)
        disks[name] = image
        job += [f"begin {name}", *lines, "end"] if lines else {
            "one-link-more": ["cat $(disk links) > $(disk one-link-more)", "begin one-link-more", "ln z/1/0 more", "end"], "pulled": [],
            "copied": ["mount -t minix -o ro $(disk removed) /to", "begin copied", "cp -a /to/. .", "end", "umount /to"]}[name]
        job += [f"look {name}"]
    told, why = linux.boot("filled", disks, "\n".join(job) + "\n")
    if told is None:
        tally.skip("volumes that Linux made and filled", why)
        return {}
    if why:
        tally.judge("Linux fills volumes", why)
        return {}
    for name in disks:
        wanted = next((it for one, _, it in ODD if one == name), "clean")
        beside_linux(tally, ours, folder, disks[name], name, told, wanted)
    return {name: image for name, image in disks.items() if name.startswith("filled-") and ours.check(image) == "clean"}


def beside_linux(tally, ours, folder, image, name, told, wanted):
    """Of a volume that Linux changed: what mfsck and mfs say of it, beside what Linux told."""
    found = ours.check(image)
    tally.judge(f"{name}, filled by Linux: mfsck says {wanted}", "" if found == wanted else f"it says {found}")
    if found != "clean":
        _, why = ours.play(image, [ROOT / "examples/stat.txt"])
        fault = "" if why == f"Mount Inconsistent {found}" else f"it says {why or 'nothing'}"
        tally.judge(f"{name}, filled by Linux: mfs refuses it", fault)
        return
    if name == "links":  # too many names to look at each
        one = folder / "look.txt"
        one.write_bytes(script_of([b"stat /z/1/0"]))
        sessions, why = ours.play(image, [one])
        node, seen = sessions and attributes(sessions[0][0]), linux_tree(told, name).nodes.get(b"/z/1/0")
        fault = "" if node and node == seen and node[2] == SERVED else f"{why} {node} {seen}"
        tally.judge(f"{name}, filled by Linux: mfs finds {SERVED} links", fault)
        return
    tree, faults = from_image(ours, folder, image)
    tally.judge(f"{name}, filled by Linux: mfs reads {len(tree.nodes)} nodes as Linux does", fault_beside(tree, faults, told, name, ""))


def from_image(ours, folder, image, minor=0, seen=None):
    """All of a volume, as mfs tells it of its image, whose paths `seen` may have; and what is wrong with that."""
    why = ""
    if seen is None:
        seen, why = walk(ours, folder, image, minor)
    if seen is None:
        return Tree(), [f"mfs: {why}"]
    script = folder / "look.txt"
    asked = look_lines(seen, block_of(image, minor))
    script.write_bytes(script_of(asked))
    sessions, why = ours.play(image, [script], minor)
    return tree_told(sessions[0], asked) if sessions else (Tree(), [f"mfs: {why}"])


def block_of(image, minor=0):
    start = minor and 512 * (1 + PARTITIONS * (minor - 1))
    with open(image, "rb") as file:
        file.seek(start + 1024 + 28)
        return struct.unpack("<H", file.read(2))[0]


def fault_beside(tree, faults, told, name, why):
    """What differs between what mfs tells and what Linux told, or nothing."""
    faults = faults + without_listings(tree)
    if faults:
        return "; ".join(faults[:3])
    if f"{name}.room" not in told:
        return why or f"Linux: {told.get(name + '.error', b'nothing was told').decode('latin-1').strip()}"
    return differences(tree, linux_tree(told, name), ("mfs", "Linux"))
