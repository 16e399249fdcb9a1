"""Volumes that mfs leaves."""
import re, stat, struct, time
from .common import GRUB_ERRS, PARTITIONS, WHOLE, said
from .filled_volumes import block_of, fault_beside, from_image
from .random_calls import Calls
from .trees import Tree, differences, joined, look_lines, script_of, shown, tree_told, walk


CLOSES = [b"close %d" % at for at in range(64)]  # more than a session opens


def play_in_turn(ours, image, scripts, minor):
    """Plays scripts one after the other, each on the image that the one before it left: the answers of each, or why there are none."""
    answers = []
    for script in scripts:
        sessions, why = ours.play(image, [script], minor, image)
        if sessions is None:
            return None, why
        answers += sessions
    return answers, ""


def random_calls(tally, ours, folder, name, image, chance, calls, minor=0):
    """Plays so many random calls on a volume. Tells the tree as the same play tells it after them, and the image that it leaves."""
    what = f"{name}, {calls} calls"
    before, why = walk(ours, folder, image, minor)
    if before is None:
        tally.judge(what, why)
        return None
    block, scripts, left = block_of(image, minor), [], folder / f"{name}.left.img"
    made = Calls(chance, before, block)
    for at, text in enumerate(made.sessions(calls)):
        scripts.append(folder / f"{name}.{at}.txt")
        scripts[-1].write_bytes(text)
    last = folder / f"{name}.last.img"
    last.write_bytes(image.read_bytes())
    answers, why = play_in_turn(ours, last, scripts[:-1], minor)
    ended, why = (None, why) if answers is None else ours.play(last, scripts[-1:], minor, left)
    if ended is None:
        tally.judge(what, f"mfs: {why}")
        return None
    seen, why = walk(ours, folder, left, minor, made.all())
    asked = look_lines(seen or Tree(), block)
    look, again = folder / "look.txt", folder / f"{name}.again.img"
    look.write_bytes(scripts[-1].read_bytes() + script_of([*CLOSES, *asked]).split(b"\n", 1)[1])
    sessions, refusal = ours.play(last, [look], minor, again)
    if sessions is None:
        tally.judge(what, f"mfs: {refusal}")
        return None
    tree, faults = tree_told(sessions[0][-len(asked):], asked)
    later, more = from_image(ours, folder, left, minor, seen)
    same = left.read_bytes() == again.read_bytes()
    again.unlink()
    last.unlink()
    done = sum(it != it.upper() for session in answers + ended for it in session)
    fault = "; ".join((faults + more)[:3]) or why or differences(tree, later, ("the play", "a later one"))
    tally.judge(f"{what} ({done} not refused): a later play tells of the image what this one tells in the end",
                fault or ("" if same else "the image isn't the same after the look"))
    return tree, left


def grub_lists(tally, peers, name, image, tree):
    """GRUB's list of each folder, beside what mfs tells."""
    faults = []
    for path in tree.folders():
        wanted = {}
        for it, node in tree.nodes.items():
            if it != b"/" and (it.rsplit(b"/", 1)[0] or b"/") == path:
                wanted[it.rsplit(b"/", 1)[1]] = (None if stat.S_ISDIR(node[1]) else node[5], node[7])
        done = peers.run("grub-fstest", image, "--", "ls", "-l", "-a", b"(loop0)" + path.rstrip(b"/") + b"/")
        found = {}
        for size, day, it in re.findall(rb"^(DIR|\d+) +(\d{14}) ([^\n]*)\n", done.stdout, flags=re.M):
            if it not in (b"./", b"../"):
                found[it[:-1] if size == b"DIR" else it] = (None if size == b"DIR" else int(size), day)
        linked = {it.rsplit(b"/", 1)[1] for it in tree.links() if (it.rsplit(b"/", 1)[0] or b"/") == path}
        for it in sorted((set(wanted) | set(found)) - linked):  # of a link GRUB tells what it leads to
            size, changed = wanted.get(it, (None, 0))
            day = time.strftime("%Y%m%d%H%M%S", time.gmtime(changed)).encode() if changed < GRUB_ERRS else found.get(it, (0, b""))[1]
            if it not in wanted or found.get(it) != (size, day):
                faults.append(f"{shown(joined(path, it))} is {found.get(it)} to GRUB, {(size, day) if it in wanted else None} to mfs")
    tally.judge(f"{name}: GRUB lists the names, sizes and times that mfs tells", "; ".join(faults[:3]))


def grub_bytes(tally, peers, name, image, tree):
    """The bytes of each file that isn't long, as GRUB reads them. Where a file has a hole it reads block 0 of the volume."""
    faults, holes, block = [], 0, block_of(image)
    zero = image.read_bytes()[:block]
    short = [it for it in tree.files() if tree.nodes[it][5] <= WHOLE]
    for path in short:
        found, wanted = peers.run("grub-fstest", image, "--", "cat", b"(loop0)" + path).stdout, tree.data[path]
        for at in range(0, max(len(found), len(wanted)), block):
            one, two = found[at:at + block], wanted[at:at + block]
            if one != two and one == zero[:len(two)] and not any(two):
                holes += 1
            elif one != two:
                faults.append(f"{shown(path)} differs in its bytes from {at} on")
    told = f", but for {holes} holes, which it reads as block 0" if holes else ""
    tally.judge(f"{name}: GRUB reads the bytes of {len(short)} files as mfs tells them{told}", "; ".join(faults[:3]))


def partitioned(ours, folder):
    """A disk with a table of three partitions of type 0x81, each with a new volume."""
    disk, table, bodies = folder / "disk.img", bytearray(512), []
    for at, block in enumerate((1024, 2048, 4096)):
        volume = folder / "part.img"
        ours.make(volume, 512 * PARTITIONS // block - 3, 160, block)
        data = volume.read_bytes()
        bodies.append(data + bytes(512 * PARTITIONS - len(data)))
        struct.pack_into("<8BII", table, 446 + 16 * at, 0, 0, 0, 0, 0x81, 0, 0, 0, 1 + PARTITIONS * at, len(data) // 512)
    table[510:] = b"\x55\xaa"
    disk.write_bytes(bytes(table) + b"".join(bodies))
    return disk


def called_volumes(tally, ours, peers, linux, chance, folder, calls, filled):
    """Plays random calls on volumes, and shows what is left to all of the others."""
    volumes, trees, disks, job = dict(filled), {}, {}, []
    for name, block, blocks, inodes in (("calls-1024", 1024, 1200, 240), ("calls-2048", 2048, 700, 240), ("calls-4096", 4096, 400, 240),
                                        ("full-1024", 1024, 220, 64), ("full-4096", 4096, 60, 64)):
        volumes[name] = folder / f"{name}.img"
        ours.make(volumes[name], blocks, inodes, block)
    for name, image in volumes.items():
        played = random_calls(tally, ours, folder, name, image, chance, calls)
        if played:
            trees[name], disks[name] = played
            job.append(f"look {name}")
    disk = partitioned(ours, folder)
    for minor in (1, 2, 3):
        played = random_calls(tally, ours, folder, f"disk-{minor}", disk, chance, calls, minor)
        if played:
            trees[f"disk-{minor}"], disk = played
            disks["disk"] = disk
            job.append(f"look disk-{minor} $(disk disk){minor}")
    for name in trees:
        beside_host(tally, ours, peers, name, disks, trees[name])
    if linux is None:
        return
    told, why = linux.boot("calls", disks, "\n".join(job) + "\n")
    for name, tree in trees.items():
        if told is None:
            tally.skip(f"{name}: Linux", why)
        else:
            fault = fault_beside(tree, [], told, name, why)
            tally.judge(f"{name}: Linux mounts it and finds {len(tree.nodes)} nodes as mfs tells them", fault)


def beside_host(tally, ours, peers, name, disks, tree):
    """What the checks and GRUB say of a volume that mfs left."""
    if name not in disks:
        minor = int(name[-1])
        found = ours.check(disks["disk"], minor)
        tally.judge(f"{name}: mfsck says clean", "" if found == "clean" else found)
        return
    image = disks[name]
    found = ours.check(image)
    tally.judge(f"{name}: mfsck says clean", "" if found == "clean" else found)
    if block_of(image) == 1024 and peers.find("fsck.minix"):
        done = peers.run("fsck.minix", "-f", image)
        tally.judge(f"{name}: fsck.minix -f finds nothing", "" if done.returncode == 0 else said(done))
    if peers.find("grub-fstest"):
        grub_lists(tally, peers, name, image, tree)
        grub_bytes(tally, peers, name, image, tree)
