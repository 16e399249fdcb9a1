"""A volume's tree, as mfs or Linux tells it."""
import hashlib, re, stat
from .common import LAST, WHOLE, WINDOW


class Tree:
    """What is told of a volume: attributes and checksums by path, and the volume's room."""

    def __init__(self):
        self.nodes = {}  # path: (inode, mode, links, uid, gid, size, atime, mtime, ctime)
        self.sums = {}  # path, or path and place of a window: MD5; of a symbolic link that of its target
        self.data = {}  # what has a sum: its bytes, where mfs told them
        self.room = None  # (block size, zones, free zones, inodes, free inodes)

    def files(self):
        return [it for it, node in self.nodes.items() if stat.S_ISREG(node[1])]

    def links(self):
        return [it for it, node in self.nodes.items() if stat.S_ISLNK(node[1])]

    def folders(self):
        return [it for it, node in self.nodes.items() if stat.S_ISDIR(node[1])]

    def windows(self, block):
        """Of the files that are too long to be compared whole: the windows to compare."""
        long = [it for it in self.files() if self.nodes[it][5] > WHOLE]
        return [(path, at) for path in long for at in windows_of(self.nodes[path][5], block)]


def places_of(block):
    """Places in a file at which another depth of indirect blocks begins, and the last one."""
    by = block // 4
    return [it for it in (7 * block, (7 + by) * block, (7 + by + by * by) * block) if it < LAST] + [LAST - 1]


def windows_of(size, block):
    ends = {0, (size - 1) // WINDOW}
    for place in places_of(block):
        ends |= {place // WINDOW - 1, place // WINDOW, place // WINDOW + 1}
    return sorted(it for it in ends if it * WINDOW < size)


def joined(folder, name):
    return folder + name if folder == b"/" else folder + b"/" + name


def shown(path):
    return path.decode("latin-1").encode("unicode_escape").decode()


def differences(one, two, names):
    """What two trees differ in: the first things, and how many more."""
    found = []
    for path in sorted(set(one.nodes) | set(two.nodes)):
        if one.nodes.get(path) != two.nodes.get(path):
            found.append(f"{shown(path)} is {told(one.nodes.get(path))} to {names[0]}, {told(two.nodes.get(path))} to {names[1]}")
    for key in sorted(set(one.sums) | set(two.sums), key=repr):
        if one.sums.get(key) != two.sums.get(key):
            found.append(f"bytes or target of {shown(key) if isinstance(key, bytes) else f'{shown(key[0])} from {key[1] * WINDOW}'}")
    if one.room != two.room:
        found.append(f"room is {one.room} to {names[0]}, {two.room} to {names[1]}")
    more = f"; and {len(found) - 3} more" if len(found) > 3 else ""
    return "; ".join(found[:3]) + more


def told(node):
    return "(inode %d mode %o links %d uid %d gid %d size %d times %d %d %d)" % node if node else "missing"


def attributes(line):
    found = re.fullmatch(rb"inode (\d+) mode ([0-7]+) links (\d+) uid (\d+) gid (\d+) size (\d+) times (\d+) (\d+) (\d+)", line)
    return tuple(int(it, 8 if at == 1 else 10) for at, it in enumerate(found.groups())) if found else None


def names_in(line):
    """The names of a folder with their inodes, as mfs tells them."""
    words = line.split()
    return {bytes.fromhex(name.decode()): int(inode) for name, inode in (it.split(b":") for it in words[2:])}


def script_of(lines, user=(0, 0), now=1000000000):
    return b"user %d %d\n" % user + b"".join(b"%d %s\n" % (now, it) for it in lines)


def walk(ours, folder, image, minor=0, guess=()):
    """A tree of all paths with their attributes, with no bytes; or why there is none. It takes a play for each depth that `guess` lacks."""
    tree, todo = Tree(), sorted({b"/", *guess})
    script = folder / "walk.txt"
    while todo:
        asked = [line for path in todo for line in (b"lstat " + path, b"open " + path + b" r 0", b"readdir 0", b"close 0")]
        script.write_bytes(script_of(asked))
        sessions, why = ours.play(image, [script], minor)
        if sessions is None:
            return None, why
        below = []
        for at, path in enumerate(todo):
            node, _, listed, _ = sessions[0][4 * at:4 * at + 4]
            if attributes(node):
                tree.nodes[path] = attributes(node)
                below += [joined(path, it) for it in (names_in(listed) if stat.S_ISDIR(tree.nodes[path][1]) else ())]
        todo = [it for it in below if it not in tree.nodes]
    return tree, ""


def look_lines(tree, block):
    """The calls that tell all of a tree whose paths and sizes are those of `tree`."""
    lines = [b"statfs"]
    for path, node in tree.nodes.items():
        lines.append(b"lstat " + path)
        if stat.S_ISLNK(node[1]):
            lines.append(b"readlink " + path)
            continue
        lines.append(b"open " + path + b" r 0")
        if stat.S_ISDIR(node[1]):
            lines.append(b"readdir 0")
        elif node[5] <= WHOLE:
            lines += [b"read 0 65536"] * (node[5] // 65536 + 1)
        else:
            for at in windows_of(node[5], block):
                lines += [b"seek 0 set %d" % (at * WINDOW), b"read 0 %d" % WINDOW]
        lines.append(b"close 0")
    return lines


def tree_told(lines, asked):
    """The tree that the answers to `look_lines` tell; and what no answer should be."""
    tree, path, place, faults = Tree(), b"", 0, []
    for call, answer in zip(asked, lines):
        word, *rest = call.split(b" ")
        if word == b"statfs":
            tree.room = tuple(int(it) for it in re.findall(rb"\d+", answer))
        elif word == b"lstat":
            path = rest[0]
            tree.nodes[path] = attributes(answer)
        elif word == b"readlink":
            tree.data[path] = bytes.fromhex(answer.split()[1].decode()) if answer.startswith(b"bytes ") else answer
        elif word == b"readdir":
            tree.sums[path] = names_in(answer)
        elif word == b"seek":
            place = int(rest[2])
        elif word == b"read":
            data = b"" if answer == b"bytes -" else bytes.fromhex(answer.split()[1].decode())
            key = path if tree.nodes[path][5] <= WHOLE else (path, place // WINDOW)
            tree.data[key] = tree.data.get(key, b"") + data
        if answer.split(b" ")[0] not in (b"block", b"inode", b"fd", b"names", b"bytes", b"at", b"ok"):
            faults.append(f"{shown(call)} is answered {shown(answer)}")
    tree.sums.update((it, hashlib.md5(data).hexdigest()) for it, data in tree.data.items())
    return tree, faults


def without_listings(tree):
    """The tree without its listings, which have to agree with the paths' own inodes; and what in them doesn't."""
    faults = []
    for path in tree.folders():
        listed = tree.sums.pop(path)
        own = {it.rsplit(b"/", 1)[1]: node[0] for it, node in tree.nodes.items() if it != b"/" and (it.rsplit(b"/", 1)[0] or b"/") == path}
        if listed != own:
            faults.append(f"readdir of {shown(path)} doesn't list what stat finds")
    return faults


def linux_tree(told, name):
    """The tree that Linux told of a volume."""
    tree = Tree()
    for line in told[f"{name}.stat"].split(b"\n")[:-1]:
        inode, mode, *rest, path = line.split(b" ", 9)
        tree.nodes[path[1:] or b"/"] = (int(inode), int(mode, 16), *map(int, rest))
    for line in told[f"{name}.sums"].split(b"\n")[:-1]:
        value, path = line.split(b"  ", 1)
        tree.sums[path[1:]] = value.decode()
    for line in told[f"{name}.windows"].split(b"\n")[:-1]:
        value, at, path = line.split(b" ", 2)
        tree.sums[path[1:], int(at)] = value.decode()
    tree.room = tuple(map(int, told[f"{name}.room"].split()))
    return tree
