"""What a loss of power may leave of two files that a program writes, by its system calls."""
import os, re, subprocess

UNIT, SECTOR = 4096, 512
CALLS = "openat,close,fcntl,write,pwrite64,fsync,fdatasync,ftruncate"


def noted(words, messages, files, trace):
    """Runs a program on these messages, and notes what its first thread does: ("write", file, at, bytes), ("sync", file) and ("answer",) at
    each fsync of 9P that it answers ok, the files by their place in `files`."""
    words = ["strace", "-o", trace, "-xx", "-s", str(1 << 24), "-e", f"trace={CALLS}", *words]
    with open(messages, "rb") as given:
        subprocess.run(words, stdin=given, stdout=subprocess.DEVNULL, stderr=subprocess.DEVNULL, env=dict(os.environ, ASAN_OPTIONS="detect_leaks=0"))
    names = {os.fspath(it): at for at, it in enumerate(files)}
    events, opened = [], {}
    with open(trace) as lines:
        for line in lines:
            event = event_of(line, names, opened)
            if event:
                events.append(event)
    return events


def plain(quoted):
    return bytes.fromhex(quoted.replace("\\x", ""))


def event_of(line, names, opened):
    """What a line of strace tells; `opened` are the files by their descriptors, and is kept."""
    call, _, rest = line.partition("(")
    done = re.search(r"\) += (-?\d+)", line)
    if not done or int(done[1]) < 0:
        return None
    if call == "openat":
        opened[int(done[1])] = names.get(plain(re.search(r'"([^"]*)"', rest)[1]).decode())
    elif call == "close":
        opened.pop(int(re.match(r"\d+", rest)[0]), None)
    elif call == "fcntl":
        if "F_DUPFD" in rest:
            opened[int(done[1])] = opened.get(int(re.match(r"\d+", rest)[0]))
    elif call == "write" and rest.startswith("1, "):
        answer = plain(re.search(r'"([^"]*)"', rest)[1])
        return ("answer",) if answer[4:5] == b"\x33" else None
    else:
        return file_event(call, rest, int(done[1]), opened.get(int(re.match(r"\d+", rest)[0])))
    return None


def file_event(call, rest, done, file):
    if file is None:
        return None
    if call == "pwrite64":
        at = int(re.search(r'", \d+, (\d+)\)', rest)[1])
        return "write", file, at, plain(re.search(r'"([^"]*)"', rest)[1])[:done]
    if call in ("fsync", "fdatasync"):
        return "sync", file
    raise ValueError(f"{call} isn't known of a file that is kept")


def drawn_unit(draw, versions):
    """What a unit may hold of which there are these versions, the first one synced."""
    how = draw.random()
    if how < 0.7:
        return draw.choice(versions)
    if how < 0.85:
        return b"".join(draw.choice(versions)[at:at + SECTOR] for at in range(0, UNIT, SECTOR))
    return draw.randbytes(UNIT)


def unit_of(bytes_, n):
    return bytes_[n * UNIT:(n + 1) * UNIT].ljust(UNIT, b"\0")


def noted_units(known, synced, at, bytes_):
    """Adds a write at a place to the versions of the units that it touches."""
    for n in range(at // UNIT, (at + len(bytes_) - 1) // UNIT + 1):
        versions = known.setdefault(n, [unit_of(synced, n)])
        unit, begin, end = bytearray(versions[-1]), max(at, n * UNIT), min(at + len(bytes_), (n + 1) * UNIT)
        unit[begin - n * UNIT:end - n * UNIT] = bytes_[begin - at:end - at]
        versions.append(bytes(unit))


def with_units(bytes_, units, length):
    """These bytes with some units in their places, and so many of them."""
    whole = bytearray(bytes_.ljust(-(-length // UNIT) * UNIT, b"\0"))
    for n, unit in units.items():
        whole[n * UNIT:(n + 1) * UNIT] = unit
    return bytes(whole[:length])


def drawn_file(draw, first, events):
    """What a loss of power leaves of a file that had these bytes, after its writes and syncs."""
    synced, known, length = first, {}, len(first)
    for event in events:
        if event[0] == "sync":
            synced, known = with_units(synced, {n: it[-1] for n, it in known.items()}, length), {}
        elif event[3]:
            _, _, at, bytes_ = event
            length = max(length, at + len(bytes_))
            noted_units(known, synced, at, bytes_)
    left = with_units(synced, {n: drawn_unit(draw, it) for n, it in known.items()}, length)
    # a length that wasn't synced may be the old one, or one in between
    return left[:draw.choice([length, draw.randint(len(synced), length)])]


def drawn_state(draw, first, events):
    """What a loss of power may leave of both files, behind these events."""
    return tuple(drawn_file(draw, bytes_, [it for it in events if it[0] != "answer" and it[1] == file]) for file, bytes_ in enumerate(first))


def put_files(files, contents):
    """Gives files these bytes, the last file first: so a log, which is named first, isn't older than its image. Each stays the file that it
    is."""
    for file, bytes_ in reversed(list(zip(files, contents))):
        with open(file, "r+b" if os.path.exists(file) else "wb") as to:
            to.truncate(0)
            to.write(bytes_)
