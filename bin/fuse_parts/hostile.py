"""Messages that no kernel sends: each is answered once, by its number, or not at all, and the volume stays clean."""
import random, struct, subprocess
from .rows import Wrong, row, same
from .volume import Volume

HEAD = struct.Struct("<IIQQIIII")  # size, type, number, node, user, group, process, nothing
SILENT = (2, 36, 42)  # FORGET, INTERRUPT, BATCH_FORGET
INIT = struct.pack("<IIII", 7, 31, 131072, 0)
# Types with fields before their names: how many bytes.
NAMED = {1: 0, 6: 0, 8: 16, 9: 8, 10: 0, 11: 0, 12: 8, 13: 8, 35: 16, 45: 16}
FIELDS = {2: 8, 3: 16, 4: 88, 5: 0, 14: 8, 15: 40, 16: 40, 17: 0, 18: 24, 20: 16, 25: 16, 27: 8, 28: 40, 29: 24, 30: 16, 34: 8, 42: 40,
          44: 40}
NAMES = [b"a", b"b", b"c", b"", b".", b"..", b"x/y", b"n" * 60, b"n" * 61, b"\xff"]


def number(draw, size):
    """Bytes of a field: small numbers, the largest, or any."""
    value = draw.choice([0, 1, 2, 3, 8, 0o100644, 0o40755, 4096, 65536, 2**31, 2**32 - 1, draw.getrandbits(8 * size)])
    return (value % 2 ** (8 * size)).to_bytes(size, "little")


def body(draw, kind):
    if draw.random() < 0.1:
        return draw.randbytes(draw.randrange(100))
    fields = b"".join(number(draw, 4) for _ in range(NAMED.get(kind, FIELDS.get(kind, 12)) // 4))
    if kind in NAMED:
        count = 2 if kind in (6, 12, 45) else 1
        fields += b"".join(draw.choice(NAMES) + b"\0" for _ in range(count))
    if kind == 16:  # as many bytes are written as it says
        data = draw.randbytes(draw.choice([0, 1, 5000, 65536]))
        handle, offset = struct.pack("<Q", draw.randrange(4)), struct.pack("<Q", draw.choice([0, 1, 4096, 2**31, 2**64 - 1]))
        fields = handle + offset + struct.pack("<I", len(data)) + fields[20:] + data
    return fields[:draw.randrange(len(fields) + 1)] if draw.random() < 0.1 else fields


def message(draw, count):
    """A message with this number, whose size is right."""
    kind = draw.choice([*NAMED, *FIELDS, draw.getrandbits(6), draw.getrandbits(32)]) if count else 26
    told = body(draw, kind) if count else INIT
    node = draw.choice([1, 1, 1, 2, 3, 4, 0, draw.getrandbits(64)])
    users = (draw.choice([0, 5, 65536, 2**32 - 1]) for _ in range(3))
    return kind, HEAD.pack(40 + len(told), kind, count, node, *users, 0) + told


def numbers_of(answers):
    """The number of each answer in these bytes."""
    found, at = [], 0
    while at < len(answers):
        size, error, number_ = struct.unpack_from("<IiQ", answers, at)
        if size < 16 or at + size > len(answers) or not -4096 < error <= 0 or error and size != 16:
            raise Wrong(f"an answer of {size} bytes with error {error}")
        found.append(number_)
        at += size
    return found


@row("ends", "hostile")
def hostile(trial):
    with Volume(trial, "hostile") as volume:
        for seed in range(3):
            draw = random.Random(f"{trial.seed} hostile {seed}")
            messages = [message(draw, count) for count in range(3000)]
            asked = volume.home / "asked"
            asked.write_bytes(b"".join(it for _, it in messages))
            with open(asked, "rb") as asked:
                done = subprocess.run([trial.program, volume.image, "--out", volume.image], stdin=asked, capture_output=True, timeout=600)
            if done.returncode != 0:
                raise Wrong(f"status {done.returncode}: {done.stderr[:300].decode('utf-8', 'replace')}")
            wanted = [count for count, (kind, _) in enumerate(messages) if kind not in SILENT]
            found = numbers_of(done.stdout)
            same("the first number that isn't answered in turn", next((b for a, b in zip(found, wanted) if a != b), None), None)
            same("the answers", len(found), len(wanted))
            volume.check()
