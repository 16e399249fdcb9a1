"""What the installed programs print and make, beside what the pages, the examples and the definitions say."""
import hashlib, os, re, sys
from .common import DOC, PROGRAMS, ROOT, SCRIPTS, run, said

VOLUME = ("--blocks", "64", "--inodes", "32", "--block-size", "1024", "--now", "50")
EXAMPLES = f"/{DOC}/examples"
# A file of 5000 bytes takes five of the 57 free zones, and one of the 31 free inodes.
PATTERN = bytes((at * 7 + at // 251) & 255 for at in range(5000))
WRITES = f"user 0 0\n100 open /b rwc 644\n100 write 0 {PATTERN.hex()}\n100 statfs\n100 sync\n"
WROTE = "session 0\nfd 0\nwrote 5000\nblock 1024 zones 58 free 52 inodes 32 free 30\nok\n"
READS = "user 7 7\n200 open /b r 0\n200 read 0 5000\n200 open /b w 0\n"
# What examples/fill.txt is answered: two folders and a file of 8 bytes take a zone and an inode each.
FILLED = "session 0\nok\nok\nok\nfd 0\nwrote 8\nok\nblock 1024 zones 58 free 54 inodes 32 free 28\n"


class Trial:
    """Runs programs in a root, and judges what they print."""

    def __init__(self, tally, root):
        self.tally, self.root = tally, root

    def judge(self, words, output, status=0, **how):
        """A program ends with a status and has this output, which may be bytes, and none on standard error. Returns its output."""
        name, *rest = words
        done = self.root.run([f"/usr/bin/{name}", *rest], **how)
        wanted = output.encode() if isinstance(output, str) else output
        right = done.returncode == status and done.stdout == wanted and not done.stderr
        self.tally.judge(" ".join(words), "" if right else said(done))
        return done.stdout

    def holds(self, what, is_so, fault="it isn't so"):
        self.tally.judge(what, "" if is_so else fault)

    def sum(self, name):
        """The checksum of a file in the work folder; empty where there is none."""
        place = self.root.work / name
        return hashlib.sha256(place.read_bytes()).hexdigest() if place.is_file() else ""

    def put(self, name, data):
        """Makes a file in the work folder."""
        (self.root.work / name).write_bytes(data.encode() if isinstance(data, str) else data)
        os.chmod(self.root.work / name, 0o644)


def readme_answers(root):
    """What README says that the second of its two commands prints."""
    text = (root.folder / DOC / "README.md").read_text(encoding="utf-8")
    found = re.search(r"the answer to each call:\n\n((?:    .*\n)+)", text)
    return re.sub(r"^    ", "", found[1], flags=re.M) if found else "no answers stand in README\n"


def try_words(trial, packages):
    """-V, --version and --help of each program."""
    for name in PROGRAMS:
        trial.judge([name, "-V"], f"{name} {packages.version}\n")
        trial.judge([name, "--version"], packages.long_version(name))
        done = trial.root.run([f"/usr/bin/{name}", "--help"])
        right = done.returncode == 0 and f"\nUsage: {name} ".encode() in done.stdout and not done.stderr
        trial.tally.judge(f"{name} --help", "" if right else said(done))
        done = trial.root.run([f"/usr/bin/{name}", "--no-such-word"])
        trial.tally.judge(f"{name} --no-such-word is refused", "" if done.returncode == 2 and not done.stdout else said(done))


def try_scripts(trial):
    """--help of each script, by this machine's python3 or sh: a root may have none."""
    for name in SCRIPTS:
        place = trial.root.folder / "usr/bin" / name
        done = run([sys.executable if b"python3" in place.read_bytes().split(b"\n", 1)[0] else "sh", place, "--help"])
        right = done.returncode == 0 and f"\nusage: {name} ".encode() in b"\n" + done.stdout and not done.stderr
        trial.tally.judge(f"{name} --help", "" if right else said(done))


def try_volume(trial):
    """A volume is made, filled and read; the sums of what comes of it are right."""
    trial.judge(["mkmfs", "v.img", *VOLUME], "first 6 zones 58 free 57\n")
    example = hashlib.sha256((trial.root.folder / f"{EXAMPLES[1:]}/v.img").read_bytes()).hexdigest()
    trial.holds("v.img has the sum of the example", trial.sum("v.img") == example, trial.sum("v.img"))
    trial.judge(["mfsck", "v.img"], "clean\n")
    trial.judge(["mfs", "v.img", f"{EXAMPLES}/fill.txt", "--out", "w.img"], FILLED)
    trial.judge(["mfs", "w.img", f"{EXAMPLES}/look.txt"], readme_answers(trial.root))
    trial.judge(["mfsck", "w.img"], "clean\n")
    trial.holds("v.img is as it was", trial.sum("v.img") == example, trial.sum("v.img"))
    trial.put("writes.txt", WRITES)
    trial.put("reads.txt", READS)
    trial.judge(["mfs", "v.img", "writes.txt", "--out", "v.img"], WROTE)
    told = trial.judge(["mfs", "v.img", "reads.txt"], f"session 0\nfd 0\nbytes {PATTERN.hex()}\nEACCES\n").decode()
    read = re.findall(r"^bytes ([0-9a-f]*)$", told, re.M)
    sums = [hashlib.sha256(bytes.fromhex(it)).hexdigest() for it in read]
    trial.holds("the 5000 bytes that are read have the sum of those written", sums == [hashlib.sha256(PATTERN).hexdigest()], f"{sums}")
    trial.judge(["mfsck", "v.img"], "clean\n")


def try_others(trial):
    """Schedules with their transcripts, a volume of version 2, and messages of 9P."""
    for name, status in (("death", 0), ("hang", 0), ("torn", 0), ("given-up", 3)):
        transcript = (trial.root.folder / f"{EXAMPLES[1:]}/{name}.transcript").read_bytes()
        trial.judge(["mfssim", f"{EXAMPLES}/v.img", f"{EXAMPLES}/{name}.txt"], transcript, status)
    old, nine = ROOT / "crates/mfmig", ROOT / "crates/mfs9p"
    trial.put("old.img", (old / "data/old.img").read_bytes())
    trial.judge(["mfmig", "old.img", "new.img", "--blocks", "64"], (old / "stdout").read_bytes())
    trial.judge(["mfsck", "new.img"], "clean\n")
    trial.put("nine.img", (nine / "data/v.img").read_bytes())
    messages = (nine / "stdin").read_bytes()
    trial.judge(["mfs9p", "nine.img", "--out", "left.img"], (nine / "stdout").read_bytes(), input=messages)
    trial.judge(["mfsck", "left.img"], "clean\n")


def try_programs(tally, packages, root):
    """Runs all of them in the root's work folder, where only what was asked for is left."""
    trial = Trial(tally, root)
    try_words(trial, packages)
    try_scripts(trial)
    try_volume(trial)
    try_others(trial)
    left = sorted(it.name for it in root.work.iterdir() if it.suffix != ".deb")
    wanted = ["left.img", "new.img", "nine.img", "old.img", "reads.txt", "v.img", "w.img", "writes.txt"]
    trial.holds("the programs left their images, and nothing else", left == wanted, f"{left}")
