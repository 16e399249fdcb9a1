"""What a release is made of: its programs, version, commit and kit."""
import hashlib, os, pathlib, re, subprocess
from .common import NAME, PROGRAMS, ROOT, refuse, run, said, told

# The package of Debian that has a library which a program may need.
LIBRARIES = {"libc.so.6": "libc6", "libm.so.6": "libc6", "ld-linux-x86-64.so.2": "libc6", "libgcc_s.so.1": "libgcc-s1"}
SOURCES = ("crates", "crates.txt")
MADE_OF = (*SOURCES, "bin", "man", "docs", "examples", "README.md", "CHANGELOG.md")
GIVEN = "programs of a folder that was named; nothing shows that they are of this commit"
SAME = "programs of a clone with the same crates"
BUILT = "programs proved and built of these sources by bin/NAME"
# What --version tells of a program's commit and kit before it is packed, as crates/host/src/version.rt has it.
COMMIT = "not told, for this program isn't packed."
KIT = "not told: this program wasn't packed."
CHANGED = ", and what was changed since"
TEXT = "\ncommit {}\nkit {}"


class Release:
    """The programs' files, and what is said of them."""

    def __init__(self, folder):
        self.programs = {it: program_of(folder, it) for it in PROGRAMS}
        self.version = version_of(self.programs)
        commit, seconds = told(["git", "-C", ROOT, "log", "-1", "--format=%H%n%ct"]).split("\n")
        self.seconds = int(seconds)
        self.commit = commit + (CHANGED if changed(ROOT, MADE_OF) else "")
        self.kit = told(["rt", "version"])
        self.source = BUILT if folder is None else SAME if is_same(folder) else GIVEN
        self.needs = libraries(self.programs)
        self.packed = {name: self.stamped(name, place.read_bytes()) for name, place in self.programs.items()}

    def stamp(self):
        """What --version tells of commit and kit in a packed program, each with as many bytes as stand there before."""
        commit = self.commit if len(self.commit) == len(COMMIT) else self.commit[: len(COMMIT) - len(", changed")] + ", changed"
        if len(self.kit) > len(KIT):
            refuse(f"the programs have no room for the kit's name, {self.kit}")
        return commit, self.kit.ljust(len(KIT))

    def stamped(self, name, data):
        """A program's bytes, with its commit and its kit in the one place that is kept for them; nothing else is changed. Where nothing
        shows of which commit it is, it stays as it is."""
        if self.source == GIVEN:
            return data
        kept, (commit, kit) = TEXT.format(COMMIT, KIT).encode(), self.stamp()
        if data.count(kept) != 1:
            refuse(f"{name} has {data.count(kept)} places for its commit and its kit")
        made = data.replace(kept, TEXT.format(commit, kit).encode())
        if len(made) != len(data):
            refuse(f"{name} would have another length: {commit}, {kit}")
        return made

    def text(self):
        """The file VERSION. The sums (SHA-256) tell of a program by itself whether it is one of these."""
        sums = "".join(f"{hashlib.sha256(data).hexdigest()}  {name}\n" for name, data in self.packed.items())
        return f"{NAME} {self.version}\ncommit {self.commit}\nkit {self.kit}\n{self.source}\n{sums}"


def changed(clone, paths):
    """Whether something of these paths differs from the commit of a clone."""
    return bool(told(["git", "-C", clone, "status", "--porcelain", "--", *paths]))


def program_of(folder, name):
    """The file of a program, which is built where that is needed and no folder is named."""
    if folder is None:
        if subprocess.run([ROOT / "bin" / name, "--version"], stdout=subprocess.DEVNULL).returncode != 0:
            refuse(f"{name} couldn't be built")
        return ROOT / "crates" / name / "out" / name
    places = [folder / name, folder / "crates" / name / "out" / name]
    for place in places:
        if place.is_file() and os.access(place, os.X_OK):
            return place.resolve()
    refuse(f"there is no program {' or '.join(map(str, places))}")


def version_of(programs):
    """The version that each program says."""
    versions = set()
    for name, program in programs.items():
        done = run([program, "-V"])
        found = re.fullmatch(rf"{name} (\d+\.\d+\.\d+)\n", done.stdout.decode("utf-8", "replace"))
        if done.returncode != 0 or not found:
            refuse(f"{name} -V doesn't say its version: {said(done)}")
        versions.add(found[1])
    if len(versions) != 1:
        refuse(f"the programs are of several versions: {' '.join(sorted(versions))}")
    return versions.pop()


def is_same(folder):
    """Whether a folder is a clone whose commit has the same crates as this one's, and no file of the two is changed."""
    top = run(["git", "-C", folder, "rev-parse", "--show-toplevel"]).stdout.decode().strip()
    if not top or pathlib.Path(top) != folder.resolve():
        return False
    ours, theirs = (run(["git", "-C", it, "rev-parse", *(f"HEAD:{path}" for path in SOURCES)]).stdout for it in (ROOT, folder))
    return ours == theirs and not changed(ROOT, SOURCES) and not changed(folder, SOURCES)


def libraries(programs):
    """The packages of Debian that the programs need, as the field Depends has them; none where all programs are static."""
    found, newest = set(), (0, 0)
    for name, program in programs.items():
        done = run(["ldd", program])
        lines = done.stdout.decode("utf-8", "replace")
        if done.returncode != 0 and "not a dynamic executable" not in lines + done.stderr.decode("utf-8", "replace"):
            refuse(f"ldd {program}: {said(done)}")
        for library in re.findall(r"^\s+(?:\S*/)?(\S+\.so\S*)(?: =>| \()", lines, re.M):
            if library not in LIBRARIES and not library.startswith("linux-vdso"):
                refuse(f"{name} needs {library}, and bin/package knows no package of Debian that has it")
            found.add(LIBRARIES.get(library))
        versions = re.findall(rb"GLIBC_(\d+)\.(\d+)", program.read_bytes())
        newest = max([newest, *(tuple(map(int, it)) for it in versions)])
    exact = {"libc6": f"libc6 (>= {newest[0]}.{newest[1]})"}
    return ", ".join(exact.get(it, it) for it in sorted(found - {None}))
