"""Whether the packages are made of the same bytes each time, and hold the same files."""
import os, pathlib, shutil, tarfile, tempfile
from .common import DOC, NAME, PROGRAMS, ROOT, SCRIPTS, refuse, run, said, told
from .release import COMMIT, GIVEN, KIT, TEXT, program_of

# Where bin/package is run the second time, and how: nothing of it may be seen in the packages.
OTHERS = {"TZ": "Pacific/Auckland", "LC_ALL": "C.UTF-8", "SOURCE_DATE_EPOCH": "1", "TAR_OPTIONS": "--exclude=*.gz --format=pax"}


class Packages:
    """The two packages, as bin/package made them, and the files of that of Debian."""

    def __init__(self, programs, folder):
        self.programs = programs.resolve() if programs else None
        self.folder = folder
        self.commit = told(["git", "-C", ROOT, "rev-parse", "HEAD"])
        self.deb, self.archive = self.made("packages")
        self.files = folder / "files"
        done = run(["dpkg-deb", "--extract", self.deb, self.files])
        if done.returncode != 0:
            refuse(f"dpkg-deb --extract: {said(done)}")
        self.version = self.archive.name.split("-")[1]

    def made(self, name, **how):
        """The packages that a run of bin/package makes in a new folder."""
        out = self.folder / name
        shutil.rmtree(out, ignore_errors=True)
        given = ["--with", self.programs] if self.programs else []
        done = run([ROOT / "bin/package", *given, "--out", out], **how)
        if done.returncode != 0:
            refuse(f"bin/package: {said(done)}")
        return [pathlib.Path(it) for it in done.stdout.decode().split("\n")[:2]]

    def long_version(self, name):
        """What --version of a packed program tells, by the file VERSION; where that doesn't know its commit, what it told before."""
        _, commit, kit, source, *_ = (self.files / DOC / "VERSION").read_text(encoding="utf-8").split("\n")
        commit, kit = commit.removeprefix("commit "), kit.removeprefix("kit ")
        if source == GIVEN:
            return told([program_of(self.programs, name), "--version"]) + "\n"
        commit = f"{commit[:31]}, changed" if len(commit) > 40 else commit
        return f"{name} {self.version}\ncommit {commit}\nkit {kit:37}\n"

    def paths(self):
        """The files of the package of Debian, without `usr/`."""
        top = self.files / "usr"
        return {str(it.relative_to(top)): it for it in sorted(top.rglob("*")) if not it.is_dir()}


def try_bytes(tally, packages):
    """Both packages are made twice, and lintian looks at one."""
    with tempfile.TemporaryDirectory() as elsewhere:
        again = packages.made("again", env={**os.environ, **OTHERS}, cwd=elsewhere, umask=0o077)
    for one, two in zip((packages.deb, packages.archive), again):
        same = one.name == two.name and one.read_bytes() == two.read_bytes()
        tally.judge(f"{one.name} has the same bytes each time", "" if same else "they differ")
    if not shutil.which("lintian"):
        tally.skip("lintian finds no error", "there is no lintian")
        return
    done = run(["lintian", "--allow-root", "--fail-on", "error,warning", packages.deb])
    tally.judge("lintian finds no error and nothing to warn of", "" if done.returncode == 0 else said(done))


def try_packed(tally, packages):
    """The packed programs are those that were built, but for what --version tells."""
    for name in PROGRAMS:
        built = program_of(packages.programs, name).read_bytes()
        packed = (packages.files / "usr/bin" / name).read_bytes()
        text = TEXT.format(COMMIT, KIT).encode()
        begin = built.find(text)
        end = begin + len(text)
        right = packed == built or begin >= 0 and (built[:begin], built[end:], len(built)) == (packed[:begin], packed[end:], len(packed))
        tally.judge(f"{name} is packed as it was built, but for its commit and kit", "" if right else "other bytes differ")


def try_archive(tally, packages, root):
    """The plain archive has the files of the other package, with their rights, and its programs run."""
    top, theirs = packages.archive.name.removesuffix(".tar.gz"), packages.paths()
    with tarfile.open(packages.archive) as archive:
        members = {it.name.removeprefix(f"{top}/"): it for it in archive.getmembers() if it.isfile()}
        ours = {it.replace("zsh/site-functions", "zsh/vendor-completions"): archive.extractfile(at).read() for it, at in members.items()}
        owners = {(it.uid, it.gid) for it in archive.getmembers()}
        runs = {it for it, at in members.items() if at.mode & 0o111}
    debian = (f"{DOC}/changelog.Debian.gz".removeprefix("usr/"), f"share/lintian/overrides/{NAME}")
    wanted = {it: at.read_bytes() for it, at in theirs.items() if it not in debian}
    differs = sorted(it for it in ours.keys() | wanted.keys() if ours.get(it) != wanted.get(it))
    tally.judge(f"{packages.archive.name} has the same {len(wanted)} files", f"not {differs}" if differs else "")
    tally.judge("in it all belongs to root", f"also to {owners}" if owners != {(0, 0)} else "")
    right = runs == {f"bin/{it}" for it in (*PROGRAMS, *SCRIPTS)}
    tally.judge("in it the programs alone may be run", "" if right else f"these may: {sorted(runs)}")
    try_unpacked(tally, packages, root)


def try_unpacked(tally, packages, root):
    """The plain archive's programs run where it is unpacked."""
    place = root.folder / "opt" / NAME
    place.mkdir(parents=True)
    done = run(["tar", "-xzf", packages.archive, "-C", place, "--strip-components=1"])
    tally.judge(f"tar unpacks it into /opt/{NAME}", "" if done.returncode == 0 else said(done))
    for name in PROGRAMS:
        done = root.run([f"/opt/{NAME}/bin/{name}", "-V"])
        tally.judge(f"/opt/{NAME}/bin/{name} -V", "" if done.stdout.decode() == f"{name} {packages.version}\n" else said(done))
    shutil.rmtree(place)
    if "opt" not in root.before:
        place.parent.rmdir()
