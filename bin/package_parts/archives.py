"""The two archives of a release, whose bytes depend on the files and the commit's time alone."""
import hashlib, os, pathlib
from .common import DOC, MAKER, NAME, SCRIPTS, refuse, run, said
from .content import debian_changelog, zipped

CONTROL = """Package: {name}
Version: {version}
Architecture: amd64
Maintainer: {maker}
Installed-Size: {size}
{depends}Recommends: fuse3, python3
Suggests: socat
Section: non-free/otherosfs
Priority: optional
Description: file server for MINIX 3 volumes whose disk drivers may die
 Lecternowl serves a MINIX version 3 volume while its disk drivers die, hang
 or answer late, and are replaced under it. It is proved that each answer to
 a client's call is the file tree's, but for the exceptions that the README
 names first.
 .
 The programs work on images of volumes: mkmfs makes one, mfsck checks it,
 mfmig makes one of a volume of version 2, mfs plays scripts of calls, mfssim
 plays schedules of faults. mfs-mount mounts a volume by FUSE with mfsfuse, as
 any user; mfs9p serves one by 9P.
"""
# The programs are those that were proved, byte for byte but for the commit and the kit that --version tells, with the symbols that their
# makers left in them.
UNSTRIPPED = "# The program is packed as it was proved and built.\n{name}: unstripped-binary-or-object [{path}]\n"
# python3 is recommended: most programs need none.
SCRIPT = "{name}: python3-script-but-no-python3-dep * [{path}]\n"


def put(folder, files, seconds):
    """Writes files into a new folder, with the rights and times that a package has."""
    for path, data in files.items():
        place = folder / path
        place.parent.mkdir(parents=True, exist_ok=True)
        place.write_bytes(data)
        place.chmod(0o755 if place.parent.name == "bin" else 0o644)
    for at, _, names in os.walk(folder, topdown=False):
        os.chmod(at, 0o755)
        for name in (*names, "."):
            os.utime(os.path.join(at, name), (seconds, seconds))


def overrides(files):
    """What lintian isn't to tell of: of a program that has a table of symbols, that it has one; of scripts, that python3 is recommended."""
    unstripped = (UNSTRIPPED.format(name=NAME, path=it) for it in sorted(files) if "/bin/" in it and b"\0.symtab\0" in files[it])
    scripts = [it for it in SCRIPTS if b"python3" in files[f"usr/bin/{it}"][:40]]
    return "".join([*unstripped, *(SCRIPT.format(name=NAME, path=f"usr/bin/{it}") for it in scripts)])


def size_of(files):
    """What the files take, in KiB as Debian counts: each begun one of a file, and one of each folder."""
    folders = {str(at) for it in files for at in pathlib.PurePosixPath(it).parents}
    return sum(-(-len(it) // 1024) for it in files.values()) + len(folders)


def write_deb(release, content, folder, out):
    """Writes the package of Debian into the folder `out`, and returns its path."""
    files = content | {f"{DOC}/changelog.Debian.gz": zipped(debian_changelog(release).encode())}
    if lintian := overrides(content):
        files[f"usr/share/lintian/overrides/{NAME}"] = lintian.encode()
    depends = f"Depends: {release.needs}\n" if release.needs else ""
    control = CONTROL.format(name=NAME, version=release.version, maker=MAKER, size=size_of(files), depends=depends)
    sums = "".join(f"{hashlib.md5(files[it]).hexdigest()}  {it}\n" for it in sorted(files))
    tree = folder / "deb"
    put(tree, files | {"DEBIAN/control": control.encode(), "DEBIAN/md5sums": sums.encode()}, release.seconds)
    made = out / f"{NAME}_{release.version}_amd64.deb"
    # With several threads xz would cut its input into pieces by their number.
    how = {**os.environ, "SOURCE_DATE_EPOCH": str(release.seconds), "DPKG_DEB_THREADS_MAX": "1", "LC_ALL": "C"}
    done = run(["dpkg-deb", "--root-owner-group", "-Zxz", "-z6", "--build", tree, made], env=how)
    if done.returncode != 0:
        refuse(f"dpkg-deb: {said(done)}")
    return made


def write_tar(release, content, folder, out):
    """Writes the plain archive into the folder `out`, and returns its path."""
    top = f"{NAME}-{release.version}-x86_64"
    plain = {it.removeprefix("usr/").replace("zsh/vendor-completions", "zsh/site-functions"): data for it, data in content.items()}
    put(folder / "tar" / top, plain, release.seconds)
    words = ["tar", "-C", folder / "tar", "--format=gnu", "--sort=name", f"--mtime=@{release.seconds}", "--owner=root:0", "--group=root:0",
             "--numeric-owner", "--mode=u+rwX,go=rX", "-cf", "-", top]
    done = run(words, env={**os.environ, "LC_ALL": "C", "TAR_OPTIONS": ""})
    if done.returncode != 0:
        refuse(f"tar: {said(done)}")
    made = out / f"{top}.tar.gz"
    made.write_bytes(zipped(done.stdout))
    return made
