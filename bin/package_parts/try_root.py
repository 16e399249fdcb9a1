"""A fresh root: how it comes to be, what runs there, what is installed and taken away."""
import os, pathlib, re, shutil
from .common import DOC, NAME, PROGRAMS, SCRIPTS, refuse, run, said

NOBODY = 65534
# What dpkg keeps for itself, besides what a package brings.
KEPT = ("var/lib/dpkg", "var/log", "var/cache", "work")
RECOMMENDED = "fuse3,python3"  # by the package, for its scripts
WHERE = {"PATH": "/usr/sbin:/usr/bin:/sbin:/bin", "LC_ALL": "C"}


class Root:
    """A folder in which programs run as if it were all of the machine."""

    def __init__(self, folder):
        self.folder = folder
        self.work = folder / "work"
        self.work.mkdir()
        os.chown(self.work, NOBODY, NOBODY)
        self.before = self.held()

    def run(self, words, **how):
        """Runs a program of the root as a user without rights, in /work."""

        def enter():
            os.chroot(self.folder)
            os.chdir("/work")
            os.setgroups([])
            os.setgid(NOBODY)
            os.setuid(NOBODY)

        return run(words, preexec_fn=enter, env=WHERE, **how)

    def held(self):
        """Each file and folder, but what dpkg keeps for itself: its rights, owner and size, and where a link leads."""
        found = {}
        for at, folders, names in os.walk(self.folder):
            inner = os.path.relpath(at, self.folder)
            folders[:] = [it for it in folders if os.path.normpath(f"{inner}/{it}") not in KEPT]
            for name in (*folders, *names):
                path = os.path.join(at, name)
                seen = os.lstat(path)
                to = os.readlink(path) if os.path.islink(path) else ""
                size = 0 if name in folders else seen.st_size
                found[os.path.normpath(f"{inner}/{name}")] = (seen.st_mode, seen.st_uid, seen.st_gid, size, to)
        return found


class Debian(Root):
    """A Debian, whose own dpkg installs."""

    def dpkg(self, *words):
        return run(["chroot", self.folder, "dpkg", *words], env=WHERE)

    def install(self, package):
        shutil.copy(package, self.work)
        return self.dpkg("--install", f"/work/{package.name}")


class Bare(Root):
    """An empty folder with libraries, into which this machine's dpkg installs; what it is told to be there are the libraries' packages."""

    def dpkg(self, *words):
        return run(["dpkg", f"--root={self.folder}", f"--log={self.folder}/var/log/dpkg.log", *words], env={**os.environ, **WHERE})

    def install(self, package):
        return self.dpkg("--install", package)


def suite():
    """The name of this machine's Debian; stable where it is none."""
    text = pathlib.Path("/etc/os-release").read_text() if os.path.exists("/etc/os-release") else ""
    found = re.search(r'^VERSION_CODENAME="?(\w+)', text, re.M) if re.search(r"^ID=debian$", text, re.M) else None
    return found[1] if found else "stable"


def fresh_root(tally, packages, folder, bare):
    """A new root in a folder: a Debian where that may be, else a bare one."""
    shutil.rmtree(folder, ignore_errors=True)
    if not bare and not shutil.which("debootstrap"):
        tally.skip("a Debian to install it in", "there is no debootstrap; it is a bare folder")
    elif not bare:
        done = run(["debootstrap", "--variant=minbase", f"--include={RECOMMENDED}", suite(), folder])
        if done.returncode == 0:
            tally.judge(f"debootstrap makes a Debian {suite()}")
            return Debian(folder)
        tally.skip("a Debian to install it in", f"debootstrap fails; it is a bare folder: {said(done)[-200:]}")
        shutil.rmtree(folder, ignore_errors=True)
    libraries = libraries_of(packages)
    fill(folder, libraries)
    tally.judge(f"a bare folder with {', '.join(sorted(it.name for it in libraries)) or 'no library'}")
    return Bare(folder)


def libraries_of(packages):
    """The files of this machine that the packed programs need."""
    found = set()
    for name in PROGRAMS:
        listed = run(["ldd", packages.files / "usr/bin" / name]).stdout.decode()
        found |= {pathlib.Path(it) for it in re.findall(r"(/\S+) \(0x", listed)}
    return found


def fill(folder, libraries):
    """Makes a bare root with these libraries, and tells dpkg that their packages are there, as this machine's dpkg knows them."""
    for it in ("var/lib/dpkg/info", "var/lib/dpkg/updates", "var/log", "tmp"):
        (folder / it).mkdir(parents=True)
    (folder / "var/lib/dpkg/available").touch()
    owned = {}
    for library in sorted(libraries):
        place = folder / str(library)[1:]
        place.parent.mkdir(parents=True, exist_ok=True)
        shutil.copy(library, place)
        owned.setdefault(owner_of(library), []).append(f"{library}\n")
    stanzas = []
    for owner, paths in owned.items():
        stanzas.append(run(["dpkg-query", "--status", owner]).stdout.decode())
        (folder / f"var/lib/dpkg/info/{owner}.list").write_text("".join(paths))
    (folder / "var/lib/dpkg/status").write_text("\n".join(stanzas))


def owner_of(library):
    """The installed package that has a file, which dpkg may know by its path through /usr or without."""
    for path in (library, library.resolve(), str(library.resolve()).removeprefix("/usr")):
        done = run(["dpkg-query", "--search", path])
        if done.returncode == 0:
            return done.stdout.decode().split(": ")[0].split(",")[0]
    refuse(f"no package of this machine has {library}")


def misplaced(paths):
    """The files that lie in another place than Debian has for their kind, and those of each program that are missing."""
    kinds = ("usr/bin/{}", "usr/share/man/man1/{}.1.gz", "usr/share/bash-completion/completions/{}", "usr/share/zsh/vendor-completions/_{}")
    wanted = {kind.format(it) for kind in kinds for it in PROGRAMS} | {kind.format(it) for kind in kinds[:2] for it in SCRIPTS}
    own = (f"{DOC}/", "usr/share/lintian/overrides/")
    return sorted(wanted ^ {it for it in paths if not it.startswith(own)})


def try_installing(tally, packages, root):
    """The package is installed, and what came is what it names."""
    done = root.install(packages.deb)
    tally.judge(f"dpkg installs {packages.deb.name}", "" if done.returncode == 0 else said(done))
    done = root.dpkg("--verify", NAME)
    tally.judge("each file is as its sum says", "" if done.returncode == 0 and not done.stdout else said(done))
    after = root.held()
    came = sorted(it for it in after.keys() - root.before.keys() if not (root.folder / it).is_dir())
    wanted = sorted(f"usr/{it}" for it in packages.paths())
    tally.judge(f"{len(wanted)} files came, and no others", "" if came == wanted else f"{set(came) ^ set(wanted)}")
    tally.judge("each program has its page and completions, and all else is in its folder of pages", ", ".join(misplaced(wanted)))
    changed = sorted(it for it, seen in root.before.items() if after.get(it) != seen)
    tally.judge("no other file was changed", f"{changed}" if changed else "")
    status = root.dpkg("--status", NAME).stdout.decode()
    right = f"\nVersion: {packages.version}\n" in status and "\nStatus: install ok installed\n" in status
    tally.judge(f"dpkg knows version {packages.version} as installed", "" if right else " ".join(status.split())[:200])


def try_removing(tally, root):
    """The package is taken away, with all that it brought."""
    done = root.dpkg("--purge", NAME)
    tally.judge("dpkg takes it away", "" if done.returncode == 0 and not done.stderr else said(done))
    after = root.held()
    differs = sorted(it for it in after.keys() | root.before.keys() if after.get(it) != root.before.get(it))
    tally.judge("what is left is as it was before", f"{differs[:5]}" if differs else "")
    known = run(["grep", "-rlw", NAME, root.folder / "var/lib/dpkg/status", root.folder / "var/lib/dpkg/info"]).stdout.decode()
    tally.judge("dpkg knows nothing of it any more", " ".join(known.split()))
