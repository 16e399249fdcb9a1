"""The programs of this repository, and those of others."""
import gzip, lzma, os, pathlib, re, shutil, struct, subprocess
from .common import ROOT, refuse, run, said


class Ours:
    """The programs of this repository."""

    def __init__(self, folder, names=("mkmfs", "mfsck", "mfs")):
        self.programs = {}
        for name in names:
            self.programs[name] = pathlib.Path(folder, name).resolve() if folder else ROOT / "crates" / name / "out" / name
            if not folder and subprocess.run([ROOT / "bin" / name, "--help"], stdout=subprocess.DEVNULL).returncode != 0:
                refuse(f"{name} couldn't be built")
            if not os.access(self.programs[name], os.X_OK):
                refuse(f"there is no program {self.programs[name]}")

    def make(self, image, blocks, inodes, block, now=0):
        words = ["--blocks", str(blocks), "--inodes", str(inodes), "--block-size", str(block), "--now", str(now)]
        done = run([self.programs["mkmfs"], image, *words])
        return "" if done.returncode == 0 else f"mkmfs: {said(done)}"

    def check(self, image, minor=0):
        """What mfsck prints: `clean`, a finding, or why nothing could be said."""
        done = run([self.programs["mfsck"], image, "--minor", str(minor)])
        return (done.stdout or done.stderr).decode().strip()

    def migrate(self, old, new, blocks):
        """The line that mfmig prints; or none, and what it said instead."""
        done = run([self.programs["mfmig"], old, new, "--blocks", str(blocks)])
        return (done.stdout.decode().strip(), "") if done.returncode == 0 else (None, done.stderr.decode("utf-8", "replace").strip())

    def play(self, image, scripts, minor=0, out=None):
        """The lines of each script's session, or what mfs said instead."""
        words = [self.programs["mfs"], image, *scripts, "--minor", str(minor)]
        done = run(words + (["--out", out] if out else []))
        if done.returncode != 0:
            return None, done.stderr.decode("utf-8", "replace").strip()
        sessions = re.split(rb"^session \d+\n", done.stdout, flags=re.M)[1:]
        return [it.splitlines() for it in sessions], ""


class Peers:
    """The programs of others, each with the reason why it is missing."""

    def __init__(self, folders):
        self.folders = [pathlib.Path(it).resolve() for it in folders]
        places = [it / place for it in self.folders for place in ("usr/local/sbin", "usr/sbin", "usr/bin", "sbin", "bin")]
        self.path = os.pathsep.join([*map(str, places), os.environ.get("PATH", ""), "/usr/local/sbin", "/usr/sbin", "/sbin"])
        libraries = [it / place / "x86_64-linux-gnu" for it in self.folders for place in ("usr/lib", "lib")]
        self.environment = {**os.environ, "PATH": self.path, "LC_ALL": "C", "TZ": "UTC"}
        if libraries:
            self.environment["LD_LIBRARY_PATH"] = os.pathsep.join(map(str, libraries))

    def find(self, name):
        return shutil.which(name, path=self.path)

    def run(self, name, *words, **how):
        return run([self.find(name), *words], env=self.environment, **how)

    def version(self, name):
        done = self.run(name, "--version")
        return (done.stdout or done.stderr).decode("utf-8", "replace").split("\n")[0]

    def kernel(self):
        """A kernel that can be read, with the folder of its modules; or why there is none."""
        why = "no kernel with minix.ko: unpack linux-image-.. and name the folder by --peers"
        for folder in [*self.folders, pathlib.Path("/")]:
            for image in sorted((folder / "boot").glob("vmlinuz-*"), reverse=True):
                for modules in (folder / "lib/modules", folder / "usr/lib/modules"):
                    home = modules / image.name[len("vmlinuz-"):]
                    if module_file(home, "minix") and os.access(image, os.R_OK):
                        return (image, home), ""
                    if module_file(home, "minix"):
                        why = f"{image} can't be read by this user"
        return None, why

    def missing_for_linux(self):
        """Why Linux can't be run here, or nothing."""
        if not self.find("qemu-system-x86_64"):
            return "no qemu-system-x86_64"
        if not self.find("busybox"):
            return "no busybox"
        if not is_static(self.find("busybox")):
            return f"{self.find('busybox')} isn't static"
        return self.kernel()[1]


def is_static(path):
    """Whether an ELF program of 64 bits names no interpreter."""
    data = pathlib.Path(path).read_bytes()
    if data[:5] != b"\x7fELF\x02":
        return False
    start, = struct.unpack_from("<Q", data, 32)
    size, count = struct.unpack_from("<HH", data, 54)
    return all(struct.unpack_from("<I", data, start + size * it)[0] != 3 for it in range(count))


def module_file(home, name):
    pattern = name.replace("-", "_").replace("_", "[-_]")
    return next(iter(sorted(home.glob(f"kernel/**/{pattern}.ko*"))), None)


def module_bytes(path):
    data = path.read_bytes()
    if path.suffix == ".xz":
        return lzma.decompress(data)
    if path.suffix == ".gz":
        return gzip.decompress(data)
    if path.suffix == ".zst":
        return subprocess.run(["zstd", "-dc", path], capture_output=True, check=True).stdout
    return data


def modules_for(home, names):
    """The modules of these names, each after those that it needs; what is no file is taken to be part of the kernel."""
    order = {}

    def add(name):
        path = module_file(home, name)
        if name in order or path is None:
            return
        data = module_bytes(path)
        needs = re.search(rb"\0depends=([^\0]*)\0", b"\0" + data)
        for it in filter(None, needs[1].decode().split(",") if needs else []):
            add(it)
        order[name] = data

    for name in names:
        add(name)
    return order
