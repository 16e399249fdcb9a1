"""What all parts need."""
import os, pathlib, shutil, subprocess, sys

ROOT = pathlib.Path(__file__).resolve().parent.parent.parent
NAME = "lecternowl"
MAKER = "Lecternowl maintainers <maintainers@users.noreply.lecternowl.example>"
DOC = f"usr/share/doc/{NAME}"
PROGRAMS = ("mkmfs", "mfsck", "mfs", "mfs9p", "mfsfuse", "mfmig", "mfssim")
# by their names in a package; one man page has all
SCRIPTS = {"mfs-mount": "mount", "mfs-umount": "umount", "mfs-new": "new-volume", "mfs-settle": "settle"}


def refuse(why, status=1):
    print(f"{pathlib.Path(sys.argv[0]).name}: {why}", file=sys.stderr)
    sys.exit(status)


def missing(names):
    """The commands of these that aren't on this machine."""
    return [it for it in names if not shutil.which(it)]


def run(words, **how):
    """Runs a command to its end, and keeps what it wrote; with no input, where none is handed in."""
    given = {} if "input" in how or "stdin" in how else {"stdin": subprocess.DEVNULL}
    return subprocess.run([os.fspath(it) for it in words], capture_output=True, **given, **how)


def said(done):
    """What a command that failed said, in one line."""
    text = (done.stdout + b" " + done.stderr).decode("utf-8", "replace")
    return f"status {done.returncode}: {' '.join(text.split())[:300]}"


def told(words, **how):
    """The text that a command wrote; where it failed nothing is made."""
    done = run(words, **how)
    if done.returncode != 0:
        refuse(f"{' '.join(map(str, words))}: {said(done)}")
    return done.stdout.decode("utf-8").strip()
