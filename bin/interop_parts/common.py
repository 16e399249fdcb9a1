"""What is shown, and what all parts need."""
import os, pathlib, subprocess, sys

ROOT = pathlib.Path(__file__).resolve().parent.parent.parent
WHOLE = 1 << 20  # bytes up to which a file is compared whole; of a longer one windows are
WINDOW = 4096
LAST = (1 << 31) - 1  # the greatest size of a file
GRUB_ERRS = 4107542400  # March 2100: from then on GRUB tells a day too few, since it takes 2100 for a leap year
SERVED = 32767  # the most links that a volume of this profile has
PARTITIONS = 1024  # the sector at which the first partition begins, and the step from one to the next in sectors of 512


class Tally:
    """What was shown so far."""

    def __init__(self):
        self.right = self.wrong = self.skipped = 0

    def judge(self, what, fault=""):
        if fault:
            self.wrong += 1
            print(f"WRONG  {what}: {fault}", flush=True)
        else:
            self.right += 1
            print(f"ok     {what}", flush=True)

    def skip(self, what, why):
        self.skipped += 1
        print(f"skip   {what}: {why}", flush=True)


def refuse(why, status=1):
    print(f"interop: {why}", file=sys.stderr)
    sys.exit(status)


def run(words, **how):
    """Runs a program to its end, and keeps what it wrote."""
    return subprocess.run([os.fspath(it) for it in words], capture_output=True, stdin=subprocess.DEVNULL, **how)


def said(done):
    """What a program that failed said, in one line."""
    text = (done.stdout + b" " + done.stderr).decode("utf-8", "replace")
    return f"status {done.returncode}: {' '.join(text.split())[:300]}"
