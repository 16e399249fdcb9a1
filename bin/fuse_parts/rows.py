"""What is tried: each trial is a function with a name, and says why it is wrong or why it is skipped."""
import os, shutil, subprocess, time

TABLES = {}  # by its group's name, in order, the trials of a group by their names


class Wrong(Exception):
    """It isn't as it has to be."""


class Skip(Exception):
    """Something is missing."""


def row(group, name):
    """Makes a function the trial of this name."""
    def put(function):
        TABLES.setdefault(group, {})[name] = function
        return function
    return put


def names():
    return [name for group in TABLES.values() for name in group]


class Tally:
    """What was shown so far."""

    def __init__(self):
        self.right = self.wrong = self.skipped = 0

    def judge(self, name, function, *given):
        """Runs a trial, and prints what came of it."""
        begin = time.monotonic()
        try:
            said = function(*given) or ""
        except Skip as skip:
            self.skipped += 1
            print(f"skip   {name}: {skip}", flush=True)
            return
        except (Wrong, OSError, AssertionError, subprocess.TimeoutExpired) as wrong:
            self.wrong += 1
            print(f"wrong  {name}: {wrong}", flush=True)
            return
        self.right += 1
        print(f"right  {name}{': ' if said else ''}{said} ({time.monotonic() - begin:.1f} s)", flush=True)


def need(*programs):
    """Skips the trial where one of these programs isn't installed."""
    for it in programs:
        if not shutil.which(it):
            raise Skip(f"there is no {it}")


def need_root(why):
    if os.getuid() != 0:
        raise Skip(f"only root {why}")


def said(done):
    """What a program that ended said, in one line."""
    text = (done.stdout + b" " + done.stderr).decode("utf-8", "replace")
    return f"status {done.returncode}: {' '.join(text.split())[-400:]}"


def run(*words, **how):
    how = {"stdin": subprocess.DEVNULL, "timeout": 600, "env": quiet(), **how}
    return subprocess.run([os.fspath(it) for it in words], capture_output=True, **how)


def quiet():
    """The environment, with git's names and without its files of this user."""
    more = {f"GIT_{it}_{what}": "n@n" for it in ("AUTHOR", "COMMITTER") for what in ("NAME", "EMAIL")}
    return {**os.environ, **more, "GIT_CONFIG_NOSYSTEM": "1", "GIT_CONFIG_GLOBAL": os.devnull, "LC_ALL": "C", "HOME": "/nonexistent"}


def ran(*words, **how):
    """A program that has to succeed; what it wrote."""
    done = run(*words, **how)
    if done.returncode != 0:
        raise Wrong(f"{' '.join(map(str, words))[:200]}: {said(done)}")
    return done.stdout.decode("utf-8", "replace")


def same(what, got, wanted):
    if got != wanted:
        raise Wrong(f"{what} is {str(got)[:300]} and not {str(wanted)[:300]}")


def holds(what, is_so):
    if not is_so:
        raise Wrong(f"it isn't so: {what}")
