"""Drivers that hang: one thread of a program is stopped for a while, as a debugger does it, and goes on then."""
import contextlib, ctypes, os, time

SEIZE, INTERRUPT, DETACH = 0x4206, 0x4207, 17  # of ptrace(2), on Linux
ALL = 0x40000000  # __WALL of waitpid(2): threads too
SYSTEM = ctypes.CDLL(None, use_errno=True)
SYSTEM.ptrace.argtypes = [ctypes.c_long, ctypes.c_long, ctypes.c_void_p, ctypes.c_void_p]
SYSTEM.ptrace.restype = ctypes.c_long


def asked(what, thread):
    if SYSTEM.ptrace(what, thread, None, None) < 0:
        raise OSError(ctypes.get_errno(), "ptrace")


def threads(process):
    """The numbers of a program's threads, the oldest first; none where it has ended."""
    found = []
    try:
        names = os.listdir(f"/proc/{process}/task")
    except OSError:
        return found
    for name in names:
        with contextlib.suppress(OSError):
            with open(f"/proc/{process}/task/{name}/stat") as file:
                found.append((int(file.read().rsplit(")", 1)[1].split()[19]), int(name)))
    return [number for _, number in sorted(found)]


@contextlib.contextmanager
def stopped(thread):
    """Stops a thread alone; the others of its program go on. OSError where it is gone or may not be stopped."""
    asked(SEIZE, thread)
    try:
        asked(INTERRUPT, thread)
        os.waitpid(thread, ALL)
        yield
    finally:
        with contextlib.suppress(OSError):
            asked(DETACH, thread)


class Hangs:
    """Lets drivers of a program hang. Threads that are there at first aren't touched: the first driver's is among them."""

    def __init__(self, process):
        self.process, self.others = process, set(threads(process))

    def drivers(self):
        """The threads of drivers that took the place of another one, the oldest first."""
        return [it for it in threads(self.process) if it not in self.others]

    def hang(self, most):
        """Stops the newest driver until another one was started, so many seconds at most. The seconds until that start; None where none
        came, or there was no driver to be stopped."""
        found = self.drivers()
        if not found:
            return None
        begin = time.monotonic()
        try:
            with stopped(found[-1]):
                took = self.until_other(found[-1], begin, most)
        except OSError:
            return None
        # one that was stopped with the lock of the media keeps the next from its start until it goes on
        return took or self.until_other(found[-1], begin, most + 1)

    def until_other(self, thread, begin, most):
        """The seconds from `begin` until there is a newer driver than this one."""
        while time.monotonic() - begin < most:
            if self.drivers()[-1:] not in ([], [thread]):
                return time.monotonic() - begin
            time.sleep(0.001)
        return None
