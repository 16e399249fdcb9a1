"""Programs that are killed before a system call of their first thread."""
import ctypes, os, signal

# Requests of ptrace, and its option that marks the stops at system calls.
TRACE_ME, TRACE_CALLS, SET_OPTIONS, MARKED = 0, 24, 0x4200, 1


def ptrace(request, process, value):
    traced = ctypes.CDLL(None).ptrace
    traced.argtypes = [ctypes.c_long, ctypes.c_int, ctypes.c_void_p, ctypes.c_void_p]
    traced(request, process, None, value)


def started(words, messages, out):
    """A process that runs these words, stopped at its beginning, with a file on its standard input or nothing, with its standard output in
    this file, and nothing on its standard error."""
    process = os.fork()
    if process == 0:
        try:
            os.dup2(os.open(messages or os.devnull, os.O_RDWR), 0)
            os.dup2(os.open(out, os.O_WRONLY), 1)
            os.dup2(os.open(os.devnull, os.O_RDWR), 2)
            ptrace(TRACE_ME, 0, 0)
            os.execve(words[0], [os.fspath(it) for it in words], dict(os.environ, ASAN_OPTIONS="detect_leaks=0"))
        finally:
            os._exit(127)
    os.waitpid(process, 0)
    ptrace(SET_OPTIONS, process, MARKED)
    return process


def killed(words, messages, call, out=os.devnull):
    """Runs a program, and kills it before the system call of its first thread of this number, counted from 1; how it ended, where it ended
    before."""
    process, stops, sent = started(words, messages, out), 0, 0
    while True:
        ptrace(TRACE_CALLS, process, sent)
        status = os.waitpid(process, 0)[1]
        if not os.WIFSTOPPED(status):
            return os.waitstatus_to_exitcode(status)
        is_call = os.WSTOPSIG(status) == signal.SIGTRAP | 0x80
        stops, sent = stops + is_call, 0 if is_call else os.WSTOPSIG(status)
        # it stops as it begins a call, and as it ends it
        if stops == 2 * call - 1:
            os.kill(process, signal.SIGKILL)
            os.waitpid(process, 0)
            return None
