"""Where a death's time goes: what the system sees of a program while its drivers are killed, or hang."""
import re, statistics, threading, time
from fuse_parts.hanging import Hangs
from fuse_parts.rows import Wrong

TRACED = "clone,clone3,exit,rseq,write,writev"
LINE = re.compile(r"\d+\s+(\d+\.\d+) (clone|exit|rseq|write(?=v?\(1,))")
STEPS = ("exit", "clone", "rseq", "write")  # a thread ends, another one is made, it runs, and an answer is written
PARTS = ("exit, until it is seen at a tick, and the back-off is over", "start, until the next driver's thread runs",
         "all that was open asked for again, until a call is answered")
HANG = "hang, until it is seen, and the next driver's thread runs"
WANTED = 100  # how many deaths
HUNG = 20  # how many hangs


def traced(program, folder):
    """A program that runs another one, and notes what the system does for it in a file."""
    notes, script = folder / "notes", folder / "traced"
    script.write_text(f'#!/bin/sh\nexec strace -f --seccomp-bpf -ttt -e trace={TRACED} -e signal=none -o "{notes}" "{program}" "$@"\n')
    script.chmod(0o755)
    return script, notes


def deaths_in(text):
    """Of each death its parts, in seconds."""
    found, times = [], []
    for at, call in (it.groups() for it in map(LINE.match, text.splitlines()) if it):
        if call == "exit":
            times = [float(at)]
        elif times and call == STEPS[len(times)]:
            times.append(float(at))
        if len(times) == len(STEPS):
            found.append([later - earlier for earlier, later in zip(times, times[1:])])
            times = []
    return found


def reading(way, room, until):
    """Reads the file again and again, in a thread, while `until` waits for something."""
    over, failed = threading.Event(), []

    def read():
        try:
            while not over.is_set():
                way.read(room)
        except Exception as error:
            failed.append(error)

    reader = threading.Thread(target=read)
    reader.start()
    try:
        came = until()
    finally:
        over.set()
        reader.join()
    if failed:
        raise Wrong(f"the file can't be read: {failed[0]}")
    return came


def hung(way):
    """The seconds that some hangs last."""
    hangs, found, until = Hangs(way.process()), [], time.monotonic() + 10 * HUNG
    while len(found) < HUNG and time.monotonic() < until:
        took = hangs.hang(2)
        found += [took] if took else []
        time.sleep(0.537)
    return found


def measured(trial, way, bytes_):
    """The parts of deaths and of hangs, in seconds."""
    room, program = bytearray(len(bytes_)), trial.program
    trial.program, notes = traced(program, trial.folder)
    try:
        way.begin("--kill-every", "203")
        reading(way, room, lambda: time.sleep(WANTED * 0.3))
        way.end()
    finally:
        trial.program = program
    way.begin("--kill-every", "1037")
    hangs = reading(way, room, lambda: hung(way))
    way.end()
    return deaths_in(notes.read_text()), hangs


def row(name, seconds):
    least, middle, most = (f"{1000 * it:.1f}" for it in (min(seconds), statistics.median(seconds), max(seconds)))
    return f"| {name} | {len(seconds)} | {least} | {middle} | {statistics.fmean(seconds) * 1000:.1f} | {most} |"


def table(deaths, hangs):
    """Lines of a table."""
    lines = ["| A death's parts, ms | Deaths | Least | Median | Mean | Most |", "|---|---|---|---|---|---|"]
    lines += [row(name, [it[at] for it in deaths]) for at, name in enumerate(PARTS) if deaths]
    return lines + ([row(HANG, hangs)] if hangs else [])
