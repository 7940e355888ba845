"""Runs of the program: started, given an input, waited for at most ten seconds, and looked at."""

import os
import re
import select
import signal
import time

PATIENCE = 10
NOTE = re.compile(rb"(?:[ -~]*\n)*")
# what a status may come with on standard output: of 1 the caller says more
WRITTEN = {2: (b"words\n", b"input\n")}


class Run:
    """What a run answered: its status, below 0 for a signal and None where it didn't end, and what it wrote."""

    def __init__(self, status, out, err, seconds, memory):
        self.status, self.out, self.err, self.seconds, self.memory = status, out, err, seconds, memory

    def word(self):
        """The answer in a word or two, without what differs from case to case."""
        line = self.out.split(b"\n", 1)[0].decode("latin-1")
        if self.status == 0:
            return "valid" if line.startswith("valid ") else "done"
        if line.startswith("refused"):
            parts = line.split(" ")
            return " ".join(it for it in parts[:3] if not it.isdigit())
        if line.startswith("{"):
            return line.split('"')[3] if line.count('"') > 3 else line[:20]
        return line[:20] or f"status {self.status}"

    def fault(self):
        """What no run may do, or nothing."""
        if self.status is None:
            return f"no end in {PATIENCE} seconds"
        if self.status not in range(10):
            return f"ended by signal {-self.status}" if self.status < 0 else f"status {self.status}"
        if self.status > 2 and self.out:
            return f"wrote {self.out[:60]!r} with status {self.status}"
        if self.out not in WRITTEN.get(self.status, (self.out,)) or (self.out and not self.out.endswith(b"\n")):
            return f"wrote {self.out[:60]!r} with status {self.status}"
        if not NOTE.fullmatch(self.err):
            return f"standard error has other bytes than printable ones: {self.err[:200]!r}"
        return ""


class Runner:
    """Starts the program in a folder. Its input, output and notes are files in memory that each run uses again."""

    def __init__(self, program, folder):
        self.program, self.folder = program, folder
        self.files = [os.memfd_create(name) for name in ("input", "output", "notes")]
        self.memory = 0
        self.slowest = 0.0
        self.runs = 0
        os.chdir(folder)

    def run(self, words, given=b"", **more):
        """Runs it with these words, each a text or bytes, on this input, with `more` in its environment."""
        for file in self.files:
            os.ftruncate(file, 0)
            os.lseek(file, 0, os.SEEK_SET)
        os.pwrite(self.files[0], given, 0) if given else None
        actions = [(os.POSIX_SPAWN_DUP2, file, number) for number, file in enumerate(self.files)]
        began = time.monotonic()
        process = os.posix_spawn(self.program, [self.program, *words], {**ENVIRONMENT, **more}, file_actions=actions)
        status, usage = ended(process)
        done = Run(status, *(contents(file) for file in self.files[1:]), time.monotonic() - began, usage)
        self.runs += 1
        self.memory, self.slowest = max(self.memory, done.memory), max(self.slowest, done.seconds)
        return done


ENVIRONMENT = {name: value for name, value in os.environ.items() if not name.startswith("FED_")}


def contents(file):
    return os.pread(file, os.fstat(file).st_size, 0)


def ended(process):
    """Waits for the process, and gives its status and its greatest memory in kilobytes. One that doesn't end is killed."""
    handle = os.pidfd_open(process)
    try:
        late = not select.select([handle], [], [], PATIENCE)[0]
    finally:
        os.close(handle)
    if late:
        os.kill(process, signal.SIGKILL)
    _, status, usage = os.wait4(process, 0)
    return None if late else os.waitstatus_to_exitcode(status), usage.ru_maxrss
