"""Measures the time and the memory of programs."""

import ctypes
import os
import subprocess
import sys
import time
from typing import NamedTuple

# Prints the ID of a process that becomes the program after a line, or the end, of standard input.
STARTER = 'exec 3<&0; { read -r _; exec "$@"; } <&3 >/dev/null & echo $!'

# The same with the program's output in a file, and with a limit of processor time, in seconds.
LIMITED_STARTER = 'ulimit -t "$1"; output=$2; shift 2; exec 3<&0; { read -r _; exec "$@"; } <&3 >"$output" 2>&1 & echo $!'

# The bytes of output that are read at once.
PIECE = 1 << 20

# Linux's request that this process becomes the parent of descendants whose parent ended.
PR_SET_CHILD_SUBREAPER = 36


def wait_for_orphans():
    """Lets this process wait for programs that a shell started, as `peak_memory` and `run_limited` do."""
    if ctypes.CDLL(None, use_errno=True).prctl(PR_SET_CHILD_SUBREAPER, 1, 0, 0, 0) != 0:
        sys.exit("this process can't wait for programs that a shell started")


def seconds(words):
    """The elapsed time of a program, in seconds."""
    start = time.perf_counter()
    subprocess.run(words, stdout=subprocess.DEVNULL, check=True)
    return time.perf_counter() - start


def processor_seconds(words):
    """The processor time of a program, user and system, in seconds."""
    with subprocess.Popen(words, stdout=subprocess.DEVNULL) as program:
        _, status, usage = os.wait4(program.pid, 0)
        program.returncode = os.waitstatus_to_exitcode(status)
    if program.returncode != 0:
        raise subprocess.CalledProcessError(program.returncode, words)
    return usage.ru_utime + usage.ru_stime


def peak_memory(words):
    """The peak memory of a program in KiB.

    The kernel includes the memory of the process before it became the program. So a shell, which has less than this
    process, starts the program and ends. Then this process becomes the program's parent, and lets it begin.
    """
    pipes = {"stdin": subprocess.PIPE, "stdout": subprocess.PIPE}
    with subprocess.Popen(["sh", "-c", STARTER, "sh", *words], **pipes) as shell:
        program = int(shell.stdout.readline())
        shell.wait()
    _, status, usage = os.wait4(program, 0)
    if status != 0:
        sys.exit(f"{' '.join(map(str, words))}: status {os.waitstatus_to_exitcode(status)}")
    return usage.ru_maxrss


class Run(NamedTuple):
    """A run of a program: user and system time, peak memory in KiB, bytes printed, and status, below 0 by a signal."""

    seconds: float
    memory: int
    printed: int
    status: int

    @property
    def was_ended(self):
        """Whether a signal ended the program, such as that of the limit."""
        return self.status < 0


def run_limited(words, limit):
    """Runs a program for at most that many seconds of processor time. Counts what it prints, and keeps none of it."""
    reader, writer = os.pipe()
    limits = [str(limit), f"/dev/fd/{writer}"]
    pipes = {"stdin": subprocess.PIPE, "stdout": subprocess.PIPE, "pass_fds": [writer]}
    with subprocess.Popen(["sh", "-c", LIMITED_STARTER, "sh", *limits, *words], **pipes) as shell:
        program = int(shell.stdout.readline())
        shell.wait()
    os.close(writer)
    printed = 0
    with open(reader, "rb", buffering=0) as output:
        while piece := output.read(PIECE):
            printed += len(piece)
    _, status, usage = os.wait4(program, 0)
    return Run(usage.ru_utime + usage.ru_stime, usage.ru_maxrss, printed, os.waitstatus_to_exitcode(status))


def nothing():
    """Prepares nothing for a run."""


def measure(works, rounds, prepare=nothing, clock=seconds):
    """Prints the least time of each work and its memory, and returns them. Each round runs all works once.

    `prepare` runs before each run, outside the measured time. `clock` runs a program and returns its time.
    """

    def prepared(run, words):
        prepare()
        return run(words)

    times = [[prepared(clock, words) for words in works.values()] for _ in range(rounds)]
    measured = [(min(column), prepared(peak_memory, words)) for column, words in zip(zip(*times), works.values())]
    for name, (least, memory) in zip(works, measured):
        print(f"{name:16} {least * 1000:9.2f} ms {memory:7} KiB", flush=True)
    return measured
