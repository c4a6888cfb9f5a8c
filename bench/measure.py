"""What the benchmarks measure."""
import os
import pathlib
import select
import time
import typing


class Cost(typing.NamedTuple):
    """What a process took: seconds of a processor (user and system), seconds on the wall, and MiB of resident memory at most."""

    processor: float
    wall: float
    memory: float


def least(call, turns):
    """The fewest nanoseconds that a call takes in this many turns."""
    best = None
    for _ in range(turns):
        start = time.perf_counter_ns()
        call()
        took = time.perf_counter_ns() - start
        best = took if best is None else min(best, took)
    return best


def resident(process):
    """The most memory that a process has had resident so far, in MiB; 0 once it has ended."""
    status = pathlib.Path(f"/proc/{process}/status").read_text()
    return (
        max(
            (int(it.split()[1]) for it in status.splitlines() if it.startswith("VmHWM:")), default=0
        )
        / 1024
    )


def cost(process, start):
    """Waits until a process ends that began at `start`, and returns its status and what it took.

    The memory is what was seen every two milliseconds, since what the system reports at the end counts Python's own too.
    """
    ended, memory = os.pidfd_open(process), 0.0
    while not select.select([ended], [], [], 0.002)[0]:
        memory = max(memory, resident(process))
    wall = time.perf_counter() - start
    os.close(ended)
    _, status, usage = os.wait4(process, 0)
    return os.waitstatus_to_exitcode(status), Cost(usage.ru_utime + usage.ru_stime, wall, memory)
