"""The processes that tests start. Each has a limit of time: then it is killed, with all that it began."""
import contextlib
import os
import pathlib
import signal
import subprocess
import threading

# Seconds: enough for a compiler or a fuzzer on a busy machine. What a run of the program may take is SECONDS of tests/case.py.
LIMIT = 600


def kill(process):
    """Kills a process, by its number, and all that it began."""
    began = []
    with contextlib.suppress(OSError):
        for it in pathlib.Path("/proc", str(process), "task").glob("*/children"):
            began += map(int, it.read_text().split())
    with contextlib.suppress(ProcessLookupError, PermissionError):
        os.kill(process, signal.SIGKILL)
    for it in began:
        kill(it)


class Popen(subprocess.Popen):
    """A process that goes on meanwhile."""

    def __init__(self, words, timeout=LIMIT, **more):
        super().__init__(words, **more)
        self.is_late, self.clock = False, threading.Timer(timeout, self.end)
        self.clock.daemon = True
        self.clock.start()

    def end(self):
        """Kills it, and all that it began."""
        self.is_late = self.poll() is None
        if self.is_late:
            kill(self.pid)

    def wait(self, timeout=None):
        status = super().wait(timeout)
        self.clock.cancel()
        return status


def run(words, input=None, capture_output=False, check=False, timeout=LIMIT, **more):
    """Runs a process to its end, as subprocess.run does. A TimeoutError is raised if it was too late."""
    more |= {"stdout": subprocess.PIPE, "stderr": subprocess.PIPE} if capture_output else {}
    more |= {} if input is None else {"stdin": subprocess.PIPE}
    with Popen(words, timeout, **more) as process:
        try:
            out, error = process.communicate(input)
        except BaseException:
            kill(process.pid)
            raise
    if process.is_late:
        raise TimeoutError(f"no end within {timeout} s: {words}")
    ended = subprocess.CompletedProcess(words, process.returncode, out, error)
    if check:
        ended.check_returncode()
    return ended
