"""A program that asks for a passphrase at a terminal."""
import os
import pty
import select


def start(words, env=None):
    """Starts a program at a terminal of its own, and returns its process and that terminal."""
    child, terminal = pty.fork()
    if child == 0:
        os.execvpe(words[0], words, {**os.environ, **(env or {})})
    return child, terminal


def output(terminal, until=None, seconds=60):
    """What a program writes at its terminal until it closes that, has written these bytes, or writes nothing for so long."""
    seen = b""
    while not (until and until in seen) and select.select([terminal], [], [], seconds)[0]:
        try:
            piece = os.read(terminal, 4096)
        except OSError:
            break
        if not piece:
            break
        seen += piece
    return seen


def answer(terminal, passphrase):
    """Answers each question of the program with the passphrase, until the program closes its terminal."""
    asked = b""
    while True:
        ready, _, _ = select.select([terminal], [], [], 60)
        if not ready:
            return
        try:
            piece = os.read(terminal, 4096)
        except OSError:
            return
        if not piece:
            return
        asked += piece
        if asked.rstrip().endswith(b":"):
            asked = b""
            os.write(terminal, passphrase.encode() + b"\n")


def run(words, passphrase, env=None):
    """Runs a program at a terminal of its own, answers each question with the passphrase, and returns the status."""
    child, terminal = start(words, env)
    answer(terminal, passphrase)
    _, status = os.waitpid(child, 0)
    os.close(terminal)
    return os.waitstatus_to_exitcode(status)
