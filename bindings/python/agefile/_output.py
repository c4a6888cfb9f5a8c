"""Files that only this run writes, until they have reached the disk."""
from __future__ import annotations

import builtins
import contextlib
import errno
import fcntl
import os
import re
import stat
from typing import Any, Iterator


# What a file system without locks answers. One whose locks fail, such as a network's whose server is down, answers something
# else.
_NO_LOCKS = (errno.EINVAL, errno.ENOSYS, errno.EOPNOTSUPP, errno.ENOLCK)
# What one without hard links answers, as FAT does.
_NO_LINKS = (errno.EPERM, errno.ENOSYS, errno.EOPNOTSUPP)
# How many links the system follows.
_LINKS_MAX = 40
# As the folder of an absolute path: with one, os.link follows a link, such as that of a file without a name.
_NO_FOLDER = 0


def lock(descriptor: int, path: Any) -> None:
    """Takes the lock of the file at a path, as `age_tool` does: the second of two runs that write to it is refused. A file system without
    locks lets both in."""
    try:
        fcntl.flock(descriptor, fcntl.LOCK_EX | fcntl.LOCK_NB)
    except BlockingIOError:
        raise OSError(errno.EBUSY, "another program holds its lock", path) from None
    except OSError as fault:
        if fault.errno not in _NO_LOCKS:
            raise OSError(fault.errno, fault.strerror, path) from None
    # (the run that held it may have put another file there, or removed it, before it let go)
    if not os.path.samestat(os.fstat(descriptor), os.stat(path)):
        raise OSError(errno.EBUSY, "another program replaced it meanwhile", path)


def is_one(out: os.stat_result, other: os.stat_result) -> bool:
    """Whether what is written to the first file changes the second, as `age_tool` says: what is written to a terminal or another character
    device, or to a socket, is never read from it."""
    if stat.S_ISBLK(out.st_mode) and stat.S_ISBLK(other.st_mode):
        return out.st_rdev == other.st_rdev
    return os.path.samestat(out, other) and (
        stat.S_ISREG(out.st_mode) or stat.S_ISFIFO(out.st_mode)
    )


def descriptor_of(path: Any) -> int | None:
    """The descriptor of this process that a path names, as /dev/stdout and /dev/fd/3 do."""
    path, own = os.fsdecode(path), re.compile(
        re.escape(os.path.realpath("/proc/self")) + r"(/task/\d+)?/fd"
    )
    for _ in range(_LINKS_MAX):
        if not os.path.islink(path):
            return None
        folder, name = os.path.split(path)
        if own.fullmatch(os.path.realpath(folder)):
            return int(name)
        path = os.path.join(folder, os.readlink(path))
    return None


def opened_alone(path: Any, is_new: bool) -> Any:
    """The file at a path, which only this run writes, from its beginning; with `is_new`, only if it didn't exist. A regular file is
    unchanged until it is locked. What a path such as /dev/stdout names is open already, perhaps to append, and for others too: it is written
    from where it stands, without a lock."""
    if not is_new and (number := descriptor_of(path)) is not None:
        if fcntl.fcntl(number, fcntl.F_GETFL) & os.O_ACCMODE == os.O_RDONLY:
            raise OSError(errno.EBADF, "it is open for reading alone", path)
        return builtins.open(os.dup(number), "wb")
    how = os.O_WRONLY | os.O_CREAT | (os.O_EXCL if is_new else 0)
    file = builtins.open(
        path, "wb", opener=lambda name, _: os.open(name, how | os.O_CLOEXEC, 0o666)
    )
    try:
        if stat.S_ISREG(os.fstat(file.fileno()).st_mode):
            lock(file.fileno(), path)
            file.truncate(0)
        return file
    except BaseException:
        file.close()
        raise


def reach_disk(file: Any, made: Any = None) -> None:
    """Waits until what was written to a file has reached the disk, if it is a regular one or a disk, and so has its name, if it was made at this
    path."""
    kind = os.fstat(file.fileno()).st_mode
    if stat.S_ISREG(kind) or stat.S_ISBLK(kind):
        _sync(file.fileno())
        if made is not None:
            folder = os.open(os.path.dirname(os.path.realpath(made)), os.O_RDONLY | os.O_DIRECTORY)
            try:
                _sync(folder)
            finally:
                os.close(folder)


def _sync(descriptor: int) -> None:
    """Waits for a file or a folder, if its file system has a way to."""
    try:
        os.fsync(descriptor)
    except OSError as fault:
        if fault.errno not in (errno.EINVAL, errno.ENOTSUP):
            raise


@contextlib.contextmanager
def replacing(out: str, is_new: bool) -> Iterator[Any]:
    """A file that gets this name once all of it is written, and on the disk; until then an existing file is unchanged. With `is_new`
    nothing may have the name. A run that is killed leaves no file, if the file system has files without a name; else it leaves
    OUT.agefile-part, which the next run rewrites."""
    with contextlib.ExitStack() as held:
        mode = _locked(out, held)
        nameless = _without_name(os.path.dirname(out))
        # (one without a name gets this one for a moment: only a file with a name can replace another)
        part = f"{out}.agefile-part" if nameless is None else f"{out}.{os.getpid()}.agefile-part"
        # (what replaces a file that others may not read isn't theirs to read before it does)
        descriptor = (
            _left_by_a_run(part, 0o666 if mode is None else 0o600) if nameless is None else nameless
        )
        file = held.enter_context(builtins.open(descriptor, "wb", buffering=0))
        try:
            yield file
            if mode is not None and mode != stat.S_IMODE(
                os.fstat(file.fileno()).st_mode
            ):  # (on FAT only the mount's owner may set even the same one)
                os.fchmod(file.fileno(), mode)
            reach_disk(file)
            if nameless is not None:
                _name(f"/proc/self/fd/{nameless}", out if is_new else part)
            elif is_new:
                _rename(part, out)
            if not is_new:
                os.replace(part, out)
        except BaseException:
            with contextlib.suppress(FileNotFoundError):
                os.unlink(part)
            raise
        reach_disk(file, out)


def _locked(path: str, held: contextlib.ExitStack) -> int | None:
    """Locks the file at a path, if it exists, until the end; returns its mode."""
    how = os.O_NONBLOCK | os.O_CLOEXEC
    try:
        try:
            old = os.open(path, os.O_RDWR | how)  # (NFS locks only what is open for writing)
        except OSError:
            old = os.open(path, os.O_RDONLY | how)
    except FileNotFoundError:
        return None
    except PermissionError:  # (it can be replaced all the same)
        return stat.S_IMODE(os.stat(path).st_mode)
    held.callback(os.close, old)
    lock(old, path)
    return stat.S_IMODE(os.fstat(old).st_mode)


def _without_name(folder: str) -> int | None:
    """A new file in a folder, without a name, if the file system can do that, and it can be named later."""
    try:
        os.stat("/proc/self/fd")
        return os.open(folder, os.O_WRONLY | os.O_TMPFILE | os.O_CLOEXEC, 0o666)
    except OSError:
        return None


def _name(file: str, path: str) -> None:
    """Gives a file a name, if nothing has it yet."""
    try:
        os.link(file, path, src_dir_fd=_NO_FOLDER)
    except FileExistsError as fault:
        raise FileExistsError(fault.errno, fault.strerror, path) from None


def _rename(part: str, path: str) -> None:
    """Gives a file another name, if nothing has it yet."""
    try:
        _name(part, path)
    except OSError as fault:
        if fault.errno not in _NO_LINKS:
            raise
        # what has the name for a moment is empty, and this run's
        os.close(os.open(path, os.O_WRONLY | os.O_CREAT | os.O_EXCL | os.O_CLOEXEC, 0o666))
        os.replace(part, path)
    else:
        os.unlink(part)


def _left_by_a_run(part: str, mode: int = 0o666) -> int:
    """The file of that name: a new one, or one that a killed run left: this user's, that no run is writing, and empty now."""
    how, is_new = os.O_WRONLY | os.O_NOFOLLOW | os.O_NONBLOCK | os.O_CLOEXEC, True
    try:
        descriptor = os.open(part, how | os.O_CREAT | os.O_EXCL, mode)
    except FileExistsError:
        descriptor, is_new = (
            os.open(part, how | os.O_CREAT, mode),
            False,
        )  # (it may have gone meanwhile)
    try:
        found = os.fstat(descriptor)
        # (a new one may have another owner: NFS gives root's to nobody, and FAT has one for all)
        if not is_new and (
            not stat.S_ISREG(found.st_mode) or found.st_uid != os.geteuid() or found.st_nlink != 1
        ):
            raise FileExistsError(errno.EEXIST, "it isn't a file that an earlier run left", part)
        lock(descriptor, part)
        os.ftruncate(descriptor, 0)
        if (
            stat.S_IMODE(found.st_mode) & ~mode
        ):  # (the killed run's file may have been for everybody)
            with contextlib.suppress(PermissionError):  # (on FAT)
                os.fchmod(descriptor, stat.S_IMODE(found.st_mode) & mode)
        return descriptor
    except BaseException:
        os.close(descriptor)
        raise
