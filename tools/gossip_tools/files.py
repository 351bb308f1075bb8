"""Files that are there whole, or not at all, and folders that one process at a time works in."""
import contextlib
import fcntl
import hashlib
import os
import socket

from gossip_tools.commands import Refused
from gossip_tools.texts import speaker

say = speaker("files")


@contextlib.contextmanager
def named(path):
    """A block whose faults are those of this file, also where the system doesn't say so, as on a full disk."""
    try:
        yield
    except OSError as error:
        error.filename = error.filename or str(path)
        raise


def part_of(path):
    """Where this process writes what is to have that name."""
    return path.with_name(f".{path.name}.{os.getpid()}.part")


def check_sum(path):
    with open(path, "rb") as file:
        return hashlib.file_digest(file, "sha256").hexdigest()


def check_sums(contents):
    """What stands beside files of these contents, by name, to show where one is another later: lines of sha256sum."""
    return "".join(f"{hashlib.sha256(content).hexdigest()}  {name}\n" for name, content in contents.items())


def put(path, text):
    part = part_of(path)
    try:
        with named(path):
            part.write_bytes(text.encode())
            os.replace(part, path)
    finally:
        part.unlink(missing_ok=True)


@contextlib.contextmanager
def locked(folder):
    """A folder, made where it isn't there, that is in use until the block ends. Refuses one that another process uses.
    The file `lock` says who; the system drops the lock with its process."""
    folder.mkdir(parents=True, exist_ok=True)
    # (without a buffer, which would be written once more as the file is closed, also on a full disk)
    with open(folder / "lock", "ab+", buffering=0) as lock:
        with named(folder / "lock"):
            try:
                fcntl.flock(lock, fcntl.LOCK_EX | fcntl.LOCK_NB)
            except BlockingIOError:
                lock.seek(0)
                who = lock.read().decode(errors="replace").strip() or "another process"
                raise Refused(say("in_use", folder=folder, who=who)) from None
            lock.truncate(0)
            lock.write(f"process {os.getpid()} on {socket.gethostname()}\n".encode())
        yield
        lock.truncate(0)
