"""Files that are whole or not there: digests, writing, and the lock of a batch."""
import contextlib
import fcntl
import hashlib
import json
import os


def digest_of(data):
    return hashlib.sha256(data).hexdigest()


def digest_of_file(path):
    with open(path, "rb") as file:
        return digest_of(file.read())


def text_of(value):
    """A value as JSON. Names that are no UTF-8 go through it unchanged, since all is escaped to ASCII."""
    return json.dumps(value, sort_keys=True, separators=(",", ":")) + "\n"


def read_json(path):
    """The value of a file, or None where the file is missing or is not whole."""
    try:
        with open(path, encoding="ascii") as file:
            return json.load(file)
    except (OSError, ValueError):
        return None


def sync(path):
    """Returns once the file or folder is on the disk."""
    number = os.open(path, os.O_RDONLY)
    try:
        os.fsync(number)
    finally:
        os.close(number)


def write_whole(path, data):
    """Writes a file under another name, which then takes its own: it is whole at any moment, or not there."""
    folder = os.path.dirname(path) or "."
    os.makedirs(folder, exist_ok=True)
    new = f"{path}.new-{os.getpid()}"
    with open(new, "wb") as file:
        file.write(data if isinstance(data, bytes) else data.encode("utf-8", "backslashreplace"))
        file.flush()
        os.fsync(file.fileno())
    os.replace(new, path)
    sync(folder)


def write_where_changed(path, data):
    """Leaves a file with this content as it is, with its date."""
    with contextlib.suppress(OSError), open(path, "rb") as file:
        if file.read() == data.encode():
            return False
    write_whole(path, data)
    return True


@contextlib.contextmanager
def locked(path):
    """Waits for a job of an earlier run that is still at work, as after the workflow alone was killed."""
    os.makedirs(os.path.dirname(path), exist_ok=True)
    with open(path, "w", encoding="ascii") as file:
        fcntl.flock(file, fcntl.LOCK_EX)
        yield
