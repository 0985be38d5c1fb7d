"""Files in, text out, and where the repository stands."""

import os
import shutil
import sys
import tempfile
from contextlib import suppress

from .trouble import Trouble

ROOT = os.path.dirname(os.path.dirname(os.path.dirname(os.path.abspath(__file__))))
LONGEST, CHUNK = 1 << 24, 1 << 17


def read_file(path):
    """All bytes of a file."""
    try:
        with open(path, "rb") as file:
            return whole(file, path)
    except (OSError, ValueError) as error:
        raise Trouble(f"{path}: {getattr(error, 'strerror', None) or error}") from None


def read_input():
    """All bytes of standard input."""
    try:
        return whole(sys.stdin.buffer, "standard input")
    except (OSError, AttributeError) as error:
        reason = getattr(error, "strerror", None) or "it is closed"
        raise Trouble(f"standard input: {reason}") from None


def encoded(text):
    """Text as it is printed; the bytes of a path that is no UTF-8 as they are."""
    return text.encode("utf-8", "surrogateescape")


def whole(file, path):
    data = file.read(CHUNK)
    while more := file.read(CHUNK):
        data += more
        if len(data) > LONGEST:
            raise Trouble(f"{path}: more than {LONGEST} bytes can't be a sheet or a list")
    return data


def store(path, data, like, over=False):
    """Writes a file whole or not at all, with the rights of another; whether it could without writing over one."""
    if not over and os.path.lexists(path):
        return False
    path = os.path.realpath(path) if over else path
    if os.path.lexists(path) and not os.path.isfile(path):
        raise Trouble(f"{path}: is no plain file")
    temporary = ""
    try:
        handle, temporary = tempfile.mkstemp(prefix=".m2m-", dir=os.path.dirname(path) or os.curdir)
        with open(handle, "wb") as file:
            file.write(data)
            file.flush()
            os.fsync(file.fileno())
        with suppress(OSError):
            shutil.copymode(like, temporary)
        publish(temporary, path, over)
    except FileExistsError:
        return False
    except (OSError, ValueError) as error:
        raise Trouble(f"{path}: {getattr(error, 'strerror', None) or error}") from None
    finally:
        with suppress(OSError):
            os.unlink(temporary)
    return True


def publish(temporary, path, over):
    """Gives a file that is written whole its name; over another only where told."""
    if over:
        os.replace(temporary, path)
        return
    try:
        os.link(temporary, path)
    except FileExistsError:
        raise
    except OSError:  # a file system without links
        take_name(temporary, path)


def take_name(temporary, path):
    """Gives a file its name by an empty one that is new; where that fails none is left."""
    with open(path, "xb"):
        pass
    try:
        os.replace(temporary, path)
    except BaseException:
        os.unlink(path)
        raise
