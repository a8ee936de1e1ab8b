"""The bytes of an auction's file, which is opened only for reading."""
import fcntl
import os
import stat
from os import PathLike

from hpb.file.layout import JOURNAL, MOST_FRAMES, PAGE
from hpb.refusals import DeviceFault, Unformatted

_MOST_BYTES = JOURNAL + MOST_FRAMES * PAGE
_STANDARD_OUTPUT, _STANDARD_ERROR = 1, 2


def read_image(path: str | PathLike[str], is_quiet: bool = True) -> bytes:
    """All bytes of a file. With `is_quiet`, a file that `hpb` is running or serving is refused.

    Refused by `DeviceFault` (91), if the file

    - can't be opened or read,
    - is in use,
    - is no regular file, or
    - is standard output or standard error.

    Refused by `Unformatted` (40), if it is longer than any auction's file.
    """
    try:
        # Opening a pipe this way doesn't wait for its other end; then it is refused.
        descriptor = os.open(path, os.O_RDONLY | os.O_NONBLOCK | os.O_CLOEXEC)
        try:
            _look_at_kind(os.fstat(descriptor))
            if is_quiet:
                fcntl.flock(descriptor, fcntl.LOCK_SH | fcntl.LOCK_NB)
            with open(descriptor, "rb", closefd=False) as file:
                image = file.read(_MOST_BYTES + 1)
        finally:
            os.close(descriptor)
    except BlockingIOError:
        raise DeviceFault("it is in use; give a copy that was made while nothing wrote to it") from None
    except OSError as fault:
        raise DeviceFault(fault.strerror) from None
    if len(image) > _MOST_BYTES:
        raise Unformatted("it is longer than any auction's file")
    return image


def _look_at_kind(found: os.stat_result) -> None:
    """Refuses all but regular files, and the files of the standard streams: output would be written into the file that is read."""
    if not stat.S_ISREG(found.st_mode):
        raise DeviceFault("it is no regular file")
    for stream in (_STANDARD_OUTPUT, _STANDARD_ERROR):
        if os.path.samestat(os.fstat(stream), found):
            raise DeviceFault("it is one of the standard streams")
