"""Files that a front makes for itself. No other user can put one in its place or write it, and none replaces a file that is there.

In a folder that everyone may write, such as /tmp, another user may make a file first, under the name that a front is going to use.
Then the file would be his: he could read it, and change or cut it at any time.
"""
import errno
import os
import stat

MODE = 0o600
OTHERS_WRITE = 0o022
SAFELY = os.O_CLOEXEC | os.O_NOFOLLOW | os.O_NONBLOCK
# The errors of a file system that doesn't allow a second name for a file.
NO_LINKS = {errno.EPERM, errno.ENOTSUP, errno.EOPNOTSUPP, errno.ENOSYS}


def open_own(path: str, how: int, may_make: bool = True) -> int:
    """A descriptor of a regular file of this user that nobody else may write. With `may_make`, the file is made with mode 600 if
    there is none. If it can't be opened, the OSError says why.
    """
    if may_make:
        try:
            return os.open(path, how | SAFELY | os.O_CREAT | os.O_EXCL, MODE)
        except FileExistsError:
            pass
    file = os.open(path, how | SAFELY)
    try:
        look_at_owner(path, os.fstat(file))
    except BaseException:
        os.close(file)
        raise
    return file


def read_regular(path: str) -> bytes:
    """All bytes of a regular file, whoever owns it. An OSError says that it is none: a pipe would be waited for."""
    with open(os.open(path, os.O_RDONLY | os.O_CLOEXEC | os.O_NONBLOCK), "rb") as file:
        if not stat.S_ISREG(os.fstat(file.fileno()).st_mode):
            raise OSError(errno.EINVAL, "it is no regular file", path)
        return file.read()


def is_at(file: int, path: str) -> bool:
    """Whether this open file has this name."""
    try:
        return os.path.samestat(os.fstat(file), os.lstat(path))
    except (FileNotFoundError, NotADirectoryError):
        return False


def look_at_owner(path: str, status: os.stat_result) -> None:
    """Raises OSError if it is no regular file, or if somebody else owns it or may write it."""
    if not stat.S_ISREG(status.st_mode):
        raise OSError(errno.EINVAL, "it is no regular file", path)
    if status.st_uid != os.geteuid():
        raise PermissionError(errno.EACCES, "another user owns it; look whose it is, and move it", path)
    if status.st_mode & OTHERS_WRITE:
        raise PermissionError(errno.EACCES, "others may write it; look whether they did, and `chmod go-w` it", path)


def give_name(new: str, path: str) -> None:
    """Moves a file to a name that isn't taken; if it is, FileExistsError is raised. A plain rename would replace the file of that name."""
    try:
        os.link(new, path)
    except OSError as fault:
        if fault.errno not in NO_LINKS:
            raise
        if os.path.lexists(path):
            raise FileExistsError(errno.EEXIST, os.strerror(errno.EEXIST), path) from None
        os.rename(new, path)
    else:
        os.unlink(new)
