"""The calls that a process of a user makes: each is one operation, with all that the kernel asks for it."""

import os
import stat

TEXT, BYTES = "user.hudarin.sddl", "user.hudarin.descriptor"


def opened(path: str, flags: int, act=lambda file: None) -> None:
    file = os.open(path, flags, 0o600)
    try:
        act(file)
    finally:
        os.close(file)


def run(path: str) -> None:
    """To execute: what is no program fails behind the check."""
    try:
        pid = os.posix_spawn(path, [path], {})
        os.waitpid(pid, 0)
    except OSError as error:
        if error.errno != 8:  # ENOEXEC
            raise


def enter(path: str) -> None:
    os.chdir(path)
    os.chdir("/")


def may(path: str, how: int) -> None:
    if not os.access(path, how):
        raise PermissionError(13, "access")


CALLS = {
    "stat": lambda path: stat.S_IFMT(os.stat(path).st_mode),
    "read": lambda path: opened(path, os.O_RDONLY, lambda file: os.read(file, 16)),
    "write": lambda path: opened(path, os.O_WRONLY, lambda file: os.pwrite(file, b"x", 0)),
    "append": lambda path: opened(path, os.O_WRONLY | os.O_APPEND, lambda file: os.write(file, b"x")),
    "both": lambda path: opened(path, os.O_RDWR),
    "empty": lambda path: opened(path, os.O_WRONLY | os.O_TRUNC),
    "empty_to_read": lambda path: opened(path, os.O_RDONLY | os.O_TRUNC),
    "run": run,
    "list": lambda path: sorted(os.listdir(path)),
    "enter": enter,
    "may": may,
    "text": lambda path: os.getxattr(path, TEXT).decode(),
    "bytes": lambda path: os.getxattr(path, BYTES).hex(),
    "times": lambda path: os.utime(path, (1, 1)),
    "shorten": lambda path: os.truncate(path, 0),
    "mode": lambda path: os.chmod(path, 0o777),
    "set": lambda path, text: os.setxattr(path, TEXT, text.encode()),
    "set_bytes": lambda path, text: os.setxattr(path, BYTES, bytes.fromhex(text)),
    "give": os.chown,
    "create": lambda path: opened(path, os.O_WRONLY | os.O_CREAT | os.O_EXCL),
    "mkdir": os.mkdir,
    "unlink": os.unlink,
    "rmdir": os.rmdir,
    "rename": os.rename,
    "symlink": os.symlink,
    "link": os.link,
    "fifo": os.mkfifo,
}
