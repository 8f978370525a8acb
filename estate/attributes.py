"""Extended attributes by libc: ntfs-3g answers EIO, and not ERANGE, if the buffer is too small, and the buffer that
os.getxattr begins with has 128 bytes."""

import ctypes
import os

#: Linux allows no longer attribute.
_SIZE = 65_536

_libc = ctypes.CDLL(None, use_errno=True)
_libc.lgetxattr.argtypes = [ctypes.c_char_p, ctypes.c_char_p, ctypes.c_void_p, ctypes.c_size_t]
_libc.lgetxattr.restype = ctypes.c_ssize_t
_buffer = ctypes.create_string_buffer(_SIZE)


def read(path: bytes, name: str) -> bytes:
    """The attribute of the file of this path, which isn't followed if it is a link; or an OSError. One thread at a time
    may read."""
    length = _libc.lgetxattr(path, name.encode(), _buffer, _SIZE)
    if length < 0:
        number = ctypes.get_errno()
        raise OSError(number, os.strerror(number))
    return ctypes.string_at(_buffer, length)


def write(path: bytes, name: str, value: bytes) -> None:
    """Replaces the attribute, which the file has already; or an OSError."""
    os.setxattr(path, name, value, os.XATTR_REPLACE, follow_symlinks=False)


def in_folder(folder: int, name: bytes) -> bytes:
    """The path of a name in an open folder, which is the folder itself for the name '.'."""
    return b"/proc/self/fd/%d/%s" % (folder, name)
