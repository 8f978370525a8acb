"""Mounted volumes and shares. Nodes are reached by file descriptors of their folders, so that no link that somebody
puts in the way is followed, and no path is too long for Linux."""

import dataclasses
import errno
import os
from collections.abc import Callable, Iterator
from contextlib import contextmanager
from dataclasses import dataclass

import attributes
from errors import Failed, Invalid
from exclusion import Exclusion
from forms import Attribute, kept_in
from found import Found
from others import Kept
from paths import Path, spelled
from reparse import is_closed_folder

_FOLDER = os.O_RDONLY | os.O_DIRECTORY | os.O_NOFOLLOW | os.O_CLOEXEC
#: So many attributes are kept with their descriptors: nodes of a volume have few different ones.
_KEPT = 65_536
#: Folders with more names aren't listed. (Each folder on the way is open, and a process may have 1,024 open files.)
_DEEPEST = 900
#: What a node is whose descriptor is read; other nodes are skipped for what they are. Of a closed folder nobody knows
#: what is in it.
_IS_FOLDER, _IS_FILE, _IS_CLOSED = "folder", "file", "closed folder"
#: What has a node's descriptor, and may pass some of it down.
FOLDERS = (_IS_FOLDER, _IS_CLOSED)


def text_of(error: OSError) -> str:
    return error.strerror or str(error)


@dataclass(slots=True)
class _Level:
    """An open folder, and what is still to be visited in it: names, and what each is."""

    folder: int
    path: Path
    names: Iterator[tuple[bytes, str]]
    unlisted: str | None = None


class Volume:
    """A folder and all below it on one file system: `with Volume(folder) as volume: ..`."""

    def __init__(self, folder: str, attribute: Attribute | None = None) -> None:
        """The attribute is the one that the folder has, unless it is given."""
        self.name = folder
        try:
            self._root = os.open(folder, os.O_RDONLY | os.O_DIRECTORY | os.O_CLOEXEC)
        except OSError as error:
            raise Failed(f"{folder}: {text_of(error)}") from error
        try:
            self._device = os.fstat(self._root).st_dev
            self.attribute = attribute or self._named_attribute()
        except BaseException:
            os.close(self._root)
            raise
        self._answers: dict[bytes, Kept | str] = {}
        #: The first path of each file that may have several names.
        self._names: dict[int, Path] = {}

    def __enter__(self) -> "Volume":
        return self

    def __exit__(self, *_: object) -> None:
        os.close(self._root)

    @property
    def is_read_only(self) -> bool:
        return bool(os.fstatvfs(self._root).f_flag & os.ST_RDONLY)

    @property
    def node_count(self) -> int:
        """How many nodes the whole file system has, if it says so, or 0."""
        volume = os.fstatvfs(self._root)
        return max(volume.f_files - volume.f_ffree, 0)

    def _named_attribute(self) -> Attribute:
        for attribute in Attribute:
            try:
                attributes.read(attributes.in_folder(self._root, b"."), attribute.value)
            except OSError as error:
                if error.errno in (errno.ENODATA, errno.ENOTSUP):
                    continue
            return attribute
        names = ", ".join(attribute.value for attribute in Attribute)
        raise Invalid(f"{self.name}: it has none of {names}; if folders in it have one, name it by --attribute")

    def walk(self, exclusion: Exclusion, root: str | None = None) -> Iterator[Found]:
        """Each node, as Found says; a folder that is excluded isn't opened. A volume that disappears is Failed. `root`
        is the descriptor of the folder itself in canonical SDDL, unless its own counts."""
        levels = [self._level(os.dup(self._root), ())]
        unlisted = levels[0].unlisted
        try:
            if root is None:
                yield self._found((), True, lambda: self._read(self._root, b"."), unlisted)
            else:
                yield Found((), True, Kept(root), None, unlisted)
            while levels:
                level = levels[-1]
                name, kind = next(level.names, (b"", ""))
                if not name:
                    os.close(levels.pop().folder)
                elif (why := exclusion.why((*level.path, name))) is not None:
                    yield Found((*level.path, name), kind in FOLDERS, None, why, is_excluded=True)
                elif kind == _IS_FOLDER:
                    found, below = self._folder_in(level, name)
                    levels += [] if below is None else [below]
                    yield found
                else:
                    yield self._leaf_in(level, name, kind)
        finally:
            for level in levels:
                os.close(level.folder)

    def _level(self, folder: int, path: Path) -> _Level:
        if len(path) > _DEEPEST:
            return _Level(folder, path, iter(()), f"it isn't listed: its path has more than {_DEEPEST} names")
        try:
            names = _names_in(folder)
        except OSError as error:
            self._is_alive(path, error)
            return _Level(folder, path, iter(()), f"it can't be listed: {text_of(error)}")
        return _Level(folder, path, iter(names))

    def _folder_in(self, level: _Level, name: bytes) -> tuple[Found, _Level | None]:
        path = (*level.path, name)
        try:
            folder = os.open(name, _FOLDER, dir_fd=level.folder)
        except OSError as error:
            self._is_alive(path, error)
            why = f"it can't be opened: {text_of(error)}"
            return self._found(path, True, lambda: self._read(level.folder, name), why), None
        if os.fstat(folder).st_dev != self._device:
            os.close(folder)
            return Found(path, True, None, "another file system is mounted there"), None
        below = self._level(folder, path)
        return self._found(path, True, lambda: self._read(folder, b"."), below.unlisted), below

    def _leaf_in(self, level: _Level, name: bytes, kind: str) -> Found:
        path = (*level.path, name)
        if kind == _IS_CLOSED:
            why = "a reparse point hides what is in it"
            return self._found(path, True, lambda: self._read(level.folder, name), why)
        if kind != _IS_FILE:
            return Found(path, False, None, kind)
        found = self._found(path, False, lambda: self._read(level.folder, name))
        first = self._first_name_of(path, attributes.in_folder(level.folder, name))
        return found if first is None else dataclasses.replace(found, first_name=first)

    def _first_name_of(self, path: Path, at: bytes) -> Path | None:
        """The path by which a file was found before, if it has several names."""
        try:
            status = os.stat(at, follow_symlinks=False)
        except OSError:
            return None
        first = self._names.setdefault(status.st_ino, path) if status.st_nlink > 1 else path
        return None if first == path else first

    def _found(self, path: Path, is_container: bool, read: Callable[[], bytes], unlisted: str | None = None) -> Found:
        try:
            kept = self._kept(read())
        except OSError as error:
            self._is_alive(path, error)
            return Found(path, is_container, None, f"its descriptor can't be read: {text_of(error)}", unlisted)
        if isinstance(kept, str):
            return Found(path, is_container, None, kept, unlisted)
        return Found(path, is_container, kept, None, unlisted)

    def _read(self, folder: int, name: bytes) -> bytes:
        return attributes.read(attributes.in_folder(folder, name), self.attribute.value)

    def _kept(self, blob: bytes) -> Kept | str:
        """What is kept of the descriptor that the attribute holds, or why it is skipped."""
        kept = self._answers.get(blob)
        if kept is None:
            try:
                kept = kept_in(self.attribute, blob)
            except ValueError as error:
                kept = f"its descriptor isn't supported: {error}"
            if len(self._answers) >= _KEPT:
                self._answers.clear()
            self._answers[blob] = kept
        return kept

    def _is_alive(self, path: Path, error: OSError) -> None:
        """Raises Failed if the error is that of a volume that has disappeared, and not of a node alone."""
        try:
            os.fstatvfs(self._root)
        except OSError as gone:
            raise Failed(f"{self.name}: the volume disappeared at {spelled(path)}: {text_of(gone)}") from error

    def names_in(self, path: Path) -> list[tuple[bytes, str]]:
        """The names in a folder, each with what it is: one of FOLDERS, "file" or something else; or an OSError."""
        with self._opened(path) as folder:
            return _names_in(folder)

    @contextmanager
    def _opened(self, path: Path) -> Iterator[int]:
        """The folder of the path. Raises OSError, also where a part of the path has become a link."""
        folder = os.dup(self._root)
        try:
            for name in path:
                below = os.open(name, _FOLDER, dir_fd=folder)
                os.close(folder)
                folder = below
            yield folder
        finally:
            os.close(folder)

    @contextmanager
    def node(self, path: Path) -> Iterator["Node"]:
        """One node, to read and write its attribute: `with volume.node(path) as node: ..`. Raises OSError, also where
        a part of the path has become a link or another file system."""
        with self._opened(path[:-1]) as folder:
            yield Node(self, folder, path)


class Node:
    """A node of a volume, in its open folder."""

    def __init__(self, volume: Volume, folder: int, path: Path) -> None:
        self._attribute = volume.attribute.value
        self._at = attributes.in_folder(folder, path[-1] if path else b".")
        status = os.stat(self._at, follow_symlinks=False)
        if status.st_dev != volume._device:
            raise OSError(errno.EXDEV, os.strerror(errno.EXDEV), spelled(path))
        #: What two names of one file have alike.
        self.inode = status.st_ino

    def read(self) -> bytes:
        return attributes.read(self._at, self._attribute)

    def write(self, blob: bytes) -> None:
        attributes.write(self._at, self._attribute, blob)


def _names_in(folder: int) -> list[tuple[bytes, str]]:
    with os.scandir(folder) as entries:
        return sorted((os.fsencode(entry.name), _kind_of(folder, entry)) for entry in entries)


def _kind_of(folder: int, entry: "os.DirEntry[str]") -> str:
    if entry.is_symlink():
        is_closed = is_closed_folder(attributes.in_folder(folder, os.fsencode(entry.name)))
        return {None: "a link", True: _IS_CLOSED, False: _IS_FILE}[is_closed]
    if entry.is_dir(follow_symlinks=False):
        return _IS_FOLDER
    return _IS_FILE if entry.is_file(follow_symlinks=False) else "neither a folder nor a file"
