"""What a tree takes of a descriptor, by the canonical text that the library prints."""

import dataclasses
import functools
import re
from dataclasses import dataclass

_SHAPE = re.compile(r"O:([^:]*)G:([^:]*?)(?:D:(P?)(?:AR)?(?:AI)?(NO_ACCESS_CONTROL|(?:\([^()]*\))*))?")
_ENTRY = re.compile(r"\((A|D);([A-Z]*);([^()]*)\)")
#: So many texts are kept with their parts: most nodes have one that another node of their folder has.
_KEPT = 4096


@dataclass(frozen=True, slots=True)
class Entry:
    """An entry of a list: its kind, its flags in pairs of letters, and the rest of its text."""

    kind: str
    flags: tuple[str, ...]
    rest: str

    def __str__(self) -> str:
        return f"({self.kind};{''.join(self.flags)};{self.rest})"

    @property
    def is_inherited(self) -> bool:
        return "ID" in self.flags

    @property
    def is_for_children(self) -> bool:
        """Whether it has a flag that only a container's entry has."""
        return not {"OI", "CI", "IO", "NP"}.isdisjoint(self.flags)

    @property
    def made_own(self) -> "Entry":
        return Entry(self.kind, tuple(flag for flag in self.flags if flag != "ID"), self.rest)


@dataclass(frozen=True, slots=True)
class Parts:
    """The parts of a canonical text with owner and group. Without a list `entries` is None: the DACL is null, or absent
    if `is_absent`."""

    owner: str
    group: str
    is_protected: bool
    is_absent: bool
    entries: tuple[Entry, ...] | None

    @property
    def own(self) -> str:
        """What `import` of a script gives a node of this descriptor: its own entries, denies first, and protection. An
        absent DACL grants everything, so it is written as a null one, which does too."""
        return self._with(None if self.entries is None else [each for each in self.entries if not each.is_inherited])

    @property
    def as_root(self) -> "Parts":
        """The root of a tree: the entries that it inherited from a folder above are its own."""
        entries = None if self.entries is None else tuple(each.made_own for each in self.entries)
        return dataclasses.replace(self, entries=entries)

    @property
    def inherited(self) -> tuple[Entry, ...]:
        return tuple(each for each in self.entries or () if each.is_inherited)

    @property
    def kept(self) -> str:
        """What it inherited, as a list."""
        return f"D:{''.join(map(str, self.inherited))}"

    @property
    def text(self) -> str:
        """The descriptor for a line of `import`."""
        return self._with(self.entries, in_order=True)

    @property
    def dacl(self) -> tuple[bool, tuple[Entry, ...] | None]:
        """What two descriptors have alike if their DACLs grant alike and pass down alike."""
        return self.is_protected, self.entries

    @property
    def for_children(self) -> tuple[Entry, ...]:
        """The entries of which children inherit something: those of a null DACL are none."""
        return tuple(each for each in self.entries or () if each.is_for_children)

    @property
    def inherits(self) -> bool:
        """Whether it has what its folder passes down."""
        return self.entries is not None and not self.is_protected

    @property
    def has_no_own(self) -> bool:
        """Whether all that it has is inherited."""
        return self.inherits and all(each.is_inherited for each in self.entries or ())

    def _with(self, entries: list[Entry] | tuple[Entry, ...] | None, in_order: bool = False) -> str:
        owners = f"O:{self.owner}G:{self.group}"
        if entries is None:
            return f"{owners}D:NO_ACCESS_CONTROL"
        ordered = entries if in_order else sorted(entries, key=lambda entry: entry.kind != "D")
        return f"{owners}D:{'P' if self.is_protected else ''}{''.join(map(str, ordered))}"


@functools.lru_cache(_KEPT)
def parts_of(text: str) -> Parts:
    """The parts of a canonical text, or a ValueError if it has no owner or no group."""
    found = _SHAPE.fullmatch(text)
    if found is None or not found[1] or not found[2]:
        raise ValueError("it lacks an owner or a group")
    owner, group, protected, entries = found.groups()
    # (a tree keeps no flags of a null list, which grants everything with and without them)
    if entries is None or entries == "NO_ACCESS_CONTROL":
        return Parts(owner, group, False, entries is None, None)
    return Parts(owner, group, bool(protected), False, _entries_of(entries))


def _entries_of(text: str) -> tuple[Entry, ...]:
    return tuple(
        Entry(kind, tuple(flags[at : at + 2] for at in range(0, len(flags), 2)), rest)
        for kind, flags, rest in _ENTRY.findall(text)
    )
