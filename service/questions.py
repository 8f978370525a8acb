"""The questions of a script that are answered at once, by a published tree: `check`, `why`, `delete` and `show`; and
tokens."""

import functools
from collections import OrderedDict
from collections.abc import Sequence

import hudarin
from hudarin import Group, KeptDescriptor, Refused, Sid, Token

from accounts import Accounts
from analysis import checked, descriptor_in
from answers import Checked, CheckedAll, Described, Explained, Result
from deadline import Deadline
from edits import require_paths
from entry import Place
from errors import Fault
from shown import Shown
from spelling import fault_of, sid_of
from tree import Mapping

#: The most words of a token: a Windows token has at most 1,024 groups.
MOST_WORDS = 2_048
#: The words of the tokens that are kept parsed, and the masks; a longer mask's text is parsed each time.
_KEPT_WORDS, _KEPT_MASKS, _MASK_LENGTH = 65_536, 1_024, 64
_STATES = {"": hudarin.ENABLED, "=deny": hudarin.DENY_ONLY, "=off": hudarin.DISABLED}
#: FILE_DELETE_CHILD of folders (winnt.h).
_DELETE_CHILD = 0x40
#: KEY_WOW64_64KEY and KEY_WOW64_32KEY (winnt.h), which say which view of the registry is opened and are no rights.
_VIEWS = 0x300
#: The values of checks are few: to look one up takes less time than to make it.
_checked = functools.lru_cache(4096)(Checked)
_PRIVILEGES = {"+security": hudarin.SECURITY, "+take": hudarin.TAKE_OWNERSHIP}


class Tokens:
    """Tokens and requests by the words that spell them; the last used tokens are kept. With accounts a user has the
    groups that these say, and no words. A request for a registry key is without the bits of a view."""

    def __init__(self, accounts: Accounts | None = None, mapping: Mapping = hudarin.FILES) -> None:
        self.accounts = accounts
        self._left_out = _VIEWS if mapping == hudarin.KEYS else 0
        #: Each with its size.
        self._kept: OrderedDict[tuple[str, ...], tuple[Token, int]] = OrderedDict()
        self._masks: dict[str, int] = {}
        #: The sizes of all that are kept.
        self._count = 0

    def kept(self, mask: str, words: tuple[str, ...]) -> tuple[Token, int] | None:
        """The token of a user and words, and the mask, if both are kept."""
        found, bits = self._kept.get(words), self._masks.get(mask)
        if found is None or bits is None:
            return None
        self._kept.move_to_end(words)
        return found[0], bits

    def parsed(self, mask: str, words: tuple[str, ...]) -> tuple[Token, int]:
        """The same, kept or not. Fault: the first that is none, from the user over the mask to the other words."""
        kept = self.kept(mask, words)
        if kept is not None:
            return kept
        sids, bits = self._sids(words), self._mask(mask)
        return self._made(sids, words)[0], bits

    def size(self, words: tuple[str, ...]) -> int:
        """How many words spell the token, or how many SIDs the accounts give it: 0 if they give none."""
        if self.accounts is None:
            return len(words)
        try:
            return self._made(self._sids(words), words)[1]
        except (Fault, MemoryError):
            return 0

    def has(self, words: tuple[str, ...]) -> bool:
        """Whether the token is kept."""
        return words in self._kept

    def adopt(self, other: "Tokens") -> None:
        """Keeps what the other one does, which isn't used any more; but nothing that is by other accounts."""
        if other.accounts is not self.accounts:
            return
        for words, (token, size) in other._kept.items():
            if words not in self._kept:
                self._keep(words, token, size)

    def _sids(self, words: tuple[str, ...]) -> Sequence[Sid]:
        """The user, and the groups that accounts give it; nothing where the token is kept."""
        if words in self._kept:
            return ()
        return (sid_of(words[0]),) if self.accounts is None else self.accounts.sids(words[0])

    def _made(self, sids: Sequence[Sid], words: tuple[str, ...]) -> tuple[Token, int]:
        """The token, kept or of these SIDs, and its size."""
        found = self._kept.get(words)
        if found is None:
            found = self._keep(words, *self._token(sids, words[1:]))
        self._kept.move_to_end(words)
        return found

    def _token(self, sids: Sequence[Sid], words: Sequence[str]) -> tuple[Token, int]:
        if self.accounts is None:
            return _token(sids[0], words), len(words) + 1
        # Here alone it is decided that what a client says of a user doesn't count.
        if words:
            raise Fault.of("groups")
        if len(sids) > MOST_WORDS + 1:
            raise Fault.of("token")
        return Token(sids[0], sids[1:]), len(sids)

    def _mask(self, word: str) -> int:
        bits = mask_of(word) & ~self._left_out
        if len(self._masks) == _KEPT_MASKS:
            self._masks.clear()
        if len(word) <= _MASK_LENGTH:
            self._masks[word] = bits
        return bits

    def _keep(self, words: tuple[str, ...], token: Token, size: int) -> tuple[Token, int]:
        self._kept[words] = token, size
        self._count += size
        while self._count > _KEPT_WORDS:
            _, (stale, count) = self._kept.popitem(last=False)
            self._count -= count
            stale.close()
        return token, size


def mask_of(word: str) -> int:
    try:
        return hudarin.mask(word)
    except Refused:
        raise Fault.of("mask") from None


def base_of(words: Sequence[str]) -> list[Group]:
    """The groups that all tokens in question have."""
    if len(words) > MOST_WORDS:
        raise Fault.of("token")
    return [_group(word) for word in words]


def _group(word: str) -> Group:
    front, mark, ending = word.partition("=")
    if mark + ending not in _STATES:
        raise Fault.of("token")
    return _member(front), _STATES[mark + ending]


def _member(word: str) -> Sid:
    try:
        return sid_of(word)
    except Fault:
        raise Fault.of("token") from None


def _token(user: Sid, words: Sequence[str]) -> Token:
    if len(words) > MOST_WORDS:
        raise Fault.of("token")
    groups: list[Group] = []
    restricting: list[Sid] = []
    privileges, deny_only_user = 0, False
    for word in words:
        if word in _PRIVILEGES:
            privileges |= _PRIVILEGES[word]
        elif word == "user=deny":
            deny_only_user = True
        elif word.endswith("=restrict"):
            restricting.append(_member(word.removesuffix("=restrict")))
        else:
            groups.append(_group(word))
    return Token(user, groups, privileges, restricting, deny_only_user)


class Questions:
    """Answers by what readers see. Each raises a Fault for the first fault of its words, arguments from the left."""

    def __init__(
        self, shown: Shown, store: str, mapping: Mapping, deadline: Deadline | None = None,
        accounts: Accounts | None = None,
    ) -> None:
        self.shown, self.store = shown, store
        self.tokens, self.mapping = Tokens(accounts, mapping), mapping
        self._deadline = deadline

    def take(self, accounts: Accounts) -> None:
        """All questions from here on are answered by these accounts. The tokens that are kept were by those before."""
        self.tokens = Tokens(accounts, self.mapping)

    def gauges(self) -> dict[str, float]:
        accounts = self.tokens.accounts
        return {} if accounts is None else {"accounts_age_seconds": accounts.age}

    def unchained(self) -> "Questions":
        """The same, without the chain of what is published."""
        shown = self.shown._replace(place=Place(self.shown.place.number, b""))
        return Questions(shown, self.store, self.mapping)

    def beside(self, deadline: Deadline) -> "Questions":
        """The same, by a view of its own that is closed by itself: for a thread, up to the deadline."""
        shown = self.shown._replace(view=self.shown.view.share())
        return Questions(shown, self.store, self.mapping, deadline, self.tokens.accounts)

    def _token(self, mask: str, words: tuple[str, ...], paths: Sequence[str]) -> tuple[Token, int]:
        """The token of the words, a user first, and the mask, that aren't kept. The paths come before them."""
        try:
            return self.tokens.parsed(mask, words)
        except Fault:
            require_paths(self.shown.view, paths)
            raise

    def check(self, mask: str, words: tuple[str, ...], path: str) -> Checked:
        """Whether the token of the words is granted the mask at the path."""
        shown = self.shown
        token, bits = self.tokens.kept(mask, words) or self._token(mask, words, [path])
        try:
            return _checked(shown.length, shown.view.check(path, token, bits))
        except Refused as refused:
            if refused.status != "no node":
                raise Fault(fault_of(refused)) from None
            return _checked(shown.length, None)

    def delete(self, words: tuple[str, ...], path: str) -> Result:
        """Whether the token of the words may delete the node of the path, and by which descriptor: its own, or its
        parent's."""
        shown = self.shown
        token, delete = self._token("SD", words, [path])
        try:
            if shown.view.check(path, token, delete):
                return Result("granted", "by node", seen=shown.length)
        except Refused as refused:
            if refused.status != "no node":
                raise Fault(fault_of(refused)) from None
            return Result("nonode", seen=shown.length)
        parent = path.rpartition("/")[0] or "/"
        by_parent = path != "/" and shown.view.check(parent, token, _DELETE_CHILD)
        return Result("granted" if by_parent else "denied", "by parent" if by_parent else "", seen=shown.length)

    def checks(self, mask: str, words: tuple[str, ...], paths: Sequence[str]) -> CheckedAll:
        """The same at each of the paths."""
        shown = self.shown
        token, bits = self._token(mask, words, paths)
        try:
            if self._deadline is None:
                verdicts = shown.view.check_all(paths, token, bits)
            else:
                size = self.tokens.size(words)
                verdicts = list(checked(shown.view, paths, token, size, bits, self._deadline))
        except Refused as refused:
            raise Fault(fault_of(refused)) from None
        return CheckedAll(shown.length, verdicts)

    def why(self, mask: str, words: tuple[str, ...], path: str) -> Explained:
        """The answer of `check`, and its reasons."""
        said = self.check(mask, words, path)
        if said.verdict is None:
            return Explained(said, ())
        token, bits = self.tokens.parsed(mask, words)
        with KeptDescriptor(self.shown.view.descriptor(path)) as kept:
            return Explained(said, kept.explain(token, bits, self.mapping).parts)

    def show(self, path: str) -> Described | Result:
        found, seen = descriptor_in(self.shown.view, path), self.shown.length
        return Result("nonode", seen=seen) if found is None else Described(seen, str(found))
