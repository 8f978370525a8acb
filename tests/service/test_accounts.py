"""Users whose groups are those of a file: the words of a question, and a file that is read again."""

import asyncio
import threading
import unittest
from collections.abc import Sequence
from pathlib import Path
from unittest import mock

import rig

from accounts import Accounts, FileReader, read_accounts
from deadline import Deadline
from errors import Failed, Fault, Invalid, ServiceError
from hudarin import Descriptor, Refused, Sid, Store
from questions import MOST_WORDS, Questions, Tokens
from script import takes_long
from tree import MAPPINGS

EXAMPLE = (rig.TOP / "examples/example.accounts").read_text()
#: Of the accounts of the example, with one more.
ALICE, JANE = "S-1-5-21-1-2-3-1104", "S-1-5-21-1-2-3-1107"
FILE = f"{EXAMPLE}user {JANE} EXAMPLE\\Jane Doe\nmember S-1-5-32-544 {JANE}\n"
#: What a client may claim of a user without accounts, or by `sdstore --whole`, and what is none of these.
WORDS = ("BA", "BA=deny", "BA=off", "BA=restrict", "+security", "+take", "BA=device", "level=high", "@User.Level=7",
         "EXAMPLE\\staff", "EXAMPLE\\alice", rig.USER, "x", "=", "+", "%", "é")


class People:
    """What the library would know: groups by the names of users, all of whom have one SID."""

    def __init__(self, **groups: Sequence[str]) -> None:
        self._groups, self.asked = groups, list[str]()

    def sids(self, user: str) -> Sequence[Sid]:
        self.asked.append(user)
        if user not in self._groups:
            raise Refused("account", 1, "Unknown")
        return [Sid.from_text(each) for each in (rig.USER, *self._groups[user])]


def fault(tokens: Tokens, mask: str, *words: str) -> str:
    """That of a token of these words; empty without one."""
    try:
        tokens.parsed(mask, words)
    except Fault as found:
        return found.answer.line()
    return ""


class Words(unittest.TestCase):
    """The words of a question, by accounts of a test."""

    def test_a_user_alone(self) -> None:
        people = People(**{"a b": ["BU"], "é%": [], "none": [rig.USER]})
        tokens = Tokens(Accounts(people, 0, frozenset()))
        for at, (word, size) in enumerate((("a%20b", 2), ("é%", 1), ("%C3%A9%25", 1), ("none", 2)), 1):
            with self.subTest(word):
                for mask in ("FR", "FR", "FW"):
                    self.assertEqual((fault(tokens, mask, word), tokens.size((word,))), ("", size))
                # A token is kept: its user isn't looked for again.
                self.assertEqual(len(people.asked), at)

    def test_groups_of_a_client(self) -> None:
        """Each has a fault, whether the token of the user is kept or not, and nothing of them is kept."""
        tokens = Tokens(Accounts(People(a=["BU"]), 0))
        for _ in range(2):
            for word in WORDS:
                with self.subTest(word):
                    self.assertEqual(fault(tokens, "FR", "a", word), "fault groups")
                    self.assertEqual(fault(tokens, "FR", "a", "BU", word), "fault groups")
                    self.assertEqual((tokens.size(("a", word)), tokens.has(("a", word))), (0, False))
            self.assertEqual(fault(tokens, "FR", "a"), "")

    def test_the_first_fault(self) -> None:
        """From the user over the mask to the words."""
        tokens = Tokens(Accounts(People(a=[]), 0))
        self.assertEqual([fault(tokens, *words) for words in (
            ("QQ", "b", "BU"), ("QQ", "%FF", "BU"), ("QQ", "a", "BU"), ("FR", "a", "BU"), ("QQ", "a"))],
            ["fault user 1 Unknown", "fault user", "fault mask", "fault groups", "fault mask"])

    def test_a_user_that_no_line_names(self) -> None:
        tokens = Tokens(Accounts(People(a=[]), 0, frozenset([Sid.from_text(rig.USER)])))
        self.assertEqual(fault(tokens, "FR", "a"), "fault user 3 NoUser")

    def test_views_of_the_registry(self) -> None:
        """KEY_WOW64_64KEY and KEY_WOW64_32KEY are no rights of a key; of other objects these bits are."""
        for mapping, asked in (("key", 0x20019), ("file", 0x20319), ("service", 0x20319), ("process", 0x20319)):
            tokens = Tokens(Accounts(People(a=[]), 0), MAPPINGS[mapping])
            with self.subTest(mapping):
                self.assertEqual([tokens.parsed("0x20319", ("a",))[1] for _ in range(2)], [asked, asked])

    def test_many_groups(self) -> None:
        """A user of more than 256 has what takes long answered by a thread, and of more than 2,048 nothing."""
        groups = [f"S-1-5-21-1-2-3-{at}" for at in range(MOST_WORDS + 1)]
        people = People(few=groups[:256], many=groups[:257], most=groups[:-1], more=groups)
        questions = Questions(mock.Mock(), "", MAPPINGS["file"], accounts=Accounts(people, 0))
        lines = ("check 0 / {} FR", "delete 0 / {}", "why 0 / {} FR", "checks 0 1 / {} FR")
        for user, wanted in (("few", False), ("many", True), ("most", True), ("more", False), ("nobody", False)):
            with self.subTest(user):
                self.assertEqual([takes_long(line.format(user).split(" "), questions) for line in lines],
                                 [False, False, wanted, wanted])
        self.assertEqual(fault(questions.tokens, "FR", "most"), "")
        self.assertEqual(fault(questions.tokens, "FR", "more"), "fault token")
        for line in ("checks", "checks 0", "checks 0 5 /", "checks 0 99999 / many FR", "why", "why 0 /"):
            self.assertFalse(takes_long(line.split(" "), questions), line)


class Taking(unittest.TestCase):
    """Accounts that take the place of others."""

    def setUp(self) -> None:
        self.store = Store(Descriptor.from_sddl("O:BAG:SYD:(A;;FR;;;BU)"))
        self.addCleanup(self.store.close)
        shown = mock.Mock(view=self.store.publish(), length=0)
        shown._replace = lambda view: mock.Mock(view=view, length=0)
        self.questions = Questions(shown, "", MAPPINGS["file"], accounts=Accounts(People(a=["BU"]), 0))

    def asked(self, questions: Questions) -> str:
        return questions.check("FR", ("a",), "/").kind

    def test_at_once(self) -> None:
        """A kept token is that of the old accounts, and isn't used again; also not that of a question that began before
        and ends later, which is answered by the old ones."""
        self.assertEqual(self.asked(self.questions), "granted")
        began = self.questions.beside(Deadline(rig.PATIENCE, print))
        self.questions.take(Accounts(People(a=[]), 0))
        self.assertEqual(self.asked(self.questions), "denied")
        self.questions.take(Accounts(People(a=[]), 0))
        self.assertEqual(self.asked(began), "granted")
        self.questions.tokens.adopt(began.tokens)
        self.assertFalse(self.questions.tokens.has(("a",)))
        self.assertEqual(self.asked(self.questions), "denied")

    def test_tokens_of_the_same_accounts(self) -> None:
        """Those that another thread made are kept."""
        later = self.questions.beside(Deadline(rig.PATIENCE, print))
        self.assertEqual(self.asked(later), "granted")
        self.questions.tokens.adopt(later.tokens)
        self.assertTrue(self.questions.tokens.has(("a",)))
        self.assertEqual(self.asked(self.questions), "granted")


class Reading(unittest.IsolatedAsyncioTestCase):
    """A file that is read again, by a function that a test ends."""

    async def asyncSetUp(self) -> None:
        self.files, self.found = list[Path](), dict[str, Exception]()
        self.may_end, self.began = threading.Semaphore(0), threading.Semaphore(0)
        self.taken, self.log = list[Accounts](), mock.Mock()
        self.reader = FileReader(self.taken.append, self.log)
        patch = mock.patch("accounts.read_accounts", self.read)
        patch.start()
        self.addCleanup(patch.stop)

    def read(self, file: Path) -> Accounts:
        self.files.append(file)
        self.began.release()
        self.may_end.acquire()
        if str(file) in self.found:
            raise self.found[str(file)]
        return Accounts(People(), 0)

    async def events(self, count: int) -> list[object]:
        """The first so many of the log."""
        while self.log.event.call_count < count:
            await asyncio.sleep(0.001)
        return [each.args[0] for each in self.log.event.call_args_list]

    async def test_several(self) -> None:
        """One at a time. What comes while one is read is read after it, and once: it was written meanwhile."""
        for name in ("a", "b", "c"):
            self.reader.read(Path(name))
        await asyncio.to_thread(self.began.acquire)
        self.assertEqual((self.files, self.taken), ([Path("a")], []))
        self.may_end.release(2)
        self.assertEqual(await self.events(2), ["accounts", "accounts"])
        self.assertEqual((self.files, len(self.taken)), ([Path("a"), Path("c")], 2))

    async def test_failures(self) -> None:
        """Nothing is taken, the log says why, and the next file is read as before."""
        self.may_end.release(9)
        for count, (error, text) in enumerate(
            ((Invalid("f: line 3"), "f: line 3"), (MemoryError(), "out of memory"), (ValueError("x"), "x")), 1
        ):
            self.found["a"] = error
            self.reader.read(Path("a"))
            self.assertEqual(await self.events(count), ["warning"] * count)
            said = self.log.event.call_args.kwargs
            self.assertEqual(said, {"text": f"the accounts aren't taken: {text}"})
        with mock.patch("threading.Thread.start", side_effect=RuntimeError("no thread")):
            self.assertRaises(RuntimeError, self.reader.read, Path("a"))
        self.assertEqual(self.taken, [])
        self.reader.read(Path("b"))
        self.assertEqual((await self.events(4))[3:], ["accounts"])
        self.assertEqual(len(self.taken), 1)


class Files(rig.Case):
    """Files of accounts, by the library."""

    def fault_of(self, text: bytes) -> ServiceError | None:
        file = self.room / "accounts"
        file.write_bytes(text)
        try:
            read_accounts(file)
        except ServiceError as error:
            self.assertTrue(str(error).startswith(f"{file}: "), error)
            return error
        return None

    def test_faults(self) -> None:
        for text, line, name in (
            ("frob\n", 1, "1 Keyword"), (f"user {ALICE} a\nuser QQ b\n", 2, "2 Sid"), (f"\nuser {ALICE}", 2, "3 Name"),
            (f"user {ALICE} a\x01b", 1, "3 Name"), (f"#\r\n\r\ndisabled {ALICE} x", 3, "4 Surplus"),
            (f"user {ALICE} a\nincomplete 1 skipped\n", 2, "5 Incomplete"), ("\ufeff", 1, "1 Keyword"),
            (f"user {ALICE} a\rfrob\n", 1, "3 Name"),
        ):
            with self.subTest(text):
                error = self.fault_of(text.encode())
                self.assertIsInstance(error, Invalid)
                self.assertTrue(str(error).endswith(f": line {line}: {name}"), error)
        self.assertIn("line 3: it isn't UTF-8", str(self.fault_of(b"#\n#\nuser \xff")))
        for text in ("", "\n", "# only a comment", FILE):
            self.assertIsNone(self.fault_of(text.encode()))
        for each in (self.room / "none", self.room, self.room / "none" / "none", self.room / ("x" * 300)):
            self.assertRaises(Failed, read_accounts, each)

    def test_users_without_a_line(self) -> None:
        """Those that Windows has everywhere are users where a line of the file says so."""
        words = ("SYSTEM", "SY", "S-1-5-18", "S-1-5-20", "LOCAL%20SERVICE", "ANONYMOUS%20LOGON", "S-1-5-7")
        file = self.room / "accounts"
        for line, known in (("", ()), ("user SY NT AUTHORITY\\SYSTEM", ("SYSTEM", "SY", "S-1-5-18")),
                            ("user S-1-5-7 visitor", ("visitor", "ANONYMOUS%20LOGON", "S-1-5-7"))):
            file.write_text(f"{FILE}{line}")
            tokens = Tokens(read_accounts(file))
            for word in (*words, *known):
                with self.subTest(line=line, word=word):
                    self.assertEqual(fault(tokens, "FR", word), "" if word in known else "fault user 3 NoUser")


if __name__ == "__main__":
    unittest.main()
