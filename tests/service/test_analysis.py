"""Who can, what a change opens, and what a publish would change: as the pages' tables and the program have it."""

import asyncio
import re
import unittest
from collections.abc import Iterator
from unittest import mock

import rig

from analysis import Reviewing, found, reviewed
from client import AsyncClient, Client, Rejected
from deadline import Deadline
from hudarin import FILES, Descriptor, Sid, Store, Token
from spelling import spelled

PAGES = rig.TOP / "docs"


def rows(page: str, heading: str) -> Iterator[tuple[str, str, list[str], list[str]]]:
    """The rows of four columns below a heading: two texts, groups, and lines."""
    text = (PAGES / page).read_text().partition(f"\n## {heading}\n")[2].partition("\n## ")[0]
    for row in text.splitlines():
        cells = [cell.strip() for cell in row.strip("|").split("|")]
        if len(cells) == 4 and cells[0].startswith("`"):
            yield cells[0].strip("`"), cells[1].strip("`"), cells[2].split(), re.findall(r"`([^`]*)`", cells[3])


def is_canonical(descriptor: str) -> bool:
    """Whether no deny is after an allow: a tree refuses others."""
    return "D" not in "".join(re.findall(r"\(([AD]);", descriptor)).lstrip("D")


class Analysis(rig.Case):
    def answers(self, command: str, heading: str) -> int:
        """The rows of docs/ANALYSIS.md are answered, each by a node of its first descriptor. Returns how many."""
        found = [row for row in rows("ANALYSIS.md", heading) if re.match("O:.*G:.*D:", row[0]) and is_canonical(row[0])]
        self.make("open 1 O:BAG:SYD:\npublish\n")
        self.start()
        with Client(str(self.lines), timeout=rig.PATIENCE) as client:
            for at, row in enumerate(found):
                client.edit("addo", f"/{at}", row[0])
            client.publish()
            for at, (descriptor, asked, base, wanted) in enumerate(found):
                with self.subTest(descriptor=descriptor, asked=asked):
                    self.assertEqual(client.lines(command, f"/{at}", asked, *base), wanted)
        return len(found)

    def test_who(self) -> None:
        self.assertGreater(self.answers("who", "Who"), 9)

    def test_compare(self) -> None:
        self.assertGreater(self.answers("compare", "Compare"), 9)

    def test_faults(self) -> None:
        self.make()
        self.start()
        with Client(str(self.lines), timeout=rig.PATIENCE) as client:
            for words, fault in (
                (("find", "0", "/", rig.USER), "fault words"),
                (("find", "x", "a", "QQ", "QQ"), "fault number"),
                (("find", "0", "a", "QQ", "QQ"), "fault path"),
                (("find", "0", "/", "QQ", "QQ"), "fault sid"),
                (("find", "0", "/", rig.USER, "QQ", "x"), "fault mask"),
                (("find", "0", "/", rig.USER, "FR", "x"), "fault token"),
                (("find", "1", "/", rig.USER, "FR"), "noreader"),
                (("who", "/"), "fault words"),
                (("who", "a", "QQ"), "fault path"),
                (("who", "/", "QQ", "x"), "fault mask"),
                (("who", "/", "FR", "+take"), "fault token"),
                (("compare", "/"), "fault words"),
                (("compare", "a", "X"), "fault path"),
                (("compare", "/", "X", "x"), "fault sddl 1 Syntax at 0"),
                (("compare", "/", "D:", "BU=restrict"), "fault token"),
                (("review", "/", "/"), "fault words"),
                (("review", "a"), "fault path"),
            ):
                with self.subTest(words=words), self.assertRaises(Rejected) as rejected:
                    client.lines(*words)
                self.assertEqual(str(rejected.exception), fault)
            self.assertEqual([client.find("/x", rig.USER, "FR"), client.who("/x"), client.compare("/x", "D:"),
                              client.review("/x")], [None] * 4)

    def test_of_the_clients(self) -> None:
        self.make()
        self.start()
        with Client(str(self.lines), timeout=rig.PATIENCE) as client:
            client.edit("addc", "/a b", "O:BAG:SYD:")
            client.edit("addo", "/a b/nonode", "O:BAG:SYD:P(A;;FW;;;BU)")
            self.assertEqual(client.review("/a b"), ["new /a%20b", "new /a%20b/nonode", "reviewed 0 2"])
            client.publish()
            self.assertEqual(client.review(), ["reviewed 2 2"])
            self.assertEqual(client.find("/", rig.USER, "FR", ["BU"]), ["/", "/a b"])
            self.assertEqual(client.find("/a b", rig.USER, "FW", ["BU"]), ["/a b/nonode"])
            self.assertEqual(client.find("/a b", rig.USER, "FA", ["BU"]), [])
            self.assertEqual(client.who("/a b/nonode", "0x2"), ["0x2 to S-1-5-32-545"])
            self.assertEqual(client.who("/", "0"), [])
            self.assertEqual(client.compare("/", "O:BAG:SYD:(A;OICI;FR;;;BU)"), [])
            client.edit("move", "/a b/nonode", "/x")
            client.edit("dacl", "/a b", "D:(A;OI;0x2;;;BU)")
            changes = ["/a%20b gained 0x2 by S-1-5-32-545", "/a%20b new objects: gained 0x2 by S-1-5-32-545",
                       "moved /a%20b/nonode /x", "gone /a%20b/nonode"]
            self.assertEqual(client.review(), [*changes, "reviewed 2 4"])
            self.kill()
            self.start()
            self.assertEqual(client.review(), [*changes, "reviewed 2 4"])

        async def asked() -> None:
            async with AsyncClient(str(self.lines), timeout=rig.PATIENCE) as client:
                self.assertEqual(await client.review("/x"), ["moved /a%20b/nonode /x", "reviewed 2 4"])
                self.assertEqual(await client.find("/", rig.USER, "FW", ["BU"]), ["/a b/nonode"])
                self.assertEqual(await client.who("/a b", "0x1"), ["0x1 to S-1-5-32-545"])
                whose = ("", "new objects: ", "new containers: ")
                self.assertEqual(await client.compare("/a b", "O:BAG:SYD:"),
                                 [f"{each}lost 0x120089 by S-1-5-32-545" for each in whose])

        asyncio.run(asked())

    def test_find_among_many_nodes(self) -> None:
        """It has just the paths at and below its own that a check grants, each spelled for itself."""
        token = Token(Sid.from_text(rig.USER), [Sid.from_text("BU")])
        with Store(Descriptor.from_sddl("O:BAG:SYD:(A;OICI;FR;;;BU)")) as store:
            for top in ("/a", "/b", "/ab"):
                store.add_container(top, Descriptor.from_sddl("O:BAG:SYD:"))
                for number in range(150):
                    own = "O:BAG:SYD:P" if number % 3 == 0 or 64 <= number < 128 else "O:BAG:SYD:"
                    store.add_object(f"{top}/n{' %' * (number > 140)}{number}", Descriptor.from_sddl(own))
            view = store.publish()
        with view, token:
            for top, count in (("/", 175), ("/a", 58), ("/a/n1", 1), ("/a/n0", 0)):
                wanted = [spelled(path) for path in view
                          if (path == top or path.startswith(top.rstrip("/") + "/")) and view.check(path, token, "FR")]
                said = [each.line() for each in found(view.share(), 7, top, token.share(), 1, 0x120089,
                                                      Deadline(rig.PATIENCE, print))]
                with self.subTest(top):
                    self.assertEqual("\n".join(said).split("\n"), ["seen 7 found", *wanted])
                    self.assertEqual(len(wanted), count)

    def test_nodes_with_the_same_descriptors(self) -> None:
        """A review compares these once, and says of each node the same as where it compares each."""
        with Store(Descriptor.from_sddl("O:BAG:SYD:(A;OICI;FR;;;BU)")) as store:
            for number in range(50):
                add = store.add_object if number % 2 else store.add_container
                add(f"/{number:02}", Descriptor.from_sddl("O:BAG:SYD:"))
            old = store.publish()
            store.set_dacl("/", Descriptor.from_sddl("D:(A;OICI;FA;;;BU)"))
            new = store.publish()

        def lines() -> list[str]:
            pending = Reviewing(old.share(), new.share(), 50, 51)
            return [each.line() for each in reviewed(pending, [], "/", bool, FILES, Deadline(rig.PATIENCE, print))]

        with old, new, mock.patch.object(Descriptor, "compare", autospec=True, side_effect=Descriptor.compare) as made:
            kept, count = lines(), made.call_count
            self.assertLessEqual(count, 3)
            with mock.patch("analysis._KEPT", 0):
                self.assertEqual(lines(), kept)
            self.assertGreaterEqual(made.call_count, count + 51)
        self.assertEqual([sum(line.startswith(f"/{name} new objects: ") for line in kept) for name in ("48", "49")],
                         [1, 0])


if __name__ == "__main__":
    unittest.main()
