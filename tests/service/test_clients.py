"""The Python clients over the Unix socket: their calls, and what they do without an answer."""

import asyncio
import select
import shutil
import threading
import time
import unittest

import rig

from client import AsyncClient, Behind, Client, OtherStore, Rejected, Unavailable


class Clients(rig.Case):
    def test_calls(self) -> None:
        self.make()
        self.start()
        with Client(str(self.lines)) as client:
            client.edit("addc", "/d", "O:BAG:SYD:")
            client.edit("addo", "/d/50% a", "O:BAG:SYD:(A;;FW;;;BU)")
            client.edit("move", "/d/50% a", "/d/b c")
            client.edit("owner", "/d", "BU")
            self.assertEqual(client.publish(), 4)
            self.assertEqual(client.checks(["/", "/d/b c", "/x"], rig.USER, "FW", ["BU"]),
                             [("denied", 0x116, 4), ("granted", 0x120116, 4), ("nonode", 0, 4)])
            self.assertEqual(client.checks([], rig.USER, "FW"), [])
            verdict, reasons = client.why("/d/b c", rig.USER, "0x2", ["BU"])
            self.assertEqual((bool(verdict), reasons), (True, ["granted 0x2 by entry 1 (A;;FW;;;BU) as S-1-5-32-545"]))
            self.assertIsNone(client.show("/x"))
            self.assertEqual(client.show("/d/b c"), "O:BAG:SYD:AI(A;;FW;;;BU)(A;ID;FR;;;BU)")
            self.assertEqual(client.lines("list", "/d")[1], "object /d/b%20c O:BAG:SYD:AI(A;;FW;;;BU)(A;ID;FR;;;BU)")
            for words, answer in (
                (("remove", "/x"), "refused 4 NoNode"), (("remove", "x"), "fault path"), (("frob",), "fault words")
            ):
                with self.assertRaises(Rejected) as rejected:
                    client.edit(*words)
                self.assertEqual(str(rejected.exception), answer)
            for words in (("remove", "/a", "b c"), ("owner", "/d", "BU\npublish"), ("owner", "/d", "")):
                with self.assertRaises(ValueError):
                    client.edit(*words)
            for words in (("remove", "/d"), ("publish",), ("once", "k", "publish")):
                with self.assertRaises(ValueError):
                    client.lines(*words)
            self.assertFalse(client.check("/", rig.USER, "FW", ["BU"]))
        for kind in (Client, AsyncClient):
            with self.assertRaises(ValueError):
                kind(("127.0.0.1", 1))

    def test_several_services(self) -> None:
        """Where one has no answer the next one is asked; where none has one, that is said in time."""
        self.make()
        self.start()
        nobody = str(self.room / "nobody")
        with Client([nobody, str(self.lines)], timeout=rig.PATIENCE) as client:
            client.edit("addo", "/a", "O:BAG:SYD:")
            self.assertEqual(client.publish(), 1)

        async def length(*where: str, timeout: float = rig.PATIENCE) -> int:
            async with AsyncClient(list(where), timeout=timeout) as client:
                return await client.publish()

        self.assertEqual(asyncio.run(length(nobody, str(self.lines))), 1)
        with self.assertRaises(Unavailable):
            asyncio.run(length(nobody, timeout=0.2))
        with Client([nobody], timeout=0.2) as client, self.assertRaises(Unavailable):
            client.check("/a", rig.USER, "FR")

    def test_kills(self) -> None:
        """Each edit is made once, though the service is killed again and again; answers never go back."""
        self.make()
        self.start()
        made: list[str] = []
        faults: list[BaseException] = []

        def edit() -> None:
            try:
                with Client(str(self.lines), timeout=10 * rig.PATIENCE) as client:
                    while len(made) < 150:
                        client.edit("addo", f"/n{len(made)}", "O:BAG:SYD:")
                        made.append(f"/n{len(made)}")
                        if len(made) % 5 == 0:
                            client.publish()
                            assert client.show(made[-1]) is not None
            except BaseException as error:
                faults.append(error)

        thread = threading.Thread(target=edit)
        thread.start()
        while thread.is_alive():
            before = len(made)
            while thread.is_alive() and len(made) < before + 10:
                time.sleep(0.001)
            self.kill()
            self.launch()
            self.wait_until_ready()
        thread.join()
        self.assertEqual(faults, [])
        self.assertEqual(self.said("publish"), ["published 150"])

    def test_an_edit_without_an_answer(self) -> None:
        """It is sent again with the key that it had, by either client, and a question without one."""

        async def asynchronously(where: str) -> None:
            async with AsyncClient(where, timeout=rig.PATIENCE) as client:
                await client.edit("addo", "/a b", "O:BAG:SYD:")
                self.assertEqual(await client.show("/a b"), None)

        def synchronously(where: str) -> None:
            with Client(where, timeout=rig.PATIENCE) as client:
                client.edit("addo", "/a b", "O:BAG:SYD:")
                self.assertEqual(client.show("/a b"), None)

        asked: list[str] = []

        def answer(question: str) -> list[str] | None:
            """The connection ends instead of the first answer to each question."""
            if question == "status":
                return [f"status {'0' * 32} 1 0 00 0"]
            asked.append(question)
            said = "seen 0 nonode" if question.startswith("show") else "ok"
            return None if asked.count(question) == 1 else [said]

        for call in (synchronously, lambda where: asyncio.run(asynchronously(where))):
            asked.clear()
            with rig.Scripted(self.room / "forgetful", answer):
                call(str(self.room / "forgetful"))
            first, second, *questions = asked
            self.assertEqual(first, second)
            self.assertRegex(first, "^once [0-9a-f]{32} addo /a%20b O:BAG:SYD:$")
            self.assertEqual(questions, ["show 0 /a%20b"] * 2)

    def test_another_store_and_one_behind(self) -> None:
        self.make()
        rig.run("backup", self.store, self.room / "copy")
        self.start()
        with Client(str(self.lines), timeout=rig.PATIENCE) as client:
            client.edit("addo", "/a", "O:BAG:SYD:")
            client.publish()
            client._timeout = 0
            self.kill()
            shutil.rmtree(self.store)
            rig.run("restore", self.room / "copy", self.store)
            self.start()
            client.close()
            with self.assertRaises(OtherStore):
                client.check("/a", rig.USER, "FR")
            client.store = ""
            with self.assertRaises(Behind):
                client.check("/a", rig.USER, "FR")

    def test_an_interrupted_answer(self) -> None:
        """What an exception left unread is never taken for the next answer."""
        self.make()
        self.start()
        with Client(str(self.lines)) as client:
            client.edit("addo", "/a", "O:BAG:SYD:(A;;FW;;;BU)")
            client.publish()
            client._socket.sendall(b"left.1 tell\n")
            select.select([client._socket], [], [], rig.PATIENCE)
            self.assertEqual(client.check("/a", rig.USER, "FW", ["BU"]).kind, "granted")

        async def asked() -> None:
            async with AsyncClient(str(self.lines), timeout=rig.PATIENCE) as client:
                self.assertEqual(await client.publish(), 1)
                client._streams[1].write(b"left.1 tell\n")
                await asyncio.sleep(0.1)
                self.assertEqual((await client.check("/a", rig.USER, "FW", ["BU"])).kind, "granted")

        asyncio.run(asked())

    def test_tasks(self) -> None:
        self.make()
        self.start()

        async def work() -> None:
            async with AsyncClient(str(self.lines), timeout=rig.PATIENCE) as client:
                await asyncio.gather(*(client.edit("addo", f"/n{at}", "O:BAG:SYD:") for at in range(20)))
                self.assertEqual(await client.publish(), 20)
                task = asyncio.ensure_future(client.lines("dump"))
                await asyncio.sleep(0)
                task.cancel()
                self.assertTrue(await client.check("/n3", rig.USER, "FR", ["BU"]))
                self.assertEqual((await client.why("/n3", rig.USER, "FR", ["BU"]))[0].kind, "granted")
                self.assertEqual(await client.show("/n3"), "O:BAG:SYD:AI(A;ID;FR;;;BU)")
                self.assertEqual(len(await client.lines("dump")), 22)
                with self.assertRaises(Rejected):
                    await client.edit("remove", "/x")
                self.kill()
                client._timeout = 0
                with self.assertRaises(Unavailable):
                    await client.publish()

        asyncio.run(work())


if __name__ == "__main__":
    unittest.main()
