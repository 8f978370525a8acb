"""HTTP by real clients: curl, and promtool where it is there. Each answer is compared with openapi.json."""

import contextlib
import json
import random
import shutil
import subprocess
import time
import unittest
from typing import Any

import rig

from api import ROUTES

API = json.loads((rig.SERVICE / "openapi.json").read_text())

#: A check that is answered, and requests with the status and the fault of each.
CHECK = {"user": rig.USER, "groups": ["BU"], "checks": [{"path": "/", "mask": "FR"}]}
FAULTS: tuple[tuple[str, object, int, str], ...] = (
    ("/v1/check", "{", 400, "json"),
    ("/v1/check", "[]", 400, "json"),
    ("/v1/check", '{"user": 1, "user": 2}', 400, "json"),
    ("/v1/check", "[" * 50_000, 400, "json"),
    ("/v1/check", '{"seen": NaN}', 400, "json"),
    ("/v1/check", '{"checks": [' + "[]," * 25_000 + "[]]}", 400, "values"),
    ("/v1/check", {}, 400, "user"),
    ("/v1/check", CHECK | {"more": 1}, 400, "'more'"),
    ("/v1/check", CHECK | {"user": "BU x"}, 400, "user"),
    ("/v1/check", CHECK | {"user": "QQ"}, 400, "sid"),
    ("/v1/check", CHECK | {"groups": ["BU="]}, 400, "token"),
    ("/v1/check", CHECK | {"groups": ["BU\npublish"]}, 400, "groups"),
    ("/v1/check", CHECK | {"groups": "BU"}, 400, "groups"),
    ("/v1/check", CHECK | {"checks": [{"path": "a", "mask": "FR"}]}, 400, "path"),
    ("/v1/check", CHECK | {"checks": [{"path": "/", "mask": "QQ"}]}, 400, "mask"),
    ("/v1/check", CHECK | {"checks": [{"path": "/\ud800", "mask": "FR"}]}, 400, "utf8"),
    ("/v1/check", CHECK | {"checks": [{"path": "/a/b/%2F\x00", "mask": "FR"}]}, 400, "path"),
    ("/v1/check", CHECK | {"checks": [7]}, 400, "checks"),
    ("/v1/check", CHECK | {"seen": -1}, 400, "seen"),
    ("/v1/check", CHECK | {"seen": True}, 400, "seen"),
    ("/v1/check", CHECK | {"seen": 9}, 409, "nonotice"),
    ("/v1/check", CHECK | {"store": "other"}, 409, "nonotice"),
    ("/v1/edit", {"edits": [{"edit": "open"}]}, 400, "edit"),
    ("/v1/edit", {"edits": [{"edit": "remove", "path": "/", "sid": "BU"}]}, 400, "'sid'"),
    ("/v1/edit", {"edits": [], "publish": 1}, 400, "publish"),
    ("/v1/check", CHECK | {"store": 7}, 400, "store"),
    ("/v1/edit", {"edits": [], "key": "a b"}, 409, "key"),
    ("/v1/edit", {"edits": [], "key": ""}, 409, "key"),
    ("/v1/publish", {"key": None}, 409, "key"),
    ("/v1/show", {"path": ""}, 400, "path"),
    ("/v1/list", {"path": "/none"}, 404, "nonode"),
    ("/v1/list", {"path": "none"}, 400, "path"),
    ("/v1/find", {"user": rig.USER, "mask": "FR", "path": "/none"}, 404, "nonode"),
    ("/v1/find", {"user": rig.USER, "mask": "QQ"}, 400, "mask"),
    ("/v1/find", {"user": rig.USER, "mask": "FR", "seen": 9}, 409, "nonotice"),
    ("/v1/who", {"path": "/none"}, 404, "nonode"),
    ("/v1/who", {"path": "/", "groups": ["BU=restrict"]}, 400, "token"),
    ("/v1/who", {"path": "/", "user": rig.USER}, 400, "'user'"),
    ("/v1/compare", {"path": "/none", "descriptor": "D:"}, 404, "nonode"),
    ("/v1/compare", {"path": "/"}, 400, "descriptor"),
    ("/v1/compare", {"path": "/", "descriptor": "X"}, 400, "sddl 1 Syntax at 0"),
    ("/v1/review", {"path": "/none"}, 404, "nonode"),
    ("/v1/review", {"path": "none"}, 400, "path"),
)


def fits(value: Any, schema: dict[str, Any]) -> bool:
    """Whether the value is one of the schema, by the few words of JSON Schema that openapi.json uses."""
    if "$ref" in schema:
        return fits(value, API["components"]["schemas"][schema["$ref"].rpartition("/")[2]])
    if "oneOf" in schema:
        return sum(fits(value, each) for each in schema["oneOf"]) == 1
    if "enum" in schema or "const" in schema:
        return value in schema.get("enum", [schema.get("const")])
    if schema["type"] == "object":
        known = schema["properties"]
        return (isinstance(value, dict) and set(schema.get("required", ())) <= value.keys() <= known.keys()
                and all(fits(each, known[name]) for name, each in value.items()))
    if schema["type"] == "array":
        return isinstance(value, list) and all(fits(each, schema["items"]) for each in value)
    return type(value) is {"string": str, "integer": int, "boolean": bool}[schema["type"]]


class Http(rig.Case):
    def setUp(self) -> None:
        super().setUp()
        if shutil.which("curl") is None:
            self.skipTest("the command curl is required")
        self.make("open 1 O:BAG:SYD:(A;OICI;FR;;;BU)\naddc /d O:BAG:SYD:\npublish\n")

    def curl(self, target: str, *words: str, port: int = 0) -> tuple[int, str]:
        """The status, and the body; by the Unix socket, or by a port."""
        by_socket = ["--unix-socket", str(self.http), f"http://localhost{target}"]
        where = [f"http://127.0.0.1:{port}{target}"] if port else by_socket
        command = ["curl", "-s", "--max-time", str(rig.PATIENCE), "-w", "\n%{http_code}", *words, *where]
        said = subprocess.run(command, capture_output=True, text=True, check=True).stdout
        body, _, status = said.rpartition("\n")
        return int(status), body

    def ask(self, target: str, given: object, kind: str = "application/json") -> tuple[int, dict[str, Any]]:
        """What a POST is answered, which openapi.json has; so has what is asked, unless that is rejected."""
        text = given if isinstance(given, str) else json.dumps(given)
        status, body = self.curl(target, "-H", f"Content-Type: {kind}", "--data-binary", text)
        answer = json.loads(body)
        post = API["paths"][target]["post"]
        response = post["responses"].get(str(status), {"$ref": "#/components/responses/Fault"})
        if "$ref" in response:
            response = API["components"]["responses"][response["$ref"].rpartition("/")[2]]
        self.assertTrue(fits(answer, response["content"]["application/json"]["schema"]), (status, answer))
        if status == 200:
            self.assertTrue(fits(given, post["requestBody"]["content"]["application/json"]["schema"]), given)
        return status, answer

    def test_each_route(self) -> None:
        """openapi.json has just the paths and methods of the service."""
        self.assertEqual({path: {method.lower() for method in methods} for path, methods in ROUTES.items()},
                         {path: set(methods) for path, methods in API["paths"].items()})

    def test_requests(self) -> None:
        self.start()
        self.edit()
        self.ask_at_once()
        self.ask_about_many()
        self.assertEqual(self.ask("/v1/edit", {"edits": [{"edit": "remove", "path": "/d/é"}]})[1]["seen"], 5)
        said = self.ask("/v1/review", {"path": "/d"})[1]
        self.assertEqual((said["seen"], said["pending"], said["changes"]), (5, 6, ["gone /d/%C3%A9"]))
        self.assertEqual(self.ask("/v1/publish", {})[1]["answers"][0]["answer"], "published 6")
        self.assertEqual(self.ask("/v1/publish", {})[1]["answers"], [{"answer": "published 6", "line": 0}])
        status, body = self.curl("/v1/status")
        schema = API["paths"]["/v1/status"]["get"]["responses"]["200"]["content"]["application/json"]["schema"]
        self.assertTrue(status == 200 and fits(json.loads(body), schema), body)

    def edit(self) -> None:
        """Edits with a key: sent again, each has the line that it had."""
        edits = [
            {"edit": "addo", "path": "/d/a b\n", "descriptor": "O:BAG:SYD:(A;;FW;;;BU)"},
            {"edit": "move", "path": "/d/a b\n", "target": "/d/é"},
            {"edit": "protect", "path": "/d"},
            {"edit": "dacl", "path": "/d/é", "descriptor": "D:(A;;FA;;;BU)"},
        ]
        for _ in range(2):
            status, said = self.ask("/v1/edit", {"edits": edits, "publish": True, "key": "k"})
            answers = [each["answer"] for each in said["answers"]]
            self.assertEqual((status, answers), (200, ["ok"] * 4 + ["published 5"]))
            self.assertEqual([each["line"] for each in said["answers"]], [1, 2, 3, 4, 5])
        self.assertEqual(self.ask("/v1/edit", {"edits": edits[:3], "publish": True, "key": "k"}),
                         (409, {"fault": "key"}))
        self.assertEqual(self.ask("/v1/edit", {"edits": edits, "key": "k2"})[0], 409)

    def test_all_or_none(self) -> None:
        """One edit that is refused, or isn't understood: none is made, and nothing is published."""
        self.start()
        add = {"edit": "addo", "path": "/d/new", "descriptor": "O:BAG:SYD:(A;;FA;;;BU)"}
        for other, answer, status in (
            ({"edit": "remove", "path": "/none"}, "refused 4 NoNode", 409),
            ({"edit": "owner", "path": "/d", "sid": "QQ"}, "fault sid", 409),
            (add, "refused 3 Exists", 409),
        ):
            with self.subTest(answer):
                request = {"edits": [add, other, {"edit": "protect", "path": "/d"}], "publish": True, "key": "k"}
                status_found, said = self.ask("/v1/edit", request)
                self.assertEqual((status_found, said["answers"], said["seen"]), (
                    status, [{"answer": each, "line": 0} for each in ("unmade", answer, "unmade", "unmade")], 1))
        # What is refused by the tree has records, and what isn't an edit has none.
        answers = [each["answer"] for each in self.events() if each["event"] == "edit"]
        self.assertEqual(answers, ["unmade", "refused 4 NoNode", "unmade", "unmade"]
                         + ["unmade", "refused 3 Exists", "unmade", "unmade"])
        self.assertEqual(self.ask("/v1/review", {})[1]["pending"], 1)
        self.assertEqual(self.ask("/v1/show", {"path": "/d/new"})[0], 404)
        self.assertEqual(self.ask("/v1/edit", {"edits": [add], "publish": True, "key": "k"})[0], 200)

    def test_only_if_published(self) -> None:
        """Edits for another published length aren't made; sent again, what was made is answered as before."""
        self.start()
        edits = [{"edit": "addo", "path": "/d/a", "descriptor": "O:BAG:SYD:"}]
        self.assertEqual(self.ask("/v1/edit", {"edits": edits, "publish": True, "published": 0}),
                         (409, {"fault": "published"}))
        self.assertEqual(self.ask("/v1/publish", {"published": 7}), (409, {"fault": "published"}))
        self.assertEqual(self.ask("/v1/edit", {"edits": [], "published": 7}), (409, {"fault": "published"}))
        for _ in range(2):
            status, said = self.ask("/v1/edit", {"edits": edits, "publish": True, "published": 1, "key": "k"})
            self.assertEqual((status, [each["answer"] for each in said["answers"]]), (200, ["ok", "published 2"]))
        self.assertEqual(self.ask("/v1/publish", {"published": 2})[1]["answers"],
                         [{"answer": "published 2", "line": 0}])

    def ask_at_once(self) -> None:
        checks = [{"path": "/d/é", "mask": "FR"}, {"path": "/", "mask": "FA"}, {"path": "/x", "mask": "FR"},
                  {"path": "/", "mask": "0"}]
        status, said = self.ask("/v1/check", {"user": rig.USER, "groups": ["BU"], "checks": checks, "seen": 5})
        self.assertEqual((status, said["seen"], said["answers"]), (200, 5, [
            {"verdict": "granted", "mask": "0x120089"}, {"verdict": "denied", "mask": "0xd0176"},
            {"verdict": "nonode"}, {"verdict": "empty"}]))
        status, said = self.ask("/v1/why", {"user": rig.USER, "groups": ["BU"], "path": "/", "mask": "0x3"})
        self.assertEqual((said["verdict"], said["reasons"]), ("denied", [
            "granted 0x1 by entry 1 (A;OICI;FR;;;BU) as S-1-5-32-545", "denied 0x2 by no entry"]))
        self.assertEqual(self.ask("/v1/why", {"user": rig.USER, "path": "/x", "mask": "0x3"})[1]["verdict"], "nonode")
        self.assertEqual(self.ask("/v1/show", {"path": "/d/é"})[1]["descriptor"],
                         "O:BAG:SYD:AI(A;;FA;;;BU)(A;ID;FR;;;BU)")
        self.assertEqual(self.ask("/v1/show", {"path": "/x"}), (404, {"fault": "nonode"}))

    def ask_about_many(self) -> None:
        """Questions about many nodes, or about all tokens."""
        self.assertEqual([each["path"] for each in self.ask("/v1/list", {})[1]["nodes"]], ["/", "/d", "/d/é"])
        kinds = [each["kind"] for each in self.ask("/v1/list", {"path": "/d"})[1]["nodes"]]
        self.assertEqual(kinds, ["container", "object"])
        said = self.ask("/v1/find", {"user": rig.USER, "groups": ["BU"], "mask": "FA"})[1]
        self.assertEqual((said["seen"], said["paths"]), (5, ["/d/é"]))
        self.assertEqual(self.ask("/v1/who", {"path": "/d", "mask": "FR"})[1]["accesses"],
                         ["0x120089 to S-1-5-32-545", "0x20000 to S-1-5-32-544 as the owner"])
        self.assertEqual(len(self.ask("/v1/who", {"path": "/d"})[1]["accesses"]), 3)
        self.assertEqual(self.ask("/v1/who", {"path": "/d", "mask": "0"})[1]["accesses"], [])
        change = {"path": "/", "descriptor": "O:BAG:SYD:(A;OICI;FA;;;BU)"}
        changes = [f"{whose}gained 0xd0176 by S-1-5-32-545" for whose in ("", "new objects: ", "new containers: ")]
        self.assertEqual(self.ask("/v1/compare", change)[1]["changes"], changes)
        self.assertEqual(self.ask("/v1/compare", change | {"groups": ["BU=deny"]})[1]["changes"], changes)
        self.assertEqual(self.ask("/v1/compare", change | {"descriptor": "O:BAD:(A;OICI;FR;;;BU)"})[1]["changes"], [])

    def test_faults(self) -> None:
        self.start()
        for target, given, status, fault in FAULTS:
            with self.subTest(given=str(given)[:80]):
                self.assertEqual(self.ask(target, given), (status, {"fault": fault}))
        self.assertEqual(self.ask("/v1/check", CHECK, "text/plain"), (415, {"fault": "content-type"}))
        self.assertEqual(self.curl("/v2"), (404, '{"fault": "path of the request"}'))
        self.assertEqual(self.curl("/v1/check"), (405, '{"fault": "method"}'))
        self.assertEqual(self.said("publish"), ["published 1"])

    def test_requests_that_are_none(self) -> None:
        """Heads that aren't understood, and bodies of no certain length, end the connection."""
        self.start("request_bytes = 5000\nrequest_seconds = 1")
        post = b"POST /v1/show HTTP/1.1\r\nHost: x\r\nContent-Type: application/json\r\n"
        for given, status in (
            (b"GET /healthz HTTP/1.0\r\nHost: x\r\n\r\n", b"505"),
            (b"GET /healthz\r\n\r\n", b"400"),
            (b"\r\n\r\n", b"400"),
            (b"GET /healthz HTTP/1.1\r\n\r\n", b"400"),
            (b"GET /healthz HTTP/1.1\r\nHost: x\r\nHost: y\r\n\r\n", b"400"),
            (b"GET /healthz HTTP/1.1\r\nHost: x\r\n folded\r\n\r\n", b"400"),
            (b"GET /h\xe9 HTTP/1.1\r\nHost: x\r\n\r\n", b"400"),
            (b"GET /healthz HTTP/1.1\r\nHost : x\r\n\r\n", b"400"),
            (b"GET /healthz HTTP/1.1\r\nHost: x\r\ny: z\nContent-Length: 9\r\n\r\n", b"400"),
            (b"GET /healthz HTTP/1.1\r\nHost: x\r\ny: z\0\r\n\r\n", b"400"),
            (b"GET /healthz HTTP/1.1\nHost: x\r\n\r\n", b"400"),
            (b"GET /health\tz HTTP/1.1\r\nHost: x\r\n\r\n", b"400"),
            (b"G\0T /healthz HTTP/1.1\r\nHost: x\r\n\r\n", b"400"),
            (b" /healthz HTTP/1.1\r\nHost: x\r\n\r\n", b"400"),
            (post + b"Transfer-Encoding: chunked\r\n\r\n0\r\n\r\n", b"501"),
            (post + b"Content-Length: +3\r\n\r\n{}", b"400"),
            (post + b"Content-Length: 3\r\nContent-Length: 3\r\n\r\n{} ", b"400"),
            (post + b"Content-Length: 5001\r\n\r\n", b"413"),
            (b"GET / HTTP/1.1\r\nx: " + b"y" * 20000, b"431"),
        ):
            with self.subTest(given[:80]):
                said = self.raw(given)
                self.assertEqual(said[:12], b"HTTP/1.1 " + status)
                self.assertEqual(said.count(b"HTTP/1.1"), 1)
        for half in (b"", b"{"):
            self.assertEqual(self.raw(post + b"Content-Length: 50\r\n\r\n" + half), b"")
        two = b"GET /healthz HTTP/1.1\r\nHost: x\r\n\r\n" * 2
        said = self.raw(two + b"GET /readyz HTTP/1.1\r\nHost: x\r\nConnection: close\r\n\r\n")
        self.assertEqual([said.count(b"ok\n"), said.count(b"\r\n\r\nready\n")], [2, 1])

    def raw(self, given: bytes) -> bytes:
        with rig.Lines(self.http) as asked:
            asked.send(given)
            return asked.rest()

    def test_garbage(self) -> None:
        """Random bytes, and requests that lack a byte and have some changed: no edit is made, others are answered."""
        self.start("request_seconds = 1")
        chance = random.Random(11)
        body = b'{"edits": [{"edit": "addo", "path": "/d/x", "descriptor": "O:BAG:SYD:"}], "publish": true}'
        head = b"POST /v1/edit HTTP/1.1\r\nHost: x\r\nContent-Type: application/json\r\nContent-Length: %d\r\n\r\n"
        half = head % (len(body) + 1) + body
        for at in range(60):
            given = bytearray(chance.randbytes(chance.randrange(1, 3000)) if at % 2 else half)
            for _ in range(3):
                given[chance.randrange(len(given))] = chance.choice(b"\0\r\n :;\xff")
            with rig.Lines(self.http) as asked:
                asked.send(given)
                self.assertEqual(self.get("/healthz"), (200, "ok\n"))
        self.assertEqual(self.said("publish", "tell"), ["published 1", "told 1"])

    def test_slow_bytes(self) -> None:
        """A client that sends a byte now and then is disconnected, and one that takes no answers; nobody is late."""
        self.start("request_seconds = 2")
        with rig.connected(self.http) as slow, rig.connected(self.http) as deaf:
            deaf.setblocking(False)
            sent, reasons, end = 0, set(), time.monotonic() + rig.PATIENCE
            with contextlib.suppress(BlockingIOError):
                while sent < 1 << 26:
                    sent += deaf.send(b"GET /metrics HTTP/1.1\r\nHost: x\r\n\r\n" * 1000)
            slow.sendall(b"GET /healthz HTTP/1.1\r\nHost: x\r\nx: ")
            while not reasons >= {"half a request", "answers not taken"} and time.monotonic() < end:
                with contextlib.suppress(OSError):
                    slow.send(b"y")
                self.assertEqual(self.get("/healthz"), (200, "ok\n"))
                reasons = {each.get("reason") for each in self.events()}
                time.sleep(0.1)
        self.assertLess(time.monotonic(), end)

    def test_too_many_edits_at_once(self) -> None:
        """What is beyond the limit isn't made, and is answered so."""
        self.start("edits = 2")
        edits = [{"edit": "addo", "path": f"/d/{at}", "descriptor": "O:BAG:SYD:"} for at in range(4)]
        status, said = self.ask("/v1/edit", {"edits": edits, "publish": True})
        answers = [each["answer"] for each in said["answers"]]
        self.assertEqual((status, answers), (503, ["unavailable busy"] * 5))
        self.assertEqual(self.ask("/v1/edit", {"edits": edits[:1], "publish": True})[0], 200)
        self.assertEqual(self.said("publish"), ["published 2"])

    def test_watching(self) -> None:
        port = rig.free_port()
        self.start(more=f'[[listen]]\ntcp = "127.0.0.1:{port}"\nprotocol = "http"')
        self.said("addo /x O:BAG:SYD:", "addo /x O:BAG:SYD:", "publish", f"check 0 /x {rig.USER} FR BU",
                  f"check 0 /x {rig.USER} FW BU")
        self.assertEqual([self.curl(each) for each in ("/healthz", "/readyz")], [(200, "ok\n"), (200, "ready\n")])
        # Who comes by the loopback interface, without a certificate, may watch and nothing else.
        self.assertEqual(self.curl("/readyz", port=port), (200, "ready\n"))
        for target, method in (("/v1/status", "GET"), ("/v1/check", "POST"), ("/v1/publish", "POST")):
            self.assertEqual(self.curl(target, "-X", method, port=port), (403, '{"fault": "role"}'))
        self.assertEqual(self.curl("/metrics", port=port)[0], 200)
        values = self.metrics()
        for name, value in (('sdstored_checks_total{verdict="granted"}', 1),
                            ('sdstored_checks_total{verdict="denied"}', 1),
                            ('sdstored_edits_total{answer="ok"}', 1), ('sdstored_edits_total{answer="Exists"}', 1),
                            ("sdstored_publishes_total", 1), ("sdstored_published_length", 2),
                            ("sdstored_edit_seconds_count", 3), ("sdstored_takes_edits", 1)):
            self.assertEqual(values.get(name), value, name)
        if shutil.which("promtool") is None:
            self.skipTest("the command promtool of the package prometheus is required for the format of /metrics")


if __name__ == "__main__":
    unittest.main()
