"""Configurations: the sample is one, and what isn't understood is rejected."""

import re
import unittest
from collections.abc import Iterator
from dataclasses import fields

import rig

from config import Limits, Listen, Source, read_config
from errors import Invalid

LISTEN = '[[listen]]\nunix = "lines"\nprotocol = "lines"\nallow = { "uid:0" = "edit" }\n'
FILES = 'certificate = "a"\nkey = "b"\n'
#: What is added to a folder and a place to listen at, and what the message then says.
REJECTED = (
    ("more = 1", "'more' is unknown"),
    ("[limits]\nconnections = 0", "connections: a whole number of at least 1"),
    ("[limits]\nconnections = true", "connections: a whole number of at least 1"),
    ("[log]\ndenials = true", "'denials' is replaced: write decisions = \"denied\""),
    ("[log]\ndecisions = true", "decisions: a value of the type str"),
    ('[log]\ndecisions = "granted"', "decisions: 'granted' is none of none, denied, all"),
    ("[accounts]", "accounts: file: a path is required"),
    ('[accounts]\nfile = ""', "accounts: file: a path is required"),
    ("[accounts]\nfile = true", "file: a value of the type str"),
    ('[accounts]\nfile = "a"\ngroups = "b"', "accounts: 'groups' is unknown"),
    ('[[accounts]]\nfile = "a"', "accounts: a value of the type dict"),
    (LISTEN, "each at a place of its own"),
    ('[leader]\nunix = "a\\u0000b"', "unix: a text without NUL"),
    (f'[[listen]]\nunix = "{"x" * 108}"\nprotocol = "http"', f"listen: unix: '{'x' * 108}' has more than 107 bytes"),
    (f'[leader]\nunix = "{"é" * 54}"', "has more than 107 bytes"),
    ('[[listen]]\nunix = "x"\nprotocol = "smtp"', "the protocol 'smtp' is none of lines, http"),
    ('[[listen]]\nunix = "x"\ntcp = "127.0.0.1:1"\nprotocol = "http"', "either 'unix' or 'tcp'"),
    ('[[listen]]\nunix = "x"\nprotocol = "http"', "'allow' names nobody"),
    ('[[listen]]\ntcp = "0.0.0.0:1"\nprotocol = "http"', "only http on the loopback interface"),
    ('[[listen]]\ntcp = "127.0.0.1:1"\nprotocol = "lines"', "only http on the loopback interface"),
    ('[[listen]]\ntcp = "localhost:1"\nprotocol = "http"', "'localhost' does not appear to be"),
    (f'[[listen]]\ntcp = "127.0.0.1:1"\nprotocol = "http"\n{FILES}', "are required together"),
    ('[[listen]]\nunix = "x"\nprotocol = "http"\nallow = { "cn:a" = "edit" }', "'cn:a' is neither"),
    ('[[listen]]\nunix = "x"\nprotocol = "http"\nallow = { "uid:0" = "all" }', "the role 'all' is none of"),
    ('[leader]\nunix = "x"\nstream = "y"', "leader: 'stream' is unknown"),
    ('[leader]\nunix = "x"\nmax_age_seconds = 0', "max_age_seconds: a whole number of at least 1"),
    ('[leader]\ntcp = "127.0.0.1:1"', "'certificate', 'key' and 'authority' are required for TCP"),
    (f'[redis]\nunix = "x"\n{FILES}', "'certificate', 'key' and 'authority' are required for TCP"),
    ('[redis]\nunix = "x"\nstream = ""', "redis: stream: a name is required"),
    ('[redis]\nunix = "x"\nlease_seconds = "1"', "lease_seconds: a value of the type int"),
    ('[redis]\nunix = "x"\n[leader]\nunix = "y"', "has its leader by the lease"),
)


def paired(names: str, values: str) -> Iterator[tuple[str, str]]:
    """Each name of a row of the page's table with its value: there is one for all, or one for each."""
    several = values.split(", ")
    for place, name in enumerate(names.split("`, `")):
        yield name, several[place] if len(several) > 1 else values


class Configs(rig.Case):
    def read(self, more: str) -> object:
        self.config.write_text(f'folder = "x"\n{LISTEN}{more}')
        return read_config(self.config)

    def test_rejected(self) -> None:
        for more, text in REJECTED:
            with self.subTest(more), self.assertRaises(Invalid) as rejected:
                self.read(more)
            self.assertIn(text, str(rejected.exception))

    def test_the_sample(self) -> None:
        """As it stands, and with what it has as comments."""
        sample = (rig.SERVICE / "sdstored.toml").read_text()
        self.config.write_text(sample)
        found = read_config(self.config)
        self.assertEqual((len(found.listen), found.source, found.accounts), (3, None, None))
        self.config.write_text(re.sub(r"^# (?=\[|\w+ = )", "", sample, flags=re.MULTILINE))
        self.assertEqual(read_config(self.config).listen[3].name, "0.0.0.0:7391")
        self.assertEqual(str(read_config(self.config).accounts), "/etc/sdstored/accounts")
        self.assertEqual(read_config(self.config).source, Source("/run/redis/redis-server.sock", stream="sdstored"))

    def test_the_table(self) -> None:
        """Of the page: each limit with what it is unless given, and each other key that isn't rejected."""
        text = (rig.TOP / "docs/SERVICE.md").read_text().partition("\n## The configuration\n")[2].partition("\n## ")[0]
        rows = re.findall(r"^\| `(.+?)` \| (.*?) \|", text, re.MULTILINE)
        found = {name: value for names, values in rows for name, value in paired(names, values)}
        limits = {each.name: f"{each.default:,}" for each in fields(Limits)}
        self.assertEqual({name: found[f"limits.{name}"] for name in limits}, limits)
        known = {f"limits.{name}" for name in limits} | {f"leader.{each.name}" for each in fields(Source)}
        known |= {f"redis.{each.name}" for each in fields(Source)} | {f"listen.{each.name}" for each in fields(Listen)}
        known = known - {"leader.stream", "leader.lease_seconds"} | {"folder", "accounts.file", "log.decisions"}
        self.assertEqual(set(found), known)

    def test_sources(self) -> None:
        redis = self.read('[redis]\nunix = "x"\nlease_seconds = 3').source
        self.assertEqual(redis, Source("x", stream="sdstored", lease_seconds=3))
        leader = self.read(f'[leader]\ntcp = "[::1]:7391"\n{FILES}authority = "c"').source
        self.assertEqual(leader, Source("", ("::1", 7391), "a", "b", "c"))


if __name__ == "__main__":
    unittest.main()
