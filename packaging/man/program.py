"""The program's help as data, the one source of the manual page and of the completions."""

import re
import subprocess
from dataclasses import dataclass, field


@dataclass
class Described:
    """An option, an argument or a command, and its description line by line."""

    shape: str
    lines: list[str] = field(default_factory=list)

    @property
    def text(self) -> str:
        return " ".join(self.lines)

    @property
    def names(self) -> list[str]:
        """Of an option its names, as --help and -h; of a command its name."""
        return [each.split(" ")[0] for each in self.shape.split(", ")]

    @property
    def value(self) -> str:
        """Of an option the name of its value, or nothing."""
        found = re.search(r"<([^>]*)>", self.shape)
        return found[1] if found else ""

    @property
    def values(self) -> list[str]:
        """The possible values, if the help lists them with the option."""
        found = re.search(r"\[possible values: ([^\]]*)\]", self.text)
        return found[1].split(", ") if found else []


@dataclass
class Help:
    """The help of a command, or of the program."""

    about: str
    usage: str
    commands: list[Described]
    arguments: list[Described]
    options: list[Described]
    notes: str


def _entries(lines: list[str]) -> list[Described]:
    """The entries of a block of the help. The first line of each is indented by less than eight, the others by more."""
    entries: list[Described] = []
    for each in lines:
        text = each.strip()
        if len(each) - len(each.lstrip()) >= 8:
            entries[-1].lines.append(text)
            continue
        shape, *described = re.split(r" {2,}", text, maxsplit=1)
        entries.append(Described(shape, described))
    return entries


def read_help(text: str) -> Help:
    about, rest = text.split("\n\nUsage: ", 1)
    usage, _, rest = rest.partition("\n")
    blocks: dict[str, list[Described]] = {"Commands": [], "Arguments": [], "Options": []}
    while found := re.match(r"\n*(Commands|Arguments|Options):\n((?: +\S.*\n?)+)", rest):
        blocks[found[1]] = _entries(found[2].splitlines())
        rest = rest[found.end() :]
    return Help(about, usage, blocks["Commands"], blocks["Arguments"], blocks["Options"], rest.strip("\n"))


class Program:
    """The built program, which is run for its help and its version."""

    def __init__(self, path: str) -> None:
        self._path = path
        self.version = self._says("--version").splitlines()[0].split(" ")[1]
        self.help = read_help(self._says("help"))
        self.names = [each.shape for each in self.help.commands if each.shape != "help"]
        self.commands = {name: read_help(self._says("help", name)) for name in self.names}

    def values_of(self, option: Described) -> list[str]:
        """The possible values of an option, where the help lists them: with the option, those of --logon in quotes, and
        those of --mapping in the table of the generic rights, where a row names further ones in quotes."""
        if "--mapping" in option.names:
            rows = re.findall(r"^  ([a-z]+) +GR 0x(.*)$", self.commands["verdict"].notes, re.MULTILINE)
            return [kind for first, rest in rows for kind in (first, *re.findall("'([a-z]+)'", rest))]
        if "--logon" in option.names:
            return [each for each in re.findall("'([a-z]+)'", option.text) if each not in self.names]
        return option.values

    @property
    def words(self) -> dict[str, list[str]]:
        """By command, those of its arguments that the help lists by their whole names, as +take and user=deny; and its
        own options, where it takes no command."""
        named = {}
        for name, command in self.commands.items():
            listed = [line for each in command.arguments for line in each.lines]
            lines = [line.split()[0] for line in listed if re.match(r"\+|[a-z]+=[a-z]", line)]
            if name not in self.inner:
                lines += self._options_of(name)
            if lines:
                named[name] = lines
        return named

    @property
    def inner(self) -> dict[str, list[str]]:
        """By command that takes a command as its first argument, as `each` does, those that it takes."""
        taken = {}
        for name, command in self.commands.items():
            for each in command.arguments:
                if each.shape == "<COMMAND>":
                    taken[name] = [word for word in re.findall("[a-z]+", each.text) if word in self.names]
        return taken

    @property
    def flags(self) -> dict[str, list[str]]:
        """By such a command, its own options."""
        return {name: self._options_of(name) for name in self.inner}

    def _options_of(self, name: str) -> list[str]:
        """A command's own options but for help."""
        return [flag for each in self.commands[name].options for flag in each.names if flag not in ("-h", "--help")]

    def _says(self, *words: str) -> str:
        command = [self._path, *words]
        return subprocess.run(command, stdin=subprocess.DEVNULL, capture_output=True, check=True, text=True).stdout
