"""How large a tree may be, by docs/TREE.md, and what sdstore requires for one that is larger than by default."""

#: The most nodes, the root counted, and the most edits: each node but the root is one, and each change is.
MAX_NODES = 16_777_216
MAX_EDITS = 4_294_967_296
#: The same by default.
_NODES, _EDITS = 65_536, 1_048_576
#: So many bytes has the input of `sdstore script` at most (docs/SCRIPT.md).
_SCRIPT_BYTES = 16_777_216

#: For the head of a script, of which nobody knows yet how many nodes it has.
BY_HAND = (
    f"By hand it goes to 'sdstore --percent script'; with more than {_NODES:,} nodes to 'sdstore --percent "
    f"--nodes {MAX_NODES} --edits {MAX_EDITS} script'; with more than {_SCRIPT_BYTES:,} bytes to serve, not script."
)


def options_for(nodes: int) -> list[str]:
    """The options by which sdstore takes a tree of so many nodes."""
    options = ["--nodes", str(nodes)] if nodes > _NODES else []
    return [*options, "--edits", str(MAX_EDITS)] if nodes > _EDITS else options


def requirement_of(nodes: int, size: int) -> str | None:
    """What a script of so many nodes and bytes requires by hand, or None if it is no more than `script` takes."""
    options, command = options_for(nodes), "serve" if size > _SCRIPT_BYTES else "script"
    if command == "script" and not options:
        return None
    return f"by hand the script goes to '{' '.join(['sdstore', '--percent', *options, command])}'"
