"""Random trees of object types ([MS-DTYP] 2.5.3.2, ObjectTypeList), and what the model says of each node: a leaf is
granted what access.py grants for its chain, a node with others below it what each of its leaves is granted. Samba is
asked for chains alone, which it is compared by."""

import subprocess
from functools import reduce
from typing import Any, List, NamedTuple, Tuple

import access
import model
import parsing
from program import DOMAIN, PATIENCE, Program
from questions import TYPES, Batch, Random

#: The deepest level.
DEEPEST = 4
LEFT_OUT = "of the DACL and the label alone: the rest of the SACL is left out"


class Node(NamedTuple):
    """A node of a tree, as ObjectTypeList has it."""

    level: int
    guid: str


def drawn_tree(drawn: Random) -> List[Node]:
    """A class, and below it some of the other types, each no deeper than one below the node before."""
    tree = [Node(0, TYPES[0])]
    for guid in drawn.rng.sample(TYPES[1:], drawn.rng.randrange(len(TYPES))):
        tree.append(Node(drawn.rng.randint(1, min(tree[-1].level + 1, DEEPEST)), guid))
    return tree


def chain(tree: List[Node], place: int) -> Tuple[str, ...]:
    """The types from the class to a node."""
    found: List[Node] = []
    for node in tree[place::-1]:
        if not found or node.level < found[-1].level:
            found.append(node)
    return tuple(node.guid for node in reversed(found))


def leaves(tree: List[Node], place: int) -> List[int]:
    """The places of the leaves below a node, or its own."""
    end = next((at for at in range(place + 1, len(tree)) if tree[at].level <= tree[place].level), len(tree))
    levels = [node.level for node in tree] + [0]
    return [at for at in range(place, end) if levels[at + 1] <= levels[at]]


def verdicts(descriptor: model.Descriptor, question: access.Question, tree: List[Node]) -> List[str]:
    """The lines that `sdstore --whole types` prints."""
    found = []
    try:
        for place, node in enumerate(tree):
            asked = [question._replace(types=chain(tree, leaf)) for leaf in leaves(tree, place)]
            parts = [access.granted(descriptor, each) for each in asked]
            both: Any = reduce(lambda one, other: (one[0] & other[0], one[1] & other[1]), parts)
            found.append(f"{access.answered(question, *both)} at {node.level}:{node.guid}")
    except access.NoWord:
        return ["fault token"]
    except access.EntryFault as fault:
        return [str(fault)]
    is_left = access.has_limits(descriptor) and any(line.startswith("granted") for line in found)
    return found + [LEFT_OUT] * is_left


def by_program(program: Program, text: str, question: access.Question, tree: List[Node]) -> List[str]:
    """What the program says of a descriptor."""
    nodes = ",".join(f"{node.level}:{node.guid}" for node in tree)
    options = question._replace(types=()).options()
    asked = ["types", text, nodes, question.user, hex(question.asked), *question.words]
    done = subprocess.run([program.path, *options, *asked], capture_output=True, timeout=PATIENCE, check=False)
    return done.stdout.decode().splitlines()


def compare(report: Any, program: Program, batch: Batch, drawn: Random) -> None:
    """Compares what the program and the model say of the descriptors of a batch, each with a tree of its own."""
    for text in batch.texts:
        tree = drawn_tree(drawn)
        wanted = verdicts(parsing.descriptor(text, DOMAIN), batch.question, tree)
        report.same(f"types {text} for {batch.question} of {tree}", by_program(program, text, batch.question, tree), wanted)
