"""
What each operation's outcome should be, by the answers of `sdstore serve`: another program than the server, which is
told the same tree as a script and asked check by check. Which masks an operation asks is told here once more, from
the table of README.md.
"""

import os
import subprocess

READ, WRITE, APPEND, EXECUTE, DELETE_CHILD = 0x1, 0x2, 0x4, 0x20, 0x40
READ_ATTRIBUTES, WRITE_ATTRIBUTES = 0x80, 0x100
DELETE, READ_CONTROL, WRITE_DAC, WRITE_OWNER = 0x10000, 0x20000, 0x40000, 0x80000

REFUSALS = {2: "ENOTDIR", 3: "EEXIST", 4: "ENOENT", 5: "ENOTEMPTY", 6: "EBUSY", 7: "EINVAL", 8: "EINVAL", 9: "E2BIG",
            10: "ENAMETOOLONG", 11: "ENOSPC", 12: "EDQUOT", 13: "EINVAL"}


def above(path: str) -> str:
    return os.path.dirname(path)


class Model:
    def __init__(self, program: str, root: str) -> None:
        self._process = subprocess.Popen([program, "serve"], stdin=subprocess.PIPE, stdout=subprocess.PIPE, text=True)
        self.kinds = {"/": "folder"}
        self._known = {}
        if self._ask("open 1 " + root) != "opened 1":
            raise ValueError(root)

    def _ask(self, line: str) -> str:
        self._process.stdin.write(line + "\n")
        self._process.stdin.flush()
        return self._process.stdout.readline().rstrip("\n")

    def close(self) -> None:
        self._process.stdin.close()
        self._process.wait()

    # ---- The tree

    def edit(self, *lines: str) -> str:
        """Makes the edits: `ok`, or the error of the first that is refused."""
        self._known.clear()
        for line in lines:
            answer = self._ask(line)
            if answer.split(" ")[0] != "ok":
                return REFUSALS[int(answer.split()[1])]
            words = line.split(" ")
            if words[0] in ("addc", "addo"):
                self.kinds[words[1]] = "folder" if words[0] == "addc" else "file"
            elif words[0] == "remove":
                del self.kinds[words[1]]
            elif words[0] == "move":
                self._move(words[1], words[2])
        self._ask("publish")
        return "ok"

    def _move(self, source: str, target: str) -> None:
        moved = {path: kind for path, kind in self.kinds.items() if (path + "/").startswith(source + "/")}
        for path in moved:
            del self.kinds[path]
        for path, kind in moved.items():
            self.kinds[target + path[len(source):]] = kind

    def children(self, path: str) -> list:
        lead = path.rstrip("/") + "/"
        names = [other[len(lead):] for other in self.kinds if other.startswith(lead) and other != "/"]
        return sorted(name for name in names if "/" not in name)

    def show(self, path: str) -> str:
        return self._ask("show 0 " + path).split(" ", 3)[3]

    # ---- Checks

    def grants(self, user, path: str, mask: int) -> bool:
        key = (user.name, path, mask)
        if key not in self._known:
            answer = self._ask("check 0 %s %s" % (path, user.words % ("0x%x" % mask)))
            if " granted " not in answer and " denied " not in answer:
                raise ValueError("%s: %s" % (key, answer))
            self._known[key] = " granted " in answer
        return self._known[key]

    def sees(self, user, path: str) -> bool:
        return (self.grants(user, path, READ_ATTRIBUTES) or (path != "/" and self.grants(user, above(path), READ))
                or (self.kinds[path] == "folder" and self.grants(user, path, EXECUTE)))

    def deletes(self, user, path: str) -> bool:
        return self.grants(user, path, DELETE) or self.grants(user, above(path), DELETE_CHILD)

    def walk(self, user, path: str) -> str:
        """What the kernel meets on its way to the path, which looks up each name: `ok`, or an error."""
        names = [name for name in path.split("/") if name]
        for count in range(1, len(names) + 1):
            step = "/" + "/".join(names[:count])
            if self.kinds.get(above(step)) == "file":
                return "ENOTDIR"
            if step not in self.kinds:
                return "ENOENT"
            if not self.sees(user, step):
                return "EACCES"
        return "ok"

    # ---- Operations that leave the tree as it is

    def asked(self, user, path: str, mask: int) -> str:
        walked = self.walk(user, path)
        if walked != "ok":
            return walked
        return "ok" if self.grants(user, path, mask) else "EACCES"

    def stat(self, user, path: str) -> str:
        walked = self.walk(user, path)
        return walked if walked != "ok" or self.sees(user, path) else "EACCES"

    # ---- Operations that change it: the outcome, with the tree changed where it is ok

    def create(self, user, path: str, kind: str) -> str:
        walked = self.walk(user, above(path))
        if walked == "ok" and self.kinds[above(path)] == "file":
            walked = "ENOTDIR"
        if walked != "ok":
            return walked
        if path in self.kinds:
            return "EEXIST" if self.sees(user, path) else "EACCES"
        if not self.grants(user, above(path), APPEND if kind == "folder" else WRITE):
            return "EACCES"
        line = "addc" if kind == "folder" else "addo"
        return self.edit("%s %s O:%sG:%sD:" % (line, path, user.sid, user.group_sid))

    def remove(self, user, path: str, kind: str) -> str:
        walked = self.walk(user, path)
        if walked != "ok":
            return walked
        if self.kinds[path] != kind:
            return "ENOTDIR" if kind == "folder" else "EISDIR"
        return self.edit("remove " + path) if self.deletes(user, path) else "EACCES"

    def rename(self, user, source: str, target: str) -> str:
        for path in (above(source), above(target)):
            walked = self.walk(user, path)
            walked = "ENOTDIR" if walked == "ok" and self.kinds[path] == "file" else walked
            if walked != "ok":
                return walked
        for path in (source, target):
            if path in self.kinds and not self.sees(user, path):
                return "EACCES"
        if source not in self.kinds:
            return "ENOENT"
        if (target + "/").startswith(source + "/"):
            return "ok" if source == target else "EINVAL"
        if (source + "/").startswith(target + "/"):
            return "ENOTEMPTY"
        is_there = target in self.kinds
        if is_there and self.kinds[source] != self.kinds[target]:
            return "ENOTDIR" if self.kinds[source] == "folder" else "EISDIR"
        adding = APPEND if self.kinds[source] == "folder" else WRITE
        if not (self.deletes(user, source) and self.grants(user, above(target), adding)):
            return "EACCES"
        if is_there and not self.deletes(user, target):
            return "EACCES"
        if is_there and self.children(target):
            return "ENOTEMPTY"
        below = [path for path in self.kinds if (path + "/").startswith(source + "/")]
        keeps = above(source) != above(target) and not all(self.grants(user, path, WRITE_DAC) for path in below)
        return self.edit(*(["protect " + source] if keeps else []), *(["remove " + target] if is_there else []),
                         "move %s %s" % (source, target))

    def give_list(self, user, path: str, text: str) -> str:
        asked = self.asked(user, path, WRITE_DAC)
        return asked if asked != "ok" else self.edit("dacl %s %s" % (path, text))

    def give_owner(self, user, path: str, owner: str) -> str:
        asked = self.asked(user, path, WRITE_OWNER)
        if asked != "ok":
            return asked
        mine = user.words.replace("%s ", "").split(" ")
        if owner not in mine or owner in ("S-1-1-0", "S-1-5-11"):
            return "EPERM"
        return self.edit("owner %s %s" % (path, owner))
