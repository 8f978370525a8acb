"""The program sdstore beside Samba: some verdicts, a run each, and the texts that Samba writes, all in one run."""

import subprocess

from cases import DOMAIN, NULL, parts_of
from hudarin import Descriptor
from verdicts import Comparison

VERDICTS = 60
WORDS = {"SeSecurityPrivilege": "+security", "SeTakeOwnershipPrivilege": "+take"}


def run(program, arguments, lines=""):
    done = subprocess.run([program, *arguments], input=lines, capture_output=True, text=True, check=False)
    return done.stdout.splitlines()


def verdict_of(program, case):
    """The line that the program prints."""
    words = [sid for sid, _ in case["groups"]] + [WORDS[name] for name in case["privileges"] if name in WORDS]
    mapping = ",".join(map(hex, case["mapping"]))
    text = str(Descriptor(bytes.fromhex(case["sd"])))
    return run(program, ["--mapping", mapping, "verdict", text, case["user"], hex(case["asked"]), *words])


def by_program(program, every, answers, report):
    """The failures. A verdict is compared where the library's agrees with Samba: the program prints the same."""
    agreeing = []
    for case in every[1][1]:
        compared = Comparison(case, tuple(answers[case["id"]]["mapped"]))
        if not compared.names and not compared.unnamed:
            agreeing.append((case, str(compared.verdict)))
        if len(agreeing) == VERDICTS:
            break
    for case, wanted in agreeing:
        printed = verdict_of(program, case)
        if printed == [wanted]:
            report.passed += 1
        else:
            yield f"the program prints {printed}, Samba means {wanted}: {case}"
    written = [case for case in every[3][1] if parts_of(bytes.fromhex(case["sd"])).dacl != NULL]
    written = [case for case in written if answers[case["id"]]["of_domain"]]
    lines = "".join(answers[case["id"]]["of_domain"] + "\n" for case in written)
    printed = run(program, ["--domain", DOMAIN, "each", "tobin"], lines)
    for case, line in zip(written, printed + [""] * len(written)):
        if line == case["sd"]:
            report.passed += 1
        else:
            yield f"the program prints {line} for Samba's {answers[case['id']]['of_domain']}: {case}"
    print(f"the program: {len(agreeing)} verdicts, {len(written)} texts of Samba")
