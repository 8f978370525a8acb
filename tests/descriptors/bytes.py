#!/usr/bin/env python3
"""A descriptor's bytes with each other value of each byte: `bytes.py PROGRAM`. The last line is 'N passed, M failed'.

`answer_to` has the answers by the layouts and the order of the tests of docs/FORMATS.md: a fault, the bytes in which what was
parsed is written, or that another part of the bytes is parsed."""
import subprocess
import sys

PROGRAM = sys.argv[1]

# O:BAG:SYD:(A;;FA;;;WD): the header, the owner, the group, and the list with its one entry.
WORKED = bytes.fromhex(
    "0100048014000000240000000000000030000000"
    "01020000000000052000000020020000"
    "010100000000000512000000"
    "02001c0001000000"
    "00001400ff011f00010100000000000100000000"
)
FAULTS = {
    "Revision": 2, "NotSelfRelative": 3, "BadOffset": 5, "BadSid": 6, "AclRevision": 7, "AclSize": 8, "EntrySize": 9,
    "EntryKind": 10,
}
ELSEWHERE = None


def answer_to(place, value):
    """A fault's name, the byte that is written at that place, or ELSEWHERE."""
    for places, values, answer in (
        ((1, 12, 13, 14, 15, 49, 54, 55), range(256), 0),
        ((0, 20, 36, 64, 65), [1], 1),
        ((5, 6, 7, 9, 10, 11, 17, 18, 19, 51, 53, 59), [0], 0),
        ((4,), [20], 20), ((8,), [36], 36), ((16,), [48], 48), ((21,), [2], 2), ((37,), [1], 1),
        ((50,), [28], 28), ((52,), [1], 1), ((58,), [20], 20), ((56,), [0], 0), ((56,), [1], 1),
        ((48,), [2, 4], 2),
        ((57,), range(256), value & 0xDF),
        ((0,), range(256), "Revision"),
        ((2,), [each for each in range(256) if not each & 4], ELSEWHERE),
        ((2,), range(256), 4),
        ((3,), range(0x80), "NotSelfRelative"),
        ((3,), range(256), value & 0x95),
        ((4, 8), [0, 20, 36, 64], ELSEWHERE), ((16, 52), [0], ELSEWHERE),
        ((21,), range(1, 13), ELSEWHERE), ((37,), range(2, 9), ELSEWHERE),
        ((4, 8), range(20, 69), "BadSid"), ((58,), [16], "BadSid"),
        ((20, 21, 36, 37, 64, 65), range(256), "BadSid"),
        ((16,), [21, 33], "AclSize"),
        ((16,), range(20, 69), "AclRevision"), ((48,), range(256), "AclRevision"),
        ((4, 5, 6, 7, 8, 9, 10, 11, 16, 17, 18, 19), range(256), "BadOffset"),
        ((50,), [*range(8), *range(29, 256)], "AclSize"), ((51,), range(256), "AclSize"),
        ((50, 52, 53, 58, 59), range(256), "EntrySize"),
        ((56,), range(256), "EntryKind"),
    ):
        if place in places and value in values:
            return answer
    return value


def changed(place, value):
    return (WORKED[:place] + bytes([value]) + WORKED[place + 1 :]).hex()


def each(command, lines):
    """The program's answers to lines."""
    done = subprocess.run([PROGRAM, "each", command], input="\n".join(lines) + "\n", capture_output=True, text=True, check=False)
    answers = done.stdout.split("\n")[:-1]
    return answers if len(answers) == len(lines) else ["%d answers" % len(answers)] * len(lines)


def main():
    passed, found = 0, []
    cases = [(place, value) for place in range(len(WORKED)) for value in range(256)]
    texts = each("frombin", [changed(place, value) for place, value in cases])
    forms = each("tobin", ["" if text.startswith("fault") else text for text in texts])
    for (place, value), text, form in zip(cases, texts, forms):
        wanted = answer_to(place, value)
        if wanted is ELSEWHERE:
            is_right = not text.startswith("fault")
        elif isinstance(wanted, str):
            is_right = text == "fault wire %d %s" % (FAULTS[wanted], wanted)
        else:
            is_right = not text.startswith("fault") and form == changed(place, wanted)
        passed += is_right
        if not is_right:
            found.append("%d at %d: %s, %s, not %s" % (value, place, text, form, wanted))
    print("\n".join(found[:20] + ["%d passed, %d failed" % (passed, len(found))]))
    return bool(found)


if __name__ == "__main__":
    sys.exit(main())
