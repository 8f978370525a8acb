"""Answers cases by Samba's own library: a line of JSON for each line of standard input. The first line that it writes
has Samba's version, and whether it can inherit. It runs by the Python whose module samba is asked, and knows nothing of
Hudarin."""

import json
import sys

from samba import NTSTATUSError, security as checks, version
from samba.dcerpc import security
from samba.ndr import ndr_pack, ndr_unpack

from inheritance_by_samba import child_call

PRIVILEGES = {
    "SeSecurityPrivilege": security.SEC_PRIV_SECURITY,
    "SeTakeOwnershipPrivilege": security.SEC_PRIV_TAKE_OWNERSHIP,
    "SeBackupPrivilege": security.SEC_PRIV_BACKUP,
    "SeRestorePrivilege": security.SEC_PRIV_RESTORE,
}
STATUSES = {0xC0000022: "denied", 0xC0000061: "no privilege"}
MAXIMUM_ALLOWED = 0x02000000
KEPT = {}


def token_of(case):
    sids = [security.dom_sid(sid) for sid in (case["user"], *(sid for sid, _ in case["groups"]))]
    token = security.token()
    token.sids, token.num_sids = sids, len(sids)
    for name in case["privileges"]:
        token.set_privilege(PRIVILEGES[name])
    return token


def check(descriptor, token, asked):
    """The answer of se_access_check: "granted" and what, or how it denied."""
    try:
        return ["granted", checks.access_check(descriptor, token, asked) & 0xFFFFFFFF]
    except NTSTATUSError as error:
        return [STATUSES.get(error.args[0] & 0xFFFFFFFF, hex(error.args[0])), 0]


def asked_of(descriptor, token, asked):
    """The answer to the request, and the bits of it that are granted where each is the whole request: a denied check of
    Samba doesn't return from Python which bits it denied."""
    single = 0
    for bit in range(32):
        if asked & ~MAXIMUM_ALLOWED & 1 << bit and check(descriptor, token, 1 << bit)[0] == "granted":
            single |= 1 << bit
    return [*check(descriptor, token, asked), single]


def verdict(case):
    """By the descriptor whose entries are mapped; and by that with generic bits, if it has any."""
    token = token_of(case)
    descriptor = ndr_unpack(security.descriptor, bytes.fromhex(case["mapped_sd"]))
    answer = {"mapped": asked_of(descriptor, token, case["mapped_asked"])}
    if case["sd"] != case["mapped_sd"]:
        raw = ndr_unpack(security.descriptor, bytes.fromhex(case["sd"]))
        answer["raw"] = asked_of(raw, token, case["mapped_asked"])
    return answer


def parse(case):
    """The bytes of a text, or None where Samba rejects it."""
    try:
        read = security.descriptor.from_sddl(case["text"], security.dom_sid(case["domain"]))
    except Exception as error:  # (TypeError, or in newer versions a class of their own)
        return {"hex": None, "why": str(error)}
    return {"hex": ndr_pack(read).hex()}


def write(case):
    """The text of bytes, without and with a domain, and the bytes that Samba makes of them again."""
    descriptor = ndr_unpack(security.descriptor, bytes.fromhex(case["sd"]))
    domain = security.dom_sid(case["domain"])
    return {"text": descriptor.as_sddl(), "of_domain": descriptor.as_sddl(domain), "hex": ndr_pack(descriptor).hex()}


def unpack(case):
    """Whether Samba reads the bytes, and what it writes for them."""
    try:
        descriptor = ndr_unpack(security.descriptor, bytes.fromhex(case["sd"]), allow_remaining=True)
        return {"hex": ndr_pack(descriptor).hex()}
    except (RuntimeError, NTSTATUSError) as error:
        return {"hex": None, "why": str(error)}


def inherit(case):
    made = KEPT["child"](bytes.fromhex(case["sd"]), case["owner"], case["group"], case["container"])
    return {"hex": made.hex()}


def main():
    KEPT["child"], why = child_call(security, ndr_pack)
    print(json.dumps({"version": version, "inherits": KEPT["child"] is not None, "why": why}), flush=True)
    answers = {"verdict": verdict, "parse": parse, "write": write, "unpack": unpack, "inherit": inherit}
    for line in sys.stdin:
        case = json.loads(line)
        print(json.dumps({"id": case["id"], **answers[case["kind"]](case)}))


if __name__ == "__main__":
    main()
