"""The calls of the library as ctypes has them: the structures and the arguments of hudarin.h."""

import ctypes
from typing import Any, Dict, Tuple

_SIZE = ctypes.c_size_t
_U32 = ctypes.c_uint32
_U64 = ctypes.c_uint64


class _Mapping(ctypes.Structure):
    _fields_ = [("read", _U32), ("write", _U32), ("execute", _U32), ("all", _U32)]


class _Verdict(ctypes.Structure):
    _fields_ = [
        ("status", _U32),
        ("argument", _U32),
        ("fault", _U32),
        ("kind", _U32),
        ("place", _U64),
        ("mask", _U32),
    ]


class _TypeNode(ctypes.Structure):
    _fields_ = [("level", _U32), ("guid", ctypes.c_ubyte * 16)]


class _TypeVerdict(ctypes.Structure):
    _fields_ = [("kind", _U32), ("mask", _U32)]


class _ViewVerdict(ctypes.Structure):
    # Its answer is here field by field: to take a structure out of another takes as long as a check.
    _fields_ = [*_Verdict._fields_, ("length", _U64)]


class _Finding(ctypes.Structure):
    _fields_ = [("entry", _U64), ("kind", _U32)]


class _Part(ctypes.Structure):
    _fields_ = [("mask", _U32), ("cause", _U32), ("granted", _U32), ("first", _Finding), ("second", _Finding)]


class _Explanation(ctypes.Structure):
    _fields_ = [("answer", _Verdict), ("parts", _Part * 32)]


class _Kept(ctypes.Structure):
    _fields_ = [("at", ctypes.c_void_p), ("is_there", _U32)]


class _Written(ctypes.Structure):
    _fields_ = [("status", _U32), ("fault", _U32), ("place", _U64), ("length", _U64)]


class _Trimmed(ctypes.Structure):
    _fields_ = [("written", _Written), ("left_out", _U32), ("list", _U32)]


class _Created(ctypes.Structure):
    _fields_ = [("written", _Written), ("argument", _U32)]


class _WholeList(ctypes.Structure):
    _fields_ = [
        ("status", _U32),
        ("fault", _U32),
        ("kind", _U32),
        ("revision", _U32),
        ("control", _U32),
        ("entries", _U64),
    ]


class _WholeEntry(ctypes.Structure):
    _fields_ = [
        ("written", _Written),
        ("type", _U32),
        ("flags", _U32),
        ("mask", _U32),
        ("object_types", _U32),
        ("object_type", ctypes.c_ubyte * 16),
        ("inherited_object_type", ctypes.c_ubyte * 16),
        ("sid_length", _U64),
    ]


class _NodeAnswer(ctypes.Structure):
    _fields_ = [("written", _Written), ("kind", _U32)]


class _Comparison(ctypes.Structure):
    _fields_ = [("answer", _Verdict), ("gained", _U32), ("lost", _U32)]


class _Value(ctypes.Structure):
    # What is written is here field by field, as in _ViewVerdict.
    _fields_ = [*_Written._fields_, ("kind", _U32), ("number", _U64)]


class _Review(ctypes.Structure):
    _fields_ = [
        ("written", _Written),
        ("what", _U32),
        ("gained", _U32),
        ("lost", _U32),
        ("path", _U64),
        ("before", _U64),
    ]


class _Mask(ctypes.Structure):
    _fields_ = [("status", _U32), ("fault", _U32), ("place", _U64), ("mask", _U32)]


class _Version(ctypes.Structure):
    _fields_ = [("major", _U32), ("minor", _U32), ("patch", _U32)]


#: Arguments that calls have: bytes or a text, a buffer, an object, groups, a token, a mapping with a mask, and trees of
#: object types with their verdicts.
_GIVEN: Any = [ctypes.c_char_p, _SIZE]
_BUFFER: Any = [ctypes.c_void_p, _SIZE]
_OBJECT: Any = ctypes.POINTER(_Kept)
_GROUPS: Any = _GIVEN + [ctypes.POINTER(_U32), _SIZE]
_TOKEN: Any = _GIVEN + _GROUPS + _GIVEN + [_U32]
_REQUEST: Any = [_Mapping, _U32]
_NODES: Any = [ctypes.POINTER(_TypeNode), _SIZE]
_VERDICTS: Any = [ctypes.POINTER(_TypeVerdict), _SIZE]

#: The arguments and the answer of each call, by its name without "hudarin_".
_CALLS: Dict[str, Tuple[Any, Any]] = {
    "sddl_to_bytes": (_GIVEN + _BUFFER, _Written),
    "bytes_to_sddl": (_GIVEN + _BUFFER, _Written),
    "sid_text_to_bytes": (_GIVEN + _BUFFER, _Written),
    "sid_bytes_to_text": (_GIVEN + _BUFFER, _Written),
    "sid_bytes_to_full_text": (_GIVEN + _BUFFER, _Written),
    "sddl_to_bytes_in": (_GIVEN * 2 + _BUFFER, _Written),
    "sid_text_to_bytes_in": (_GIVEN * 2 + _BUFFER, _Written),
    "descriptor_length": (_GIVEN, _Written),
    "whole_from_sddl": (_GIVEN * 2 + _BUFFER, _Written),
    "whole_to_sddl": (_GIVEN + [_U32] + _BUFFER, _Trimmed),
    "whole_at": (_GIVEN + [_U64] + _BUFFER, _Written),
    "whole_plain": (_GIVEN + _BUFFER, _Trimmed),
    "whole_with_parts": (_GIVEN * 2 + [_U32] + _BUFFER, _Written),
    "whole_with_entries": (_GIVEN + [_U32] * 2 + _GIVEN + _BUFFER, _Written),
    "create": (_GIVEN * 5 + [_U32] * 3 + [_Mapping] + _BUFFER, _Created),
    "whole_list": (_GIVEN + [_U32], _WholeList),
    "whole_entry": (_GIVEN + [_U32, _U64] + _BUFFER, _WholeEntry),
    "map_mask": ([_U32, _Mapping], _Mask),
    "mask_from_text": (_GIVEN + [_U32], _Mask),
    "mask_to_text": ([_U32, _U32] + _BUFFER, _Written),
    "check": (_GIVEN + _TOKEN + _REQUEST, _Verdict),
    "keep_bytes": (_GIVEN + [_OBJECT], _Written),
    "keep_token": (_TOKEN + [_OBJECT], _Verdict),
    "keep_client": (_GIVEN * 3 + [_OBJECT], _Verdict),
    "keep_accounts": (_GIVEN + [_OBJECT], _Written),
    "account_sids": ([_OBJECT] + _GIVEN * 2 + _BUFFER, _Written),
    "account_users": ([_OBJECT] + _BUFFER, _Written),
    "check_kept": ([_OBJECT, _OBJECT] + _REQUEST, _Verdict),
    "check_bytes": (_GIVEN + [_OBJECT] + _REQUEST, _Verdict),
    "check_open": (_GIVEN * 2 + [_OBJECT] + _REQUEST, _Verdict),
    "check_whole": (_GIVEN + [_OBJECT] + _GIVEN * 2 + _REQUEST, _Verdict),
    "check_types": (_GIVEN + [_OBJECT] + _NODES + _GIVEN + _REQUEST + _VERDICTS, _Verdict),
    "explain": ([_OBJECT, _OBJECT] + _REQUEST, _Explanation),
    "who": ([_OBJECT] + _GROUPS + _REQUEST + [_OBJECT], _Verdict),
    "lint": ([_OBJECT] + _GROUPS + [_Mapping, _OBJECT], _Verdict),
    "compare": ([_OBJECT, _OBJECT] + _GROUPS + [_Mapping, _OBJECT], _Comparison),
    "lines_count": ([_OBJECT], _Written),
    "line_print": ([_OBJECT, _U64, _U32] + _BUFFER, _Written),
    "line_value": ([_OBJECT, _U64] + _GIVEN + [_U64] + _BUFFER, _Value),
    "share": ([_OBJECT, _OBJECT], _Written),
    "store_open_within": (_GIVEN + [_Mapping, _U64, _U64, _OBJECT], _Verdict),
    "store_edit": ([_OBJECT, _U32] + _GIVEN * 2, _Verdict),
    "store_judge": ([_OBJECT, _U32] + _GIVEN * 2, _Verdict),
    "store_add_stored": ([_OBJECT, _U32] + _GIVEN * 4, _Verdict),
    "store_judge_stored": ([_OBJECT, _U32] + _GIVEN * 4, _Verdict),
    "store_publish": ([_OBJECT, _OBJECT], _Written),
    "store_revert": ([_OBJECT, _OBJECT], _Written),
    "store_review": ([_OBJECT, _U64] + _BUFFER + [_OBJECT], _Review),
    "view_check": ([_OBJECT] + _GIVEN + [_OBJECT, _U32], _ViewVerdict),
    "view_descriptor": ([_OBJECT] + _GIVEN + _BUFFER, _Written),
    "view_own": ([_OBJECT] + _GIVEN + _BUFFER, _NodeAnswer),
    "view_node": ([_OBJECT, _U64] + _BUFFER, _NodeAnswer),
    "view_stored": ([_OBJECT, _U64, _U32] + _BUFFER, _Written),
    "journal_length": ([_OBJECT], _Written),
    "fault_name": ([_U32, _U32] + _BUFFER, _Written),
    "release": ([_OBJECT], None),
}
