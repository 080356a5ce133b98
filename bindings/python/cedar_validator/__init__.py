"""The validator of Cedar policies, by the C library libcedar.

The library is the file that CEDAR_LIBRARY names, else the one in this package, else the one that the system's linker finds. Each
function takes a call, a mapping
or a text of JSON, and answers what the answer's text says. A call that cannot be answered raises MemoryError.
"""
from __future__ import annotations

import ctypes
import json
import os
import threading
from pathlib import Path
from types import TracebackType
from typing import Any, Literal, Mapping, NotRequired, TypedDict, Union, cast

ABI = 2


class SourceLocation(TypedDict):
    label: str | None
    start: int
    end: int


class DetailedError(TypedDict):
    message: str
    help: str | None
    code: str | None
    url: str | None
    severity: Literal["advice", "warning", "error"] | None
    sourceLocations: list[SourceLocation]
    related: list[DetailedError]


class ValidationError(TypedDict):
    policyId: str
    error: DetailedError
    also: NotRequired[list[str]]
    environments: NotRequired[list[str]]


class PolicyVerdict(TypedDict):
    policyId: str
    accepted: bool
    level: NotRequired[int | None]
    moreFindings: int


class Failure(TypedDict):
    type: Literal["failure"]
    errors: list[DetailedError]
    warnings: list[DetailedError]


class Success(TypedDict):
    type: Literal["success"]
    validationErrors: list[ValidationError]
    validationWarnings: list[ValidationError]
    otherWarnings: list[DetailedError]
    policies: NotRequired[list[PolicyVerdict]]


class DataVerdict(TypedDict):
    conforms: bool
    count: int
    errors: list[DetailedError]


class CheckedData(TypedDict):
    type: Literal["success"]
    entities: NotRequired[DataVerdict]
    request: NotRequired[DataVerdict]


class Conditions(TypedDict):
    type: Literal["success"]
    accepted: bool
    validationErrors: list[ValidationError]
    conditions: list[dict[str, Any]]


Call = Union[Mapping[str, Any], str]

_name = f"libcedar.so.{ABI}"
_own = Path(__file__).with_name(_name)
_library = ctypes.CDLL(os.environ.get("CEDAR_LIBRARY") or (str(_own) if _own.exists() else _name))
_library.cedar_abi.restype = ctypes.c_uint32
if _library.cedar_abi() != ABI:
    raise ImportError(f"libcedar has the number {_library.cedar_abi()} of calls, where {ABI} is wanted")


class _Handle(ctypes.Structure):
    """`cedar_schema` of cedar.h; zeros are a closed one."""

    _fields_ = [("held", ctypes.c_void_p), ("is_open", ctypes.c_ubyte)]


_ROOM = [ctypes.c_void_p, ctypes.c_size_t, ctypes.POINTER(ctypes.c_size_t)]
_ASKED = [ctypes.c_char_p, ctypes.c_size_t, *_ROOM]
for _word in ("validate", "check_data", "typed_conditions"):
    for _call, _types in ((f"cedar_{_word}", _ASKED), (f"cedar_schema_{_word}", [ctypes.POINTER(_Handle), *_ASKED])):
        getattr(_library, _call).restype = ctypes.c_uint32
        getattr(_library, _call).argtypes = _types
_library.cedar_schema_open.restype = ctypes.c_uint32
_library.cedar_schema_open.argtypes = [ctypes.POINTER(_Handle), *_ASKED]
_library.cedar_schema_answer.restype = ctypes.c_uint32
_library.cedar_schema_answer.argtypes = [ctypes.POINTER(_Handle), *_ROOM]
_library.cedar_schema_close.restype = None
_library.cedar_schema_close.argtypes = [ctypes.POINTER(_Handle)]


def answer_text(name: str, call: bytes, room: int = 1 << 16) -> bytes:
    """The answer of the call of this name, such as `cedar_validate`, both texts of JSON. Other threads run meanwhile."""
    while True:
        needed, answer = ctypes.c_size_t(), ctypes.create_string_buffer(room)
        status = getattr(_library, name)(call, len(call), answer, room, ctypes.byref(needed))
        if status == 0:
            return answer.raw[: needed.value]
        if status != 1:
            raise _refusal(status)
        room = needed.value


def _refusal(status: int) -> Exception:
    if status == 2:
        return MemoryError("memory was refused")
    return ValueError("the call is no text in UTF-8" if status == 3 else "the schema is closed")


def _text(call: Call) -> bytes:
    return (call if isinstance(call, str) else json.dumps(call, ensure_ascii=False)).encode()


def _answered(name: str, call: Call) -> Any:
    return json.loads(answer_text(name, _text(call)))


def validate(call: Call) -> Success | Failure:
    """Validates policies: `schema`, `policies` and perhaps `validationSettings`."""
    return cast("Success | Failure", _answered("cedar_validate", call))


def check_data(call: Call) -> CheckedData | Failure:
    """Checks data: `schema` and perhaps `entities` and `request`."""
    return cast("CheckedData | Failure", _answered("cedar_check_data", call))


def typed_conditions(call: Call) -> Conditions | Failure:
    """The condition of a policy in each of its environments: `schema`, `policy` and perhaps `validationSettings`."""
    return cast("Conditions | Failure", _answered("cedar_typed_conditions", call))


class SchemaError(ValueError):
    """A schema that cannot be read; `failure` is the answer, which says why."""

    def __init__(self, failure: Failure) -> None:
        super().__init__("; ".join(it["message"] for it in failure["errors"]))
        self.failure = failure


class Schema:
    """A schema that is read once, for many calls, which name none: `with Schema(text) as schema: schema.validate(call)`.

    One thread at a time uses it; another waits. A call by a closed schema raises ValueError.
    """

    def __init__(self, schema: str | Mapping[str, Any]) -> None:
        self._handle, self._lock = _Handle(), threading.Lock()
        text = json.dumps({"schema": schema}, ensure_ascii=False).encode()
        room = 1 << 16
        while True:
            needed, answer = ctypes.c_size_t(), ctypes.create_string_buffer(room)
            status = _library.cedar_schema_open(self._handle, text, len(text), answer, room, ctypes.byref(needed))
            if status == 4:
                return
            if status == 0:
                raise SchemaError(json.loads(answer.raw[: needed.value]))
            if status != 1:
                raise _refusal(status)
            room = needed.value

    def __enter__(self) -> Schema:
        return self

    def __exit__(self, kind: type[BaseException] | None, error: BaseException | None, trace: TracebackType | None) -> None:
        self.close()

    def __del__(self) -> None:
        if hasattr(self, "_lock"):
            self.close()

    def close(self) -> None:
        """Frees the schema. A closed one stays closed."""
        with self._lock:
            _library.cedar_schema_close(self._handle)

    def answer_text(self, name: str, call: bytes, room: int = 1 << 16) -> bytes:
        """The answer of the call of this name, such as `cedar_schema_validate`, both texts of JSON. It is computed once for any room."""
        needed, answer = ctypes.c_size_t(), ctypes.create_string_buffer(room)
        with self._lock:
            status = getattr(_library, name)(self._handle, call, len(call), answer, room, ctypes.byref(needed))
            if status == 1:
                room = needed.value
                answer = ctypes.create_string_buffer(room)
                status = _library.cedar_schema_answer(self._handle, answer, room, ctypes.byref(needed))
        if status != 0:
            raise _refusal(status)
        return answer.raw[: needed.value]

    def _answered(self, name: str, call: Call) -> Any:
        return json.loads(self.answer_text(name, _text(call)))

    def validate(self, call: Call) -> Success | Failure:
        """Validates policies: `policies` and perhaps `validationSettings`."""
        return cast("Success | Failure", self._answered("cedar_schema_validate", call))

    def check_data(self, call: Call) -> CheckedData | Failure:
        """Checks data: perhaps `entities` and `request`."""
        return cast("CheckedData | Failure", self._answered("cedar_schema_check_data", call))

    def typed_conditions(self, call: Call) -> Conditions | Failure:
        """The condition of a policy in each of its environments: `policy` and perhaps `validationSettings`."""
        return cast("Conditions | Failure", self._answered("cedar_schema_typed_conditions", call))
