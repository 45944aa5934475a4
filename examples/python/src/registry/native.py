"""The calls of the library on bytes: each takes a day text and gives the text of a command, or raises what is wrong.

While a call runs, other Python threads go on: the library shares nothing between two calls.
"""
from __future__ import annotations

import ctypes
import operator
import os
from datetime import date, datetime
from enum import IntEnum
from functools import lru_cache
from pathlib import Path
from typing import Any, Callable, Optional, Union

# The version of the library that this package was written for.
VERSION = 1
LIBRARY, OF_SYSTEM = "libregistry.so", "libregistry.so.1"
DONE, NO_ACCOUNT, FAULT, NO_MEMORY, NO_DATE = 0, 2, 3, 4, 6
# The library takes account numbers of 32 bits: a larger number is that of no account.
MOST_NUMBER = 2**32 - 1
# The largest length that it takes.
MOST_LENGTH = int(ctypes.c_size_t(-1).value)

Text = Union[bytes, bytearray, memoryview]


class Cause(IntEnum):
    """What is wrong with a row, by the numbers of the library. `str` gives the word of the program."""

    END = 1
    TAG = 2
    FIELDS = 3
    NUMBER = 4
    DATE = 5
    WORD = 6
    VERSION = 7
    LIMIT = 8
    ORDER = 9

    def __str__(self) -> str:
        return self.name.lower()


class Fault(ValueError):
    """The bytes are no day text: the number of the first faulty row, counted from 1, and the first cause that applies
    to it; the number of its faulty field and the name of this field, or 0 and nothing if it is the row as a whole; and
    what is wanted there, in a sentence."""

    def __init__(self, row: int, cause: Cause, field: int = 0, name: str = "", sentence: str = "") -> None:
        super().__init__(row, cause, field, name, sentence)
        self.row, self.cause, self.field, self.name, self.sentence = row, cause, field, name, sentence

    def __str__(self) -> str:
        return f"row {self.row}: {self.cause}"


class NoAccount(LookupError):
    """No account of the day has the number of the statement that was asked for."""

    def __init__(self, account: int) -> None:
        super().__init__(account)
        self.account = account

    def __str__(self) -> str:
        return f"no such account: {self.account}"


class NoNextDate(ValueError):
    """A date that can't be that of the next day: it is no later one, or not one of a day text."""


class Answer(ctypes.Structure):
    """`struct registry_answer` of registry.h."""

    _fields_ = [
        ("status", ctypes.c_uint32),
        ("cause", ctypes.c_uint32),
        ("row", ctypes.c_uint64),
        ("length", ctypes.c_size_t),
    ]


class Place(ctypes.Structure):
    """`struct registry_place` of registry.h."""

    _fields_ = [
        ("status", ctypes.c_uint32),
        ("cause", ctypes.c_uint32),
        ("row", ctypes.c_uint64),
        ("field", ctypes.c_uint32),
        ("column", ctypes.c_uint32),
    ]


def _load() -> ctypes.CDLL:
    """The library: the file that REGISTRY_LIBRARY names, or the one beside this module, or that of the system."""
    beside = Path(__file__).resolve().parent / LIBRARY
    path = os.environ.get("REGISTRY_LIBRARY") or (str(beside) if beside.exists() else OF_SYSTEM)
    library = ctypes.CDLL(path)
    library.registry_version.restype = ctypes.c_uint32
    version = library.registry_version()
    if version != VERSION:
        raise ImportError(f"{path} has version {version}, and this package needs {VERSION}")
    return library


_library = _load()
_DAY = [ctypes.c_char_p, ctypes.c_size_t]
_ROOM = [ctypes.c_void_p, ctypes.c_size_t]


@lru_cache(maxsize=None)
def _function(name: str, *parameters: Any) -> Callable[..., Answer]:
    """A function of the library, with the types of its parameters before the room. It is looked up when it is asked: an
    older library may not have it, and settles all the same."""
    function: Any = getattr(_library, f"registry_{name}")
    function.restype, function.argtypes = Answer, [*parameters, *_ROOM]
    call: Callable[..., Answer] = function
    return call


def _ask(
    call: Callable[[ctypes.Array[ctypes.c_char]], Answer], room: int, text: bytes = b"", account: Optional[int] = None
) -> bytes:
    """Asks of a day text with so much room, and if that is too little, once more with as much as is needed."""
    while True:
        space = bytearray(room)
        answer = call((ctypes.c_char * room).from_buffer(space))
        if answer.status == FAULT:
            raise _fault_in(text, answer)
        if answer.status == NO_ACCOUNT:
            raise NoAccount(account or 0)
        if answer.status == NO_DATE:
            raise NoNextDate("the next day is later than the day, and a date of a day text")
        if answer.status == NO_MEMORY:
            raise MemoryError("the registry library ran out of memory")
        if answer.length <= room:
            return bytes(memoryview(space)[: answer.length])
        room = answer.length


def _fault_in(text: bytes, answer: Answer) -> Fault:
    """The fault of a text that an answer tells, with its field if the library has the call for it."""
    cause = Cause(answer.cause)
    try:
        find: Any = _library.registry_find_fault
    except AttributeError:
        return Fault(answer.row, cause)
    find.restype, find.argtypes = Place, _DAY
    place = find(text, len(text))
    if place.status != FAULT:
        # (memory ran out only now)
        return Fault(answer.row, cause)
    name, sentence = field_name(place.column), fault_sentence(cause, place.column)
    return Fault(answer.row, cause, place.field, name, sentence)


def bytes_of(day: Text) -> bytes:
    """The bytes of a day text. Raises `TypeError` for what has none, such as a path or a number: `bytes` makes some of
    it all the same."""
    if isinstance(day, bytes):
        return day
    try:
        return bytes(memoryview(day))
    except TypeError:
        kind = type(day).__name__
        raise TypeError(f"a day text is bytes, as Path.read_bytes() gives them, and not of the type {kind}") from None


def _command(name: str) -> Callable[[Text], bytes]:
    def run(day: Text) -> bytes:
        text, call = bytes_of(day), _function(name, *_DAY)
        return _ask(lambda room: call(text, len(text), room, len(room)), 2 * len(text) + 4096, text)

    return run


settle = _command("settle")
attempt = _command("try")
plan = _command("plan")
figures = _command("figures")
totals = _command("totals")
statements = _command("statements")


def report_most(day_length: int) -> int:
    """How many bytes the report of a day text of this length has at most: eight times as many. It was proved. A length
    that no memory has gets the largest number of the library."""
    length = number_of(day_length, "a length")
    if length < 0:
        raise ValueError(f"there is no text of {length} bytes")
    # (looked up when it is asked, as in `_function`)
    call: Any = _library.registry_report_most
    call.restype, call.argtypes = ctypes.c_size_t, [ctypes.c_size_t]
    return int(call(min(length, MOST_LENGTH)))


def number_of(value: Any, what: str) -> int:
    """A number that a caller gives. Raises `TypeError` for what is none: a number in a text is a text."""
    if isinstance(value, bool) or not hasattr(value, "__index__"):
        raise TypeError(f"{what} is a whole number, and not of the type {type(value).__name__}")
    return operator.index(value)


def statement(day: Text, account: int) -> bytes:
    """The statement of an account. Raises `NoAccount` if the day has no such account."""
    text, asked = bytes_of(day), number_of(account, "an account")
    # (any other number is asked for as 0, which no account has: a fault of the text is told first, as always)
    number, call = asked if 0 <= asked <= MOST_NUMBER else 0, _function("statement", *_DAY, ctypes.c_uint32)
    return _ask(lambda room: call(text, len(text), number, room, len(room)), len(text) + 4096, text, asked)


def next_day(day: Text, on: date) -> bytes:
    """The text of the next day up to its instructions. Raises `NoNextDate` if this date is not later than the day."""
    if not isinstance(on, date) or isinstance(on, datetime):
        raise TypeError(f"the next day is a datetime.date, and not of the type {type(on).__name__}")
    text, named, call = bytes_of(day), on.isoformat().encode(), _function("next", *_DAY, *_DAY)
    return _ask(lambda room: call(text, len(text), named, len(named), room, len(room)), len(text) + 4096, text)


def _words(name: str, *parameters: Any) -> Callable[..., str]:
    """A function of the library that tells words, whatever it is asked."""

    def told(*asked: int) -> str:
        numbers = [number_of(number, "what is asked for") for number in asked]
        for number in numbers:
            if not 0 <= number <= MOST_NUMBER:
                raise ValueError(f"what is asked for is a number from 0 to {MOST_NUMBER}, and not {number}")
        call = _function(name, *parameters)
        return _ask(lambda room: call(*numbers, room, len(room)), 128).decode("ascii")

    return told


# The version of the engine; the word of a cause; the name and the sentence of a check; the name of a column, and what
# is wrong by a cause in a column. A number that names nothing has the empty text.
engine_version = _words("version_string")
cause_word = _words("cause_word", ctypes.c_uint32)
refusal_word = _words("refusal_word", ctypes.c_uint32)
refusal_sentence = _words("refusal_sentence", ctypes.c_uint32)
field_name = _words("field_name", ctypes.c_uint32)
fault_sentence = _words("fault_sentence", ctypes.c_uint32, ctypes.c_uint32)
