"""The packet filter of `racl` in Python: policies get unit tests.

    judge = Judge("out permit+reflect ipv4 any any udp dport 53\\n")
    assert judge.judge(frame, time=10).passes

It calls the library for C (include/racl.h) as a shared object: the file that RACL_LIBRARY names, or the one that was put into
this package's wheel, or libracl.so as `make library` and `make install` leave it, in this checkout or where the system looks for
libraries.

Any thread may call any judge: calls on one judge wait for each other. Threads that judge at once have a judge each, by `split`.
"""
from __future__ import annotations

import ctypes
import enum
import ipaddress
import itertools
import operator
import os
import threading
import time as clock
from collections.abc import Iterable, Iterator
from contextlib import ExitStack, contextmanager
from dataclasses import dataclass
from typing import Any, Callable, SupportsBytes, Union

__all__ = ["Answer", "Direction", "End", "Judge", "JudgesLeft", "PolicyFault", "RuleCounts", "Session", "Verdict", "check", "line_of"]

Bytes = Union[bytes, bytearray, memoryview]
Frame = Union[Bytes, SupportsBytes]
Policy = Union[str, Bytes]


class Verdict(enum.IntEnum):
    """What becomes of a frame, by the numbers of the header."""

    SESSION = 16
    REFLECT = 17
    PERMIT = 18
    DENY = 19
    BY_DEFAULT = 20
    WORN = 21
    FULL = 22
    NO_PAGES = 23
    NOT_IP = 24
    MALFORMED = 25
    SHORT = 26


class Direction(enum.IntEnum):
    """Which way a packet goes at its interface."""

    NONE = 0
    INBOUND = 1
    OUTBOUND = 2


@dataclass(frozen=True)
class Answer:
    """The answer on a frame. Rules of a direction count from 1 in the section of their interface; 0: no rule decided."""

    verdict: Verdict
    rule: int
    passes: bool
    direction: Direction


@dataclass(frozen=True)
class End:
    """An end of a flow. Without ports its port is 0; the flags that are kept are of TCP."""

    address: ipaddress.IPv4Address | ipaddress.IPv6Address
    port: int
    flags: int


@dataclass(frozen=True)
class Session:
    """A session: its flow, the latest second of its frames, and the last one in which it is live."""

    interface: int
    protocol: int
    first: End
    second: End
    last: int
    until: int


class PolicyFault(ValueError):
    """A policy's first fault. Its line counts from 1, and is 0 where no line is meant; the message is what `racl check` tells."""

    def __init__(self, reason: str, line: int):
        super().__init__(reason)
        self.line = line


class JudgesLeft(RuntimeError):
    """Another judge over the tables was not joined into this one."""


class _Handle(ctypes.Structure):
    _fields_ = [("at", ctypes.c_void_p)]


class _Options(ctypes.Structure):
    _fields_ = [(name, ctypes.c_uint32) for name in ("size", "tables", "established", "transient", "udp")]


class _Made(ctypes.Structure):
    _fields_ = [("kind", ctypes.c_uint32), ("line", ctypes.c_uint64)]


class _Checked(ctypes.Structure):
    _fields_ = [("kind", ctypes.c_uint32), ("length", ctypes.c_uint64)]


class _Swept(ctypes.Structure):
    _fields_ = [("kind", ctypes.c_uint32), ("next", ctypes.c_uint64), ("went", ctypes.c_uint64)]


class _Descriptor(ctypes.Structure):
    _fields_ = [("at", ctypes.c_uint64), ("length", ctypes.c_uint32), ("second", ctypes.c_uint32), ("interface", ctypes.c_uint8)]


class _Answer(ctypes.Structure):
    _fields_ = [(name, ctypes.c_uint32) for name in ("kind", "rule", "passes", "direction")]


class _Counts(ctypes.Structure):
    _fields_ = [(name, ctypes.c_uint64) for name in ("session", "reflect", "permit", "deny", "by_default", "worn", "full",
                                                     "no_pages", "not_ip", "malformed", "cut_short")]


class _End(ctypes.Structure):
    _fields_ = [("address", ctypes.c_uint8 * 16), ("port", ctypes.c_uint16), ("flags", ctypes.c_uint8)]


class _Session(ctypes.Structure):
    _fields_ = [("until", ctypes.c_uint64), ("last", ctypes.c_uint32), ("interface", ctypes.c_uint8), ("family", ctypes.c_uint8),
                ("protocol", ctypes.c_uint8), ("first", _End), ("second", _End)]


_MEMORY, _NUMBERS, _CONTENDED, _STRANGERS = 1, 6, 7, 8
_FAULTS = {2, 3, 4}
_TEXT = [ctypes.c_char_p, ctypes.c_size_t]
_MOST = 0xFFFF_FFFF
# How many buckets tables of each family have, standard ones and large ones.
_BUCKETS = {4: (4096, 65_536), 6: (1024, 65_536)}
_PAUSE = 0.001


def _path() -> str:
    """Where the library is."""
    own = os.path.dirname(os.path.abspath(__file__))
    top = os.path.dirname(os.path.dirname(os.path.dirname(own)))
    places = (os.path.join(own, "libracl.so"), os.path.join(top, "out", "library", "libracl.so"))
    return os.environ.get("RACL_LIBRARY") or next((it for it in places if os.path.exists(it)), "libracl.so")


def _library() -> ctypes.CDLL:
    handle = ctypes.POINTER(_Handle)
    number, long, byte, pointer = ctypes.c_uint32, ctypes.c_uint64, ctypes.c_uint8, ctypes.c_void_p
    calls = {
        "racl_version": (number, []),
        "racl_new_with": (_Made, [handle, *_TEXT, ctypes.POINTER(_Options), *_TEXT]),
        "racl_split": (number, [handle, handle]),
        "racl_join": (None, [handle, handle]),
        "racl_is_lone": (number, [handle]),
        "racl_set_policy": (_Made, [handle, *_TEXT]),
        "racl_take_policy": (number, [handle, handle]),
        "racl_judge": (_Answer, [handle, byte, number, *_TEXT]),
        "racl_judge_burst": (ctypes.c_size_t, [handle, *_TEXT, pointer, ctypes.c_size_t, pointer, ctypes.c_size_t]),
        "racl_counts": (None, [handle, ctypes.POINTER(_Counts)]),
        "racl_free": (None, [handle]),
        "racl_check": (_Checked, [*_TEXT, *_TEXT]),
        "racl_line_of": (_Made, [*_TEXT, byte, number, number]),
        "racl_sweep_ipv4": (_Swept, [handle, long, long, number, long]),
        "racl_sweep_ipv6": (_Swept, [handle, long, long, number, long]),
        "racl_close_ipv4": (number, [handle, handle]),
        "racl_close_ipv6": (number, [handle, handle]),
        "racl_session_at": (number, [handle, long, ctypes.POINTER(_Session)]),
        "racl_free_sessions": (None, [handle]),
        "racl_rule_counts_new": (_Made, [handle, *_TEXT]),
        "racl_count_rule": (None, [handle, byte, number, number]),
        "racl_rule_count": (long, [handle, byte, number, number]),
        "racl_free_rule_counts": (None, [handle]),
    }
    path = _path()
    try:
        library = ctypes.CDLL(path)
        for name, (result, given) in calls.items():
            call = getattr(library, name)
            call.restype, call.argtypes = result, given
    except (OSError, AttributeError) as error:
        raise ImportError(f"racl: {path}: {error}; `make library` and `make install` put the library for C there, or "
                          "RACL_LIBRARY names it") from error
    return library


_LIBRARY = _library()


def _version() -> str:
    number = _LIBRARY.racl_version()
    return f"{number // 1_000_000}.{number // 1000 % 1000}.{number % 1000}"


__version__ = _version()


def _number(what: str, given: Any, least: int, most: int) -> int:
    try:
        number = operator.index(given)
    except TypeError:
        raise TypeError(f"{what} is a whole number, not {type(given).__name__}") from None
    if not least <= number <= most:
        raise ValueError(f"{what} is a number from {least} to {most}, not {number}")
    return number


def _interface(given: int) -> int:
    return _number("an interface", given, 0, 255)


def _second(given: int) -> int:
    return _number("a time, in seconds,", given, 0, _MOST)


def _frame(given: Frame) -> bytes:
    """The bytes of a frame. `bytes` alone would make zeros of a number."""
    if isinstance(given, bytes):
        return given
    if isinstance(given, (bytearray, memoryview)) or hasattr(type(given), "__bytes__"):
        return bytes(given)
    raise TypeError(f"a frame is bytes, or has them by __bytes__, not {type(given).__name__}")


def _text(policy: Policy) -> bytes:
    if isinstance(policy, str):
        return policy.encode()
    if isinstance(policy, (bytes, bytearray, memoryview)):
        return bytes(policy)
    raise TypeError(f"a policy is text or bytes, not {type(policy).__name__}")


def _done(made: _Made, text: bytes) -> None:
    if made.kind == _MEMORY:
        raise MemoryError
    if made.kind in _FAULTS:
        raise PolicyFault(check(text), made.line)
    if made.kind:
        raise ValueError("options that the library doesn't know")


def _do(call: Callable[[], int]) -> None:
    """Calls until nobody stands in the way."""
    while (kind := call()) == _CONTENDED:
        clock.sleep(_PAUSE)
    if kind == _MEMORY:
        raise MemoryError
    if kind == _NUMBERS:
        raise RuntimeError("the tables had 65,535 judges, and can have no more")
    if kind == _STRANGERS:
        raise JudgesLeft("another judge over the tables was not joined into this one")


def _answer_of(told: _Answer) -> Answer:
    return Answer(Verdict(told.kind), told.rule, bool(told.passes), Direction(told.direction))


def _end_of(told: _End, family: int) -> End:
    address = bytes(told.address)
    return End(ipaddress.ip_address(address[:4] if family == 4 else address), told.port, told.flags)


def check(policy: Policy) -> str:
    """The lines that `racl check` tells of a policy: what is wrong, or else what is unlikely to be meant."""
    text, lines = _text(policy), ctypes.create_string_buffer(0)
    while True:
        told = _LIBRARY.racl_check(text, len(text), ctypes.cast(lines, ctypes.c_char_p), len(lines))
        if told.kind == _MEMORY:
            raise MemoryError
        if told.length == len(lines):
            return lines.raw.decode(errors="backslashreplace")
        lines = ctypes.create_string_buffer(told.length)


def line_of(policy: Policy, answer: Answer, *, interface: int = 0) -> int:
    """The line of a policy in which the rule stands that gave this answer on a frame of this interface; 0 where none did."""
    text = _text(policy)
    made = _LIBRARY.racl_line_of(text, len(text), _interface(interface), answer.direction, answer.rule)
    _done(made, text)
    return made.line


class _Held:
    """What has a handle of the library's. One call at a time has it, and there is no copy of it."""

    _free = ""

    def __init__(self) -> None:
        self._handle = _Handle()
        self._lock = threading.RLock()

    @contextmanager
    def _held(self) -> Iterator[_Handle]:
        with self._lock:
            if not self._handle.at:
                raise ValueError("this judge was joined into another one")
            yield self._handle

    def __reduce__(self) -> Any:
        raise TypeError(f"there is no copy of a {type(self).__name__}")

    def __del__(self) -> None:
        if getattr(self, "_handle", None) and self._handle.at:
            getattr(_LIBRARY, self._free)(self._handle)


class RuleCounts(_Held):
    """How many frames each rule of a policy decided, by interface, direction and number."""

    _free = "racl_free_rule_counts"

    def __init__(self, policy: Policy):
        super().__init__()
        text = _text(policy)
        _done(_LIBRARY.racl_rule_counts_new(self._handle, text, len(text)), text)

    def count(self, answer: Answer, *, interface: int = 0) -> None:
        """Counts a frame of this interface by its answer; one that no rule decided as one of rule 0."""
        with self._held() as handle:
            _LIBRARY.racl_count_rule(handle, _interface(interface), answer.direction, answer.rule)

    def of(self, direction: Direction, rule: int, *, interface: int = 0) -> int:
        """How many frames the rule decided."""
        with self._held() as handle:
            return _LIBRARY.racl_rule_count(handle, _interface(interface), Direction(direction), _number("a rule", rule, 0, _MOST))


class Judge(_Held):
    """A policy, timeouts in seconds and session tables. Calls of several threads on one judge wait for each other."""

    _free = "racl_free"

    def __init__(self, policy: Policy, *, established: int = 86_400, transient: int = 120, udp: int = 600, large: bool = False):
        super().__init__()
        timeouts = (_number(f"a timeout, {what},", it, 1, _MOST) for what, it in
                    (("established", established), ("transient", transient), ("udp", udp)))
        options = _Options(ctypes.sizeof(_Options), int(bool(large)), *timeouts)
        text = _text(policy)
        _done(_LIBRARY.racl_new_with(self._handle, text, len(text), options, b"", 0), text)
        # (what the judges over the same tables have in common)
        self._tables = _Tables(bool(large))

    def judge(self, frame: Frame, *, time: int = 0, interface: int = 0) -> Answer:
        """The answer on an Ethernet frame, which may be a packet of scapy, seen at this interface in this second."""
        read, at, second = _frame(frame), _interface(interface), _second(time)
        with self._held() as handle:
            while (told := _LIBRARY.racl_judge(handle, at, second, read, len(read))).kind == _CONTENDED:
                clock.sleep(0)
        return _answer_of(told)

    def judge_burst(self, frames: Iterable[Frame], *, time: int | Iterable[int] = 0, interface: int = 0) -> list[Answer]:
        """The answers on frames, in their order. All were seen at this interface, in this second or each in its own."""
        read, at = [_frame(it) for it in frames], _interface(interface)
        seconds = [_second(it) for it in (time if isinstance(time, Iterable) else itertools.repeat(time, len(read)))]
        if len(seconds) != len(read):
            raise ValueError(f"{len(read)} frames have {len(seconds)} times")
        area, count, place, done = b"".join(read), len(read), 0, 0
        descriptors, answers = (_Descriptor * count)(), (_Answer * count)()
        for descriptor, it, second in zip(descriptors, read, seconds):
            descriptor.at, descriptor.length = place, _number("a frame's length", len(it), 0, _MOST)
            descriptor.second, descriptor.interface = second, at
            place += len(it)
        with self._held() as handle:
            while done < count:
                rest, places = (ctypes.byref(it, done * ctypes.sizeof(it._type_)) for it in (descriptors, answers))
                done += _LIBRARY.racl_judge_burst(handle, area, len(area), rest, count - done, places, count - done)
        return [_answer_of(it) for it in answers]

    def sweep(self, time: int) -> int:
        """Sessions that have ended by this second go; how many went. No frame of an earlier second may come to these tables."""
        second, went = _second(time), 0
        with self._held() as handle:
            for family, buckets in _BUCKETS.items():
                look, start, end = getattr(_LIBRARY, f"racl_sweep_ipv{family}"), 0, buckets[self._tables.are_large]
                while (swept := look(handle, start, end, second, 2**64 - 1)).kind == _CONTENDED:
                    went, start = went + swept.went, swept.next
                went += swept.went
        return went

    def set_policy(self, policy: Policy) -> None:
        """Judges by this policy from now on; sessions and timeouts stay. A fault leaves the policy that was there."""
        text = _text(policy)
        with self._held() as handle:
            _done(_LIBRARY.racl_set_policy(handle, text, len(text)), text)

    def take_policy(self, other: Judge) -> None:
        """Judges by the policy of another judge from now on, and by its timeouts, which only one that is alone over its tables may
        change."""
        with self._both(other) as (handle, given):
            _do(lambda: _LIBRARY.racl_take_policy(handle, given))

    def split(self) -> Judge:
        """One more judge over the same tables, by the same policy, for another thread. One that goes and wasn't joined leaves tables
        that can't be closed."""
        fresh = Judge.__new__(Judge)
        _Held.__init__(fresh)
        fresh._tables = self._tables
        with self._held() as handle:
            _do(lambda: _LIBRARY.racl_split(handle, fresh._handle))
        return fresh

    def join(self, other: Judge) -> None:
        """Ends another judge over the same tables, which can't be called from then on; its counts are added to these."""
        with self._both(other) as (handle, given):
            if other._tables is not self._tables:
                raise ValueError("the judges have different tables")
            _LIBRARY.racl_join(handle, given)

    @property
    def is_lone(self) -> bool:
        """Whether each other judge over the tables was joined into this one."""
        with self._held() as handle:
            return _LIBRARY.racl_is_lone(handle) == 1

    def counts(self) -> dict[str, int]:
        """How many frames were given each verdict, those of judges that were joined into this one too."""
        counts = _Counts()
        with self._held() as handle:
            _LIBRARY.racl_counts(handle, counts)
        return {name: getattr(counts, name) for name, _ in _Counts._fields_}

    def close(self) -> list[Session]:
        """The sessions, those of IPv4 first, each family's in the order of `racl --sessions`. The judge goes on without any."""
        with self._held() as handle:
            return [it for family in (4, 6) for it in _closed(handle, family)]

    @contextmanager
    def _both(self, other: Judge) -> Iterator[tuple[_Handle, _Handle]]:
        """Both handles, of which each thread takes the locks in one order."""
        if not isinstance(other, Judge):
            raise TypeError(f"another judge is wanted, not {type(other).__name__}")
        if other is self:
            raise ValueError("another judge is wanted, not the same one")
        with ExitStack() as stack:
            held = {id(it): stack.enter_context(it._held()) for it in sorted((self, other), key=id)}
            yield held[id(self)], held[id(other)]


@dataclass(frozen=True)
class _Tables:
    are_large: bool


def _closed(handle: _Handle, family: int) -> Iterator[Session]:
    sessions, told = _Handle(), _Session()
    _do(lambda: getattr(_LIBRARY, f"racl_close_ipv{family}")(handle, sessions))
    try:
        for place in itertools.count():
            if not _LIBRARY.racl_session_at(sessions, place, told):
                return
            first, second = (_end_of(it, told.family) for it in (told.first, told.second))
            yield Session(told.interface, told.protocol, first, second, told.last, told.until)
    finally:
        _LIBRARY.racl_free_sessions(sessions)
