"""Locks of a Midgegalena folder, by the sessions of libmidgegalena (mg_session.h).

    with Session("images", host=0) as session:
        with session.lock("db", timeout=5.0) as held:
            print(held.value, held.slot)

Such a session has the host number to itself. Programs that share one, with each other and with mg-lock, use share=True.
"""
from __future__ import annotations

import ctypes
import math
import os
import sys
import threading
import time
from contextlib import contextmanager, suppress
from ctypes import CFUNCTYPE, POINTER, Structure, byref, c_char_p, c_int, c_int32, c_int64, c_size_t, c_uint, c_uint8, c_uint32, c_uint64, c_void_p
from types import TracebackType
from typing import Any, Callable, Iterator, Optional, Tuple, Union

__all__ = [
    "ALL", "CR", "CW", "EX", "IN_DOUBT", "KEEP", "LATE", "LOG_FULL", "NL", "NO_MAJORITY", "NO_SUCH_LOCK", "OK", "PR", "PW", "SHARE", "STOPPED",
    "TIMED_OUT", "Held", "InDoubt", "Lost", "Refused", "Session", "Stopped", "format_images", "load", "milliseconds",
]

NL, CR, CW, PR, PW, EX = range(6)
OK, TIMED_OUT, STOPPED, IN_DOUBT, NO_MAJORITY, LOG_FULL, NO_SUCH_LOCK = 0, -2, -5, -6, 7, 9, 12
KEEP, SHARE, LATE, ALL = 1, 2, 4, 1
VALID = 1
LONGEST = 2**31 - 1  # milliseconds

Folder = Union[str, bytes, "os.PathLike[str]", "os.PathLike[bytes]"]
# name, number, client, mode that is held, and mode that is wanted, -1 for none
LockOfTable = Tuple[str, int, int, int, int]


class Value(Structure):
    _fields_ = [("bytes", c_uint8 * 16), ("flags", c_uint32)]


class HeldView(Structure):
    _fields_ = [("lock", c_uint32), ("released", c_uint32), ("slot", c_int64), ("cluster", c_uint64), ("slots_left", c_uint64), ("value", Value)]


class LockView(Structure):
    _fields_ = [
        ("lock", c_uint32), ("client", c_uint32), ("host", c_uint32), ("held", c_int32), ("wanted", c_int32),
        ("name", ctypes.c_char * 16),
    ]


Rest = CFUNCTYPE(c_int, c_void_p, c_int)


def load(path: Optional[str] = None) -> ctypes.CDLL:
    """The library, with what its calls take and return."""
    lib = ctypes.CDLL(path or os.environ.get("MIDGEGALENA", "libmidgegalena.so.0.8"))
    lib.mg_name.restype = lib.mg_strerror.restype = c_char_p
    lib.mg_format.argtypes = [c_char_p, c_uint, c_uint, c_uint64, POINTER(c_int)]
    lib.mg_begin.argtypes = [c_char_p, c_uint, c_uint, POINTER(c_void_p), POINTER(c_int)]
    lib.mg_end.argtypes, lib.mg_end.restype = [c_void_p], None
    lib.mg_take.argtypes = [c_void_p, c_char_p, c_int, c_int, POINTER(HeldView)]
    lib.mg_give.argtypes = [c_void_p, c_uint, c_char_p]
    lib.mg_mark_taken.argtypes = [c_void_p]
    lib.mg_check.argtypes = [c_void_p, c_uint]
    lib.mg_purge_dead.argtypes = lib.mg_recover.argtypes = [c_void_p, c_uint, POINTER(c_uint)]
    lib.mg_stay.argtypes, lib.mg_stay.restype = [c_void_p], c_uint
    lib.mg_set_interval.argtypes = [c_void_p, c_int]
    lib.mg_set_rest.argtypes = [c_void_p, Rest, c_void_p]
    lib.mg_host_of.argtypes = [c_void_p, POINTER(c_void_p)]
    lib.mg_look.argtypes = [c_void_p, POINTER(c_uint64)]
    lib.mg_log.argtypes = [c_void_p, POINTER(c_uint64), POINTER(c_uint64)]
    lib.mg_locks.argtypes = [c_void_p, POINTER(LockView), c_size_t, POINTER(c_size_t)]
    return lib


class Refused(Exception):
    """A call was refused; `status` is its number, as in docs/REFUSALS.md. `lock` is the lock's, 0 where there is none."""

    def __init__(self, lib: ctypes.CDLL, status: int, lock: int = 0) -> None:
        super().__init__(lib.mg_strerror(status).decode())
        self.status, self.lock = status, lock

    def __reduce__(self) -> Tuple[Any, ...]:
        """A pool hands it from process to process, and the library cannot go with it."""
        return _made_again, (type(self), *self.args), self.__dict__


def _made_again(kind: type[Refused], *words: str) -> Refused:
    return kind.__new__(kind, *words)


class Lost(Refused):
    """The lock was taken away while it was waited for or held."""


class InDoubt(Refused):
    """It is not known whether the lock stays in the table. give(why.lock) releases it, or the next lock(), is_held() or recover()."""


class Stopped(Refused):
    """The event that lock() was given as `stop` was set."""


def path_of(folder: Folder) -> bytes:
    """Its path, for C. C ends a text at a zero byte, and would open another folder."""
    path = os.fsencode(folder)
    if b"\0" in path:
        raise ValueError("embedded null byte")
    return path


def format_images(folder: Folder, disks: int = 3, slots: int = 4096, cluster: int = 1, library: Optional[str] = None) -> None:
    """Makes the images of a folder that is there and has none. Give each folder another cluster number."""
    lib = load(library)
    status = lib.mg_format(path_of(folder), disks, slots, cluster, None)
    if status != OK:
        raise Refused(lib, status)


def milliseconds(timeout: Optional[float]) -> int:
    """A timeout as the library counts it: below 0 for no end, 0 only where it is 0."""
    if timeout is None:
        return -1
    if timeout < 0:
        raise ValueError("a timeout is not below 0")
    length = math.ceil(timeout * 1000)
    if length > LONGEST:
        raise OverflowError(f"a timeout has at most {LONGEST // 1000} seconds")
    return length


class Held:
    """A lock that is held, with the value of its name. Of those that hold EX in turn each has a greater slot than the one before it,
    as long as the cluster is the same."""

    def __init__(self, view: HeldView) -> None:
        self.lock: int = view.lock
        self.slot: int = view.slot
        self.cluster: int = view.cluster
        self.value, self.valid = bytes(view.value.bytes), bool(view.value.flags & VALID)
        self._leaves: Optional[bytes] = None

    @property
    def leaves(self) -> Optional[bytes]:
        """16 bytes to keep with the name at the end, for PW and EX."""
        return self._leaves

    @leaves.setter
    def leaves(self, value: Union[bytes, bytearray, memoryview, None]) -> None:
        kept = None if value is None else memoryview(value).tobytes()
        if kept is not None and len(kept) != 16:
            raise ValueError("a value has 16 bytes")
        self._leaves = kept


_watched: set[Session] = set()
_watching = threading.RLock()
_keep: Optional[Callable[[sys.UnraisableHookArgs], Any]] = None
_before = sys.unraisablehook


def _watch(session: Session) -> None:
    """What is raised as a pause of a wait begins, as by Ctrl-C, cannot be caught there. Python hands it to a hook, and from 3.13 on does not say
    whose it is. Its trace does. While any session waits there is one hook."""
    global _keep, _before
    with _watching:
        _watched.add(session)
        if sys.unraisablehook is not _keep:
            before = _before = sys.unraisablehook

            def keep(told: sys.UnraisableHookArgs) -> None:
                frame = told.exc_traceback.tb_frame if told.exc_traceback else None
                if frame and frame.f_code is Session._rest.__code__:
                    frame.f_locals["self"].why = told.exc_value
                else:
                    before(told)

            sys.unraisablehook = _keep = keep


def _watch_no_more(session: Session) -> None:
    """If somebody has put another hook in the place of ours, that one stays."""
    with _watching:
        _watched.discard(session)
        if not _watched and sys.unraisablehook is _keep:
            sys.unraisablehook = _before


class Session:
    """Takes locks and gives them back. For one thread at a time. A child of fork may use none of its parent's: it begins one of its own. A child
    that leaves a `with` of its parent changes nothing.

    It begins by releasing what a former run of its host number left; with `keep` a lock takes that over, by name and mode. While it waits
    it looks, 1 ms after its first look, then twice as long after each, and at most `interval` milliseconds. With `late` a lock is there
    before its command is marked: call mark_taken() once the work under it has begun."""

    def __init__(
        self, folder: Folder, host: int, share: bool = False, keep: bool = False, interval: int = 5, library: Optional[str] = None, late: bool = False
    ) -> None:
        self.lib, self._handle, self._process = load(library), c_void_p(), os.getpid()
        self.why: Optional[BaseException] = None
        self._stop: Optional[threading.Event] = None
        # What could not be given back, with the bytes that it leaves.
        self.left: dict[int, Optional[bytes]] = {}
        self._check(self.lib.mg_begin(path_of(folder), host, SHARE * share | KEEP * keep | LATE * late, byref(self._handle), None))
        # Kept as long as the library may call it.
        self.rest = Rest(self._rest)
        self._check(self.lib.mg_set_rest(self.handle, self.rest, None))
        try:
            self.set_interval(interval)
        except BaseException:
            self.close()
            raise

    def __enter__(self) -> Session:
        return self

    def __exit__(self, kind: Optional[type[BaseException]], why: Optional[BaseException], trace: Optional[TracebackType]) -> None:
        self.close()

    def _is_ours(self) -> bool:
        return os.getpid() == self._process

    @property
    def handle(self) -> c_void_p:
        """For C. In a child of fork it would work on the parent's locks."""
        if not self._is_ours():
            raise RuntimeError("a child of fork may use no session of its parent")
        return self._handle

    def close(self) -> None:
        if self._is_ours():
            self.lib.mg_end(self._handle)
        self._handle = c_void_p()

    def set_interval(self, interval: int) -> None:
        """The longest pause between two looks of a wait, 1 to 60,000 milliseconds."""
        self._check(self.lib.mg_set_interval(self.handle, interval))

    def _rest(self, _: Any, milliseconds: int) -> bool:
        """A pause of a wait. What is raised within it, as by Ctrl-C, ends the wait, and so does the event that lock() was given."""
        try:
            if self.why is not None:
                return True
            if self._stop is not None:
                return self._stop.wait(milliseconds / 1000)
            time.sleep(milliseconds / 1000)
        except BaseException as why:
            self.why = why
        return self.why is not None

    @contextmanager
    def _caught(self, stop: Optional[threading.Event]) -> Iterator[None]:
        self.why, self._stop = None, stop
        try:
            _watch(self)
            yield
        finally:
            _watch_no_more(self)

    def _check(self, status: int, lock: int = 0) -> None:
        if status != OK:
            raise {NO_SUCH_LOCK: Lost, IN_DOUBT: InDoubt, STOPPED: Stopped}.get(status, Refused)(self.lib, status, lock)

    @contextmanager
    def lock(
        self, name: str, mode: int = EX, timeout: Optional[float] = None, stop: Optional[threading.Event] = None
    ) -> Iterator[Held]:
        """Holds a lock on a name, and gives a Held. With a timeout, in seconds, it raises TimeoutError where it was not granted by
        then; a timeout of 0 does not wait at all, and without one it waits without an end. Where another thread sets the event `stop` meanwhile
        it raises Stopped. If the lock was taken away meanwhile it raises Lost at the end. What could not be given back is given back first,
        which may wait a minute."""
        length, letters = milliseconds(timeout), name.encode()
        if b"\0" in letters:
            raise ValueError("embedded null byte")
        if stop is not None and stop.is_set():
            raise Stopped(self.lib, STOPPED)
        for lock in list(self.left):
            with suppress(Refused):
                self.give(lock)
        view, held, status = HeldView(), None, OK
        try:
            with self._caught(stop):
                status = self.lib.mg_take(self.handle, letters, mode, length, byref(view))
            if self.why is not None:
                raise self.why from (InDoubt(self.lib, status, view.lock) if status == IN_DOUBT else None)
            if status == TIMED_OUT:
                raise TimeoutError(f"{name} is taken")
            self._check(status, view.lock)
            held = Held(view)
            yield held
        finally:
            # Ctrl-C may come as soon as it is taken. In a child of fork the lock is the parent's.
            if view.lock and status == OK and self._is_ours():
                self.give(view.lock, held.leaves if held else None)

    def give(self, lock: int, leaves: Optional[bytes] = None) -> None:
        """Gives a lock back. Where that fails it is still the session's, and is given again with the bytes of the first time: by this, or
        by the next lock()."""
        leaves = self.left.setdefault(lock, leaves)
        status = self.lib.mg_give(self.handle, lock, leaves)
        if status in (OK, NO_SUCH_LOCK):
            del self.left[lock]
        self._check(status, lock)

    def mark_taken(self) -> None:
        """With `late`: marks what lock() has left without a mark. The session's next call does so, too."""
        self._check(self.lib.mg_mark_taken(self.handle))

    def is_held(self, held: Held) -> bool:
        """Whether nobody has taken the lock away, as far as a look tells. It sees nothing after a command that has no mark: call recover() before
        it to be sure."""
        status: int = self.lib.mg_check(self.handle, held.lock)
        if status not in (OK, NO_SUCH_LOCK):
            self._check(status, held.lock)
        return status == OK

    def _look(self) -> c_void_p:
        """A handle that has just looked."""
        host = c_void_p()
        self._check(self.lib.mg_host_of(self.handle, byref(host)))
        self._check(self.lib.mg_look(host, None))
        return host

    def log(self) -> tuple[int, int]:
        """How many slots the log has, 2**64 - 1 where it has no end, and how many of them hold commands."""
        slots, used = c_uint64(), c_uint64()
        self._check(self.lib.mg_log(self._look(), byref(slots), byref(used)))
        return slots.value, used.value

    def locks(self) -> list[LockOfTable]:
        """All locks: name, number, client, mode that is held, and mode that is wanted, -1 for none."""
        views, count = (LockView * 256)(), c_size_t()
        self._check(self.lib.mg_locks(self._look(), views, 256, byref(count)))
        return [(v.name.decode(), v.lock, v.client, v.held, v.wanted) for v in views[: min(count.value, 256)]]

    def purge_dead(self, host: int) -> int:
        """Takes away all locks of a host whose processes are gone, and tells how many."""
        count = c_uint()
        self._check(self.lib.mg_purge_dead(self.handle, host, byref(count)))
        return count.value

    def recover(self, all_of_them: bool = False) -> int:
        """Releases what processes of this host number that are gone have left, with `share` only what they took with `share`, or as mg-lock does.
        Tells how many locks."""
        count = c_uint()
        self._check(self.lib.mg_recover(self.handle, ALL * all_of_them, byref(count)))
        return count.value

    def stay(self) -> int:
        """How many of these could not be released, when that was tried last."""
        return int(self.lib.mg_stay(self.handle))
