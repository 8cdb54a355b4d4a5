"""The package for Python where a process forks, hands errors to another one, waits in several threads, is interrupted at a bad moment, or was
purged. What LIBRARY.md shows in Python is run here.

    python.py LIBRARY FOLDER      an empty folder
"""
import ctypes
import functools
import gc
import multiprocessing
import os
import pickle
import signal
import sqlite3
import sys
import threading
import time

import heard  # noqa: F401

top = os.path.dirname(os.path.dirname(os.path.dirname(os.path.realpath(__file__))))
sys.path.insert(0, os.path.join(top, "capi", "python"))
from midgegalena import InDoubt, Lost, Refused, Rest, Session, Stopped, format_images  # noqa: E402

library, folder = sys.argv[1:]
HOST_IN_USE = 36


def raises(kind, call, *words, **more):
    """What it raised, which is of this kind."""
    try:
        call(*words, **more)
    except kind as why:
        return why
    raise AssertionError(f"{call} raised no {kind}")


def hold(session, name, **more):
    with session.lock(name, **more):
        pass


def forks():
    """A child that leaves the blocks of its parent changes nothing, and its calls are refused."""
    with Session(folder, 0, library=library) as parent, Session(folder, 1, library=library) as other:
        with parent.lock("db") as held:
            child = os.fork()
            if child == 0:
                for call in (parent.locks, parent.log, parent.recover, parent.stay, parent.mark_taken):
                    raises(RuntimeError, call)
                raises(RuntimeError, parent.is_held, held)
                raises(RuntimeError, parent.give, held.lock)
                raises(RuntimeError, parent.purge_dead, 3)
                raises(RuntimeError, hold, parent, "other")
                sys.exit(3)
            assert os.waitstatus_to_exitcode(os.waitpid(child, 0)[1]) == 3
            raises(TimeoutError, hold, other, "db", timeout=0)
            assert parent.is_held(held)
        hold(other, "db", timeout=0)


def is_refused(_):
    Session(folder, 0, library=library)


def pools():
    """What is raised in a worker of a pool is raised where its answer is waited for."""
    for kind in (Refused, Lost, InDoubt, Stopped):
        for protocol in range(pickle.HIGHEST_PROTOCOL + 1):
            why = kind(refused.lib, HOST_IN_USE, 1536)
            why.told = "by whom"
            again = pickle.loads(pickle.dumps(why, protocol))
            assert (type(again), str(again), again.status, again.lock, again.told) == (kind, str(why), HOST_IN_USE, 1536, "by whom"), again
    with multiprocessing.get_context("fork").Pool(1) as pool:
        why = raises(Refused, pool.map_async(is_refused, [0]).get, 120)
        assert why.status == HOST_IN_USE, why


def texts():
    """C ends a text at a zero byte: no other name and no other folder is taken for the one that was meant."""
    raises(ValueError, hold, refused, "db\0x")
    raises(ValueError, Session, folder + "\0other", 1, library=library)
    raises(ValueError, format_images, folder + "\0other", library=library)
    assert refused.locks() == [], refused.locks()


def stops():
    """Another thread ends a wait, and nothing waits then."""
    with Session(folder, 1, library=library) as holder, holder.lock("db"):
        stop = threading.Event()
        timer = threading.Timer(0.2, stop.set)
        begun = time.monotonic()
        timer.start()
        raises(Stopped, hold, refused, "db", stop=stop)
        assert 0.2 <= time.monotonic() - begun < 60, time.monotonic() - begun
        raises(Stopped, hold, refused, "other", stop=stop)
        assert len(holder.locks()) == 1, holder.locks()
        timer.join()
    hold(refused, "db", timeout=0, stop=threading.Event())


def interrupted():
    """Ctrl-C as a pause begins, before anything of it can catch that, ends the wait. From Python 3.13 on nobody says whose pause it was, so here
    somebody else is said to have made it. Before 3.11 nothing comes so early."""

    def interrupt(_, frame):
        if frame is not None and frame.f_code is Session._rest.__code__ and (frame.f_lineno == frame.f_code.co_firstlineno or sys.version_info < (3, 11)):
            signal.setitimer(signal.ITIMER_REAL, 0)
            raise KeyboardInterrupt

    refused.rest = Rest(functools.partial(refused._rest))
    assert refused.lib.mg_set_rest(refused.handle, refused.rest, None) == 0
    with Session(folder, 1, library=library) as holder, holder.lock("db"):
        before = signal.signal(signal.SIGALRM, interrupt)
        signal.setitimer(signal.ITIMER_REAL, 0.001, 0.001)
        try:
            raises(KeyboardInterrupt, hold, refused, "db", timeout=60)
        finally:
            signal.setitimer(signal.ITIMER_REAL, 0)
            signal.signal(signal.SIGALRM, before)
        assert len(holder.locks()) == 1, holder.locks()


def purge(host):
    """By the seven commands: a session purges none that is alive."""
    handle = ctypes.c_void_p()
    assert refused.lib.mg_open(os.fsencode(folder), 9, ctypes.byref(handle), None) == 0
    assert refused.lib.mg_purge(handle, 9, ctypes.c_uint64(time.time_ns()), host, None) == 0
    refused.lib.mg_close(handle)


def fenced():
    """The example of LIBRARY.md: a holder that was purged, and does not know it, writes nothing."""
    with open(os.path.join(top, "docs", "LIBRARY.md"), encoding="utf-8") as page:
        example = {}
        exec(page.read().partition("```python\n")[2].partition("```")[0], example)
    write = example["write"]
    database = sqlite3.connect(":memory:")
    database.execute("CREATE TABLE page (text, cluster, slot)")
    database.execute("INSERT INTO page VALUES ('', 0, 0)")

    def text():
        return database.execute("SELECT text FROM page").fetchall()
    with Session(folder, 1, library=library) as other:
        def holds_on():
            with refused.lock("page") as first:
                for line in ("one", "two"):
                    write(database, first, line)
                    assert text() == [(line,)]
                purge(0)
                with other.lock("page", timeout=60) as second:
                    write(database, second, "three")
                    raises(RuntimeError, write, database, first, "four")
                    assert text() == [("three",)], text()
                    write(database, second, "five")
                raises(RuntimeError, write, database, first, "six")
                assert text() == [("five",)], text()
        raises(Lost, holds_on)


class Falls:
    def __del__(self):
        raise ArithmeticError


def hooks():
    """While two threads wait, what others raise goes where it went before. After that the hook is what it was."""
    told = []
    before = sys.unraisablehook
    mine = sys.unraisablehook = lambda it: told.append(it.exc_type)
    try:
        with Session(folder, 1, library=library) as holder, holder.lock("db"), Session(folder, 2, library=library) as third:
            waits = [(session, threading.Event()) for session in (refused, third)]
            threads = []
            for session, stop in waits:
                threads.append(threading.Thread(target=raises, args=(Stopped, hold, session, "db"), kwargs={"stop": stop}))
                threads[-1].start()
                while len(holder.locks()) < 1 + len(threads):
                    time.sleep(0.01)
            for thread, (_, stop) in zip(threads, waits):
                assert sys.unraisablehook is not mine
                Falls()
                gc.collect()
                stop.set()
                thread.join()
        assert sys.unraisablehook is mine and told == [ArithmeticError] * 2, told
    finally:
        sys.unraisablehook = before


format_images(folder, slots=256, cluster=7, library=library)
forks()
with Session(folder, 0, library=library) as refused:
    for test in (pools, texts, stops, interrupted, hooks, fenced):
        test()
print("forks, pools, texts, stops, interrupts, hooks and tokens are as they should be")
