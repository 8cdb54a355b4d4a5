"""A process that holds a lock is killed, and so it stays in the log: the next session of its host number begins by releasing it. A
request that was refused without a majority leaves no lock behind either, and Ctrl-C ends a wait. What could not be given back is given again.

    killed.py LIBRARY FOLDER      an empty folder
"""
import os
import signal
import sys
import threading
import time

import heard  # noqa: F401

sys.path.insert(0, os.path.join(os.path.dirname(os.path.dirname(os.path.realpath(__file__))), "python"))
from midgegalena import EX, IN_DOUBT, NL, NO_MAJORITY, PR, InDoubt, Refused, Session, load, milliseconds  # noqa: E402

library, folder = sys.argv[1:]
assert load(library).mg_format(os.fsencode(folder), 3, 128, 7, None) == 0


def hold(share):
    """Holds `db` until it is killed; gives the process once it does."""
    told, tells = os.pipe()
    process = os.fork()
    if process == 0:
        with Session(folder, host=0, share=share, library=library) as session, session.lock("db", EX):
            os.write(tells, b"!")
            signal.pause()
    assert os.read(told, 1) == b"!"
    return process


def kill(process):
    os.kill(process, signal.SIGKILL)
    os.waitpid(process, 0)


kill(hold(share=False))
with Session(folder, host=0, keep=True, library=library) as session:
    assert [it[0] for it in session.locks()] == ["db"], session.locks()
    with session.lock("db", EX, timeout=0) as held:
        assert held.slot == -1
    assert session.locks() == [], session.locks()

kill(hold(share=False))
with Session(folder, host=0, library=library) as session:
    assert session.locks() == [], session.locks()
    with session.lock("db", EX, timeout=60):
        pass

    # Two of three images are cut off, so that their calls fail, and then are whole again.
    images = [os.path.join(folder, f"disk{disk}.img") for disk in (1, 2)]
    kept = []
    for image in images:
        with open(image, "rb") as file:
            kept.append(file.read())
        os.truncate(image, 0)
    try:
        with session.lock("other", EX):
            raise AssertionError("granted without a majority")
    except Refused as why:
        assert why.status in (NO_MAJORITY, IN_DOUBT), why
    for image, whole in zip(images, kept):
        with open(image, "r+b") as file:
            file.write(whole)
    with session.lock("other", EX, timeout=60):
        assert [it[0] for it in session.locks()] == ["other"], session.locks()
    assert session.locks() == [], session.locks()

    # A value that is none is refused where it is set, and the lock is given back all the same.
    for wrong in (b"short", "sixteen letters.", bytes(17), 16):
        try:
            with session.lock("db", EX, timeout=60) as held:
                held.leaves = wrong
            raise AssertionError("a value that is none")
        except (TypeError, ValueError):
            pass
        assert session.locks() == [], session.locks()
    # Ctrl-C that comes when the lock was just granted: nothing is held then.
    take = session.lib.mg_take

    def granted_then_stopped(*words):
        status = take(*words)
        assert status == 0
        raise KeyboardInterrupt

    session.lib.mg_take = granted_then_stopped
    try:
        with session.lock("db", EX, timeout=60):
            raise AssertionError("held after Ctrl-C")
    except KeyboardInterrupt:
        pass
    session.lib.mg_take = take
    assert session.locks() == [], session.locks()

    # A timeout that is none is refused, and a short one waits all the same.
    for wrong, why in ((-0.5, ValueError), (float("nan"), ValueError), (float("inf"), OverflowError), (4294968.0, OverflowError)):
        try:
            with session.lock("db", EX, timeout=wrong):
                raise AssertionError("a timeout that is none")
        except why:
            pass
    assert [milliseconds(it) for it in (None, 0, 0.0001, 1.5, 2147483)] == [-1, 0, 1, 1500, 2147483000]

    # What could not be given back is given again, with its value: by give(), or by the next lock().
    give = session.lib.mg_give
    with session.lock("db", NL):
        for again, value in ((session.give, bytes(range(16))), (None, bytes(range(1, 17)))):
            try:
                with session.lock("db", EX) as held:
                    held.leaves = value
                    session.lib.mg_give = lambda *words: NO_MAJORITY
                raise AssertionError("given back without a majority")
            except Refused as why:
                assert (why.status, why.lock) == (NO_MAJORITY, held.lock), why
            session.lib.mg_give = give
            assert len(session.locks()) == 2, session.locks()
            if again:
                again(held.lock)
            with session.lock("db", PR, timeout=60) as held:
                assert held.value == value, held.value
            assert len(session.locks()) == 1 and session.left == {}, session.locks()

    # A lock of which it is not known whether it stays.
    def in_doubt(*words):
        assert take(*words) == 0
        return IN_DOUBT

    session.lib.mg_take = in_doubt
    try:
        with session.lock("db", EX):
            raise AssertionError("held in doubt")
    except InDoubt as why:
        assert [it[1] for it in session.locks()] == [why.lock], session.locks()
        session.give(why.lock)
    session.lib.mg_take = take
    assert session.locks() == [], session.locks()

process = hold(share=True)
with Session(folder, host=1, library=library) as other, Session(folder, host=0, share=True, library=library) as session:
    # Its process lives, so nothing of it is released or purged.
    assert session.recover() == 0
    try:
        other.purge_dead(0)
        raise AssertionError("purged a host that lives")
    except Refused as why:
        assert why.status == 36, why
    # Ctrl-C ends a wait, and nothing waits then.
    def interrupt():
        while len(other.locks()) < 2:
            time.sleep(0.01)
        os.kill(os.getpid(), signal.SIGINT)

    try:
        threading.Thread(target=interrupt).start()
        with session.lock("db", EX, timeout=600):
            raise AssertionError("granted while another has it")
    except KeyboardInterrupt:
        pass
    assert len(session.locks()) == 1, session.locks()
    kill(process)
    with session.lock("db", EX, timeout=60) as held:
        assert session.is_held(held)
    kill(hold(share=True))
    assert other.purge_dead(0) == 1
    assert session.locks() == [], session.locks()
print("what was killed, and what was refused, left no lock behind")
