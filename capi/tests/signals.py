#!/usr/bin/env python3
"""mg-lock and signals: of a process group, of job control, while it looks whether its lock was taken away. And what the shell runs, why a
number cannot be locked, and a lock that comes too late.

    signals.py [--endless] MG_LOCK DLM WORK ANSWERS

MG_LOCK and DLM are the programs, WORK an empty folder, ANSWERS the mg-lock of answers.c. --endless: over a log without an end. Prints
what was wrong, and how many checks there were."""
import errno
import fcntl
import os
import signal
import subprocess
import sys
import time
from concurrent.futures import ThreadPoolExecutor

import heard  # noqa: F401
from checks import endless, expect, finish, in_time, lay_out, until

mg_lock, dlm, work, with_answers = map(os.path.abspath, sys.argv[1:])
images, held = os.path.join(work, "images"), os.path.join(work, "held")


def run(*words, by=mg_lock, **more):
    return subprocess.run([by, *map(str, words)], capture_output=True, text=True, timeout=300, **more)


def begin(*words, by=mg_lock, environment=(), **more):
    """In a process group of its own, which a terminal could stop."""
    return subprocess.Popen([by, *map(str, words)], env={**os.environ, **dict(environment)}, preexec_fn=os.setpgrp, **more)


def table():
    return subprocess.run([dlm, "table", images, "15"], capture_output=True, text=True).stdout


def left_nothing(what):
    expect("granted" not in table() and "waiting" not in table(), f"{what}: no lock is left:\n{table()}")


# Tells that it is there, and then how many of these signals reached it until half a second after so many, or until its input ended a while ago.
COUNTS = """
import os, select, signal, sys, time
if "leaves" in sys.argv: os.setpgrp()
got = []
for number in (signal.SIGTERM, signal.SIGINT): signal.signal(number, lambda *_: got.append(1))
print("here", flush=True)
while len(got) < int(sys.argv[1]) and not select.select([sys.stdin], [], [], 0.01)[0]: pass
end = time.monotonic() + 10
while len(got) < int(sys.argv[1]) and time.monotonic() < end: time.sleep(0.01)
time.sleep(0.5)
print(len(got), flush=True)
"""


def to_group(process, number):
    os.killpg(process.pid, number)


def to_it(process, number):
    process.send_signal(number)


def to_both(process, number):
    """As timeout(1) does."""
    to_it(process, number)
    to_group(process, number)


def of_the_group():
    """What is sent to the group, to mg-lock, or to both, reaches the command once. So does what is sent to the group that the command has left."""
    def counted(name, number, *ways, leaves=False, pause=0):
        """How many reached the command, of one for each way."""
        process = begin(images, 0, name, "--", sys.executable, "-S", "-E", "-c", COUNTS, len(ways), *["leaves"] * leaves,
                        stdin=subprocess.PIPE, stdout=subprocess.PIPE, text=True)
        process.stdout.readline()
        for how in ways:
            how(process, number)
            time.sleep(pause)
        got = process.communicate(timeout=300)[0].strip()
        return got if process.returncode == 0 else f"it ended with {process.returncode}"

    def tried(i, how, leaves):
        """mg-lock waits for the second of two signals, but not for long: where this process has to wait in between it is tried again."""
        got = []
        while got[-1:] != ["1"] and len(got) < (3 if how == to_both else 1):
            got.append(counted(f"db{i}", tries[i], how, leaves=leaves))
        return got[-1]

    tries = [(signal.SIGTERM, signal.SIGINT)[i % 2] for i in range(8)]
    with ThreadPoolExecutor(len(tries)) as pool:
        for how, leaves in ((to_group, False), (to_it, False), (to_both, False), (to_group, True)):
            got = list(pool.map(lambda i: tried(i, how, leaves), range(len(tries))))
            expect(got == ["1"] * len(tries), f"{how.__name__}{', which the command has left' * leaves}: it reached the command so often: {got}")
    # One after the other: each is told from the one before, once mg-lock and the command have heard that.
    got = []
    for pause in (0.15, 1, 5):
        got.append(counted("db", signal.SIGTERM, to_group, to_it, to_group, to_it, pause=pause))
        if got[-1] == "4":
            break
    expect(got[-1] == "4", f"four, one after the other: {got}")
    left_nothing("group")


def children_of(process):
    try:
        with open(f"/proc/{process}/task/{process}/children") as file:
            return [int(word) for word in file.read().split()]
    except FileNotFoundError:
        return []


def words_of(process):
    with open(f"/proc/{process}/cmdline", "rb") as file, open(f"/proc/{process}/comm", "rb") as name:
        return file.read() + name.read()


def witnesses():
    """Nobody who looks for mg-lock finds another process, and one that is killed leaves none behind."""
    process = begin(images, 0, "db", "--", "sh", "-c", "echo; exec sleep 1000", stdout=subprocess.PIPE)
    process.stdout.readline()
    children = children_of(process.pid)
    expect(len(children) == 2, f"a witness and the command: {children}")
    # The witness has another name once it has begun, which takes a moment.
    def found():
        return [child for child in children if b"mg-lock" in words_of(child)]

    expect(until(lambda: found() == []), f"these look like mg-lock: {found()}")
    command = [child for child in children if b"sleep" in words_of(child)]
    process.kill()
    process.wait()
    for child in children:
        if child not in command:
            expect(until(lambda: not os.path.exists(f"/proc/{child}")), "the witness of one that was killed ends")
    for child in command:
        os.kill(child, signal.SIGKILL)
    expect(until(lambda: run("-n", images, 0, "db", "--", "true").returncode == 0), "and the lock is released")
    left_nothing("witnesses")


def has_stopped(process):
    """Whether it has come to stand still."""
    def stands():
        with open(f"/proc/{process.pid}/stat") as file:
            return file.read().rpartition(") ")[2][0] == "T"
    return until(stands)


def number_is_free(host):
    with open(os.path.join(images, f"host{host}.lock"), "r+") as file:
        try:
            fcntl.flock(file, fcntl.LOCK_EX | fcntl.LOCK_NB)
        except BlockingIOError:
            return False
        return True


def job_control():
    """A process that a terminal stops keeps the host number from nobody, goes on where it was, and gets what it waited for."""
    stopped = begin(images, 0, "db", "--", "true", by=with_answers, environment={"STOPS": "1"})
    expect(has_stopped(stopped), "SIGTSTP in the midst of a talk: it stops")
    expect(number_is_free(0), "SIGTSTP in the midst of a talk: it keeps the host number")
    stopped.send_signal(signal.SIGCONT)
    expect(stopped.wait(300) == 0, "and goes on")
    first = begin(images, 0, "db", "--", "sh", "-c", f"echo > {held}; exec sleep 1000")
    expect(until(lambda: os.path.exists(held)), "one holds")
    waiting = begin(images, 0, "db", "--", "true")
    expect(until(lambda: "waiting" in table()), "one waits")
    for _ in range(3):
        to_group(waiting, signal.SIGTSTP)
        expect(has_stopped(waiting) and number_is_free(0), "SIGTSTP in a wait: it stops, without the number")
        to_group(waiting, signal.SIGCONT)
    to_group(waiting, signal.SIGTSTP)
    to_group(waiting, signal.SIGCONT)
    to_group(first, signal.SIGTSTP)
    expect(has_stopped(first) and number_is_free(0), "SIGTSTP while the command runs")
    to_group(first, signal.SIGCONT)
    to_it(first, signal.SIGTERM)
    expect(first.wait(300) == 143 and waiting.wait(300) == 0, "the next one gets it")
    left_nothing("job control")


def looks_on():
    """Signals do not keep it from looking."""
    os.unlink(held)
    process = begin("-k", 1, images, 0, "db", "--", "sh", "-c", f"trap '' USR1; echo > {held}; exec sleep 1000")
    expect(until(lambda: os.path.exists(held)), "it holds")
    subprocess.run([dlm, "submit", images, "1", "purge", "1", "1", "0"], check=True, stdout=subprocess.DEVNULL)

    def has_ended():
        to_it(process, signal.SIGUSR1)
        time.sleep(0.3)
        return process.poll() is not None
    expect(until(has_ended, 60) and process.returncode == 143, f"-k 1 with a signal every 0.3 s: {process.returncode}")
    if process.poll() is None:
        to_group(process, signal.SIGKILL)
        process.wait()


def by_the_shell():
    said = run(images, 0, "db", "-c", "echo $MG_LOCK_NAME; exit 3")
    expect(said.returncode == 3 and said.stdout == "db\n", f"-c: {said}")
    said = run(images, 0, "db", "--command", "x y", env={**os.environ, "SHELL": "/bin/echo"})
    expect(said.returncode == 0 and said.stdout == "-c x y\n", f"by the user's shell: {said}")
    for words in (["-c"], ["-c", "true", "more"]):
        said = run(images, 0, "db", *words)
        expect(said.returncode == 125 and "-c" in said.stderr, f"{words}: {said}")
    expect(run(images, 0, "db", "--", "-c", "true").returncode == 127, "a command of this name")
    left_nothing("-c")


def causes():
    """Why a number, or a sign, cannot be locked is said."""
    for host, name in ((5, "host5.lock"), (6, "mg-lock.7.6.25541")):
        path = os.path.join(images, name)
        os.symlink(path, path)
        said = run(images, host, "db", "--", "true")
        expect(said.returncode == 125 and said.stderr.startswith("mg-lock: 37 NoLock (") and os.strerror(errno.ELOOP) in said.stderr, f"{name}: {said}")
        os.unlink(path)
    left_nothing("causes")


def late():
    """A lock that comes long after its time is given back, as to a process that stood still meanwhile."""
    for seconds, options, status in ((10, ["-w", "1"], 75), (2, ["-w", "1"], 0), (10, [], 0)):
        said = []

        def ends_so():
            said.append(run(*options, "-E", 75, images, 0, "db", "--", "true", by=with_answers, env={**os.environ, "LATE": str(seconds)}))
            return said[-1].returncode == status and said[-1].stderr == ""

        expect(in_time(ends_so), f"{options}, granted after {seconds} s: {said}")
    left_nothing("late")


os.mkdir(images)
if endless:
    lay_out(images)
else:
    subprocess.run([dlm, "format", images, "3", "2048", "7"], check=True, stdout=subprocess.DEVNULL)
for test in (of_the_group, witnesses, job_control, looks_on, by_the_shell, causes, late):
    test()
finish("signals")
