#!/usr/bin/env python3
"""Tries mg-lock: statuses, waits, signals, processes that are killed, several at once.

    mg_lock.py [--endless] MG_LOCK DLM WORK [ROUNDS [LIBRARY [ANSWERS]]]

MG_LOCK and DLM are the programs, WORK an empty folder. ROUNDS: turns of each of eight processes that count, 4 if left out. With LIBRARY,
libmidgegalena.so, half of those that count are in Python. ANSWERS is the mg-lock of answers.c. Prints what was wrong, and how many checks
there were. --endless: over logs without an end."""
import contextlib
import os
import pty
import random
import re
import select
import shlex
import shutil
import signal
import subprocess
import sys
import time

import heard  # noqa: F401
from checks import endless, expect, finish, in_time, lay_out, until

mg_lock, dlm, work = map(os.path.abspath, sys.argv[1:4])
rounds = int(sys.argv[4]) if len(sys.argv) > 4 else 4
library = os.path.abspath(sys.argv[5]) if len(sys.argv) > 5 else None
with_answers = os.path.abspath(sys.argv[6]) if len(sys.argv) > 6 else None
images = os.path.join(work, "images")
package = os.path.join(os.path.dirname(os.path.abspath(__file__)), "..", "python")
sys.path.insert(0, package)
from midgegalena import Session  # noqa: E402



def folder(slots=512, disks=3):
    shutil.rmtree(images, ignore_errors=True)
    os.mkdir(images)
    if endless:
        lay_out(images, disks)
    else:
        subprocess.run([dlm, "format", images, str(disks), str(slots), "7"], check=True, stdout=subprocess.DEVNULL)


def run(*words, **more):
    return subprocess.run([mg_lock, *map(str, words)], capture_output=True, text=True, timeout=300, **more)


def begin(*words, stderr=subprocess.DEVNULL):
    return subprocess.Popen([mg_lock, *map(str, words)], start_new_session=True, stderr=stderr)


def table(host=15):
    return subprocess.run([dlm, "table", images, str(host)], capture_output=True, text=True).stdout


def commands():
    return int(table().split()[1])


def signs():
    return [name for name in os.listdir(images) if name.startswith("mg-lock.")]


def left_nothing(what):
    expect("granted" not in table() and "waiting" not in table(), f"{what}: no lock is left:\n{table()}")
    expect(signs() == [], f"{what}: no sign is left: {signs()}")


def holder(host=0, name="db", *options):
    """A process that holds a lock until it is told to end; returns once it holds it."""
    at = os.path.join(work, "held")
    if os.path.exists(at):
        os.unlink(at)
    process = begin(*options, images, host, name, "--", "sh", "-c", f"echo > {at}; exec sleep 1000")
    expect(until(lambda: os.path.exists(at)), "the holder holds")
    return process


def end(process, how=signal.SIGTERM):
    process.send_signal(how)
    return process.wait(300)


def usual():
    """How long a run lasts that gets its lock at once: on a slow disk that is more than processes take to begin and end."""
    begun = time.monotonic()
    expect(run(images, 3, "free", "--", "true").returncode == 0, "a name that is free")
    return time.monotonic() - begun


def statuses():
    folder()
    expect(run(images, 0, "db", "--", "true").returncode == 0, "true")
    expect(run(images, 0, "db", "sh", "-c", "exit 7").returncode == 7, "exit 7")
    expect(run(images, 0, "db", "--", "sh", "-c", "kill -9 $$").returncode == 137, "killed command")
    expect(run(images, 0, "db", "--", "no-such-command").returncode == 127, "not found")
    closed = subprocess.run(["sh", "-c", 'exec "$0" "$@" 2>&-', mg_lock, images, "0", "db", "--", "no-such-command"], check=False)
    expect(closed.returncode == 127, "not found, and nowhere to say so")
    expect(run(images, 0, "db", "--", images).returncode == 126, "cannot be run")
    for words in ([], [images], [images, 0], [images, 16, "db", "true"], [images, 0, "", "true"], [images, 0, "sixteen-letters-", "true"],
                  ["-m", "XX", images, 0, "db", "true"], ["-w", "x", images, 0, "db", "true"], ["-i", "0", images, 0, "db", "true"],
                  ["-i", "60001", images, 0, "db", "true"], ["--unknown", images, 0, "db", "true"],
                  ["--all", images, 0, "db", "true"], ["--recover", images, 0, "db"], [work, 0, "db", "true"]):
        expect(run(*words).returncode == 125, f"usage {words}")
    expect(run("--help").returncode == 0 and run("--version").returncode == 0, "help and version")
    left_nothing("statuses")


def pages():
    """The commands of the pages, over this folder, with programs that are there. Those of two machines at once are run by tests/machines.sh."""
    folder()
    top = os.path.join(os.path.dirname(os.path.abspath(__file__)), "..", "..")
    stands_for = {"images": images, "/var/lib/dlm/images": images, "/var/lib/dlm/shared": images, "./backup": "true", "/usr/local/bin/backup": "true", "/shared/config": __file__}
    tried = 0
    for page in ("README.md", "docs/LIBRARY.md", "docs/OPERATIONS.md"):
        with open(os.path.join(top, page), encoding="utf-8") as file:
            for line in file:
                if line.startswith("mg-lock ") and " & " not in line:
                    said = run(*(stands_for.get(word, word) for word in shlex.split(line, comments=True)[1:]))
                    expect(said.returncode == 0, f"{page}: {line}: {said}")
                    tried += 1
    expect(tried >= 5, f"the pages have {tried} commands")
    left_nothing("pages")


def environment():
    folder()
    said = run("-v", images, 3, "db", "--", "sh", "-c", "set | grep ^MG_LOCK_ | sort").stdout.split("\n")
    expect(said[0] == "0" * 32, f"-v: {said[0]}")
    for word in ("MG_LOCK_CLUSTER='7'", "MG_LOCK_HOST='3'", "MG_LOCK_MODE='EX'", "MG_LOCK_NAME='db'", "MG_LOCK_SLOT='0'", "MG_LOCK_VALID='1'",
                 "MG_LOCK_VALUE='" + "0" * 32 + "'", "MG_LOCK_NUMBER='13541'", f"MG_LOCK_FOLDER='{images}'"):
        expect(word in said, f"environment: {word} of {said}")
    # a value that another program left, and that a purge made invalid
    for host, line in ((1, "enqueue 1 1 1 NL db"), (1, "enqueue 1 2 2 EX db"), (1, "release 1 3 2 value 000102030405060708090a0b0c0d0e0f"), (2, "enqueue 2 1 3 EX db")):
        subprocess.run([dlm, "submit", images, str(host), *line.split()], check=True, stdout=subprocess.DEVNULL)
    subprocess.run([dlm, "submit", images, "1", "purge", "1", "4", "2"], check=True, stdout=subprocess.DEVNULL)
    expect(run("-v", images, 0, "db", "--", "true").stdout == "000102030405060708090a0b0c0d0e0f invalid\n", "-v of an invalid value")
    reads, writes = os.pipe()
    os.close(reads)
    said = subprocess.run([mg_lock, "-v", images, "0", "db", "--", "sh", "-c", "kill -PIPE $$"], stdout=writes)
    os.close(writes)
    expect(said.returncode == 128 + signal.SIGPIPE, f"-v that nobody reads: {said}")
    expect("240" not in table(), f"and the lock is given back:\n{table()}")


def waits():
    folder()
    first = holder()
    before = commands()
    expect(run("-n", images, 1, "db", "--", "true").returncode == 1, "-n")
    expect(run("-n", "-E", 75, images, 0, "db", "--", "true").returncode == 75, "-n -E")
    expect(run("-w", 0, images, 1, "db", "--", "true").returncode == 1, "-w 0")
    expect(commands() == before, "-n of a lock that is taken takes no slot")
    lasted = [usual() for _ in range(2)]

    def ends():
        begun = time.monotonic()
        expect(run("-w", 0.4, images, 1, "db", "--", "true").returncode == 1, "-w")
        lasted.append(time.monotonic() - begun)
        return lasted[-1] < 2 + 2 * lasted[0]

    expect(in_time(ends) and min(lasted[2:]) >= 0.4, f"after two that took and gave back in so many seconds, -w 0.4 lasted so long: {lasted}")
    expect(run("-i", 1, "-w", 0.2, images, 1, "db", "--", "true").returncode == 1, "-i 1")
    expect(run("-i", 60000, "-w", 0.2, images, 1, "db", "--", "true").returncode == 1, "-i 60000")
    expect(run("-n", images, 1, "other", "--", "true").returncode == 0, "another name")
    waiting = [begin(images, host, "db", "--", "true") for host in (0, 0, 1, 2)]
    expect(until(lambda: table().count("waiting") == 4), "four wait, two of them under the holder's number")
    expect(end(first) == 143, "the command's end by a signal is told")
    for process in waiting:
        expect(process.wait(300) == 0, "each gets it")
    left_nothing("waits")


def modes():
    folder()
    first, second = holder(0, "db", "-s"), holder(0, "db", "-s")
    expect(table().count("granted") == 2, "two share")
    expect(run("-n", images, 1, "db", "--", "true").returncode == 1, "EX beside PR")
    expect(run("-n", "-s", images, 1, "db", "--", "true").returncode == 0, "PR beside PR")
    expect(run("-n", "-m", "CR", images, 1, "db", "--", "true").returncode == 0, "CR beside PR")
    expect(run("-n", "-m", "CW", images, 1, "db", "--", "true").returncode == 1, "CW beside PR")
    end(first), end(second)
    left_nothing("modes")


def signals():
    folder()
    first = holder()
    for how in (signal.SIGTERM, signal.SIGINT, signal.SIGHUP):
        process = begin(images, 1, "db", "--", "touch", os.path.join(work, "ran"))
        expect(until(lambda: "waiting" in table()), "it waits")
        expect(end(process, how) == -how, f"{how.name} ends the wait")
        expect("waiting" not in table(), f"{how.name}: nothing waits")
    expect(not os.path.exists(os.path.join(work, "ran")), "the command did not run")
    end(first)
    trapped = os.path.join(work, "trapped")
    os.unlink(os.path.join(work, "held"))
    process = begin(images, 0, "db", "--", "sh", "-c", f"trap 'sleep 0.3; echo > {trapped}; exit 3' TERM; echo > {work}/held; while :; do sleep 0.05; done")
    expect(until(lambda: os.path.exists(os.path.join(work, "held"))), "the command runs")
    expect(end(process) == 3 and os.path.exists(trapped), "SIGTERM is handed on, and the command may take its time")
    # The table has the lock a moment before mg-lock knows that it is granted. A signal in between ends the wait.
    ended = []
    for moment in (0.5, 5, 20):
        process = begin(images, 0, "db")
        expect(until(lambda: "granted" in table()), "without a command it holds")
        time.sleep(moment)
        ended.append(end(process, signal.SIGINT))
        if ended[-1] == 0:
            break
    expect(ended[-1] == 0, f"and ends well by a signal: {ended}")
    # With --verbose it says when it knows.
    process = begin("--verbose", images, 0, "db", stderr=subprocess.PIPE)
    said = select.select([process.stderr], [], [], 120)[0]
    expect(said and b"db was granted" in process.stderr.readline(), "it says that it holds")
    expect(end(process, signal.SIGINT) == 0, "and ends well by a signal then")
    left_nothing("signals")


def full_pipe():
    reads, writes = os.pipe()
    os.set_blocking(writes, False)
    with contextlib.suppress(BlockingIOError):
        while True:
            os.write(writes, bytes(4096))
    os.set_blocking(writes, True)
    return reads, writes


def before_the_command():
    """A terminal's signal that comes after the lock was granted, and before the command is there: mg-lock stands still in between, as
    nobody reads the value that it prints."""
    folder()
    ran = os.path.join(work, "ran_on")
    for key, shown, number in ((b"\x03", b"^C", signal.SIGINT), (b"\x1c", b"^\\", signal.SIGQUIT)):
        reads, writes = full_pipe()
        process, terminal = pty.fork()
        if process == 0:
            os.dup2(writes, 1)
            os.execv(mg_lock, [mg_lock, "-v", "--verbose", images, "0", "db", "--", "sh", "-c", f"sleep 20; echo > {ran}"])
        os.close(writes)
        said = b""
        while b"was granted" not in said:
            said += os.read(terminal, 1000)
        os.write(terminal, key)
        # The terminal shows the key once it has sent the signal.
        while shown not in said and select.select([terminal], [], [], 120)[0]:
            said += os.read(terminal, 1000)
        expect(shown in said, f"{number.name} has come")
        while os.read(reads, 4096):
            pass
        status = os.waitpid(process, 0)[1]
        expect(os.waitstatus_to_exitcode(status) == 128 + number, f"{number.name} before the command is there: {status}")
        expect(not os.path.exists(ran), f"{number.name} before the command is there: it did not run on")
        os.close(reads), os.close(terminal)
    left_nothing("before the command")


def in_use():
    """A session that has the host number keeps mg-lock out, and that is no conflict."""
    if not library:
        return
    folder()
    with Session(images, 0, library=library):
        for given in (["-n"], ["-w", 1]):
            said = run(*given, "-E", 75, images, 0, "db", "--", "true")
            expect(said.returncode == 125 and said.stderr.startswith("mg-lock: 36 HostInUse "), f"{given}: a session has the number: {said}")
    left_nothing("in use")


def answers():
    """A lock that is not given back is said, whatever the status, and the next run under the host number releases it."""
    if not with_answers:
        return
    folder()
    stays = "mg-lock: the lock \\d+ on db {}; the next mg-lock or mg_take under host 0 releases it, once the log can be written\n"
    doubt, lost = stays.format("may stay in the table: its release was not acknowledged"), stays.format("stays in the table: 7 NoMajority .*")
    for given, status, said in ((["TAKE=-6", "GIVE=-6"], 125, doubt), (["TAKE=-6", "GIVE=-6", "STOPPED="], -signal.SIGTERM, doubt), (["GIVE=7"], 125, lost), (["GIVE=-6"], 125, doubt),
                                (["GIVE=7", "STOPPED="], -signal.SIGTERM, lost), (["TAKE=36"], 125, "mg-lock: 36 HostInUse .*\n"), (["TAKE=-2"], 75, "")):
        told = subprocess.run(["env", *given, with_answers, "-n", "-E", "75", images, "0", "db", "--", "true"], capture_output=True, text=True)
        expect(told.returncode == status and re.fullmatch(said, told.stderr), f"{given}: {told}")
        told = run("-n", images, 0, "db", "--", "true")
        expect(told.returncode == 0 and told.stderr == "mg-lock: released 1 locks whose processes are gone\n", f"{given}: the next: {told}")
    # What is in doubt is given back once more, and nothing of it stays.
    for given, status in ((["TAKE=-6"], 75), (["TAKE=-6", "STOPPED="], -signal.SIGTERM)):
        told = subprocess.run(["env", *given, with_answers, "-n", "-E", "75", images, "0", "db", "--", "true"], capture_output=True, text=True)
        expect(told.returncode == status and told.stderr == "" and "granted" not in table(), f"{given}, and it is given back: {told}")
    told = subprocess.run(["env", "GIVE=7", with_answers, images, "0", "db", "--", "sh", "-c", "exit 3"], capture_output=True, text=True)
    expect(told.returncode == 3 and re.fullmatch(lost, told.stderr), f"a command's own status, and what stays: {told}")
    told = subprocess.run(["env", "STOPPED=", with_answers, images, "0", "db", "--", "true"], capture_output=True, text=True)
    expect(told.returncode == -signal.SIGTERM and told.stderr == "", f"a signal at the grant, and it is given back: {told}")
    run("--recover", images, 0)
    # A session that got the number meanwhile releases it.
    if library:
        process = subprocess.Popen(["env", "GIVE=36", with_answers, images, "0", "db", "--", "sh", "-c", "echo; read line"], stdin=subprocess.PIPE,
                                   stdout=subprocess.PIPE, stderr=subprocess.DEVNULL)
        process.stdout.readline()
        with Session(images, 0, library=library) as service:
            process.communicate(b"\n")
            expect(process.returncode == 125 and "granted" in table(), "it is not given back")
            with service.lock("other"):
                expect([it[0] for it in service.locks()] == ["other"], "a session that has the number releases it")
    left_nothing("answers")


def recovers_one(what):
    """Of processes that were killed it may take a moment until the last one is gone."""
    told = []
    expect(until(lambda: told.append(run("--recover", images, 0)) or told[-1].stdout != "released 0\n"), f"{what}: nothing is released")
    expect(told[-1].returncode == 0 and told[-1].stdout == "released 1\n", f"{what}: {told[-1]}")


def killed():
    folder()
    # mg-lock alone is killed: its command keeps the lock
    first = holder()
    first.kill()
    first.wait()
    expect(run("-n", images, 0, "db", "--", "true").returncode == 1, "the command of a killed mg-lock keeps the lock")
    os.killpg(first.pid, signal.SIGKILL)
    gone = []
    expect(until(lambda: gone.append(run("-n", images, 0, "db", "--", "true")) or gone[-1].returncode == 0), "a lock left over is released")
    expect(gone[-1].stderr == "mg-lock: released 1 locks whose processes are gone\n", f"and that is said: {gone[-1]}")
    # a waiting process of the same host releases what is left over
    lasted = [usual()]

    def gets_it():
        first = holder()
        waiting = begin(images, 0, "db", "--", "true")
        expect(until(lambda: "waiting" in table()), "it waits")
        os.killpg(first.pid, signal.SIGKILL)
        first.wait()
        begun = time.monotonic()
        expect(waiting.wait(300) == 0, "a waiting process of the same host gets it")
        lasted.append(time.monotonic() - begun)
        return lasted[-1] < 2 + 3 * lasted[0]

    expect(in_time(gets_it), f"soon: after one that took and gave back in so many seconds, so long: {lasted}")
    # one of another host waits until somebody recovers
    first = holder()
    waiting = begin(images, 1, "db", "--", "true")
    until(lambda: "waiting" in table())
    os.killpg(first.pid, signal.SIGKILL)
    first.wait()
    time.sleep(0.5)
    expect(waiting.poll() is None, "a process of another host goes on waiting")
    recovers_one("--recover")
    expect(waiting.wait(300) == 0, "and gets it then")
    # killed while it waits
    first = holder()
    waiting = begin(images, 0, "db", "--", "true")
    until(lambda: "waiting" in table())
    waiting.kill()
    waiting.wait()
    recovers_one("a waiting lock that is left over")
    end(first)
    # locks of others are left alone
    subprocess.run([dlm, "submit", images, "0", "enqueue", "240", "1000", "1", "EX", "db"], check=True, stdout=subprocess.DEVNULL)
    subprocess.run([dlm, "submit", images, "0", "enqueue", "5", "1", "2", "EX", "other"], check=True, stdout=subprocess.DEVNULL)
    expect(run("--recover", images, 0).stdout == "released 0\n", "others' locks")
    expect(table().count("granted") == 2, "stay")


def taken_away():
    folder()
    first = holder(0, "db", "-k", "1")
    subprocess.run([dlm, "submit", images, "1", "purge", "1", "1", "0"], check=True, stdout=subprocess.DEVNULL)
    begun = time.monotonic()
    status = first.wait(300)
    expect(status == 143 and time.monotonic() - begun < 60, f"-k: the command is ended: {status}")
    purged = os.path.join(work, "purged")
    process = begin(images, 0, "db", "--", "sh", "-c", f"until [ -e {purged} ]; do sleep 0.05; done", stderr=subprocess.PIPE)
    expect(until(lambda: "granted" in table()), "it holds")
    subprocess.run([dlm, "submit", images, "1", "purge", "1", "2", "0"], check=True, stdout=subprocess.DEVNULL)
    with open(purged, "w"):
        pass
    expect(process.wait(300) == 125 and b"taken away" in process.stderr.read(), "a lock that was lost is told at the end")
    first = holder(0)
    waiting = begin(images, 1, "db", "--", "true")
    until(lambda: "waiting" in table())
    subprocess.run([dlm, "submit", images, "2", "purge", "1", "3", "1"], check=True, stdout=subprocess.DEVNULL)
    expect(waiting.wait(300) == 125, "taken away while it waits")
    end(first)
    left_nothing("taken away")


def ends_of_logs():
    folder(slots=5)
    expect(run(images, 0, "db", "--", "true").returncode == 0, "two commands")
    first = holder()
    expect(run("-n", images, 1, "db", "--", "true").returncode == 1, "no slot")
    expect(end(first) == 143, "four")
    said = run(images, 0, "db", "--", "true")
    expect(said.returncode == 125, "the fifth is granted, and cannot be released")
    expect(re.match("mg-lock: the lock \\d+ on db stays in the table: 9 LogFull ", said.stderr.splitlines()[-1]), f"and that is said: {said}")
    said = run(images, 0, "other", "--", "true")
    expect(said.returncode == 125 and "9 LogFull" in said.stderr, f"full: {said}")
    said = run("--recover", images, 0)
    expect(said.returncode == 125 and said.stdout == "", f"what is left cannot be released: {said}")
    expect(re.fullmatch("mg-lock: 1 locks whose processes are gone stay in the table\nmg-lock: 9 LogFull .*\n", said.stderr), f"and how many: {said}")


def lost_disks():
    folder()
    first = holder()
    os.rename(images + "/disk0.img", work + "/lost0")
    expect(run("-n", images, 1, "db", "--", "true").returncode == 1, "one of three is lost")
    expect(end(first) == 143, "and it is given back")
    os.rename(images + "/disk1.img", work + "/lost1")
    said = run(images, 0, "db", "--", "true")
    expect(said.returncode == 125 and "7 NoMajority" in said.stderr, f"two of three: {said}")
    os.rename(work + "/lost1", images + "/disk1.img")
    os.rename(work + "/lost0", images + "/disk0.img")
    expect(run(images, 0, "db", "--", "true").returncode == 0, "back")
    left_nothing("lost disks")


def unmarked():
    """A command that nobody marked is passed by those that wait."""
    folder()
    first = holder()
    waiting = begin(images, 1, "db", "--", "true")
    until(lambda: "waiting" in table())
    # dlm is killed once it has printed its line, and before it has marked, as far as that can be hit
    for i in range(5):
        process = subprocess.Popen([dlm, "submit", images, "2", "enqueue", "9", str(i + 1), str(100 + i), "NL", "x"], stdout=subprocess.PIPE)
        process.stdout.readline()
        process.kill()
        process.wait()
    end(first)
    expect(waiting.wait(300) == 0, "it gets past slots without a mark")


COUNT = """
import os, sys
at = sys.argv[1]
with open(at) as file: counted = int(file.read())
with open(at + ".new", "w") as file: file.write(str(counted + 1))
os.rename(at + ".new", at)
"""
IN_PYTHON = """
import os, subprocess, sys
sys.path.insert(0, {package!r}); sys.dont_write_bytecode = True
from midgegalena import Session
session = Session({images!r}, int(sys.argv[1]), share=True, library={library!r})
for i in range({rounds}):
    with session.lock("counter") as held:
        os.environ["MG_LOCK_SLOT"] = str(held.slot)
        subprocess.run({command!r}, check=True)
"""


def counted(hosts, kills=0):
    """Eight processes count, under so many host numbers. So many of them are killed meanwhile."""
    folder(slots=4096)
    counter, guard, slots, overlaps = (os.path.join(work, name) for name in ("counter", "guard", "slots", "overlaps"))
    for path, text in ((counter, "0"), (guard, ""), (slots, ""), (overlaps, "")):
        with open(path, "w") as file:
            file.write(text)
    script = os.path.join(work, "count.py")
    with open(script, "w") as file:
        file.write(COUNT)
    # the guard is held while the command lives, so two at once are seen
    command = ["sh", "-c", f"flock -n -E 99 {guard} {sys.executable} -S -E {script} {counter}; [ $? -ne 99 ] || echo overlap >> {overlaps}; echo $MG_LOCK_SLOT >> {slots}"]
    python = IN_PYTHON.format(package=package, images=images, library=library, rounds=rounds, command=command)
    processes = []
    done = 0
    for i in range(8):
        host = str(i % hosts)
        if library and i % 2 == 1 and not kills:
            processes.append(subprocess.Popen([sys.executable, "-c", python, host]))
            done += rounds
        elif not kills:
            loop = f'for i in $(seq {rounds}); do "$@" || exit 1; done'
            processes.append(subprocess.Popen(["sh", "-c", loop, "sh", mg_lock, images, host, "counter", "--", *command]))
            done += rounds
    for process in processes:
        expect(process.wait(600) == 0, f"{hosts} hosts: each process ends well")
    if kills:
        living, begun = {}, 0
        while begun < 8 * rounds or living:
            while begun < 8 * rounds and len(living) < 8:
                living[begin(images, str(begun % hosts), "counter", "--", *command)] = time.monotonic()
                begun += 1
            if kills and random.random() < 0.3:
                kills -= 1
                victim = random.choice(list(living))
                # half of them with the command, half without
                os.killpg(victim.pid, signal.SIGKILL) if random.random() < 0.5 else victim.kill()
            time.sleep(random.uniform(0, 0.05))
            for process in [p for p in living if p.poll() is not None]:
                done += process.returncode == 0
                expect(process.returncode in (0, -9), f"ended by {process.returncode}")
                del living[process]
            # whoever waits for a lock of another host needs that host to recover
            for host in range(hosts):
                run("--recover", images, host)
        for host in range(hosts):
            until(lambda: run("--recover", images, host).stdout == "released 0\n")
            # Signs of commands that never came into the log.
            run("--recover", "--all", images, host)
    with open(counter) as file:
        total = int(file.read())
    with open(overlaps) as file:
        expect(file.read() == "", f"{hosts} hosts: never two at once")
    expect(total == done or done < 8 * rounds and total > done, f"{hosts} hosts: counted {total}, done {done}")
    with open(slots) as file:
        order = [int(line) for line in file.read().split()]
    expect(order == sorted(set(order)), f"{hosts} hosts: slots grow from holder to holder")
    left_nothing(f"{hosts} hosts that count")
    print(f"{hosts} hosts: counted {total}, {done} ended well, {commands()} commands", flush=True)


for test in (statuses, pages, environment, waits, modes, signals, before_the_command, in_use, answers, killed, taken_away,
             *(() if endless else (ends_of_logs,)), lost_disks, unmarked,
             lambda: counted(1), lambda: counted(8), lambda: counted(2, kills=4 * rounds)):
    test()
finish("mg_lock")
