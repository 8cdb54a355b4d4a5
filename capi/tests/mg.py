#!/usr/bin/env python3
"""Tries mg over the library, as it is installed: the commands of docs/MG.md and README, many at once, kills, host numbers that are in use, and locks that outlive their
process. tests/mg_front.py has its words.

    mg.py MG DLM WORK

MG and DLM are the programs, WORK an empty folder. Prints what was wrong, and how many checks there were."""
import contextlib
import fcntl
import json
import os
import re
import shutil
import signal
import subprocess
import sys
import time

import heard  # noqa: F401
from checks import expect, finish, lay_out, until

mg, dlm, work = map(os.path.abspath, sys.argv[1:4])
top = os.path.join(os.path.dirname(os.path.abspath(__file__)), "..", "..")
images = os.path.join(work, "images")
paths = {**os.environ, "PATH": f"{os.path.dirname(mg)}:{os.path.dirname(dlm)}:{os.environ['PATH']}"}
has_folder = os.path.exists(os.path.join(os.path.dirname(mg), "..", "libexec", "midgegalena", "mg-folder"))


def run(*words):
    return subprocess.run([mg, *map(str, words)], capture_output=True, text=True, timeout=600, env=paths, check=False)


def begin(*words, **more):
    return subprocess.Popen([mg, *map(str, words)], stdout=subprocess.PIPE, stderr=subprocess.PIPE, text=True, env=paths, start_new_session=True, **more)


def folder(*words):
    shutil.rmtree(images, ignore_errors=True)
    told = run("create", images, *words)
    expect(told.returncode == 0 and "formatted 3 disks" in told.stdout, f"create {words}: {told}")
    return told


def table():
    return run("table", images, "--host", 15).stdout


def left_nothing(what):
    expect("granted" not in table() and "waiting" not in table(), f"{what}: no lock is left:\n{table()}")
    expect([name for name in os.listdir(images) if name.startswith("mg-lock.")] == [], f"{what}: no sign is left")


def page():
    """What stands behind `$ ` in the blocks of the page, and what it prints."""
    with open(os.path.join(top, "docs", "MG.md"), encoding="utf-8") as file:
        blocks = re.findall(r"^```\n(.*?)^```$", file.read(), re.DOTALL | re.MULTILINE)
    tried = 0
    shutil.rmtree(images, ignore_errors=True)
    for block in blocks:
        for command, wanted in re.findall(r"^\$ (.*)\n((?:(?!\$ ).*\n)*)", block, re.MULTILINE):
            told = subprocess.run(["bash", "-c", command], cwd=work, capture_output=True, text=True, timeout=600, env=paths, check=False)
            expect(told.stdout + told.stderr == wanted, f"MG.md: {command}: {told}")
            tried += 1
    expect(tried == 4, f"MG.md has {tried} commands")
    left_nothing("MG.md")
    shutil.rmtree(images)
    with open(os.path.join(top, "README.md"), encoding="utf-8") as file:
        lines = [line for line in file if line.startswith("mg ")]
    for line in lines:
        told = subprocess.run(["bash", "-c", line.replace("./backup", "true")], cwd=work, capture_output=True, text=True, timeout=600, env=paths, check=False)
        expect(told.returncode == 0, f"README: {line}: {told}")
    expect(len(lines) == 2, f"README has {len(lines)} commands")
    left_nothing("README")


def words():
    """Each word over a folder, with the statuses of what it becomes."""
    told = folder()
    cluster = re.match(r"cluster (\d+)\n", told.stdout)
    expect(cluster is not None and json.loads(run("status", images, "--json").stdout)["cluster"] == cluster.group(1), f"the cluster number: {told}")
    expect(run("lock", images, "db", "--", "sh", "-c", "exit 7").returncode == 7, "the status of the command")
    expect(run("lock", images, "db", "--", "no-such-command").returncode == 127, "no such command")
    expect(run("submit", images, "enqueue", 1, 1, 1, "EX", "db").stdout.endswith("Granted\n"), "submit")
    told = run("lock", images, "db", "-n", "-E", 75, "--", "true")
    expect(told.returncode == 75, f"a conflict: {told}")
    begun = time.monotonic()
    told = run("lock", images, "db", "--wait", "0.3", "--", "true")
    expect(told.returncode == 1 and 0.2 < time.monotonic() - begun < 120, f"out of time: {told}")
    expect(re.search(r"db\n  granted 1 1 0 EX\n", run("table", images).stdout) is not None, "table")
    expect(run("mark", images).stdout.startswith("recovered "), "mark")
    expect(run("check", images).stdout.endswith("sound\n") or "epoch" in run("check", images).stdout, f"check: {run('check', images)}")
    expect("\ndb\n" in run("status", images).stdout, "status")
    told = run("submit", images, "--json", "release", 1, 2, 1)
    if has_folder:
        expect(told.returncode == 0 and json.loads(told.stdout)["reply"] == "Released", f"submit --json: {told}")
    else:
        expect(told.returncode == 1 and "which is not installed" in told.stderr, f"submit --json: {told}")
    # Where that has released the lock, the same request gets the same reply.
    expect(run("submit", images, "release", 1, 2, 1).stdout.endswith(" Released\n"), "the release once more")
    told = run("recover", images, "--json")
    expect(told.returncode == 0 and json.loads(told.stdout) == {"released": 0, "hosts": []}, f"recover --json: {told}")
    told = run("check", images, "--json")
    if has_folder:
        expect(told.returncode == 0 and json.loads(told.stdout)["sound"] is True, f"check --json: {told}")
        told = run("migrate", images, "--json")
        expect(json.loads(told.stdout) == {"folder": images, "disks": 3, "made": False, "slots_an_epoch": None}, f"migrate --json: {told}")
    else:
        expect(told.returncode == 1 and "which is not installed" in told.stderr, f"check --json: {told}")
    told = run("submit", images, "enqueue", 1, 3, 1, "EX")
    expect(told.returncode == 2, f"no command: {told}")
    left_nothing("words")


def at_once():
    """Each counts under the lock, and none is refused its host number, for which it waits a minute: on a slow disk as many as have their turn in that time."""
    folder("--slots", 4096)
    begun = time.monotonic()
    expect(run("lock", images, "db", "--", "true").returncode == 0, "one alone")
    many = 16 if time.monotonic() - begun < 2 else 4
    count = os.path.join(work, "count")
    with open(count, "w", encoding="ascii") as file:
        file.write("0")
    line = f"read n < {count}; sleep 0.01; echo $((n + 1)) > {count}"
    started = [begin("lock", images, "db", "--", "sh", "-c", line) for _ in range(many)]
    for one in started:
        _, told = one.communicate(timeout=600)
        expect(one.returncode == 0, f"at once: status {one.returncode}: {told}")
    with open(count, encoding="ascii") as file:
        expect(file.read() == f"{many}\n", f"each of {many} has counted")
    started = [begin("submit", images, "enqueue", client, 1, client, "NL", "all") for client in range(1, 9)]
    for one in started:
        told = one.communicate(timeout=600)
        expect(one.returncode == 0 and told[0].endswith("Granted\n"), f"submit at once: {one.returncode}, {told}")
    expect(table().count("granted") == 8, f"eight locks: {table()}")
    expect({it.split()[3] for it in table().splitlines() if "granted" in it} == {"0"}, f"all of them by host 0: {table()}")


def holder(*options):
    """One that has the lock until it is killed, with its command."""
    at = os.path.join(work, "held")
    if os.path.exists(at):
        os.unlink(at)
    process = begin("lock", images, "db", *options, "--", "sh", "-c", f"echo $MG_LOCK_HOST > {at}; exec sleep 1000")
    expect(until(lambda: os.path.exists(at) and os.path.getsize(at) > 0), "the holder holds")
    with open(at, encoding="ascii") as file:
        return process, int(file.read())


def kill_all(process):
    os.killpg(process.pid, signal.SIGKILL)
    process.communicate(timeout=300)


def recovers(wanted, what):
    """Of processes that were killed it may take a moment until the last one is gone, and their lock with it."""
    told = []
    expect(until(lambda: told.append(run("recover", images)) or told[-1].stdout != "released 0\n"), f"{what}: nothing is released")
    expect((told[-1].returncode, told[-1].stdout) == (0, wanted), f"{what}: {told[-1]}")


def kills():
    folder()
    # The next one releases what a killed one left, since both have the same number.
    process, host = holder()
    expect(host == 0, f"the number of a lock: {host}")
    kill_all(process)
    expect(run("lock", images, "db", "--wait", 120, "--", "true").returncode == 0, "the next one gets it")
    # One under another number does not, and a recovery does.
    process, _ = holder("--host", 3)
    expect(run("recover", images).stdout == "released 0\n", "one that lives stays")
    kill_all(process)
    expect(run("lock", images, "db", "--nonblock", "--", "true").returncode == 1, "by another number it stays")
    recovers("host 3: released 1\n", "recover")
    expect(run("recover", images).stdout == "released 0\n", "nothing is left to release")
    left_nothing("kills")


def numbers():
    """A service has number 0: the others take the next one, and share it."""
    folder()
    with open(os.path.join(images, "host0.lock"), "w", encoding="ascii") as kept:
        fcntl.flock(kept, fcntl.LOCK_EX)
        process, host = holder()
        expect(host == 1, f"beside a service: {host}")
        told = run("lock", images, "other", "--", "sh", "-c", "echo $MG_LOCK_HOST")
        expect(told.stdout == "1\n", f"a second one beside a service: {told}")
        expect(run("submit", images, "enqueue", 1, 1, 1, "NL", "db").returncode == 0, "a submission beside a service")
        kill_all(process)
        recovers("host 1: released 1\n", "recover beside a service")
    os.rename(os.path.join(images, "disk0.img"), os.path.join(work, "away"))
    os.rename(os.path.join(images, "disk1.img"), os.path.join(work, "away1"))
    for words_of in (("lock", images, "db", "true"), ("table", images)):
        told = run(*words_of)
        expect(told.returncode in (1, 125) and "NoMajority" in told.stderr and told.stderr.count("\n") == 1, f"without a majority: {told}")


# ---- take and give ----

TAKEN = re.compile(r"taken (\S+): lock (\d+) of client (\d+), token (\d+)\n")


def taken(*words_of):
    """A lock that is taken: its number, and its token."""
    told = run("take", images, *words_of)
    found = TAKEN.fullmatch(told.stdout)
    expect(told.returncode == 0 and found and told.stderr == "", f"take {words_of}: {told}")
    return (found[2], int(found[4])) if found else ("1537", 0)


def given(name, *locks):
    told = run("give", images, name, *locks)
    expect((told.returncode, told.stdout, told.stderr) == (0, "", ""), f"give {name} {locks}: {told}")


def gives_nothing(name, lock, why="has no lock "):
    told = run("give", images, name, lock)
    expect((told.returncode, told.stdout) == (1, "") and told.stderr.startswith("mg-lock: there is nothing to give: ") and why in told.stderr, f"nothing to give: {told}")


def locks():
    """Number, client, host and mode of each granted lock, and how many wait."""
    text = table()
    return re.findall(r"^  granted (\d+) (\d+) (\d+) (\w+)$", text, re.MULTILINE), text.count("waiting")


def signs():
    return [name for name in os.listdir(images) if name.startswith("mg-lock.")]


def takes():
    """It stays when its process has ended, for everybody but who gives it, and a second give finds nothing."""
    folder()
    lock, token = taken("db")
    expect(locks() == ([(lock, "240", "0", "EX")], 0) and signs() == [], f"taken: {locks()}, {signs()}")
    before = table()
    for words_of in (("lock", images, "db", "-n", "--", "true"), ("take", images, "db", "--wait", 0), ("take", images, "db", "--wait", "0.3", "--host", 2)):
        told = run(*words_of)
        expect((told.returncode, told.stdout, told.stderr) == (1, "", ""), f"beside it: {words_of}: {told}")
    expect(run("recover", images).stdout == "released 0\n" and run("recover", images, "--host", 0).stdout == "released 0\n", "a recovery leaves it")
    expect(table().partition("\n")[2] == before.partition("\n")[2], f"nothing else is in the table: {table()}")
    expect([it["sign"] for it in json.loads(run("status", images, "--json").stdout)["locks"]] == ["none"], "it has no sign of life")
    gives_nothing("other", lock)
    given("db", lock)
    left_nothing("given")
    gives_nothing("db", lock)
    gives_nothing("db", f"taken db: lock {lock} of client 240, token 0")
    next_lock, next_token = taken("db", "-m", "PW")
    expect(next_lock != lock and next_token > token, f"a greater token: {next_lock} {next_token} after {lock} {token}")
    told = run("take", images, "db", "--mode", "PR", "--wait", 0)
    expect(told.returncode == 1, f"PR beside PW: {told}")
    shared, _ = taken("db", "--mode", "CR", "--host", 2)
    expect(locks() == ([(next_lock, "240", "0", "PW"), (shared, "242", "2", "CR")], 0), f"of two hosts: {locks()}")
    gives_nothing("db", int(shared) + 2)
    given("db", shared, f"taken db: lock {next_lock} of client 240, token 9")
    left_nothing("both are given")
    told = run("take", images, "a\"\\b", "--json")
    facts = json.loads(told.stdout)
    expect(list(facts) == ["name", "lock", "client", "host", "held", "token", "cluster"] and told.stdout.count("\n") == 1, f"--json: {told}")
    expect((facts["name"], facts["client"], facts["host"], facts["held"]) == ("a\"\\b", 240, 0, "EX") and facts["token"] > next_token, f"--json: {facts}")
    expect(facts["cluster"] == json.loads(run("status", images, "--json").stdout)["cluster"], f"--json: {facts}")
    expect(run("recover", images, "--all").stdout == "host 0: released 1\n", "a recovery of all releases it")
    gives_nothing("a\"\\b", facts["lock"])
    for word in ("", "x", "-1", "0", "1535", "1538", "65537", "1537x", "taken db: lock 1537", "taken a: lock 1537 of client 240, token 0"):
        told = run("give", images, "db", "--", word)
        expect((told.returncode, told.stdout) == (125, "") and "no lock that --take printed" in told.stderr, f"no lock {word!r}: {told}")
    process, _ = holder()
    gives_nothing("db", locks()[0][0][0], "a process has the lock ")
    expect(run("lock", images, "db", "-n", "--", "true").returncode == 1, "what a process has it keeps")
    kill_all(process)
    recovers("host 0: released 1\n", "and once that is killed")
    left_nothing("takes")


def waits():
    """A take that waits gets the lock once it is given, and leaves nothing where it is killed, or is told to end."""
    folder()
    lock, token = taken("db")
    waiting = begin("take", images, "db", "--wait", 300)
    expect(until(lambda: locks()[1] == 1), "it waits")
    given("db", lock)
    out, err = waiting.communicate(timeout=600)
    found = TAKEN.fullmatch(out)
    if expect(waiting.returncode == 0 and found and int(found[4]) > token, f"it gets it: {waiting.returncode}, {out}, {err}"):
        for number, status in ((signal.SIGTERM, -signal.SIGTERM), (signal.SIGKILL, -signal.SIGKILL)):
            waiting = begin("take", images, "db")
            expect(until(lambda: locks()[1] == 1), "it waits")
            waiting.send_signal(number)
            expect(waiting.communicate(timeout=600)[0] == "" and waiting.returncode == status, f"{number}: {waiting.returncode}")
        recovers("host 0: released 1\n", "killed while it waited")
        given("db", out.strip())
    left_nothing("waits")


def full_pipe():
    reads, writes = os.pipe()
    os.set_blocking(writes, False)
    with contextlib.suppress(BlockingIOError):
        while True:
            os.write(writes, bytes(4096))
    os.set_blocking(writes, True)
    return reads, writes


def is_killed():
    """Between the take and its line: the table shows the lock. In the midst of a give: whoever recovers releases it. And nobody hears the line."""
    folder()
    reads, writes = full_pipe()
    process = subprocess.Popen([mg, "take", images, "db"], stdout=writes, stderr=subprocess.DEVNULL, env=paths)
    os.close(writes)
    expect(until(lambda: len(locks()[0]) == 1 and signs() == []), f"it has taken, and cannot print: {table()}")
    process.kill()
    process.wait()
    os.close(reads)
    expect(run("recover", images).stdout == "released 0\n", "it stays")
    lock = locks()[0][0][0]
    with open(os.path.join(images, "host0.lock"), "w", encoding="ascii") as kept:
        fcntl.flock(kept, fcntl.LOCK_EX)
        giving = begin("give", images, "db", lock)
        expect(until(lambda: signs() != []), "a give waits for its number")
        kill_all(giving)
    recovers("host 0: released 1\n", "a give that was killed")
    gives_nothing("db", lock)
    with open("/dev/full", "w", encoding="ascii") as nowhere:
        told = subprocess.run([mg, "take", images, "db"], stdout=nowhere, stderr=subprocess.PIPE, text=True, env=paths, timeout=600, check=False)
    expect(told.returncode == 125 and "could not be printed" in told.stderr, f"nowhere to print: {told}")
    expect(locks() == ([], 0), f"nowhere to print: {table()}")


def takes_at_once():
    """Each gets a lock of its own, and one give gives all. Of those that count under one name none is there with another one."""
    folder()
    started = [begin("take", images, "all", "--mode", "NL") for _ in range(8)]
    told = [one.communicate(timeout=600) for one in started]
    lines = [out.strip() for out, _ in told]
    expect(all(one.returncode == 0 for one in started) and len(set(lines)) == 8 == len(locks()[0]), f"eight at once: {told}")
    given("all", *lines)
    count = os.path.join(work, "count")
    with open(count, "w", encoding="ascii") as file:
        file.write("0\n")
    line = (f'for i in 1 2 3; do taken=$("$0" take {images} db --wait 300) && read n < {count} && sleep 0.01 && echo $((n + 1)) > {count}'
            f' && "$0" give {images} db "$taken" || exit; done')
    started = [subprocess.Popen(["sh", "-c", line, mg], env=paths) for _ in range(6)]
    expect([one.wait(600) for one in started] == [0] * 6, "six that count")
    with open(count, encoding="ascii") as file:
        expect(file.read() == "18\n", "each of them three times")
    left_nothing("takes at once")


def in_logs():
    """In a full log a give says that the lock stays, and it is given in the log that the table is carried over to. Over a log without an end it stays through epochs."""
    folder("--slots", 5, "--cluster", 7)
    lock, _ = taken("db")
    subprocess.run([dlm, "fill", images, "9"], check=True, stdout=subprocess.DEVNULL)
    told = run("give", images, "db", lock)
    expect(told.returncode == 125 and f"the lock {lock} on db stays in the table: 9 LogFull" in told.stderr, f"a full log: {told}")
    told = run("take", images, "other")
    expect((told.returncode, told.stdout) == (125, "") and "9 LogFull" in told.stderr, f"a full log: {told}")
    renewed = os.path.join(work, "renewed")
    os.mkdir(renewed)
    subprocess.run([dlm, "renew", images, "9", renewed, "3", "64", "8"], check=True, stdout=subprocess.DEVNULL)
    shutil.rmtree(images)
    os.rename(renewed, images)
    expect(run("recover", images).stdout == "released 0\n", "in the new folder it stays")
    given("db", lock)
    left_nothing("renewed")
    shutil.rmtree(images)
    os.mkdir(images)
    lay_out(images)
    lock, token = taken("db")
    for request in range(1, 340):
        subprocess.run([dlm, "submit", images, "1", "status", "9", str(request), "1"], check=False, stdout=subprocess.DEVNULL)
    expect(json.loads(run("status", images, "--json").stdout)["epoch"] == 1, "another epoch")
    expect(run("take", images, "db", "--wait", 0).returncode == 1 and locks()[0] == [(lock, "240", "0", "EX")], f"it stays: {table()}")
    given("db", lock)
    again, greater = taken("db")
    expect(greater > token + 320, f"a greater token: {greater} after {token}")
    given("db", again)
    left_nothing("another epoch")


def replaces():
    """A lost image has a new one in its place, unless a host number is in use. Until a later epoch it counts as lost. Who holds a lock meanwhile keeps it."""
    folder()
    process, _ = holder("--host", 3)
    os.rename(os.path.join(images, "disk1.img"), os.path.join(work, "lost"))
    with open(os.path.join(images, "host5.lock"), "a", encoding="ascii") as kept:
        fcntl.flock(kept, fcntl.LOCK_EX)
        told = run("replace", images, 1)
    expect(told.returncode == 1 and re.search(r"36 \w+ host5", told.stderr) is not None, f"replace beside a service: {told}")
    told = run("replace", images, 1)
    expect(told.returncode == 0 and re.fullmatch(r"replaced disk1: it takes part from epoch \d+ on\n", told.stdout) is not None, f"replace: {told}")
    told = run("replace", images, 1)
    expect(told.returncode == 1 and re.search(r"29 \w+", told.stderr) is not None, f"replace again: {told}")
    expect(run("lock", images, "db", "-n", "--", "true").returncode == 1, "the lock is held all the same")
    told = run("status", images)
    expect(told.returncode == 1 and "disks: 2 of 3 answer, 0 more may fail\n  disk1 takes part from a later epoch on\n" in told.stdout, f"status: {told}")
    disks = json.loads(run("status", images, "--json").stdout)["disks"]
    expect([disk["refusal"] for disk in disks] == [None, {"number": -9, "name": "NotYet"}, None], f"status --json: {disks}")
    kill_all(process)
    expect(run("recover", images).stdout == "host 3: released 1\n", "what it had is released")
    left_nothing("replaces")


page()
words()
replaces()
at_once()
kills()
takes()
waits()
is_killed()
takes_at_once()
in_logs()
numbers()
finish("mg")
