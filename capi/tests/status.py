#!/usr/bin/env python3
"""Tries mg-lock --status: what it prints for people, for programs and for Prometheus, and that it only looks.

    status.py [--endless] MG_LOCK DLM WORK

MG_LOCK and DLM are the programs, WORK an empty folder. --endless: over logs without an end. Prints what was wrong, and how many checks there were."""
import fcntl
import json
import os
import re
import shlex
import shutil
import signal
import subprocess
import sys

import heard  # noqa: F401
from checks import endless, expect, finish, lay_out, until

mg_lock, dlm, work = map(os.path.abspath, sys.argv[1:])
images = os.path.join(work, "images")
top = os.path.join(os.path.dirname(os.path.realpath(__file__)), "..", "..")
printed = set()  # the metrics of all runs


def folder(slots=64, disks=3):
    shutil.rmtree(images, ignore_errors=True)
    os.mkdir(images)
    form(disks, slots, 7)


def form(disks, slots, cluster):
    if endless:
        lay_out(images, disks, cluster)
    else:
        do("format", images, disks, slots, cluster)


def do(*words):
    return subprocess.run([dlm, *map(str, words)], check=True, capture_output=True, text=True).stdout


def submit(host, line):
    return do("submit", images, host, *line.split())


def run(*words, **more):
    return subprocess.run([mg_lock, *map(str, words)], capture_output=True, text=True, timeout=300, **more)


# The exit status by what is wrong.
STATUSES = {"refused": 125, "log_full": 3, "not_writable": 3, "disk_lost": 1, "disk_read_only": 1, "disk_slow": 1, "log_nearly_full": 1, "locks_left_over": 1}


def told(*wrong):
    """What it tells programs. Each key is there, and no other; this is wrong; and the status is that of the worst. A disk may be slow where the machine has other work."""
    said = run("--status", "--json", images)
    told = json.loads(said.stdout)
    keys = ["cluster", "refusal", "wrong", "endless", "epoch", "epoch_used", "slots", "used", "left", "disks", "answering", "may_fail", "hosts", "machines", "hosts_seen", "clients", "locks"]
    expect(list(told) == keys, f"keys {list(told)}")
    expect([it for it in told["wrong"] if it != "disk_slow" or it in wrong] == list(wrong), f"wrong is {told['wrong']}, not {wrong}")
    expect(said.returncode == max([STATUSES[it] for it in told["wrong"]], default=0), f"status {said.returncode}: {told['wrong']}")
    for lock in told["locks"] or []:
        expect(list(lock) == ["name", "lock", "client", "host", "held", "wanted", "has_for", "waits_for", "sign"], f"keys {list(lock)}")
        expect([lock[it] is None for it in ("held", "wanted")] == [lock[it] is None for it in ("has_for", "waits_for")], f"ages: {lock}")
    for disk in told["disks"]:
        took = disk.pop("microseconds")
        expect(took is None or took >= 0 and disk["refusal"] is None, f"a read took {took}: {disk}")
    return told


def locks_of(told):
    """The locks without their ages, which have a test of their own."""
    return [{key: value for key, value in it.items() if key not in ("has_for", "waits_for")} for it in told["locks"]]


METRIC = re.compile(r"midgegalena_([a-z_]+)")
SAMPLE = re.compile(r"midgegalena_([a-z_]+)\{([^\n]*)\} ([0-9]+(?:\.[0-9]{6})?)")
LABEL = re.compile(r'([a-z_]+)="((?:[^"\\\n]|\\["\\n])*)"(,|$)')


def labels_of(text):
    """The labels of a sample, by name. None: they are not as the format wants them."""
    labels, at = {}, 0
    while at < len(text):
        found = LABEL.match(text, at)
        if not found or found[1] in labels:
            return None
        labels[found[1]] = re.sub(r"\\(.)", lambda it: "\n" if it[1] == "n" else it[1], found[2])
        at = found.end()
    return None if text.endswith(",") else labels


def parse(text):
    """The samples of Prometheus' text format, {(metric, labels): value}, where it is as strict as it may be: each metric has its help, its type and then all of its
    samples, at most one of each set of labels."""
    expect(text.endswith("\n") and "\n\n" not in text, f"lines: {text}")
    samples, metrics, lines = {}, [], text.split("\n")[:-1]
    while lines:
        line = lines.pop(0)
        helps = re.fullmatch(r"# HELP midgegalena_([a-z_]+) [^\\]+", line)
        if helps:
            metrics.append(helps[1])
            expect(lines and lines.pop(0) == f"# TYPE midgegalena_{helps[1]} gauge", f"no type: {line}")
            continue
        found = SAMPLE.fullmatch(line)
        labels = labels_of(found[2]) if found else None
        if expect(labels is not None and metrics and metrics[-1] == found[1], f"no sample: {line}"):
            key = (found[1], frozenset(labels.items()))
            expect(key not in samples, f"twice: {line}")
            samples[key] = float(found[3]) if "." in found[3] else int(found[3])
    expect(len(set(metrics)) == len(metrics), f"a metric comes again: {metrics}")
    printed.update(metrics)
    return samples


def samples_of(status, folder):
    """What Prometheus is to read where a program reads this. How long a read takes is another time at each look."""
    samples = {}

    def put(metric, value, **labels):
        samples[metric, frozenset({"folder": folder, **labels}.items())] = value

    def put_count(metric, locks, **labels):
        if locks:
            put(metric, len(locks), **labels)

    put("up", int(status["refusal"] is None))
    put("cluster_info", 1, cluster=status["cluster"])
    put("log_endless", int(status["endless"]))
    for metric, key in (("slots", "slots"), ("slots_used", "used"), ("slots_left", "left"), ("epoch", "epoch"), ("epoch_slots_used", "epoch_used"),
                        ("clients", "clients"), ("disks_answering", "answering"), ("disks_may_fail", "may_fail")):
        if status[key] is not None:
            put(metric, status[key])
    put("disks", len(status["disks"]))
    for disk in status["disks"]:
        put("disk_answering", int(disk["refusal"] is None), disk=str(disk["disk"]))
        put("disk_read_only", int(disk["read_only"]), disk=str(disk["disk"]))
        if disk["refusal"]:
            put("disk_refusal_info", 1, disk=str(disk["disk"]), number=str(disk["refusal"]["number"]), name=disk["refusal"]["name"])
    if status["refusal"]:
        put("refusal_info", 1, number=str(status["refusal"]["number"]), name=status["refusal"]["name"])
    for it in status["machines"]:
        put("host_machine_info", 1, host=str(it["host"]), machine=it["machine"])
    for host in range(16) if status["hosts"] is not None else []:
        put("host_in_use", int(host in status["hosts"]), host=str(host))
    locks = status["locks"]
    if locks is None:
        return samples
    put("locks", len(locks))
    for metric, key in (("granted", "held"), ("waiting", "wanted")):
        put(f"locks_{metric}", sum(it[key] is not None for it in locks))
        for name, mode in {(it["name"], it[key]) for it in locks} - {(it["name"], None) for it in locks}:
            put_count(f"name_locks_{metric}", [it for it in locks if (it["name"], it[key]) == (name, mode)], name=name, mode=mode)
    for metric, key in (("granted", "has_for"), ("waiting", "waits_for")):
        for name in {it["name"] for it in locks if it[key]}:
            put(f"name_{metric}_slots", max(it[key]["slots"] for it in locks if it["name"] == name and it[key]), name=name)
    for seen in status["hosts_seen"]:
        put("host_seen_slots", seen["asked"]["slots"], host=str(seen["host"]))
    if all(it["sign"] for it in locks):
        put("locks_left_over", sum(it["sign"] == "free" for it in locks))
    for host in range(16):
        put_count("host_locks", [it for it in locks if it["host"] == host], host=str(host))
    return samples


def show(*words, shows=(mg_lock,)):
    return subprocess.run([*shows, "--status", *words], capture_output=True, timeout=300)


def measured(what, named=images, label=None, shows=(mg_lock,)):
    """Compares what it tells Prometheus with what it tells programs. `named` is the folder's name, and `label` what stands in its place."""
    said, json_of = (show(*words, named, shows=shows) for words in (["--prometheus"], ["--json"]))
    status = json.loads(json_of.stdout)
    samples = parse(said.stdout.decode())
    times = {dict(labels)["disk"]: value for (metric, labels), value in samples.items() if metric == "disk_read_seconds"}
    is_slow = "disk_slow" in status["wrong"] or any(it >= 0.5 for it in times.values())
    expect(said.stderr == json_of.stderr and (is_slow or said.returncode == json_of.returncode), f"{what}: {said} {json_of}")
    expect(list(times) == [str(it["disk"]) for it in status["disks"] if it["microseconds"] is not None], f"{what}: {times}")
    samples = {(metric, labels): value for (metric, labels), value in samples.items() if metric != "disk_read_seconds"}
    wanted = samples_of(status, label or named)
    expect(samples == wanted, f"{what}: {set(samples.items()) ^ set(wanted.items())}")
    return {it: value for (it, labels), value in samples.items() if len(labels) == 1}


def refused(number, name):
    """Nothing else is told of a folder that could not be opened."""
    said = show("--prometheus", images)
    wanted = {("up", frozenset({("folder", images)})): 0, ("refusal_info", frozenset({("folder", images), ("number", number), ("name", name)})): 1}
    expect((said.returncode, parse(said.stdout.decode())) == (125, wanted), f"{number} {name}, for Prometheus: {said}")


def begin(host, name, command="exec sleep 1000", *options):
    """A process of mg-lock, as the leader of a group."""
    return subprocess.Popen([mg_lock, *options, images, str(host), name, "--", "sh", "-c", command], start_new_session=True)


def lock(name, number, client, host, held, wanted, sign="none"):
    return {"name": name, "lock": number, "client": client, "host": host, "held": held, "wanted": wanted, "sign": sign}


def empty():
    folder()
    used = [{"disk": disk, "refusal": None, "kind": "file", "read_only": False} for disk in range(3)]
    log = {"epoch": 0, "epoch_used": 0, "slots": 320, "used": 0, "left": None} if endless else {"epoch": None, "epoch_used": None, "slots": 64, "used": 0, "left": 64}
    now = told()
    now.pop("wrong")
    expect(now == {"cluster": "7", "refusal": None, "endless": endless, **log, "disks": used, "answering": 3, "may_fail": 1, "hosts": [], "machines": [], "hosts_seen": [], "clients": 0,
                   "locks": []}, f"empty: {now}")
    slots = "epoch: 0, of a log without an end\nslots: 0 are used, 0 of 320 in this epoch\n" if endless else "slots: 0 of 64 are used, 64 are left\n"
    text = f"cluster: 7\n{slots}disks: 3 of 3 answer, 1 more may fail\nhost numbers in use on this machine: none\nlocks: 0\n"
    expect(run("--status", images).stdout == text, f"empty: {run('--status', images).stdout}")
    os.symlink(images, images + "-link")
    expect(run("--status", images + "-link").stdout == text, "by a link")
    measured("by a link", named=images + "-link")
    os.unlink(images + "-link")
    expect(measured("empty")["up"] == 1, "empty, for Prometheus")
    shutil.rmtree(images)
    os.mkdir(images)
    form(1, 4096, 2**64 - 1)
    expect((told()["cluster"], told()["slots"], told()["may_fail"]) == (str(2**64 - 1), 320 if endless else 4096, 0), "one disk")
    measured("one disk")


def names():
    """Each byte that a name may have."""
    folder()
    letters = "".join(map(chr, range(0x21, 0x7F)))
    given = [letters[at : at + 15] for at in range(0, len(letters), 15)] + ['"', "\\", '\\"', '"}],', "\\u0041", "//"]
    for number, name in enumerate(given, 1):
        submit(0, f"enqueue 1 {number} {number} NL {name}")
    expect(sorted(it["name"] for it in told()["locks"]) == sorted(given), f"names: {told()['locks']}")
    shown = run("--status", images).stdout.split("\n")
    expect(all(name in shown for name in given), f"names: {shown}")
    measured("names")
    # A byte that is no text can only be in the folder's name.
    said = subprocess.run([mg_lock, images, "0", b"a\xff", "true"], capture_output=True, timeout=300)
    expect(said.returncode == 125 and len(told()["locks"]) == len(given), f"a name with a byte that is no text: {said}")
    for name, label in ((b'"\\\n,} 1\r\t\xc3\xa9', '"\\\n,} 1\r\t\u00e9'), (b"\xff\xc3", "\\xff\\xc3"), (b"\xed\xa0\x80 \xe2\x82\xac", "\\xed\\xa0\\x80 \u20ac"),
                        (b"\xc0\xaf\xf4\x90\x80\x80\xf0\x9f\x90\x9d", "\\xc0\\xaf\\xf4\\x90\\x80\\x80\U0001f41d")):
        path = os.path.join(os.fsencode(work), name)
        os.symlink(images, path)
        measured(f"the folder {name}", named=path, label=os.path.join(work, label))
        os.unlink(path)


def queues():
    folder()
    for host, line in ((0, "enqueue 1 1 1 PR db"), (1, "enqueue 2 1 2 PR db"), (0, "convert 1 2 1 EX"), (2, "enqueue 3 1 3 CW db"), (2, "enqueue 3 2 4 EX a")):
        submit(host, line)
    wanted = [lock("a", 4, 3, 2, "EX", None), lock("db", 2, 2, 1, "PR", None), lock("db", 1, 1, 0, "PR", "EX"), lock("db", 3, 3, 2, None, "CW")]
    expect(locks_of(told()) == wanted and (told()["used"], told()["left"]) == (5, None if endless else 59), f"queues: {told()}")
    expect(run("--status", images).stdout.split("\n")[5 if endless else 4 : -1] == [
        "host numbers in the log: 0 (4 slots ago), 1 (3 slots ago), 2 (0 slots ago)", "locks: 4", "a", "  lock 4 of client 3, host 2: has EX for 0 slots", "db",
        "  lock 2 of client 2, host 1: has PR for 3 slots", "  lock 1 of client 1, host 0: has PR for 4 slots, waits for EX for 2 slots",
        "  lock 3 of client 3, host 2: waits for CW for 1 slot"], "queues, for people")
    submit(3, "enqueue 3 3 5 CW db")
    samples = measured("queues")
    counts = [samples[it] for it in ("locks", "locks_granted", "locks_waiting", "locks_left_over", "clients", "slots_used")]
    expect(counts == [5, 3, 3, 0, 3, 6], f"queues, for Prometheus: {samples}")


def age(slots, or_more=False):
    return {"slots": slots, "or_more": or_more}


def ages_are(what, wanted, seen):
    """Of each lock how many slots ago it got what it has, and began to wait; of each host how many slots ago a lock last came through it."""
    now = told()
    found = {it["lock"]: (it["has_for"], it["waits_for"]) for it in now["locks"]}
    expect(found == wanted, f"{what}: {found}, not {wanted}")
    hosts = {it["host"]: it["asked"] for it in now["hosts_seen"]}
    expect(hosts == seen, f"{what}, hosts: {hosts}, not {seen}")


def ages():
    folder()
    for host, line in ((0, "enqueue 1 1 1 PR db"), (1, "enqueue 2 1 2 EX db"), (0, "enqueue 1 2 3 EX db"), (3, "enqueue 4 1 5 EX db noqueue")):
        submit(host, line)
    ages_are("two wait, and one is refused", {1: (age(3), None), 2: (None, age(2)), 3: (None, age(1))}, {0: age(1), 1: age(2)})
    submit(0, "release 1 3 1")  # lock 2 is granted by this command
    ages_are("one is granted", {2: (age(0), None), 3: (None, age(2))}, {0: age(2), 1: age(3)})
    submit(1, "convert 2 2 2 CR")
    submit(0, "status 1 4 3")  # changes nothing
    ages_are("one is converted, and still in the way", {2: (age(1), None), 3: (None, age(4))}, {0: age(4), 1: age(5)})
    submit(0, "cancel 1 5 3")
    submit(0, "enqueue 1 6 3 CR db")  # the same number again is another lock
    submit(1, "convert 2 3 2 EX")
    ages_are("one converts", {2: (age(4), age(0)), 3: (age(1), None)}, {0: age(1), 1: age(8)})
    submit(0, "purge 1 7 0")
    ages_are("one is purged", {2: (age(0), None)}, {0: age(2), 1: age(9)})
    measured("ages")


def ages_over_epochs():
    """What an epoch began with is older than can be told."""
    folder()
    submit(0, "enqueue 1 1 1 EX db")
    submit(1, "enqueue 2 1 2 EX db")
    for request in range(2, 330):
        if told()["epoch"] == 1:
            break
        submit(0, f"status 1 {request} 1")
    expect(told()["epoch"] == 1, "another epoch has begun")
    used = told()["used"]
    submit(2, "enqueue 3 1 3 EX other")
    since = told()["used"] - used
    found = {it["lock"]: (it["has_for"], it["waits_for"]) for it in told()["locks"]}
    expect(since == 1 and found[3] == (age(0), None), f"a lock of this epoch: {since} {found}")
    expect(found[1][0]["or_more"] and found[1][1] is None and found[2][1]["or_more"] and found[2][0] is None, f"locks of the epoch before: {found}")
    expect(0 < found[1][0]["slots"] < 320, f"locks of the epoch before: {found}")
    expect(re.search(r" has EX for \d+ slots? or more\n", run("--status", images).stdout), "locks of the epoch before, for people")
    measured("another epoch")


def slow():
    """A disk whose reads past the cache take six tenths of a second."""
    folder()
    shim = os.path.join(work, "slow.so")
    subprocess.run(["cc", "-shared", "-fPIC", "-O1", "-o", shim, os.path.join(top, "capi", "tests", "slow_disk.c"), "-ldl"], check=True)
    if any(it["microseconds"] is None for it in json.loads(run("--status", "--json", images).stdout)["disks"]):
        print("left out: --status of a slow disk: the file system reads nothing past the cache")
        return
    said = run("--status", "--json", images, env={**os.environ, "LD_PRELOAD": shim, "SLOW_DISK": "disk1.img"})
    status = json.loads(said.stdout)
    expect((said.returncode, status["wrong"]) == (1, ["disk_slow"]) and 600000 <= status["disks"][1]["microseconds"] < 60000000, f"slow: {said}")
    said = run("--status", images, env={**os.environ, "LD_PRELOAD": shim, "SLOW_DISK": "disk1.img"})
    expect(re.search(r"\n  disk1 is slow: a read took [0-9.]+ seconds\n", said.stdout) and "\nwrong: a disk is slow\n" in said.stdout, f"slow, for people: {said}")


def take(path):
    """Locks a file as a host locks its number."""
    file = os.open(path, os.O_RDWR | os.O_CREAT)
    fcntl.flock(file, fcntl.LOCK_EX)
    return file


def hosts():
    folder()
    elsewhere = os.path.join("/dev/shm" if os.path.isdir("/dev/shm") else work, f"status-{os.getpid()}")
    os.symlink(elsewhere, os.path.join(images, "host9.lock"))
    submit(4, "enqueue 1 1 1 EX db")  # its file is there, and nobody has it
    files = [take(os.path.join(images, f"host{host}.lock")) for host in (15, 3)] + [take(elsewhere)]
    waits = subprocess.Popen(["flock", os.path.join(images, "host3.lock"), "true"])
    shared = os.open(os.path.join(images, "host5.lock"), os.O_RDWR | os.O_CREAT)
    expect(until(lambda: told()["hosts"] == [3, 9, 15]), f"hosts: {told()['hosts']}")
    expect("host numbers in use on this machine: 3 9 15\n" in run("--status", images).stdout, "hosts, for people")
    measured("hosts")
    for file in [*files, shared]:
        os.close(file)
    waits.wait(120)
    expect(told()["hosts"] == [], f"hosts that let go: {told()['hosts']}")
    os.unlink(elsewhere)


def killed():
    folder()
    holder = begin(0, "db")
    expect(until(lambda: len(told()["locks"]) == 1), "it holds")
    others = [begin(0, "db"), begin(1, "db")]
    expect(until(lambda: len(told()["locks"]) == 3), "two wait")
    first = told()["locks"][0]
    expect((first["name"], first["client"], first["host"], first["held"], first["sign"]) == ("db", 240, 0, "EX", "held"), f"the holder: {first}")
    expect([(it["held"], it["wanted"], it["sign"]) for it in told()["locks"][1:]] == [(None, "EX", "held")] * 2, f"the others: {told()['locks']}")
    for process in others:
        process.terminate()
        process.wait(120)
    # Its command lives on.
    holder.kill()
    holder.wait()
    expect([it["sign"] for it in told()["locks"]] == ["held"], f"mg-lock is killed alone: {told()['locks']}")
    expect("sign of life" not in run("--status", images).stdout, "mg-lock is killed alone, for people")
    os.killpg(holder.pid, signal.SIGKILL)
    expect(until(lambda: json.loads(run("--status", "--json", images).stdout)["locks"][0]["sign"] == "free"), "killed")
    left = told("locks_left_over")
    shown = run("--status", images).stdout
    expect(re.search(r": has EX for [0-9]+ slots; no process here has its sign of life\n", shown) and "killed processes left locks" in shown, "killed, for people")
    expect(measured("killed")["locks_left_over"] == 1, "killed, for Prometheus")
    expect(told("locks_left_over")["used"] == left["used"] and len(left["locks"]) == 1, "to look releases nothing, and takes no slot")
    expect(run("--recover", images, 0).returncode == 0 and told()["locks"] == [], "recovered")


def without_proc():
    """Where /proc/locks cannot be read it is not known who is there."""
    hides = ["unshare", "--mount", "sh", "-c", 'mount -t tmpfs none /proc && exec "$@"', "sh"]
    if not shutil.which("unshare") or subprocess.run([*hides, "true"], capture_output=True).returncode != 0:
        print("left out: --status without /proc: this user may not hide it")
        return
    folder()
    submit(1, "enqueue 1 1 1 EX a")
    holder = begin(0, "db")
    expect(until(lambda: len(told()["locks"]) == 2), "it holds")
    said = subprocess.run([*hides, mg_lock, "--status", "--json", images], capture_output=True, text=True)
    status = json.loads(said.stdout)
    expect(said.returncode == 0 and status["hosts"] is None, f"without /proc: {said}")
    expect([it["sign"] for it in status["locks"]] == ["none", None], f"without /proc: {said}")
    said = subprocess.run([*hides, mg_lock, "--status", images], capture_output=True, text=True)
    expect("host numbers in use on this machine: not known, /proc/locks cannot be read\n" in said.stdout, f"without /proc: {said}")
    expect("locks_left_over" not in measured("without /proc", shows=(*hides, mg_lock)), "without /proc, for Prometheus")
    os.killpg(holder.pid, signal.SIGTERM)
    holder.wait(120)


def machines():
    """Devices that several machines use, here files: which machine has a number."""
    shutil.rmtree(images, ignore_errors=True)
    os.mkdir(images)
    one, other = "0" * 31 + "a", "0" * 31 + "b"
    shared = os.path.join(os.path.dirname(mg_lock), "dlm-shared")
    made = subprocess.run([shared, "format", images, "3", "-" if endless else "64", "7", "4", "512", "files"], capture_output=True, text=True)
    if made.returncode != 0:
        print(f"left out: --status of devices of several machines, as files: {made.stderr.strip()}")
        printed.add("host_machine_info")
        return
    for host, name in ((0, one), (2, other)):
        with open(os.path.join(images, "machine-id"), "w", encoding="ascii") as file:
            file.write(f"{name}\n")
        expect(run(images, host, "db", "true").returncode == 0, f"host {host} is of {name}")
    expect(told()["machines"] == [{"host": 0, "machine": one}, {"host": 2, "machine": other}], f"machines: {told()['machines']}")
    expect(f"\nhost numbers of machines: 0 of {one}, 2 of {other}\n" in run("--status", images).stdout, "machines, for people")
    measured("machines")


def facts():
    """Names, sizes, times and bytes of what is in the folder."""
    found = {}
    for name in sorted(os.listdir(images)):
        path = os.path.join(images, name)
        facts = os.stat(path)
        with open(path, "rb") as file:
            found[name] = (facts.st_size, facts.st_mtime_ns, facts.st_ctime_ns, file.read())
    return found


# Takes a number again and again until its input ends, and tells how often it was refused.
TAKES = """
import fcntl, os, select, sys
refused = 0
print("begun", flush=True)
while not select.select([sys.stdin], [], [], 0)[0]:
    file = os.open(sys.argv[1], os.O_RDWR)
    try:
        fcntl.flock(file, fcntl.LOCK_EX | fcntl.LOCK_NB)
    except BlockingIOError:
        refused += 1
    os.close(file)
print(refused)
"""


def only_looks():
    folder()
    submit(0, "enqueue 1 1 1 EX db")
    # The lock is shown before its command is marked on each disk. Once mg-lock runs its own command, it writes no more.
    runs = os.path.join(work, "runs")
    holder = begin(1, "other", f"touch {shlex.quote(runs)}; exec sleep 1000")
    expect(until(lambda: os.path.exists(runs)), "one holds")
    expect(len(told()["locks"]) == 2, "both locks are shown")
    before = facts()
    # Of a thread of this process the children that are being started would have the file, too.
    taker = subprocess.Popen([sys.executable, "-c", TAKES, os.path.join(images, "host0.lock")], stdin=subprocess.PIPE, stdout=subprocess.PIPE, text=True)
    expect(taker.stdout.readline() == "begun\n", "somebody takes the number")
    for _ in range(30):
        run("--status", "--json", images)
    refused = int(taker.communicate("")[0])
    expect(refused == 0, f"a host was kept from its number {refused} times")
    expect(facts() == before, "something in the folder was changed")
    os.killpg(holder.pid, signal.SIGTERM)
    holder.wait(120)


def named(disk):
    """The number and name that `dlm check` has for a disk, and that --status has."""
    lines = subprocess.run([dlm, "check", images], capture_output=True, text=True).stdout.split("\n")
    checked = [line.split()[1:] for line in lines if line.startswith(f"disk{disk} ")]
    refusal = told("disk_lost")["disks"][disk]["refusal"]
    return checked, refusal and [[str(refusal["number"]), refusal["name"]]]


def damaged():
    folder()
    submit(0, "enqueue 1 1 1 EX db")
    path = os.path.join(images, "disk1.img")
    with open(path, "rb") as file:
        whole = file.read()
    with open(os.path.join(images, "disk2.img"), "rb") as file:
        other = file.read()
    for what, text, name in (("missing", None, "Unreadable"), ("of zeros", bytes(len(whole)), "NotFormatted"), ("short", whole[:5000], "WrongHeader"),
                             ("empty", b"", "WrongHeader"), ("too long", whole + b"0", "WrongHeader"), ("another disk's", other, "WrongHeader")):
        os.unlink(path)
        if text is not None:
            with open(path, "wb") as file:
                file.write(text)
        checked, shown = named(1)
        expect(checked == shown and shown[0][1] == name, f"{what}: dlm check {checked}, mg-lock {shown}")
        status = told("disk_lost")
        expect((status["answering"], status["may_fail"], len(status["locks"])) == (2, 0, 1), f"{what}: {status}")
        text = run("--status", images).stdout
        expect(f"disks: 2 of 3 answer, 0 more may fail\n  disk1 {shown[0][0]} {name}\n" in text, f"{what}, for people: {text}")
        expect("\nwrong: a disk does not answer" in text, f"{what}, for people: {text}")
        measured(what)
        if not os.path.exists(path):
            with open(path, "wb") as file:
                file.write(b"")
    # No majority is left.
    os.rename(os.path.join(images, "disk0.img"), os.path.join(images, "lost"))
    status = told("refused", "disk_lost")
    expect(status["refusal"] == {"number": 7, "name": "NoMajority"}, f"no majority: {status}")
    expect((status["used"], status["left"], status["locks"]) == (None, None, None), f"no majority: {status}")
    expect((status["answering"], status["may_fail"], status["slots"]) == (1, 0, 320 if endless else 64), f"no majority: {status}")
    said = run("--status", images)
    expect(said.returncode == 125 and said.stderr.startswith("mg-lock: 7 NoMajority "), f"no majority: {said}")
    slots = "320 in each epoch" if endless else "64"
    expect(f"\nslots: {slots}\ndisks: 1 of 3 answer, which is no majority\n  disk0 26 Unreadable\n" in said.stdout, f"no majority: {said}")
    expect("locks" not in said.stdout and "\nwrong: the table cannot be read; a disk does not answer" in said.stdout, f"no majority: {said}")
    expect(measured("no majority")["up"] == 0, "no majority, for Prometheus")
    # No image at all.
    for name in os.listdir(images):
        os.unlink(os.path.join(images, name))
    for words in ((), ("--json",)):
        said = run("--status", *words, images)
        expect((said.returncode, said.stdout) == (125, "") and said.stderr.startswith("mg-lock: 26 Unreadable "), f"no image: {said}")
    refused("26", "Unreadable")


def read_only():
    """Images that nobody may write to: in a file system that is mounted so, for this test alone."""
    folder()
    submit(0, "enqueue 1 1 1 EX db")
    shows = ["unshare", "--mount", "sh", "-c", 'mount --bind "$0" "$0" && mount -o remount,ro,bind "$0" && exec "$@"', images]
    if not shutil.which("unshare") or subprocess.run([*shows, "true"], capture_output=True).returncode != 0:
        print("left out: --status of images that may only be read: this user may mount nothing")
        return
    said = subprocess.run([*shows, mg_lock, "--status", "--json", images], capture_output=True, text=True)
    status = json.loads(said.stdout)
    expect([it["read_only"] for it in status["disks"]] == [True] * 3 and (status["answering"], status["may_fail"]) == (3, 0), f"read only: {said}")
    expect(said.returncode == 3 and status["wrong"][:2] == ["not_writable", "disk_read_only"], f"read only: {said}")
    said = subprocess.run([*shows, mg_lock, "--status", images], capture_output=True, text=True)
    text = "disks: 3 of 3 answer, and no majority may be written\n  disk0 is read only\n  disk1 is read only\n  disk2 is read only\n"
    expect(said.returncode == 3 and text in said.stdout, f"read only, for people: {said}")
    measured("read only", shows=(*shows, mg_lock))


def full():
    folder(slots=21)
    for request in range(1, 21):
        expect(len(told()["locks"]) == (request > 1), "not nearly full")
        submit(0, f"enqueue 1 {request} 1 EX db")
    expect(told("log_nearly_full")["left"] == 1, "one slot of 21 is left")
    folder(slots=5)
    submit(0, "enqueue 1 1 1 EX db")
    do("fill", images, 1)
    do("mark", images, 1)
    status = told("log_full")
    expect((status["slots"], status["used"], status["left"], len(status["locks"])) == (5, 5, 0, 1), f"full: {status}")
    expect("slots: 5 of 5 are used, 0 are left: the log is full\n" in run("--status", images).stdout, "full, for people")
    expect(measured("full")["slots_left"] == 0, "full, for Prometheus")


def wrong_use():
    folder()
    for words in (["--status"], ["--status", images, 0], ["--json", images, 0, "db", "true"], ["--status", "--recover", images], ["--status", "--all", images],
                  ["--recover", "--json", images, 0], ["--json", images], ["--status", work + "/nowhere"], ["--prometheus", images],
                  ["--prometheus", images, 0, "db", "true"], ["--recover", "--prometheus", images, 0], ["--status", "--prometheus", images, 0],
                  ["--status", "--prometheus", "--json", images], ["--status", "--json", "--prometheus", images]):
        said = run(*words)
        expect((said.returncode, said.stdout) == (125, ""), f"usage {words}: {said}")
    for words in ((), ("--json",), ("--prometheus",)):
        with open("/dev/full", "w", encoding="utf-8") as nowhere:
            said = subprocess.run([mg_lock, "--status", *words, images], stdout=nowhere, stderr=subprocess.PIPE, text=True)
        expect(said.returncode == 125 and "could not be printed" in said.stderr, f"nowhere to print: {said}")


def named_elsewhere():
    """The manual page names all metrics, and the alarms no others."""
    of_end = {"slots_left"} if endless else {"epoch", "epoch_slots_used"}
    with open(os.path.join(top, "man", "mg-lock.1"), encoding="utf-8") as page:
        named = set(METRIC.findall(page.read()))
    expect(named == printed | of_end, f"man/mg-lock.1 names {named ^ (printed | of_end)}")
    with open(os.path.join(top, "examples", "prometheus", "rules.yml"), encoding="utf-8") as rules:
        used = set(METRIC.findall(rules.read()))
    expect(used and used <= named, f"rules.yml names {used - named}")


only = [ages_over_epochs] if endless else [full]
for test in (empty, names, queues, ages, slow, hosts, machines, killed, without_proc, damaged, wrong_use, only_looks, read_only, *only, named_elsewhere):
    test()
finish("status.py")
