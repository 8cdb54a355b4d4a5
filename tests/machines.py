#!/usr/bin/env python3
"""Hosts at once on several machines that share block devices. Each "machine" has loop devices of its own over the same backing files, so each has pages
of its own of the same device. Each host number is a loop of processes that submit on its machine, one after another; some are killed. At the end
the backing files are read without the program, and every acknowledgement is looked for: at its slot, with the reply of a plain lock table.

    machines.py --program PATH --shared PATH [--kind shared|mount|today] [--mount PATH] [--machines N] [--hosts N] [--hosts-of-device N] [--disks N]
                [--slots N] [--seconds N] [--rounds N] [--kill PERCENT] [--sector N] [--nodsync] [--direct on|off] [--hold] [--noise] [--where FOLDER]
                [--seed N] [--dlm PATH] [--pages] [--in-a-sector N]

`shared` submits by dlm-shared, `mount` by dlm over what dlm-mount shows on each machine, `today` by dlm over images of layout 2, through each machine's
pages: there commands are lost. --hold keeps each device open on each machine, as a service or multipath does, so its pages stay. --noise reads the devices
through the pages all the while. --direct is of the loop devices, for a backing file on a disk. --dlm has dlm check and dlm table look at copies, too.
--pages leaves O_DIRECT out, and --in-a-sector 2 is for a program that was changed to put the blocks of two hosts into one sector: both are to be seen to fail.
It needs root and loop devices; tests/machines.sh says where there are none."""

import argparse
import collections
import os
import random
import re
import signal
import subprocess
import sys
import tempfile
import threading
import time

import lock_log

TOP = lock_log.TOP


def run(*words, **more):
    told = subprocess.run([str(word) for word in words], capture_output=True, text=True, **more)
    if told.returncode:
        raise RuntimeError(f"{words}: {told.returncode} {told.stdout}{told.stderr}")
    return told.stdout


class Round:
    def __init__(self, given, work, seed):
        self.given, self.work = given, work
        self.random = random.Random(seed)
        self.lock = threading.Lock()
        self.acks, self.others, self.wrong, self.spans = [], [], [], []
        self.tells = collections.Counter()
        self.stop, self.typical = False, 0.01
        self.loops, self.held, self.servers, self.folders = [], [], [], []
        self.numbers = list(range(given.hosts))
        self.lost = self.twice = self.length = 0

    # THE MACHINES

    def set_up(self):
        given = self.given
        row = given.hosts_of_device * given.sector if given.kind != "today" else lock_log.ROW
        size = 8192 + row * (given.slots + 2)
        self.backing = [f"{self.work}/backing{disk}" for disk in range(given.disks)]
        for path in self.backing:
            with open(path, "wb") as file:
                file.write(bytes((size + 4095) // 4096 * 4096))
        os.sync()
        for machine in range(given.machines):
            folder = f"{self.work}/machine{machine}"
            os.mkdir(folder)
            self.folders.append(folder)
            with open(f"{folder}/machine-id", "w") as file:
                file.write(f"{machine + 1:032x}\n")
            for disk, path in enumerate(self.backing):
                device = run("losetup", "--show", "-f", f"--direct-io={given.direct}", path).strip()
                self.loops.append(device)
                os.symlink(device, f"{folder}/disk{disk}.img")
                if given.hold:
                    self.held.append(os.open(device, os.O_RDONLY))
        words = [self.folders[0], given.disks, given.slots, 7]
        if given.kind == "today":
            run(given.program, "format", *words)
        else:
            run(given.shared, "format", *words, given.hosts_of_device, given.sector, *(["nodsync"] if given.nodsync else []), env=given.env)
        for device in self.loops:
            run("blockdev", "--flushbufs", device)
        if given.kind == "mount":
            self.mount()

    def mount(self):
        for machine, folder in enumerate(self.folders):
            point = f"{self.work}/mount{machine}"
            os.mkdir(point)
            self.servers.append((subprocess.Popen([self.given.mount, folder, point]), point))
            self.folders[machine] = point
        for _ in range(12000):
            if all(os.path.exists(f"{point}/disk0.img") for _, point in self.servers):
                return
            time.sleep(0.01)
        raise RuntimeError("dlm-mount shows no images")

    def take_down(self):
        for server, point in self.servers:
            subprocess.run(["umount", point], check=False)
            server.wait()
        for each in self.held:
            os.close(each)
        for device in self.loops:
            subprocess.run(["losetup", "-d", device], check=False)

    def noise(self):
        rng = random.Random(5)
        files = [os.open(device, os.O_RDONLY) for device in self.loops]
        while not self.stop:
            for file in files:
                os.pread(file, 65536, rng.randrange(0, 1 << 20) // 4096 * 4096)
            time.sleep(0.001)
        for file in files:
            os.close(file)

    def folder_of(self, host):
        return self.folders[host % self.given.machines]

    # WHAT HOSTS DO

    def loop(self, host):
        rng = random.Random(self.random.random() + host)
        number, own, again = 0, {}, None
        while not self.stop:
            words = again
            if not words:
                number += 1
                words = lock_log.next_words(rng, host, number, own)
            start = time.monotonic()
            process = subprocess.Popen([self.given.program, "submit", self.folder_of(host), str(host), *words], stdout=subprocess.PIPE,
                                       stderr=subprocess.PIPE, text=True, env=self.given.env)
            killed = False
            if rng.random() * 100 < self.given.kill:
                try:
                    process.wait(rng.random() * self.typical * 1.2)
                except subprocess.TimeoutExpired:
                    process.kill()
                    killed = True
            out, err = process.communicate()
            with self.lock:
                self.spans.append(time.monotonic() - start)
                if len(self.spans) % 20 == 0:
                    self.typical = sorted(self.spans[-40:])[len(self.spans[-40:]) // 2]
                again = self.told(process.returncode, out, err, words, host, killed, rng)
                self.stop |= err.startswith("dlm: 9 ")

    def told(self, status, out, err, words, host, killed, rng):
        """What a process came to; the words that its host is to say again, if any."""
        found = re.fullmatch(r"ack (\d+) (.*)\n", out)
        if found:
            self.acks.append((int(found[1]), found[2], words, host))
            self.tells["acknowledged" + (", then killed" if status < 0 else "")] += 1
            return None
        self.others.append((host, words))
        if status == -9 and killed:
            self.tells["killed"] += 1
            return words if rng.random() < 0.5 else None
        found = re.fullmatch(r"dlm: (\d+ \w+)( .*)?\n", err)
        if found and status == 1 and not out and found[1] in ("6 Outrun", "9 LogFull"):
            self.tells[found[1]] += 1
            return None if found[1] == "9 LogFull" else words
        self.tells["other: " + (found[1] if found else err[:40])] += 1
        self.wrong.append(f"{words}: status {status}, {out!r}, {err!r}")
        return words

    def watched(self, work, *words):
        """A thread that fails is a failure of the round."""
        try:
            work(*words)
        except Exception as fault:
            self.wrong.append(f"{work.__name__}: {fault!r}")
            self.stop = True

    def run(self):
        threads = [threading.Thread(target=self.watched, args=[self.loop, host]) for host in self.numbers]
        if self.given.noise:
            threads.append(threading.Thread(target=self.watched, args=[self.noise]))
        for each in threads:
            each.start()
        deadline = time.monotonic() + self.given.seconds
        while any(each.is_alive() for each in threads):
            time.sleep(0.02)
            # On slow disks it may take longer until something is acknowledged.
            self.stop |= time.monotonic() > deadline + (0 if self.acks else 120)
        for each in threads:
            each.join()

    # WHAT STANDS THERE THEN

    def bytes_of(self, path):
        with open(path, "rb") as file:
            data = file.read()
        return of_shared_sectors(data) if self.given.in_a_sector > 1 else lock_log.as_layout_2(data)

    def read(self, name):
        folder = f"{self.work}/{name}"
        os.mkdir(folder)
        for disk, path in enumerate(self.backing):
            with open(f"{folder}/disk{disk}.img", "wb") as file:
                file.write(self.bytes_of(path)[:lock_log.length(self.given.slots)])
        log, wrong = lock_log.log_of(folder)
        self.wrong += [f"{name}: {each}" for each in wrong]
        return folder, log

    def table(self, program, folder, host):
        told = subprocess.run([program, "table", folder, str(host)], capture_output=True, text=True, env=self.given.env)
        return told.stdout if told.returncode == 0 else f"status {told.returncode}: {told.stderr}"

    def check(self):
        _, before = self.read("before")
        tables = [self.table(self.given.program, self.folder_of(host), host) for host in self.numbers]
        folder, log = self.read("after")
        if len(set(tables)) != 1:
            self.wrong.append("tables differ: " + repr(tables))
        if log[:len(before)] != before:
            self.wrong.append("what is read of the log has changed")
        spelled = [lock_log.words_of(command) for command in log]
        table = lock_log.Table()
        replies = [table.apply(host, words) for host, words in spelled]
        want = [f"recovered {len(log)}", *table.text()]
        got = [re.sub(r"^(\w+) [0-9a-f]{32}( invalid)?$", r"\1", line) for line in lock_log.sorted_below(tables[0].splitlines())]
        if got != want:
            self.wrong.append(f"table: {got}\nplain table: {want}")
        self.find_acknowledged(spelled, replies)
        if self.given.dlm:
            told = subprocess.run([self.given.dlm, "check", folder], capture_output=True, text=True)
            if told.stdout != "sound\n":
                self.wrong.append("dlm check: " + told.stdout[:300] + told.stderr[:100])
            if self.table(self.given.dlm, folder, 0) != tables[0]:
                self.wrong.append("dlm table of the copies differs")
        self.length = len(log)

    def find_acknowledged(self, spelled, replies):
        slots = collections.Counter(slot for slot, *_ in self.acks)
        self.twice = sum(1 for count in slots.values() if count > 1)
        if self.twice:
            self.wrong.append(f"{self.twice} slots were acknowledged more than once")
        for slot, reply, words, host in self.acks:
            if slot >= len(spelled) or spelled[slot] != (host, words):
                self.lost += 1
                if self.lost <= 2:
                    self.wrong.append(f"slot {slot} was acknowledged for {host} {words}, and has {spelled[slot] if slot < len(spelled) else None}")
            elif replies[slot] != reply:
                self.wrong.append(f"slot {slot}, {words}: replied {reply}, the plain table {replies[slot]}")
        if not self.acks:
            self.wrong.append("nothing was acknowledged")
        if self.lost:
            self.wrong.append(f"{self.lost} acknowledged commands are not where they were acknowledged")
        given = {(host, *words) for host, words in self.others} | {(ack[3], *ack[2]) for ack in self.acks}
        for slot, (host, words) in enumerate(spelled):
            if (host, *words) not in given:
                self.wrong.append(f"slot {slot} has {host} {words}, which nobody submitted")


def of_shared_sectors(data):
    """An image of layout 2 out of a device on which two hosts' blocks follow one another in each sector."""
    slots, sector, hosts = int.from_bytes(data[4:8], "big"), int.from_bytes(data[16:20], "big"), data[21]
    image = bytearray(lock_log.length(slots))
    image[:16] = data[:16]
    image[1] = 2
    for row in range(1 + slots):
        for host in range(hosts):
            at, begin = lock_log.ROW * (1 + row) + lock_log.BLOCK * host, 4096 + (row * hosts + host // 2 * 2) * sector + 1024 * (host % 2)
            image[at:at + lock_log.BLOCK] = data[begin:begin + lock_log.BLOCK]
    return bytes(image)


def read_words():
    words = argparse.ArgumentParser()
    words.add_argument("--program", default="")
    words.add_argument("--shared", default=f"{TOP}/capi/out/dlm-shared")
    words.add_argument("--kind", choices=["shared", "mount", "today"], default="shared")
    words.add_argument("--mount", default="")
    words.add_argument("--machines", type=int, default=4)
    words.add_argument("--hosts", type=int, default=4)
    words.add_argument("--hosts-of-device", type=int, default=16)
    words.add_argument("--disks", type=int, default=3)
    words.add_argument("--slots", type=int, default=200)
    words.add_argument("--seconds", type=float, default=20)
    words.add_argument("--rounds", type=int, default=1)
    words.add_argument("--kill", type=int, default=25)
    words.add_argument("--sector", type=int, default=4096)
    words.add_argument("--nodsync", action="store_true")
    words.add_argument("--direct", choices=["on", "off"], default="off")
    words.add_argument("--hold", action="store_true")
    words.add_argument("--noise", action="store_true")
    words.add_argument("--where", default="/dev/shm" if os.access("/dev/shm", os.W_OK) else tempfile.gettempdir())
    words.add_argument("--seed", type=int, default=random.randrange(1 << 30))
    words.add_argument("--dlm", default="")
    words.add_argument("--pages", action="store_true")
    words.add_argument("--in-a-sector", type=int, default=1)
    given = words.parse_args()
    given.program = given.program or (given.shared if given.kind == "shared" else lock_log.PROGRAM)
    given.env = dict(os.environ)
    return given


def main():
    given = read_words()
    signal.signal(signal.SIGTERM, lambda *_: sys.exit(1))
    total, spans = collections.Counter(), []
    bad = lost = twice = length = acks = 0
    for number in range(given.rounds):
        with tempfile.TemporaryDirectory(dir=given.where) as work:
            if given.pages:
                given.env |= {"LD_PRELOAD": lock_log.built_shim(work), "DLM_PAGES": "1"}
            one = Round(given, work, given.seed + number)
            try:
                one.set_up()
                one.run()
                one.check()
            finally:
                one.stop = True
                one.take_down()
        total += one.tells
        bad += bool(one.wrong)
        lost += one.lost
        twice += one.twice
        length += one.length
        acks += len(one.acks)
        spans += one.spans
        for each in one.wrong[:5]:
            print("  " + each[:300], flush=True)
    ends = ", ".join(f"{count} {name}" for name, count in sorted(total.items()))
    spans.sort()
    ways = "".join(f", {way}" for way in ("hold", "noise", "nodsync", "pages") if getattr(given, way))
    print(f"{given.kind}, {given.rounds} rounds, seed {given.seed}, {given.hosts} hosts on {given.machines} machines, {given.disks} disks, sectors of {given.sector}{ways}:"
          f" {sum(total.values())} processes: {ends}; {length} slots; {acks} acknowledged, {lost} of them lost, {twice} slots twice; {bad} rounds wrong;"
          f" a process took {spans[len(spans) // 2] * 1000:.1f} ms by the median")
    return 1 if bad else 0


if __name__ == "__main__":
    sys.exit(main())
