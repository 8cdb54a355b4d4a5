"""What stands in a folder of images, read without the program: the log slot by slot, and what a plain lock table makes of it.

For at_once.py, power_loss.py, machines.py and sector_loss.py. docs/FORMAT.md has the bytes, crates/lock_table/specs/Apply.antt the table."""

import os
import shutil
import struct
import subprocess
import sys

TOP = os.path.dirname(os.path.dirname(os.path.abspath(__file__)))
PROGRAM = os.path.join(TOP, "crates/dlm/out/dlm")

MODES = ["NL", "CR", "CW", "PR", "PW", "EX"]
CONFLICTS = {("CR", "EX"), ("CW", "PR"), ("CW", "PW"), ("CW", "EX"), ("PR", "PW"), ("PR", "EX"),
             ("PW", "PW"), ("PW", "EX"), ("EX", "EX")}
KINDS = {1: "enqueue", 2: "convert", 3: "release", 4: "cancel", 5: "status", 6: "purge", 10: "forget"}


# WHAT THE TESTS NEED

def see_that_it_is_built(program):
    """The wrapper builds the program, if it has to."""
    if program == PROGRAM:
        subprocess.run([os.path.join(TOP, "dlm"), "run", "/dev/null"], stdout=subprocess.DEVNULL, stderr=subprocess.DEVNULL)
    if not os.access(program, os.X_OK):
        sys.exit("dlm is not built")


def built_shim(folder):
    """Builds tests/shim/calls.c in this folder and gives its path, or None where there is no C compiler."""
    if not shutil.which("cc"):
        return None
    shim = os.path.join(folder, "calls.so")
    subprocess.run(["cc", "-O2", "-shared", "-fPIC", "-o", shim, os.path.join(TOP, "tests/shim/calls.c"), "-ldl"], check=True)
    return shim


def next_words(rng, loop, number, own):
    """What a loop of submissions submits next: by two client numbers of its own, on three shared names. `own` has its locks, with their clients."""
    client = loop * 2 + rng.randrange(2)
    if own and rng.random() < 0.45:
        lock = rng.choice(sorted(own))
        word = rng.choice(["release", "release", "release", "cancel", "status", "convert"])
        words = [word, str(client if word == "status" else own[lock]), str(number), str(lock)]
        if word == "convert":
            words.append(rng.choice(MODES))
        if word == "release":
            del own[lock]
        return words
    lock = loop * 1000 + number
    own[lock] = client
    return ["enqueue", str(client), str(number), str(lock), rng.choice(MODES), rng.choice(["db", "log", "x"])]


# THE BYTES

HOSTS = 16
COPY = 128
BLOCK = 2 * COPY
ROW = HOSTS * BLOCK
ROWS = 2 * ROW
COMMAND = 48


def length(slots):
    """How long an image is."""
    return ROWS + ROW * slots


def header(data):
    """Disk, disks, slots and cluster number of an image, or None. A block device may be longer than its image."""
    if len(data) < 1024 or data[0] != 0xA5 or data[1] != 2:
        return None
    return data[2], data[3], int.from_bytes(data[4:8], "big"), int.from_bytes(data[8:16], "big")


def as_layout_2(data):
    """An image of layout 2 out of the bytes of a device whose blocks have sectors of their own (version 3 of docs/FORMAT.md). Other bytes stay."""
    if len(data) < 4096 or data[0] != 0xA5 or data[1] != 3:
        return bytes(data)
    slots, sector, hosts = int.from_bytes(data[4:8], "big"), int.from_bytes(data[16:20], "big"), data[21]
    image = bytearray(length(slots))
    image[:16] = data[:16]
    image[1] = 2
    for row in range(1 + slots):
        for host in range(hosts):
            at = ROW * (1 + row) + BLOCK * host
            begin = 4096 + (row * hosts + host) * sector
            image[at:at + BLOCK] = data[begin:begin + BLOCK]
    return bytes(image)


def open_copies(block):
    """Of each open copy of a block: sequence number, flag, mbal, bal, input, bytes 1 to 7, and what stands after the input."""
    found = []
    for copy in (block[:COPY], block[COPY:]):
        if copy[0] == 0xA5:
            sequence, mbal, bal = struct.unpack(">QQQ", copy[8:32])
            found.append((sequence, copy[2], mbal, bal, copy[32:32 + COMMAND], copy[1:8], copy[32 + COMMAND:]))
    return found


def is_sound(copy, host):
    sequence, flag, mbal, bal, given, head, rest = copy
    right = head[0] == 2 and flag in (0, 1) and head[2] <= flag and head[3:] == bytes(4) and sequence >= 1 and not any(rest)
    right = right and mbal >= 1 and (mbal - 1) % HOSTS == host
    if flag:
        return right and 1 <= bal <= mbal and (bal - 1) % HOSTS == host
    return right and bal == 0 and not any(given)


def current(block):
    copies = open_copies(block)
    return max(copies, default=None, key=lambda copy: copy[0])


def images_of(folder):
    """The bytes of the images with a right header."""
    images = []
    for disk in range(7):
        path = os.path.join(folder, f"disk{disk}.img")
        if os.path.exists(path):
            with open(path, "rb") as file:
                data = file.read()
            if header(data):
                images.append(data)
    return images


def log_of(folder):
    """The commands slot by slot, each the vote of the greatest ballot, up to the first slot without a vote; and what is wrong."""
    images = images_of(folder)
    slots = header(images[0])[2]
    log, wrong, ended = [], [], False
    for slot in range(slots):
        best = (0, None)
        for disk, data in enumerate(images):
            for host in range(HOSTS):
                at = ROWS + ROW * slot + BLOCK * host
                block = data[at:at + BLOCK]
                copies = open_copies(block)
                if len(copies) == 2 and copies[0][0] == copies[1][0]:
                    wrong.append(f"disk {disk} slot {slot} host {host}: two copies of one number")
                wrong += [f"disk {disk} slot {slot} host {host}: not sound: {copy}" for copy in copies if not is_sound(copy, host)]
                copy = current(block)
                if copy and copy[1]:
                    if copy[3] == best[0] and best[1] != copy[4]:
                        wrong.append(f"slot {slot}: two values of ballot {copy[3]}")
                    if copy[3] > best[0]:
                        best = (copy[3], copy[4])
        if best[1] is None:
            ended = True
        elif ended:
            wrong.append(f"slot {slot} has a vote, and one before it has none")
        else:
            log.append(best[1])
    return log, wrong


def words_of(command):
    """Host and words of a command, as `dlm submit` takes them; of bytes that spell no command, host 255 and these bytes."""
    kind, host, client, mode, no_queue, length = command[:6]
    lock, request, gone = int.from_bytes(command[6:8], "big"), int.from_bytes(command[8:16], "big"), command[16]
    if kind not in KINDS or mode >= len(MODES) or not command[17:17 + length].isascii() or any(command[32:]):
        return 255, [command.hex()]
    words = [KINDS[kind], str(client), str(request), str(gone if kind in (6, 10) else lock)]
    if kind in (1, 2):
        words.append(MODES[mode])
    if kind == 1:
        words.append(command[17:17 + length].decode())
    if kind in (1, 2) and no_queue:
        words.append("noqueue")
    return host, words


# THE TABLE

def conflict(a, b):
    return (a, b) in CONFLICTS or (b, a) in CONFLICTS


class Table:
    """The locks as a list of [lock, client, host, name, held, wanted], and each client's last request and reply."""

    def __init__(self):
        self.locks = []
        self.clients = {}

    def find(self, lock):
        return next((r for r in self.locks if r[0] == lock), None)

    def admits(self, lock, name, mode):
        return not any(r[3] == name and r[0] != lock and r[4] and conflict(r[4], mode) for r in self.locks)

    def put(self, r):
        self.locks = [x for x in self.locks if x[0] != r[0]] + [r]

    def settle(self, name):
        queue = [r for r in self.locks if r[3] == name and r[4] and r[5]]
        queue += [r for r in self.locks if r[3] == name and not r[4]]
        for r in queue:
            if not self.admits(r[0], name, r[5]):
                return
            self.put([*r[:4], r[5], None])

    def apply(self, host, words):
        client, request = int(words[1]), int(words[2])
        if client in self.clients:
            last, reply = self.clients[client]
            if request < last:
                return "18 Stale"
            if request == last:
                return reply
        elif len(self.clients) >= 32:
            return "19 ClientsFull"
        reply = self.carry_out(host, client, words)
        self.clients[client] = (request, reply)
        if reply == "Forgotten":
            self.clients.pop(int(words[3]), None)
        return reply

    def carry_out(self, host, client, words):
        kind, lock = words[0], int(words[3])
        no_queue = words[-1] == "noqueue"
        if kind == "purge":
            gone = [r for r in self.locks if r[2] == lock]
            self.locks = [r for r in self.locks if r[2] != lock]
            for r in gone:
                self.settle(r[3])
            return f"Purged({len(gone)})"
        if kind == "forget":
            return "11 LockInUse" if any(r[1] == lock for r in self.locks) else "Forgotten"
        r = self.find(lock)
        if kind == "enqueue":
            mode, name = words[4], words[5]
            if r:
                return "11 LockInUse"
            if len(self.locks) >= 256:
                return "17 TableFull"
            queued = any(x[3] == name and x[5] for x in self.locks)
            if not queued and self.admits(lock, name, mode):
                self.put([lock, client, host, name, mode, None])
                return "Granted"
            if no_queue:
                return "16 NotQueued"
            self.put([lock, client, host, name, None, mode])
            return "Queued"
        if not r:
            return "12 NoSuchLock"
        if kind == "status":
            return f"State(held={r[4] or '-'}, wanted={r[5] or '-'})"
        if r[1] != client:
            return "13 NotOwner"
        if kind == "release":
            self.locks = [x for x in self.locks if x[0] != lock]
            self.settle(r[3])
            return "Released"
        if kind == "cancel":
            if r[4] and not r[5]:
                return "20 NothingToCancel"
            if r[4]:
                self.put([*r[:4], r[4], None])
            else:
                self.locks = [x for x in self.locks if x[0] != lock]
            self.settle(r[3])
            return "Cancelled"
        if not r[4]:
            return "15 StillWaiting"
        if r[5]:
            return "14 AlreadyConverting"
        mode = words[4]
        if self.admits(lock, r[3], mode):
            self.put([*r[:4], mode, None])
            self.settle(r[3])
            return "Granted"
        if no_queue:
            return "16 NotQueued"
        self.put([*r[:4], r[4], mode])
        return "Queued"

    def text(self):
        """The lines that `dlm table` prints, but for the order of the lines below a name, which is sorted."""
        names = sorted({r[3] for r in self.locks})
        lines = []
        for name in names:
            lines.append(name)
            below = []
            for lock, client, host, _, held, wanted in (r for r in self.locks if r[3] == name):
                if held and wanted:
                    below.append(f"  converting {lock} {client} {host} {held} {wanted}")
                elif held:
                    below.append(f"  granted {lock} {client} {host} {held}")
                else:
                    below.append(f"  waiting {lock} {client} {host} {wanted}")
            lines += sorted(below)
        return lines or ["empty"]


def sorted_below(lines):
    """A printed table with the lines below each name sorted, to compare it with `Table.text`."""
    out, below = [], []
    for line in [*lines, ""]:
        if line.startswith("  "):
            below.append(line)
        else:
            out += sorted(below) + [line]
            below = []
    return out[:-1]
