"""What stands in a folder of a log without an end, read without the program: epoch by epoch and slot by slot, and what a plain lock table makes of it.

For endless.py and endless_long.py. docs/FORMAT.md has the bytes of these images. Blocks, commands and the table are those of lock_log.py."""

import os

import lock_log
from lock_log import BLOCK, COPY, MODES, ROW, ROWS

# An epoch has so many slots at least.
FEWEST = 320


# PLACES

def length(slots):
    """How long an image is: two areas, and the two rows of standings between them."""
    return 2 * lock_log.length(slots) + ROW


def base(slots, area):
    """Where an area begins, as an image of its own."""
    return area * (lock_log.length(slots) + ROW)


def heartbeat_place(slots, area, host):
    return base(slots, area) + ROW + BLOCK * host


def slot_place(slots, area, slot, host):
    return base(slots, area) + ROWS + ROW * slot + BLOCK * host


def standing_place(slots, area, host):
    return lock_log.length(slots) + ROW * area + BLOCK * host


# IMAGES

def header(disk, disks, slots, cluster):
    return bytes([0xA5, 4, disk, disks]) + slots.to_bytes(4, "big") + cluster.to_bytes(8, "big")


def image(disk, disks, slots, cluster):
    """An image as a format leaves it."""
    return header(disk, disks, slots, cluster).ljust(length(slots), b"\0")


def make(folder, disks, slots, cluster=7):
    """A folder of new images. Unlike those of a format they may be of any length of an epoch."""
    os.mkdir(folder)
    for disk in range(disks):
        with open(f"{folder}/disk{disk}.img", "wb") as file:
            file.write(header(disk, disks, slots, cluster))
            file.truncate(length(slots))


def images_of(folder):
    """The bytes of the images of a log without an end that are there, by disk."""
    images = {}
    for disk in range(7):
        path = os.path.join(folder, f"disk{disk}.img")
        if os.path.exists(path):
            with open(path, "rb") as file:
                data = file.read()
            if data[:2] == b"\xa5\4" and len(data) == length(slots_of(data)):
                images[disk] = data
    return images


def of_device(data):
    """The image that a device shows whose blocks have sectors of their own (version 5 of docs/FORMAT.md)."""
    slots, sector, hosts = slots_of(data), int.from_bytes(data[16:20], "big"), data[21]
    shown = bytearray(length(slots))
    shown[:16] = data[:16]
    shown[1] = 4
    for row in range(1, length(slots) // ROW):
        for host in range(hosts):
            at, begin = ROW * row + BLOCK * host, 4096 + ((row - 1) * hosts + host) * sector
            shown[at:at + BLOCK] = data[begin:begin + BLOCK]
    return bytes(shown)


def slots_of(data):
    return int.from_bytes(data[4:8], "big")


# EPOCHS

def counter(block):
    """The number that a block of standings says."""
    copy = lock_log.current(block)
    return copy[0] if copy else 0


def numbers(data, area):
    """By host, its number in an area of an image."""
    first = standing_place(slots_of(data), area, 0)
    return [counter(data[at:at + BLOCK]) for at in range(first, first + ROW, BLOCK)]


def epoch_of(area, number):
    """The epoch to which a number of an area belongs; an odd one belongs to the epoch that has the next one. Number 0 of the second area belongs to none."""
    even = number + number % 2
    return even - area if area <= even else None


def newest(data):
    """The newest epoch to which a number on an image belongs."""
    return max(epoch_of(area, number) or 0 for area in (0, 1) for number in numbers(data, area))


def inside(data, epoch):
    """The hosts that are in this epoch on an image."""
    return [host for host, number in enumerate(numbers(data, epoch % 2)) if number == epoch + epoch % 2]


def log_of(images, epoch):
    """The commands of an epoch, each the vote of the greatest ballot, up to the first slot without a vote; and what is wrong."""
    slots = slots_of(next(iter(images.values())))
    hosts = {disk: inside(data, epoch) for disk, data in images.items()}
    log, wrong, ended = [], [], False
    for slot in range(slots):
        best, row = (0, None), slot_place(slots, epoch % 2, slot, 0)
        for disk, data in images.items():
            for host in hosts[disk]:
                at = row + BLOCK * host
                if data[at] == 0xA5 or data[at + COPY] == 0xA5:
                    vote = vote_of(data[at:at + BLOCK], host, f"disk {disk} epoch {epoch} slot {slot} host {host}", wrong)
                    best = vote if vote[0] > best[0] else best
        if best[1] is None:
            ended = True
        elif ended:
            wrong.append(f"epoch {epoch}: slot {slot} has a vote, and one before it has none")
        else:
            log.append(best[1])
    return log, wrong


def vote_of(block, host, what, wrong):
    """The ballot and the input of a block's vote, or ballot 0."""
    copies = lock_log.open_copies(block)
    if len(copies) == 2 and copies[0][0] == copies[1][0]:
        wrong.append(f"{what}: two copies of one number")
    wrong += [f"{what}: not sound: {copy}" for copy in copies if not lock_log.is_sound(copy, host)]
    copy = lock_log.current(block)
    return (copy[3], copy[4]) if copy and copy[1] else (0, None)


# WHAT CARRIES A TABLE OVER

REFUSALS = {int(text.split()[0]): text for text in ("11 LockInUse", "12 NoSuchLock", "13 NotOwner", "14 AlreadyConverting", "15 StillWaiting", "16 NotQueued",
                                                    "17 TableFull", "20 NothingToCancel")}
ANSWERS = {8: "Granted", 9: "Queued", 10: "Released", 21: "Cancelled", 23: "Forgotten", **REFUSALS}


def modes_of(state, mode):
    """What is held and what is wanted: 0 is granted, 1 waits, and from 2 on it converts."""
    return {0: (mode, None), 1: (None, mode)}.get(state) or (mode, MODES[state - 2])


def carried(command):
    """The lock or the client that a command carries over: as the plain table has it. None of any other command, and of one with a value but zeros."""
    kind, host, client, mode, flags, size = command[:6]
    number, request, state = int.from_bytes(command[6:8], "big"), int.from_bytes(command[8:16], "big"), command[16]
    # A lock has a value, and so has the reply to whoever was granted one or holds it.
    has_value = kind == 8 or state in (0, 2, 3, 4, 5, 6, 7, 8)
    if kind not in (8, 9) or flags != (2 if has_value else 0) or any(command[32:]):
        return None
    if kind == 8:
        return ("lock", number, client, host, command[17:17 + size].decode(), *modes_of(state, MODES[mode]))
    if state < 8:
        held, wanted = modes_of(state, MODES[mode])
        return "client", client, request, f"State(held={held or '-'}, wanted={wanted or '-'})"
    return "client", client, request, f"Purged({number})" if state == 22 else ANSWERS.get(state)


def carries(table):
    """What carries a plain table over: its locks, and then its clients."""
    locks = [("lock", *each) for each in table.locks]
    return locks + [("client", client, *last) for client, last in table.clients.items()]


def carrying(told):
    """The bytes of the command that carries this lock over, or this client, who was granted a lock or was told that one is granted."""
    if told[0] == "lock":
        _, lock, client, host, name, held, wanted = told
        state = 0 if not wanted else 2 + MODES.index(wanted) if held else 1
        head = bytes([8, host, client, MODES.index(held or wanted), 2, len(name)]) + lock.to_bytes(2, "big") + (1).to_bytes(8, "big")
        return (head + bytes([state]) + name.encode()).ljust(48, b"\0")
    _, client, request, reply = told
    held = reply.removeprefix("State(held=").removesuffix(", wanted=-)")
    mode, answer = (0, 8) if reply == "Granted" else (MODES.index(held), 0)
    head = bytes([9, 0, client, mode, 2, 0, 0, 0]) + request.to_bytes(8, "big")
    return (head + bytes([answer])).ljust(48, b"\0")


# THE ONE LOG

class Log:
    """What was read of a folder so far, by place. A plain table goes along, and says the reply at each place."""

    def __init__(self, slots):
        self.slots = slots
        self.commands = {}      # by place
        self.table = lock_log.Table()
        self.replies = {}       # by place of a client's command: host, words, reply
        self.upto = 0           # the table is the one after all places below this one
        self.due = []           # what the first slots of the epoch still have to carry over
        self.most_carried = 0

    def read(self, folder, length):
        """Reads the last two epochs, up to the length that a recovery told, while no process works on the folder. What is wrong is the result."""
        images = images_of(folder)
        last, wrong = max(newest(data) for data in images.values()), []
        for epoch in range(max(0, last - 1), last + 1):
            log, bad = log_of(images, epoch)
            wrong += bad
            if len(log) < min(self.slots, length - epoch * self.slots):
                wrong.append(f"epoch {epoch} has {len(log)} commands, of {length} in all")
            for place, command in enumerate(log, epoch * self.slots):
                if place < length and self.commands.setdefault(place, command) != command:
                    wrong.append(f"place {place} was {self.commands[place].hex()}, and is {command.hex()}")
        wrong += self.go_on()
        if self.upto != length:
            wrong.append(f"places from {self.upto} on were not read, and {length} are recovered")
        return wrong

    def go_on(self):
        """The table goes along over what was read. What is wrong is the result."""
        wrong = []
        while self.upto in self.commands:
            place, command = self.upto, self.commands[self.upto]
            if place and place % self.slots == 0:
                self.due = carries(self.table)
                self.most_carried = max(self.most_carried, len(self.due))
            if self.due:
                wrong += self.carry(place, command)
            else:
                host, words = lock_log.words_of(command)
                if host == 255:
                    wrong.append(f"place {place}: {command.hex()} is nothing for which a client may ask")
                else:
                    self.replies[place] = host, words, self.table.apply(host, words)
            self.upto += 1
        return wrong

    def carry(self, place, command):
        """One of those that are due stands there, each lock before each client."""
        told = carried(command)
        if told in self.due and told[0] == self.due[0][0]:
            self.due.remove(told)
            return []
        return [f"place {place}: {command.hex()} is {told}, and due are {self.due}"]
