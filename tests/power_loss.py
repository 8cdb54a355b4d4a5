#!/usr/bin/env python3
"""Losses of power: `dlm submit` runs over images in memory, with tests/shim/calls.c before the C library, which writes down each
write, each sync and each printed line, in the order in which they took effect. From that record the images are built as a loss
of power may leave them, at every place of it: what was synced stands, and of each write that no sync followed any bytes may be
there: the old ones, the new ones, a part of them, a mixture, zeros, ones or nonsense. Each such state is looked at: an acknowledged
command has to be what every majority of the disks says of its slot, by its greatest vote, and no open copy may be broken (read
without the program); of some states `dlm table` is asked too, over the disks of a majority. The walk then goes on from one of the
states, so that losses come upon losses.

    power_loss.py [--steps N] [--hosts N] [--disks N] [--slots N] [--states N] [--tables N] [--seed N] [--program PATH]
                  [--forget WHAT] [--format] [--migrate] [--renew] [--endless]

In each step so many hosts submit at once (none given: one to four), some of which end in the midst. `--format` begins with losses
within `dlm format`: no state shows a log before all images are whole, and the same words finish it, or make the images once these are
removed. With the program of capi/tests/as_dlm.c that is `mg_format`. `--migrate` begins with losses within `dlm migrate` over three disks. There a run may also be ended, and another one follows, as
after a loss; power is lost within that one too. In each state no command opens less than the whole log; a further run finishes, or moves
the log anew, at the latest once the new images are removed; and once a run has told that it moved the log or finished, all images are
complete and open.

`--renew` does so within `dlm renew`, onto three disks, and within `dlm fill`. There the old folder has its table in each state. The new one has
this table, or reads as none.

`--endless` does so within a submission that begins an epoch of a log without an end, and within the next one after a loss. In each state `dlm table` over some majority
shows the table with that command, or without it where it was not acknowledged; and the same words again get its reply. With `--format` that is of such a log, too.

`--forget body` does not count the syncs after a write of a body, and likewise `closed`, `opened` and `opening`, by what was written
before, and `folder` those of a folder: so the test is seen to fail, but for `opening`. Over a migration and a renewal `opened` is seen, `body` and
`folder`. It needs `cc`, and does nothing without."""

import argparse
import collections
import copy
import itertools
import os
import random
import re
import shutil
import struct
import subprocess
import sys
import tempfile

import endless
import endless_log
import lock_log
import migrate

# What is told of a folder whose images are not all there or not all open.
NO_SET = re.compile(r"dlm: (7 NoMajority|2[456] \w+ disk\d)\n")

# The shim adds this to the numbers of the images of the old folder.
OLD = 10

ALREADY_THERE = "dlm: 29 AlreadyThere\n"


def old_images(slots, commands):
    """The images of the first layout: each command was acknowledged through a host of its own, over two of the three disks."""
    images = {}
    for disk in range(3):
        data = bytearray(migrate.old_image(disk, 3, slots, 7, []))
        for slot, command in enumerate(commands):
            if slot % 3 != disk:
                at = 2048 + 1024 * slot + 128 * slot
                data[at:at + 128] = migrate.old_block(command, slot)
        images[OLD + disk] = data
    return images


class Migration:
    """A log of the first layout that is moved, over three disks."""

    kind = "migrate"
    share = 0.1
    finished = "finished 3 disks\n"

    def __init__(self):
        commands, slots = migrate.commands_of(4), 6
        self.old = old_images(slots, commands)
        self.new = {disk: migrate.new_image(disk, 3, slots, commands) for disk in range(3)}
        self.made = f"migrated {len(commands)} commands, 3 disks, {slots} slots\n"
        self.shown = migrate.table_of(len(commands))
        self.slots = slots

    def words(self, old, new):
        return ["migrate", old, new, str(self.slots)]

    def further(self, whole):
        """The status of a further run and what it prints, with these images complete."""
        return 0, self.finished if whole else self.made


class Renewal:
    """A full log whose table is carried over, from three disks onto three. Two of its slots have no mark: its recovery writes."""

    kind = "renew"
    share = 0.03
    finished = "finished 3 disks\n"
    slots = 6

    def __init__(self, walk):
        old, new = walk.put_anew("old", {}), walk.put_anew("new", {})
        commands = ["enqueue 1 1 1 EX db", "enqueue 2 1 2 PR db", "convert 1 2 1 PW value 00112233445566778899aabbccddeeff", "enqueue 1 3 3 CR a"]
        walk.run(["format", old, "3", str(self.slots), "7"])
        for host, command in enumerate(commands):
            walk.run(["submit", old, str(host), *command.split()])
        self.not_full = images_of(old, OLD)
        walk.run(["fill", old, "1"])
        self.old = images_of(old, OLD)
        self.shown_before = walk.run(["table", walk.put_anew("apart", numbered_from(OLD, self.old)), "9"]).stdout
        self.made = walk.run(self.words(old, new)).stdout
        self.new = images_of(new, 0)
        self.shown = walk.run(["table", new, "9"]).stdout
        lines = [shown.split("\n", 1) for shown in (self.shown_before, self.shown)]
        if lines != [[f"recovered {self.slots}", lines[1][1]], ["recovered 5", lines[1][1]]] or self.made != "renewed 5 commands, 3 disks, 6 slots\n":
            walk.wrong.append(f"a renewal: {self.made!r} {lines}")

    def words(self, old, new):
        return ["renew", old, "1", new, "3", str(self.slots), "8"]

    def further(self, whole):
        if len(whole) == len(self.new):
            return 1, ALREADY_THERE
        return 0, self.finished if whole else self.made


class Epoch:
    """The submission that begins epoch 3, through a host that was in epoch 1: it has a number and blocks there that it has to clear."""

    share = 0.05
    words = ["3", "enqueue", "2", "1", "2", "EX", "db"]

    def __init__(self, work):
        folder = os.path.join(work, "full")
        plain = endless.put_alone(folder, 2, endless.SLOTS)
        for disk in range(3):
            path = f"{folder}/disk{disk}.img"
            endless.put_bytes(path, endless_log.standing_place(endless.SLOTS, 1, 3), endless.copy_of(2))
            for slot in (1, 2, 3, 200):
                endless.put_bytes(path, endless_log.slot_place(endless.SLOTS, 1, slot, 3), endless.vote(endless.spelled(3, "status 9 1 9"), 4))
        self.images = images_of(folder, 0)
        self.before = plain.table.text()
        self.reply = plain.reply(3, " ".join(self.words[1:])).split(" ", 2)[2]
        self.after = plain.table.text()


def images_of(folder, first):
    """The images of a folder, numbered from this number on."""
    return {first + disk: bytearray(migrate.bytes_of(f"{folder}/disk{disk}.img")) for disk in range(7) if os.path.exists(f"{folder}/disk{disk}.img")}


def numbered_from(first, images):
    """Those of a folder whose images have numbers from this one on, by the numbers that they have there."""
    return {image - first: data for image, data in images.items() if first <= image < first + 7}


def records(path):
    """What is written down: kind, image, process, place, bytes."""
    found = []
    if os.path.exists(path):
        with open(path, "rb") as file:
            data = file.read()
        at = 0
        while at < len(data):
            kind, image = chr(data[at]), data[at + 1]
            process, place, length = struct.unpack_from("<IQI", data, at + 2)
            found.append((kind, image, process, place, data[at + 18:at + 18 + length]))
            at += 18 + length
    return found


rows_seen = {}


def said(row):
    """The greatest vote of a row, and what is broken in it."""
    found = rows_seen.get(row)
    if found is None:
        best, broken = (0, None), []
        for host in range(lock_log.HOSTS):
            block = row[lock_log.BLOCK * host:lock_log.BLOCK * (host + 1)]
            copies = lock_log.open_copies(block)
            if len(copies) == 2 and copies[0][0] == copies[1][0]:
                broken.append(f"host {host}: two copies of one number")
            broken += [f"host {host}: {copy}" for copy in copies if not lock_log.is_sound(copy, host)]
            copy = lock_log.current(block)
            if copy and copy[1] and copy[3] > best[0]:
                best = (copy[3], copy[4])
        found = best, broken
        if len(rows_seen) > 50000:
            rows_seen.clear()
        rows_seen[row] = found
    return found


def written(data, writes):
    """These bytes after these writes, as many as they are then."""
    data = bytearray(data)
    for at, given in writes:
        put(data, at, given)
    return data


def put(data, at, given):
    """A write, which may make it longer, or a cut (of None)."""
    if given is None:
        del data[at:]
    else:
        data += bytes(max(0, at + len(given) - len(data)))
        data[at:at + len(given)] = given


class Storage:
    """Images by number: the bytes that last, the writes that no sync followed, the images that are there, and those whose names last."""

    def __init__(self, images):
        self.lasting = collections.defaultdict(bytearray, images)
        self.waiting = collections.defaultdict(list)
        self.there, self.named = set(images), set(images)

    def take(self, record, forgets):
        """What a call does. `forgets` says whether a sync is not counted, by what was written before it."""
        kind, image, _, at, given = record
        if kind == "C":
            self.there.add(image)
        elif kind in "WT":
            self.waiting[image].append((at, given if kind == "W" else None))
        elif kind == "S" and self.waiting[image] and not forgets(self.waiting[image][-1][1], image):
            self.lasting[image] = written(self.lasting[image], self.waiting.pop(image))
        elif kind == "N" and not forgets(None, image):
            self.named |= {each for each in self.there if (each < OLD) == (image < OLD)}

    def now(self):
        """The images as a process finds them."""
        return {image: written(self.lasting[image], self.waiting[image]) for image in self.there}

    def removed(self, image):
        """This image is gone, and so is its name."""
        self.there.discard(image)
        self.named.discard(image)
        self.lasting.pop(image, None)
        self.waiting.pop(image, None)


class Walk:
    def __init__(self, given, work, shim):
        self.given, self.work, self.shim = given, work, shim
        self.random = random.Random(given.seed)
        self.folder = os.path.join(work, "folder")
        self.counts = collections.Counter()
        self.wrong = []
        self.number = 0
        self.task = None
        self.fresh()

    def fresh(self):
        shutil.rmtree(self.folder, ignore_errors=True)
        os.mkdir(self.folder)
        self.run(["format", self.folder, str(self.given.disks), str(self.given.slots), "7"])
        self.acks = {}
        self.images = [self.bytes_of(disk) for disk in range(self.given.disks)]

    def run(self, words):
        return subprocess.run([self.given.program, *words], capture_output=True, text=True)

    def bytes_of(self, disk):
        with open(f"{self.folder}/disk{disk}.img", "rb") as file:
            return bytearray(file.read())

    def put(self, images, folder=None, only=None):
        folder = folder or self.folder
        for disk, data in enumerate(images):
            if only is None or disk in only:
                with open(f"{folder}/disk{disk}.img", "wb") as file:
                    file.write(data)

    def step(self):
        """Some hosts submit at once; then power is lost somewhere in that."""
        log = os.path.join(self.work, "log")
        if os.path.exists(log):
            os.remove(log)
        started, full = {}, False
        for batch in range(self.random.choice([1, 1, 2, 3])):
            full |= self.at_once(log, started)
        self.replay(records(log), started)
        if full or len(self.acks) > self.given.slots * 2 // 3:
            self.fresh()

    def at_once(self, log, started):
        """Some hosts submit at once, and some of their processes end in the midst. Tells whether the log is full."""
        hosts = self.random.sample(range(lock_log.HOSTS), self.given.hosts or self.random.choice([1, 1, 2, 3, 4]))
        env = {**os.environ, "LD_PRELOAD": self.shim, "DLM_LOG": log, "DLM_STOP": self.random.choice(["0", "0", "5", "20"]),
               "DLM_PAUSE": "30,200" if len(hosts) > 1 else "0,0"}
        processes, full = [], False
        for host in hosts:
            self.number += 1
            words = ["enqueue", str(host * 2 + self.random.randrange(2)), str(self.number), str(self.number % 60000 + 1), "NL", "db"]
            process = subprocess.Popen([self.given.program, "submit", self.folder, str(host), *words],
                                       stdout=subprocess.PIPE, stderr=subprocess.PIPE, text=True, env=env)
            processes.append((process, words))
            started[process.pid] = (host, words)
        for process, words in processes:
            out, err = process.communicate()
            self.counts["processes"] += 1
            if process.returncode == 0:
                self.counts["acknowledged"] += 1
            elif process.returncode == 137:
                self.counts["ended in the midst"] += 1
            elif re.fullmatch(r"dlm: (6 Outrun|7 NoMajority)\n", err):
                self.counts[err[5:-1]] += 1
            elif err == "dlm: 9 LogFull\n":
                full = True
            else:
                self.wrong.append(f"{words}: {process.returncode} {out!r} {err!r}")
        return full

    def replay(self, found, started):
        """Goes through the record, and at each place looks at states that a loss of power may leave."""
        durable = [bytearray(image) for image in self.images]
        pending = [[] for _ in durable]
        acks, printed = dict(self.acks), collections.defaultdict(str)
        last = {}
        stop = self.random.randrange(len(found) + 1) if found else 0
        chosen = None
        for place in range(len(found) + 1):
            states = self.states(durable, pending, self.given.states)
            for state in states:
                self.look(state, acks)
            if self.random.randrange(max(1, len(found))) < self.given.tables:
                self.ask(self.random.choice(states), acks)
            if place == stop:
                chosen = (self.random.choice(states), dict(acks))
            if place == len(found):
                break
            kind, image, process, at, given = found[place]
            if kind == "W" and given:
                pending[image].append((at, given))
                last[process, image] = given
            elif kind == "S":
                if not self.forgets(last.pop((process, image), b"")):
                    for where, bytes_ in pending[image]:
                        durable[image][where:where + len(bytes_)] = bytes_
                    pending[image] = []
            elif kind == "P":
                printed[process] += given.decode()
                ended = re.fullmatch(r"ack (\d+) (\w+)\n", printed[process])
                if ended:
                    slot, (host, words) = int(ended[1]), started[process]
                    if slot in acks:
                        self.wrong.append(f"slot {slot} acknowledged twice")
                    acks[slot] = (host, words)
        self.counts["losses"] += 1
        self.images, self.acks = chosen
        self.counts["acknowledged before a loss"] += len(self.acks)
        self.put(self.images)
        self.ask(self.images, self.acks)

    def forgets(self, last, image=0):
        """Whether a sync after this write is left out; that of a folder comes after none."""
        if last is None:
            name = "folder"
        elif len(last) == 1:
            name = "opened" if last == b"\xa5" else "closed"
        else:
            name = "body" if last else "opening"
        return self.given.forget == name

    def states(self, durable, pending, count):
        """What a loss of power may leave: nothing of the writes that were not synced, all, and others."""
        waiting = [(image, at, given) for image, writes in enumerate(pending) for at, given in writes]
        ways = ["old", "new"] + [None] * count if waiting else ["old"]
        found = []
        for way in ways:
            state = [bytearray(image) for image in durable]
            for image, at, given in waiting:
                how = way or self.random.choice(["old", "new", "front", "back", "mixed", "words", "zeros", "ones", "nonsense", "gate"])
                old = bytes(state[image][at:at + len(given)])
                state[image][at:at + len(given)] = self.left(how, old, given)
            found.append(state)
        self.counts["states"] += len(found)
        return found

    def left(self, how, old, new):
        n = len(new)
        cut = self.random.randrange(n + 1)
        if how == "old":
            return old
        if how == "new":
            return new
        if how == "front":
            return new[:cut] + old[cut:]
        if how == "back":
            return old[:cut] + new[cut:]
        if how == "mixed":
            return bytes(self.random.choice(pair) for pair in zip(old, new))
        if how == "words":
            picks = [self.random.randrange(2) for _ in range(n // 8 + 2)]
            return bytes(pair[picks[(k + 1) // 8]] for k, pair in enumerate(zip(old, new)))
        if how == "zeros":
            return bytes(n)
        if how == "ones":
            return b"\xff" * n
        if how == "gate":
            return b"\xa5" * n
        return self.random.randbytes(n)

    def formats(self):
        """Power is lost within `dlm format`: then the folder is refused, or has an empty log over images that are all whole; once it was told that
        the images are made, the log is empty. A file whose folder was not synced since it was made may be gone."""
        log = os.path.join(self.work, "log")
        if os.path.exists(log):
            os.remove(log)
        shutil.rmtree(self.folder)
        os.mkdir(self.folder)
        env = {**os.environ, "LD_PRELOAD": self.shim, "DLM_LOG": log}
        subprocess.run([self.given.program, *self.words_of_a_format(self.folder)], env=env, check=True, stdout=subprocess.DEVNULL)
        self.formatted = images_of(self.folder, 0)
        found, storage, told = records(log), Storage({}), ""
        # Images of a log without an end are long. So of the places at which zeros are written some will do.
        some = {*range(16), *self.random.sample(range(len(found)), 12), *range(len(found) - 16, len(found) + 1)} if self.given.endless else range(len(found) + 1)
        for place, record in enumerate([*found, None]):
            for state in self.states_of(storage) if place in some else []:
                self.counts["states of a format"] += 1
                self.ask_for_nothing(state, "formatted" in told)
            if record:
                storage.take(record, self.forgets)
                told += record[4].decode() if record[0] == "P" else ""

    def words_of_a_format(self, folder):
        return ["format", folder, str(self.given.disks), *([] if self.given.endless else ["6"]), "7"]

    def states_of(self, storage):
        """What a loss of power may leave of these images: nothing that was not synced, all, and others. An image whose folder was not
        synced since it was made may be gone."""
        found = []
        for way in ["old", "new"] + [None] * self.given.states:
            likely = {"old": 0.0, "new": 1.0, None: 0.7}[way]
            there = [image for image in sorted(storage.there) if image in storage.named or self.random.random() < likely]
            found.append({image: self.unfinished(storage.lasting[image], storage.waiting[image], way) for image in there})
        return found

    def unfinished(self, lasting, waiting, way):
        """What a loss of power may leave of an image in the making, which may also be shorter."""
        left = bytearray(lasting)
        for at, new in waiting:
            how = way or self.random.choice(["old", "new", "front", "back", "mixed", "zeros", "ones", "nonsense", "gate"])
            if new is not None:
                left += bytes(max(0, at + len(new) - len(left)))
                put(left, at, self.left(how, bytes(left[at:at + len(new)]), new))
            elif how != "old":
                put(left, at, None)
        if len(left) > len(lasting) and way != "new":
            del left[self.random.randrange(len(lasting), len(left) + 1):]
        return left

    def put_anew(self, name, images):
        """A folder of this name with these images, and nothing else."""
        folder = os.path.join(self.work, name)
        shutil.rmtree(folder, ignore_errors=True)
        os.mkdir(folder)
        for disk, data in images.items():
            with open(f"{folder}/disk{disk}.img", "wb") as file:
                file.write(data)
        return folder

    def ask_for_nothing(self, state, told):
        """`dlm table` shows an empty log, if each image is whole but perhaps for its gate, or refuses the folder, where it was not told that the
        images are made. The same format again opens the gates that are left, or is refused; then it makes the images once they are removed."""
        apart = self.put_anew("apart", state)
        out = self.run(["table", apart, "0"])
        whole = [disk for disk, image in self.formatted.items() if state.get(disk, b"")[1:] == image[1:]]
        all_whole = len(whole) == len(self.formatted)
        is_empty = out.stdout == "recovered 0\nempty\n" and out.returncode == 0
        is_refused = out.returncode == 1 and NO_SET.fullmatch(out.stderr)
        if not (is_empty and all_whole or is_refused and not told):
            self.wrong.append(f"format: {out.returncode} {out.stdout!r} {out.stderr!r}, formatted: {told}, whole: {whole}")
        self.counts["of them refused"] += bool(is_refused)
        # What a host wrote is not there.
        apart = self.put_anew("apart", state)
        out = self.run(self.words_of_a_format(apart))
        again = f"formatted {self.given.disks} disks, {'1024 slots an epoch' if self.given.endless else '6 slots'}\n"
        is_left = all_whole and any(state[disk][0] != 0xA5 for disk in state)
        if state and not is_left and (out.returncode, out.stderr) == (1, ALREADY_THERE):
            apart = self.put_anew("apart", {})
            out = self.run(self.words_of_a_format(apart))
        if (out.returncode, out.stdout) != (0, again) and not told or images_of(apart, 0) != self.formatted:
            self.wrong.append(f"format again: {out.returncode} {out.stdout!r} {out.stderr!r}, whole: {whole}")

    def moves(self, storage, told, further):
        """A run of `dlm migrate` or `dlm renew` over these images. Power is lost at each place of it. At some places another run follows, after
        a loss or after the end of the process alone; there power is lost again."""
        found, refused = self.move(storage)
        if refused and not self.whole(storage.now()):
            # Somebody removes the new images, and begins anew.
            for disk in [image for image in storage.there if image < OLD]:
                storage.removed(disk)
            found, refused = self.move(storage)
        is_first = further == 2
        ends = set(self.random.sample(range(len(found) + 1), min(len(found) + 1, 3 if is_first else 1)))
        if is_first:
            # Each place from the first write of a gate on.
            ends |= set(range(len(found) - 7, len(found) + 1))
        for place, record in enumerate([*found, None]):
            states = self.states_of(storage)
            if is_first or len(found) < 40 or self.random.random() < self.task.share:
                for state in states:
                    self.ask_for_all(state, told)
            if further and place in ends:
                self.moves(copy.deepcopy(storage), told, further - 1)
                self.moves(Storage(self.random.choice(states)), told, further - 1)
            if record:
                storage.take(record, self.forgets)
                told += record[4].decode() if record[0] == "P" else ""

    def move(self, storage):
        """What a run over these images writes down, and whether it was refused since a new image is there."""
        old, new = self.put_both(storage.now())
        found, out = self.recorded(old, self.task.words(old, new))
        self.counts[f"runs of {self.task.kind}"] += 1
        refused = out.stderr == ALREADY_THERE
        if not refused and (out.returncode or out.stdout not in (self.task.made, self.task.finished)):
            self.wrong.append(f"{self.task.kind}: {out.returncode} {out.stdout!r} {out.stderr!r}")
        return [] if refused else found, refused

    def recorded(self, old, words):
        """What these words write down, and what came of them."""
        log = os.path.join(self.work, "log")
        if os.path.exists(log):
            os.remove(log)
        env = {**os.environ, "LD_PRELOAD": self.shim, "DLM_LOG": log, "DLM_OLD": old}
        out = subprocess.run([self.given.program, *words], env=env, capture_output=True, text=True)
        return records(log), out

    def whole(self, images):
        """The new images that are complete and open."""
        return [disk for disk, data in self.task.new.items() if images.get(disk) == data]

    def put_both(self, images):
        """An old folder and a new one with these images, and perhaps with files by which a host was locked."""
        old, new = self.put_anew("old", numbered_from(OLD, images)), self.put_anew("new", numbered_from(0, images))
        for lock in (f"{old}/host0.lock", f"{old}/host1.lock", f"{new}/host0.lock"):
            if self.random.random() < 0.5:
                open(lock, "w").close()
        return old, new

    def ask_for_all(self, state, told):
        """The new folder has the whole log, or reads as none. It has it if that was told, and after a further run. That is refused only while
        no new image is whole; once these are removed the log is moved anew."""
        task = self.task
        self.counts[f"states of a run of {task.kind}"] += 1
        self.is_moved(self.put_anew("apart", numbered_from(0, state)), bool(told), told)
        if task.kind == "renew":
            self.ask_the_old(state)
        old, new = self.put_both(state)
        whole = self.whole(state)
        out = self.run(task.words(old, new))
        if out.stderr == ALREADY_THERE and not whole:
            self.counts["of them cleared"] += 1
            self.put_anew("new", {})
            out = self.run(task.words(old, new))
        if (out.returncode, out.stdout or out.stderr) != task.further(whole):
            self.wrong.append(f"{task.kind}: whole {whole}, {out.returncode} {out.stdout!r} {out.stderr!r}, told {told!r}")
        self.is_moved(new, True, told)
        if whole and task.kind == "migrate" and self.random.random() < 0.2:
            # The old folder has its log still.
            fresh = self.put_anew("fresh", {})
            out = self.run(task.words(old, fresh))
            self.is_moved(fresh, True, told)

    def ask_the_old(self, state):
        """The old folder has its table."""
        out = self.run(["table", self.put_anew("apart", numbered_from(OLD, state)), "9"])
        if out.returncode or out.stdout != self.task.shown_before:
            self.wrong.append(f"the old table: {out.returncode} {out.stdout!r} {out.stderr!r}")

    def is_moved(self, folder, must, told):
        """The folder has the whole log, its images all there and open. If it need not, it may be no set of images."""
        paths = [f"{folder}/disk{disk}.img" for disk in self.task.new]
        all_open = [os.path.exists(path) and migrate.bytes_of(path) for path in paths] == list(self.task.new.values())
        # This writes to the images, as every recovery does.
        out = self.run(["table", folder, "9"])
        is_whole = out.returncode == 0 and out.stdout == self.task.shown
        is_none = out.returncode == 1 and NO_SET.fullmatch(out.stderr)
        if not (is_whole and (all_open or not must) or is_none and not must):
            self.wrong.append(f"{self.task.kind}: {out.returncode} {out.stdout!r} {out.stderr!r}, all open: {all_open}, told {told!r}")

    def fills(self):
        """Power is lost within `dlm fill`. The folder has its table then, and a renewal of it is refused, or carries this table over. In the
        first case a further run fills what is left; then it is renewed."""
        found, out = self.recorded(*self.words_of_a_fill(self.task.not_full))
        storage, told = Storage(self.task.not_full), ""
        for record in [*found, None]:
            for state in self.states_of(storage):
                self.counts["states of a fill"] += 1
                self.ask_for_a_fill(state, told)
            if record:
                storage.take(record, self.forgets)
                told += record[4].decode() if record[0] == "P" else ""
        if told != "filled 2 slots\n":
            self.wrong.append(f"fill: {out}")

    def words_of_a_fill(self, images):
        old = self.put_anew("old", numbered_from(OLD, images))
        return old, ["fill", old, "1"]

    def ask_for_a_fill(self, state, told):
        recovered, shown = self.run(["table", self.put_anew("apart", numbered_from(OLD, state)), "9"]).stdout.split("\n", 1)
        if shown != self.task.shown_before.split("\n", 1)[1] or told and recovered != "recovered 6":
            self.wrong.append(f"the table within a fill: {recovered} {shown!r}, told {told!r}")
        old, new = self.put_both(state)
        out = self.run(self.task.words(old, new))
        if out.stderr == "dlm: 38 NotFull\n" and not told:
            self.counts["of them not full"] += 1
            out = self.run(["fill", old, "1"])
            if not re.fullmatch(r"filled [12] slots\n", out.stdout):
                self.wrong.append(f"a further fill: {out}")
            out = self.run(self.task.words(old, new))
        if out.stdout != self.task.made:
            self.wrong.append(f"a renewal after a fill: {out}, told {told!r}")
        self.is_moved(new, True, told)

    def begins_an_epoch(self, storage, told, further):
        """A submission over these images begins an epoch. Power is lost at some places of it. Of these at some the same words are submitted again."""
        found, out = self.recorded("", ["submit", self.put_anew("endless", storage.now()), *self.task.words])
        self.counts["runs that begin an epoch"] += 1
        if out.returncode or out.stdout.split(" ", 2)[2:] != [self.task.reply]:
            self.wrong.append(f"a submission: {out.returncode} {out.stdout!r} {out.stderr!r}")
        ends = set(self.random.sample(range(len(found) + 1), min(len(found) + 1, 3)))
        for place, record in enumerate([*found, None]):
            states = self.states_of(storage) if self.random.random() < self.task.share or place in ends else []
            for state in states:
                self.ask_in_an_epoch(state, told)
            if further and place in ends:
                self.begins_an_epoch(Storage(self.random.choice(states)), told, further - 1)
            if record:
                storage.take(record, self.forgets)
                told += record[4].decode() if record[0] == "P" else ""

    def ask_in_an_epoch(self, state, told):
        """Over the disks of some majority."""
        self.counts["states of a run that begins an epoch"] += 1
        disks = self.random.sample(sorted(state), self.random.choice((2, 3)))
        apart = self.put_anew("apart", {disk: state[disk] for disk in disks})
        out = self.run(["table", apart, "9"])
        shown = lock_log.sorted_below(out.stdout.splitlines())[1:]
        if out.returncode or shown != self.task.after and (told or shown != self.task.before):
            self.wrong.append(f"a table over {disks}: {out.returncode} {out.stdout!r} {out.stderr!r}, told {told!r}")
        out = self.run(["submit", apart, *self.task.words])
        if out.returncode or out.stdout.split(" ", 2)[2:] != [self.task.reply]:
            self.wrong.append(f"the same again over {disks}: {out.returncode} {out.stdout!r} {out.stderr!r}, told {told!r}")

    def look(self, state, acks):
        """By every majority of the disks the greatest vote of an acknowledged slot is its command."""
        votes = []
        for disk, image in enumerate(state):
            at, mine = lock_log.ROWS, []
            for slot in range(self.given.slots):
                best, broken = said(bytes(image[at:at + lock_log.ROW]))
                if broken:
                    self.wrong.append(f"disk {disk} slot {slot}: {broken}")
                mine.append(best)
                at += lock_log.ROW
            votes.append(mine)
        most = self.given.disks // 2 + 1
        for slot, (host, words) in acks.items():
            for some in itertools.combinations(range(self.given.disks), most):
                ballot, command = max((votes[disk][slot] for disk in some), key=lambda v: v[0])
                if command is None or lock_log.words_of(command) != (host, words):
                    self.wrong.append(f"slot {slot} by the disks {some}: {command}, acknowledged for {host} {words}")

    def ask(self, state, acks):
        """`dlm table` over the disks of some majority has every acknowledged lock."""
        apart = os.path.join(self.work, "apart")
        shutil.rmtree(apart, ignore_errors=True)
        os.mkdir(apart)
        most = self.random.randrange(self.given.disks // 2 + 1, self.given.disks + 1)
        self.put(state, apart, self.random.sample(range(self.given.disks), most))
        told = self.run(["table", apart, str(self.random.randrange(lock_log.HOSTS))])
        self.counts["tables"] += 1
        held = {line.split()[1] for line in told.stdout.splitlines() if line.startswith("  granted")}
        missing = [words for host, words in acks.values() if words[3] not in held]
        if told.returncode or missing:
            self.wrong.append(f"table: status {told.returncode} {told.stderr!r}, missing {missing}")


def main():
    words = argparse.ArgumentParser()
    words.add_argument("--steps", type=int, default=50)
    words.add_argument("--hosts", type=int, default=0)
    words.add_argument("--disks", type=int, default=3)
    words.add_argument("--slots", type=int, default=24)
    words.add_argument("--states", type=int, default=4)
    words.add_argument("--tables", type=int, default=8)
    words.add_argument("--seed", type=int, default=random.randrange(1 << 30))
    words.add_argument("--format", action="store_true")
    words.add_argument("--migrate", action="store_true")
    words.add_argument("--renew", action="store_true")
    words.add_argument("--endless", action="store_true")
    words.add_argument("--forget", choices=["", "opening", "closed", "body", "opened", "folder"], default="")
    words.add_argument("--program", default=lock_log.PROGRAM)
    given = words.parse_args()
    lock_log.see_that_it_is_built(given.program)
    where = "/dev/shm" if os.access("/dev/shm", os.W_OK) else None
    with tempfile.TemporaryDirectory(dir=where) as work:
        # The shim compares the paths of the old folder's files, which the program names without links.
        work = os.path.realpath(work)
        shim = lock_log.built_shim(work)
        if not shim:
            print("left out: power_loss.py, losses of power: no C compiler (cc)")
            return 0
        walk = Walk(given, work, shim)
        if given.format:
            walk.formats()
            walk.fresh()
        if given.migrate:
            walk.task = Migration()
            walk.moves(Storage(walk.task.old), "", 2)
        if given.renew:
            walk.task = Renewal(walk)
            walk.moves(Storage(walk.task.old), "", 2)
            walk.fills()
        if given.endless:
            walk.task = Epoch(work)
            walk.begins_an_epoch(Storage(walk.task.images), "", 1)
        steps = 0
        while steps < given.steps and not walk.wrong:
            walk.step()
            steps += 1
    for each in walk.wrong[:5]:
        print("  " + each[:500])
    counts = ", ".join(f"{count} {name}" for name, count in sorted(walk.counts.items()))
    print(f"seed {given.seed}, {given.disks} disks, {steps} steps: {counts}; {len(walk.wrong)} wrong")
    return 1 if walk.wrong else 0


if __name__ == "__main__":
    sys.exit(main())
