#!/usr/bin/env python3
"""Hosts at once on a log without an end, over devices that several machines share: endless_long.py, by dlm-shared. Each "machine" is a folder with a name of its own,
and links to the same devices. Each host number works on one machine. Between bursts the devices are read without the program, epoch by epoch.

    machines_endless.py [--program PATH] [--machines N] [--commands N] [--hosts N] [--disks N] [--slots N] [--sector N] [--kill PERCENT] [--loops] [--dlm PATH] [--where FOLDER]
                        [--seed N]

It ends once so many commands are acknowledged (none given: 800). The devices are files, which processes read and write past the machine's pages. With --loops each machine has
loop devices of its own over them, so each has pages of its own, like a machine; that needs root. --dlm has dlm check and dlm table look at copies, too. The status is 3
where the file system takes no O_DIRECT."""

import argparse
import os
import random
import subprocess
import sys
import tempfile

import endless_log
import endless_long
import lock_log


def header(given, disk):
    """The first bytes of a device, by docs/FORMAT.md."""
    first = endless_log.header(disk, given.disks, given.slots, 7)
    return first[:1] + bytes([5]) + first[2:] + given.sector.to_bytes(4, "big") + bytes([1, lock_log.HOSTS, 0])


class Run(endless_long.Run):
    def make(self):
        given = self.given
        self.loops_made = []
        self.backing = [f"{given.work}/backing{disk}" for disk in range(given.disks)]
        rows = endless_log.length(given.slots) // lock_log.ROW - 1
        for disk, path in enumerate(self.backing):
            with open(path, "wb") as file:
                file.write(header(given, disk))
                file.truncate(4096 + rows * lock_log.HOSTS * given.sector)
        self.folders = [f"{given.work}/machine{machine}" for machine in range(given.machines)]
        for machine, folder in enumerate(self.folders):
            os.mkdir(folder)
            with open(f"{folder}/machine-id", "w") as file:
                file.write(f"{machine + 1:032x}\n")
            for disk, path in enumerate(self.backing):
                os.symlink(self.device_of(path), f"{folder}/disk{disk}.img")

    def device_of(self, path):
        if not self.given.loops:
            return path
        self.loops_made.append(subprocess.run(["losetup", "--show", "-f", path], check=True, capture_output=True, text=True).stdout.strip())
        return self.loops_made[-1]

    def take_down(self):
        for device in self.loops_made:
            subprocess.run(["losetup", "-d", device], check=False)

    def folder_of(self, host):
        return self.folders[host % self.given.machines]

    def images(self):
        folder = f"{self.given.work}/images"
        os.makedirs(folder, exist_ok=True)
        for disk, path in enumerate(self.backing):
            with open(path, "rb") as file, open(f"{folder}/disk{disk}.img", "wb") as image:
                image.write(endless_log.of_device(file.read()))
        return folder

    def move(self, name, other):
        for folder in self.folders:
            os.rename(f"{folder}/{name}", f"{folder}/{other}")

    def end(self):
        """All hosts show the same table, and no block is damaged."""
        self.look()
        tables = {self.ask("table") for _ in range(lock_log.HOSTS)}
        if len(tables) != 1:
            self.wrong.append(f"tables differ: {tables}")
        if self.given.dlm:
            folder = self.images()
            for words, want in ((["check", folder], "sound\n"), (["table", folder, "0"], min(tables)[1])):
                told = subprocess.run([self.given.dlm, *words], capture_output=True, text=True)
                if told.returncode or not told.stdout.endswith(want):
                    self.wrong.append(f"dlm {words[0]}: {told.stdout!r} {told.stderr!r}")


def takes_direct(folder):
    path = f"{folder}/tried"
    try:
        os.close(os.open(path, os.O_RDWR | os.O_CREAT | os.O_DIRECT))
    except OSError:
        return False
    os.unlink(path)
    return True


def main():
    words = argparse.ArgumentParser()
    words.add_argument("--program", default=f"{lock_log.TOP}/capi/out/dlm-shared")
    words.add_argument("--machines", type=int, default=3)
    words.add_argument("--commands", type=int, default=800)
    words.add_argument("--hosts", type=int, default=4, choices=range(1, lock_log.HOSTS + 1))
    words.add_argument("--disks", type=int, default=3, choices=range(1, 8))
    words.add_argument("--slots", type=int, default=endless_log.FEWEST)
    words.add_argument("--sector", type=int, default=512)
    words.add_argument("--kill", type=int, default=25)
    words.add_argument("--loops", action="store_true")
    words.add_argument("--dlm", default="")
    words.add_argument("--where", default="/dev/shm" if os.access("/dev/shm", os.W_OK) else tempfile.gettempdir())
    words.add_argument("--seed", type=int, default=random.randrange(1 << 30))
    given = words.parse_args()
    with tempfile.TemporaryDirectory(dir=given.where) as given.work:
        if not given.loops and not takes_direct(given.work):
            return 3
        run = Run(given, given.work)
        try:
            run.bursts()
        finally:
            run.take_down()
        return endless_long.tell(given, run, f"{given.machines} machines, sectors of {given.sector}{', loop devices' if given.loops else ''}, ")


if __name__ == "__main__":
    sys.exit(main())
