#!/usr/bin/env python3
"""Losses of power over devices whose blocks have sectors of their own: tests/power_loss.py with dlm-shared, over files in memory. tests/shim/calls.c opens them
through the pages, and writes down what is written and synced. A sector whose write was not synced is left torn, in the way that --tear names.

    sector_loss.py [--program PATH] [--tear whole|mixed|any] [--sector N] [--steps N] [--hosts N] [--disks N] [--slots N] [--states N] [--tables N]
                   [--seed N] [--forget WHAT] [--seconds N]

whole: it is the old one or the new one. mixed: each of its bytes is; that is what a device has to keep to, and nothing may be wrong. any: it has any bytes; then
something is seen to be wrong. --forget as in power_loss.py, but `opened` is not seen: dlm-shared prints its line once the slot is marked, and the syncs of that mark make the
gate last. It needs `cc`, and does nothing without."""

import argparse
import os
import random
import subprocess
import sys
import tempfile
import time

import lock_log
import power_loss

WAYS = {"whole": ["old", "new"], "mixed": ["old", "new", "front", "back", "mixed", "words"],
        "any": ["old", "new", "front", "back", "mixed", "words", "zeros", "ones", "nonsense", "gate"]}
# A block and its stamp. Nobody looks at the rest of a sector.
COUNTS = 264


class Sector(bytes):
    """What a write left of a sector."""


class Walk(power_loss.Walk):
    def fresh(self):
        super().fresh()
        # Each number is this machine's before power is lost.
        for host in range(lock_log.HOSTS):
            self.run(["take", self.folder, str(host)])
        self.images = [self.bytes_of(disk) for disk in range(self.given.disks)]

    def run(self, words):
        if words[0] == "format":
            words = [*words, "16", str(self.given.sector), "nodsync", "files"]
        env = {**os.environ, "LD_PRELOAD": self.shim, "DLM_PAGES": "1"}
        return subprocess.run([self.given.program, *words], capture_output=True, text=True, env=env)

    def states(self, durable, pending, count):
        waiting = [(image, at, new) for image, writes in enumerate(pending) for at, new in writes]
        found = []
        for way in ["old", "new"] + [None] * count if waiting else ["old"]:
            state = [bytearray(image) for image in durable]
            for image, at, new in waiting:
                size = min(COUNTS, len(new))
                state[image][at:at + size] = self.left(way or self.random.choice(WAYS[self.given.tear]), bytes(state[image][at:at + size]), new[:size])
            found.append(state)
        self.counts["states"] += len(found)
        return found

    def replay(self, found, started):
        """Each write of a sector is told with the bytes of its block that it changes."""
        shown = [bytearray(image) for image in self.images]
        told = []
        for kind, image, process, at, given in found:
            if kind == "W" and given:
                size = min(lock_log.BLOCK, len(given))
                changed = [new for old, new in zip(shown[image][at:at + size], given[:size]) if old != new]
                shown[image][at:at + len(given)] = given
                given = Sector(given)
                given.changed = bytes(changed)
            told.append((kind, image, process, at, given))
        super().replay(told, started)

    def forgets(self, last, image=0):
        return super().forgets(getattr(last, "changed", last), image)

    def look(self, state, acks):
        super().look([lock_log.as_layout_2(bytes(image)) for image in state], acks)


def main():
    words = argparse.ArgumentParser()
    words.add_argument("--program", default=f"{lock_log.TOP}/capi/out/dlm-shared")
    words.add_argument("--tear", default="mixed", choices=sorted(WAYS))
    words.add_argument("--sector", type=int, default=512)
    words.add_argument("--steps", type=int, default=30)
    words.add_argument("--hosts", type=int, default=0)
    words.add_argument("--disks", type=int, default=3)
    words.add_argument("--slots", type=int, default=16)
    words.add_argument("--states", type=int, default=6)
    words.add_argument("--tables", type=int, default=8)
    words.add_argument("--seed", type=int, default=random.randrange(1 << 30))
    words.add_argument("--forget", default="")
    words.add_argument("--seconds", type=float, default=1e9)
    given = words.parse_args()
    begun, steps = time.monotonic(), 0
    with tempfile.TemporaryDirectory(dir="/dev/shm" if os.access("/dev/shm", os.W_OK) else None) as work:
        shim = lock_log.built_shim(work)
        if not shim:
            print("left out: sector_loss.py, losses of power over shared devices: no C compiler (cc)")
            return 0
        walk = Walk(given, work, shim)
        while steps < given.steps and not walk.wrong and (time.monotonic() < begun + given.seconds or not walk.counts["acknowledged before a loss"]):
            walk.step()
            steps += 1
    for each in walk.wrong[:5]:
        print("  " + str(each)[:400])
    counts = ", ".join(f"{count} {name}" for name, count in sorted(walk.counts.items()))
    print(f"seed {given.seed}, sectors of {given.sector}, torn {given.tear}, {given.disks} disks, {steps} steps: {counts}; {len(walk.wrong)} wrong")
    return 1 if walk.wrong else 0


if __name__ == "__main__":
    sys.exit(main())
