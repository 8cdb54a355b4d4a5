"""What tests of mg-lock share: how many checks there were, a line for each that failed, a wait for what is to come true, and images of a log without an end,
over which a test goes by the word --endless."""
import os
import sys
import time

checks = failed = 0
endless = "--endless" in sys.argv
if endless:
    sys.argv.remove("--endless")


def lay_out(folder, disks=3, cluster=7, slots=320):
    """Images of a log without an end, with fewer slots an epoch than those of `dlm format`, by docs/FORMAT.md."""
    for disk in range(disks):
        with open(os.path.join(folder, f"disk{disk}.img"), "xb") as file:
            file.truncate(2 * (8192 + 4096 * slots) + 4096)
            file.write(bytes([0xA5, 4, disk, disks, 0, 0]) + slots.to_bytes(2, "big") + cluster.to_bytes(8, "big"))


def expect(well, what):
    global checks, failed
    checks += 1
    if not well:
        failed += 1
        print("failed:", what, flush=True)
    return well


def until(what, seconds=120):
    """Whether it came true in time: the machine may have other work, and its disks may be slow."""
    end = time.monotonic() + seconds
    while time.monotonic() < end:
        if what():
            return True
        time.sleep(0.01)
    return False


def in_time(what, tries=3):
    """Whether it was in time, once of so many tries: where the machine has other work it may be late, and what is late each time is late by itself."""
    return any(what() for _ in range(tries))


def finish(name, more=""):
    """Says how many checks there were, and ends the test."""
    print(f"{name}: {checks} checks, {failed} failed{more}")
    sys.exit(failed > 0)
