"""Two hosts take turns at a lock: one holds it, the other runs into its timeout, and then gets it. Then they pass a counter to
one another.

    turns.py LIBRARY FOLDER      an empty folder
"""
import sys

from midgegalena import EX, NL, PR, Refused, Session, format_images

library, folder = sys.argv[1:]
format_images(folder, disks=3, slots=64, cluster=7, library=library)

with Session(folder, host=0, library=library) as first, Session(folder, host=1, library=library) as second:
    with first.lock("db"):
        print("first holds", first.locks())
        for seconds in (0, 0.05):
            try:
                with second.lock("db", PR, timeout=seconds):
                    print("never printed")
            except TimeoutError as why:
                print("second:", why)
    with second.lock("db", PR, timeout=5.0):
        print("second holds", second.locks())
        with first.lock("db", PR):
            print("both hold", first.locks())
    print("left", second.locks())
    # The null lock keeps the name, and with it the value.
    with first.lock("seats", NL):
        for seller in (first, second, first):
            with seller.lock("seats", EX) as held:
                held.leaves = (int.from_bytes(held.value, "big") + 1).to_bytes(16, "big")
        with second.lock("seats", PR) as held:
            print("sold", int.from_bytes(held.value, "big"), "valid" if held.valid else "perhaps")
    slots, used = second.log()
    print("the log is nearly full" if 10 * used >= 9 * slots else f"{slots - used} slots are left")
    try:
        Session(folder, host=1, library=library)
    except Refused as why:
        print(why.status, why)
