#!/usr/bin/env python3
"""mg_folder.py: the program of crates/mg, which is installed as mg-folder: what no clause says. Its lines on standard error, each by one write; its statuses; that what it
prints with `--json` is one object; and that `dlm` finds what it made. The programs have to be built: `rt ci mg` and `./dlm` do so. It prints each difference, and how many
checks there were."""
import fcntl
import json
import os
import socket
import subprocess
import sys
import tempfile

TOP = os.path.dirname(os.path.dirname(os.path.realpath(__file__)))
PROGRAM = f"{TOP}/crates/mg/out/mg"
DLM = os.environ.get("PROGRAM", f"{TOP}/crates/dlm/out/dlm")
checks = failed = 0


def expect(well, what):
    global checks, failed
    checks += 1
    if not well:
        failed += 1
        print("failed:", what, flush=True)


def run(*words, program=PROGRAM):
    """The status, what was printed, and each write to standard error: a datagram each."""
    ours, theirs = socket.socketpair(socket.AF_UNIX, socket.SOCK_DGRAM)
    with ours, theirs:
        done = subprocess.run([program, *words], stdin=subprocess.DEVNULL, stdout=subprocess.PIPE, stderr=theirs, text=True, check=False, timeout=60)
        ours.setblocking(False)
        writes = []
        try:
            while True:
                writes.append(ours.recv(1 << 16).decode())
        except BlockingIOError:
            return done.returncode, done.stdout, writes


WRONG = [
    ([], "WORD is missing: create, submit, table, mark, check, migrate, replace, run, sweep"),
    (["tabel", "images"], "WORD is tabel: create, submit, table, mark, check, migrate, replace, run, sweep"),
    (["table"], "FOLDER is missing: a folder"),
    (["table", "images"], "OPTION is missing: --host"),
    (["table", "images", "--hots", "1"], "OPTION is --hots: --host"),
    (["table", "images", "--host"], "HOST is missing: 0 to 15"),
    (["table", "images", "--host", "16"], "HOST is 16: 0 to 15"),
    (["table", "images", "--host", "007"], "HOST is 007: 0 to 15"),
    (["table", "images", "--host", "a b"], "HOST is ..: 0 to 15"),
    (["table", "images", "--host", "1", "--json", "all"], "all is a word too many"),
    (["table", "images", "--json", "--host", "1"], "OPTION is --json: --host"),
    (["mark", "images", "--host", "1", "--jsn"], "--jsn is a word too many"),
    (["create", "images", "--cluster", "7", "--disks", "8"], "DISKS is 8: 1 to 7"),
    (["create", "images", "--cluster", "7", "--slots", "4097"], "SLOTS is 4097: 1 to 4096"),
    (["create", "images", "--cluster", "18446744073709551616"], "CLUSTER is 18446744073709551616: 0 to 18446744073709551615"),
    (["submit", "images", "--host", "1"], "COMMAND is missing: enqueue, convert, release, cancel, status, purge, forget"),
    (["submit", "images", "--host", "1", "enqeue", "1", "1", "1", "EX", "db"], "COMMAND is enqeue: enqueue, convert, release, cancel, status, purge, forget"),
    (["submit", "images", "--host", "1", "--json"], "COMMAND is missing: enqueue, convert, release, cancel, status, purge, forget"),
    (["submit", "images", "--host", "1", "--json", "release", "1", "1"], "COMMAND is release: enqueue, convert, release, cancel, status, purge, forget"),
    (["replace", "images"], "DISK is missing: 0 to 6"),
    (["replace", "images", "7"], "DISK is 7: 0 to 6"),
    (["replace", "images", "-1"], "DISK is -1: 0 to 6"),
    (["replace", "images", "0", "--jsn"], "--jsn is a word too many"),
    (["run"], "SCRIPT is missing: a script"),
    (["run", "one", "x" * 101], ".. is a word too many"),
]


def wrong_words():
    for words, said in WRONG:
        told = run(*words)
        expect(told == (2, "", [f"mg: {said} (see man mg)\n"]), f"{words}: {told}")


def ends(words, printed):
    told = run(*words)
    expect(told == (0, printed, []), f"{words}: {told}")


def ends_in_json(words, wanted):
    status, printed, said = run(*words)
    expect((status, said) == (0, []) and printed.count("\n") == 1 and json.loads(printed) == wanted, f"{words}: {status}, {printed}, {said}")


def refused(words, said):
    told = run(*words)
    expect(told == (1, "", [f"mg: {said} (see REFUSALS.md)\n"]), f"{words}: {told}")


def over_folders():
    refused(["check", "nowhere"], "nowhere: 26 Unreadable disk0")
    refused(["check", "nowhere", "--json"], "nowhere: 26 Unreadable disk0")
    os.mkdir("plain")
    ends(["create", "plain", "--cluster", "7", "--slots", "64"], "formatted 3 disks, 64 slots\n")
    ends(["submit", "plain", "--host", "0", "enqueue", "1", "1", "1", "EX", "db"], "ack 0 Granted\n")
    ends(["table", "plain", "--host", "1"], "recovered 1\ndb\n  granted 1 1 0 EX\n")
    ends(["mark", "plain", "--host", "1"], "recovered 1\nmarked 0 slots\n")
    ends_in_json(["table", "plain", "--host", "1", "--json"], {"folder": "plain", "recovered": 1, "lines": ["db", "  granted 1 1 0 EX"]})
    ends_in_json(["mark", "plain", "--host", "1", "--json"], {"folder": "plain", "recovered": 1, "marked": 0})
    ends_in_json(["submit", "plain", "--host", "0", "--json", "status", "1", "2", "1"], {"folder": "plain", "place": 1, "reply": "State(held=EX, wanted=-)"})
    ends_in_json(["submit", "plain", "--host", "2", "--json", "enqueue", "2", "1", "2", "EX", "db", "noqueue"], {"folder": "plain", "place": 2, "reply": "16 NotQueued"})
    with open("plain/host3.lock", "w", encoding="ascii") as kept:
        fcntl.flock(kept, fcntl.LOCK_EX)
        refused(["submit", "plain", "--host", "3", "--json", "status", "1", "3", "1"], "plain: 36 HostInUse host3")
        refused(["table", "plain", "--host", "3", "--json"], "plain: 36 HostInUse host3")
        refused(["mark", "plain", "--host", "3", "--json"], "plain: 36 HostInUse host3")
    ends(["check", "plain"], "sound\n")
    refused(["create", "plain", "--cluster", "8", "--json"], "plain: 29 AlreadyThere")
    ends_in_json(["check", "plain", "--json"], {"folder": "plain", "sound": True, "lines": []})
    os.mkdir("few")
    ends_in_json(["create", "few", "--cluster", "0", "--disks", "1", "--slots", "4096", "--json"], {"folder": "few", "cluster": "0", "disks": 1, "slots": 4096, "kind": "ending"})
    ends_in_json(["migrate", "few", "--json"], {"folder": "few", "disks": 1, "made": True, "slots_an_epoch": 4096})


def over_logs_without_an_end():
    # A name that JSON has to escape.
    name = 'one "of\\mine\x01"\n\u00fc'
    os.mkdir(name)
    ends_in_json(["create", name, "--cluster", "18446744073709551615", "--disks", "5", "--json"],
                 {"folder": name, "cluster": "18446744073709551615", "disks": 5, "slots": None, "kind": "endless"})
    ends_in_json(["migrate", name, "--json"], {"folder": name, "disks": 5, "made": False, "slots_an_epoch": None})
    ends_in_json(["table", name, "--host", "0", "--json"], {"folder": name, "recovered": 0, "lines": ["empty"]})
    ends_in_json(["submit", name, "--host", "0", "--json", "enqueue", "1", "1", "1", "EX", "db"], {"folder": name, "place": 0, "reply": "Granted"})
    ends_in_json(["mark", name, "--host", "0", "--json"], {"folder": name, "recovered": 1, "marked": 0})
    epochs = [f"disk{disk} epoch 0" for disk in range(5)]
    ends_in_json(["check", name, "--json"], {"folder": name, "sound": True, "lines": epochs})
    told = run("check", name, program=DLM)
    expect(told == (0, "\n".join([*epochs, "sound"]) + "\n", []), f"dlm check: {told}")
    os.remove(f"{name}/disk1.img")
    status, printed, said = run("check", name, "--json")
    wanted = {"folder": name, "sound": False, "lines": ["disk0 epoch 0", "disk1 26 Unreadable", *epochs[2:]]}
    expect((status, said) == (1, ["mg: ..: 26 Unreadable disk1 (see REFUSALS.md)\n"]) and json.loads(printed) == wanted, f"an image is lost: {status}, {printed}, {said}")
    status, printed, said = run("replace", name, "1", "--json")
    told = json.loads(printed)
    expect((status, said) == (0, []) and told == {"folder": name, "disk": 1, "first_epoch": told["first_epoch"]} and told["first_epoch"] > 0, f"replace: {status}, {printed}, {said}")
    refused(["replace", name, "1", "--json"], "..: 29 AlreadyThere")


def over_scripts():
    script = f"{TOP}/examples/first_reply.dlm"
    for word in ("run", "sweep"):
        expect(run(word, script) == run(word, script, program=DLM), word)
    refused(["run", "nothing"], "nothing: 26 Unreadable")


def main():
    with tempfile.TemporaryDirectory() as room:
        os.chdir(room)
        wrong_words()
        over_folders()
        over_logs_without_an_end()
        over_scripts()
        os.chdir(TOP)
    print(f"mg_folder.py: {checks} checks, {failed} failed")
    return 1 if failed else 0


if __name__ == "__main__":
    sys.exit(main())
