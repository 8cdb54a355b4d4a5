#!/usr/bin/env python3
"""bench/endless/endless.py [--commands N] [FOLDER]: what a log without an end costs, and how that grows. Prints one table in Markdown.

FOLDER is on the disk that is timed; the temporary folder if it is left out. What fills a log works in /dev/shm. First `./dlm` and `capi/build.sh` have to build
what is timed; bench/endless/rows is built from rows.c. N is 1,000,000 where it is not given. It is run by hand: no test and no gate calls it.
"""
import argparse
import os
import shutil
import statistics
import subprocess
import tempfile
import time

HERE = os.path.dirname(os.path.abspath(__file__))
TOP = os.path.dirname(os.path.dirname(HERE))
DLM = os.path.join(TOP, 'crates', 'dlm', 'out', 'dlm')
LIBRARY = os.path.join(TOP, 'capi', 'out', 'libmidgegalena.a')
MG_LOCK = os.path.join(TOP, 'capi', 'out', 'mg-lock')
EPOCH = 1024
FRESH = 15


def run(*words):
    """Runs it, and gives what it prints."""
    done = subprocess.run(words, stdin=subprocess.DEVNULL, stdout=subprocess.PIPE, check=True)
    return done.stdout.decode('ascii')


def milliseconds(*words):
    """How long the process lasts."""
    began = time.perf_counter()
    subprocess.run(words, stdin=subprocess.DEVNULL, stdout=subprocess.DEVNULL, check=True)
    return (time.perf_counter() - began) * 1e3


def made(parent, name, *slots):
    """A folder with three new images, without an end where no number of slots is given."""
    folder = os.path.join(parent, name)
    os.mkdir(folder)
    run(DLM, 'format', folder, '3', *slots, '7')
    return folder


def fresh_submits(folder, request):
    """The times of some `dlm submit`, each a process."""
    times = []
    for k in range(FRESH):
        odd = (request + k) % 2
        words = ['enqueue', '1', str(request + k), '1', 'EX', 'turn'] if odd else ['release', '1', str(request + k), '1']
        times.append(milliseconds(DLM, 'submit', folder, '0', *words))
    return times


def fresh_locks(folder):
    """The times of some `mg-lock .. true`."""
    return [milliseconds(MG_LOCK, folder, '0', 'db', '--', 'true') for _ in range(FRESH)]


def line(what, times):
    """A row of the table."""
    print(f'| {what} | {statistics.median(times):.2f} ({min(times):.2f}–{max(times):.2f}) |', flush=True)


def main():
    words = argparse.ArgumentParser(description=__doc__)
    words.add_argument('--commands', type=int, default=1_000_000)
    words.add_argument('folder', nargs='?', default=tempfile.gettempdir())
    given = words.parse_args()
    rows = os.path.join(HERE, 'out', 'rows')
    os.makedirs(os.path.dirname(rows), exist_ok=True)
    run('gcc', '-std=c99', '-O2', '-Wall', '-Wextra', '-I', os.path.join(TOP, 'capi', 'include'), os.path.join(HERE, 'rows.c'), LIBRARY, '-o', rows)
    disk = tempfile.mkdtemp(prefix='endless.', dir=given.folder)
    memory = tempfile.mkdtemp(prefix='endless.', dir='/dev/shm')
    try:
        print('| what | milliseconds: the median (least–greatest) |\n|---|---|')
        new = made(disk, 'new')
        line('`dlm submit`, new folder', fresh_submits(new, 1))
        new = made(disk, 'locked')
        line('`mg-lock F 0 db -- true`, new folder', fresh_locks(new))
        for kind, slots in (('that ends', ['4096']), ('without an end', [])):
            filled = made(memory, 'filled' + kind[-3:], *slots)
            run(rows, 'many', filled, '4000')
            there = os.path.join(disk, 'filled' + kind[-3:])
            shutil.copytree(filled, there)
            line(f'`mg-lock F 0 db -- true`, 4,000 commands, a log {kind}', fresh_locks(there))
        filled = made(memory, 'many')
        seconds, early, late = run(rows, 'many', filled, str(given.commands)).split()
        print(f'| {given.commands:,} commands of one open host in memory: {seconds} s; its memory after a tenth {early} KB, at the end {late} KB | |', flush=True)
        for place in range(0, EPOCH, EPOCH // 8):
            there = os.path.join(disk, f'many{place}')
            shutil.copytree(filled, there)
            line(f'`dlm submit`, {given.commands:,} commands and {place}', fresh_submits(there, given.commands + place + 1))
            shutil.rmtree(there)
            run(rows, 'many', filled, str(EPOCH // 8))
        for locks in (0, 20):
            folder = made(disk, f'turns{locks}')
            if locks:
                run(rows, 'held', folder, str(locks))
            middle, late, last, longest, epochs = run(rows, 'turns', folder, '2000').split()
            print(f'| 2,000 turns of an open session, {locks} locks of as many clients beside: median {middle} us, 99 of 100 {late}, the longest take {longest} us; {epochs} epochs began | |', flush=True)
        for turn in range(3):
            for kind, slots in (('that ends', ['4096']), ('without an end', [])):
                folder = made(disk, f'session{turn}' + kind[-3:], *slots)
                middle, late = run(rows, 'turns', folder, '450').split()[:2]
                print(f'| 450 turns of an open session, a log {kind}: median {middle} us, 99 of 100 {late} | |', flush=True)
    finally:
        shutil.rmtree(disk)
        shutil.rmtree(memory)


if __name__ == '__main__':
    main()
