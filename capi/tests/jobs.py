#!/usr/bin/env python3
"""Workers of examples/python/jobs.py take jobs, and are killed at random and started again: each job is done once, and no lock is left.

    jobs.py LIBRARY WORK [JOBS [WORKERS]]      an empty folder; the package midgegalena has to be found. JOBS are there at first

Prints how many jobs were done, and how often workers were killed."""
import os
import random
import signal
import subprocess
import sys
import time
from pathlib import Path

import heard  # noqa: F401
from midgegalena import LOG_FULL, Refused, Session, format_images

library, work = os.path.abspath(sys.argv[1]), Path(sys.argv[2]).absolute()
jobs = int(sys.argv[3]) if len(sys.argv) > 3 else 100
workers = int(sys.argv[4]) if len(sys.argv) > 4 else 4
program = Path(__file__).resolve().parent.parent / "examples" / "python" / "jobs.py"
environment = {**os.environ, "MIDGEGALENA": library}


def add(folder, job):
    """A job is there whole or not at all."""
    draft = folder / "new"
    draft.write_text(str(job % 100))
    os.rename(draft, folder / "todo" / str(job))


def spool(name, slots, count):
    """Images, and a folder with so many jobs."""
    images, folder = work / f"images-{name}", work / name
    for made in (images, folder / "todo", folder / "done"):
        made.mkdir(parents=True)
    format_images(images, slots=slots, cluster=7, library=library)
    for job in range(count):
        add(folder, job)
    return images, folder


def begin(images, host, folder, **more):
    return subprocess.Popen([sys.executable, program, images, str(host), folder], env=environment, **more)


def expect_done(folder, count):
    assert not os.listdir(folder / "todo")
    for job in range(count):
        assert (folder / "done" / str(job)).read_text() == f"{(job % 100) ** 2}\n", job
    assert len(os.listdir(folder / "done")) == count


# Killed at random: most while they work, some as they start.
images, folder = spool("killed", 4096, jobs)
running = [begin(images, host, folder) for host in range(workers)]
killed = 0
try:
    while killed < 5 * workers:
        time.sleep(random.uniform(0.02, 0.3))
        host = random.randrange(workers)
        running[host].send_signal(signal.SIGKILL)
        # One that found no job has ended.
        assert running[host].wait() in (0, -signal.SIGKILL), running[host].returncode
        killed += running[host].returncode != 0
        for _ in range(5):
            add(folder, jobs)
            jobs += 1
        running[host] = begin(images, host, folder)
    for worker in running:
        assert worker.wait(3600) == 0, worker.returncode
finally:
    for worker in running:
        worker.kill()
expect_done(folder, jobs)
with Session(images, workers, library=library) as session:
    assert session.locks() == [], session.locks()
# With nothing to do a worker ends.
assert begin(images, 0, folder).wait(3600) == 0

# The log gets full: a worker says so, and what it has done is done. No job is lost.
images, folder = spool("full", 9, 20)
worker = begin(images, 0, folder, stderr=subprocess.PIPE, text=True)
said = worker.communicate(timeout=3600)[1]
assert worker.returncode == 1 and said.startswith(f"jobs.py: {LOG_FULL} "), said
done = set(os.listdir(folder / "done"))
assert done and done | set(os.listdir(folder / "todo")) == {str(job) for job in range(20)}, done
# Once the log is another one the rest is done.
images, _ = spool("full-2", 4096, 0)
assert begin(images, 0, folder).wait(3600) == 0
expect_done(folder, 20)

# The host number is another process's.
with Session(images, 0, library=library):
    worker = begin(images, 0, folder, stderr=subprocess.PIPE, text=True)
    assert worker.communicate(timeout=3600)[1].startswith("jobs.py: 36 ") and worker.returncode == 1
try:
    Session(images, 0, interval=0, library=library)
    raise AssertionError("an interval of 0")
except Refused as why:
    assert why.status == -1
with Session(images, 0, interval=50, library=library) as session, session.lock("db") as held:
    assert session.is_held(held)
print(f"{jobs} jobs done by {workers} workers, which were killed {killed} times")
