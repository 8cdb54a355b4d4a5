"""A job queue. Any number of workers take jobs from a folder, each job under a lock of its own. Whichever is killed, each job is done once.

    jobs.py IMAGES HOST SPOOL      a worker, which ends once no job is left

IMAGES is a folder of images, and HOST this worker's number, which no other has. SPOOL/todo has a file for each job, and SPOOL/done gets a
file for each result. A name has up to 11 letters. A job here is a number. The work takes so many milliseconds, and its result is the square.

A worker that is killed keeps the lock of its job. It gives that back when it is started again; `mg-lock --recover --all IMAGES HOST` does so
where it never will be.
"""
import os
import random
import sys
import time
from pathlib import Path

from midgegalena import Refused, Session


def do(spool: Path, job: str) -> None:
    """Only whoever holds the job's lock does it. The result is there whole or not at all, so a job that was begun and not ended is begun
    anew. One that a worker ended, which was killed then, is not done again."""
    todo, done, draft = spool / "todo" / job, spool / "done" / job, spool / f"draft-{job}"
    if not done.exists():
        number = int(todo.read_text())
        time.sleep(number / 1000)
        draft.write_text(f"{number ** 2}\n")
        os.link(draft, done)  # raises where somebody else has done it
    draft.unlink(missing_ok=True)
    todo.unlink()


def work(session: Session, spool: Path, job: str) -> bool:
    """Does a job, unless somebody is at it, or has done it. Whether this worker did."""
    todo = spool / "todo" / job
    if not todo.exists():
        return False  # a lock would take two slots of the log
    try:
        with session.lock(f"job-{job}", timeout=0):
            if not todo.exists():
                return False
            do(spool, job)
            return True
    except TimeoutError:
        return False


def main(images: str, host: int, spool: Path) -> None:
    with Session(images, host) as session:  # releases what this worker held when it was killed
        while jobs := os.listdir(spool / "todo"):
            random.shuffle(jobs)
            if not any([work(session, spool, job) for job in jobs]):
                time.sleep(0.05)  # others are at those that are left


if __name__ == "__main__":
    try:
        main(sys.argv[1], int(sys.argv[2]), Path(sys.argv[3]))
    except Refused as why:
        sys.exit(f"jobs.py: {why.status} {why}")
