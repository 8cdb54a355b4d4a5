#!/usr/bin/env python3
"""peers.py: times this project beside sanlock, etcd, Redis, PostgreSQL and flock in one run, and prints one table in Markdown.

README.md beside it says what each row is. build.sh has to have run. Each server that is started here listens on free ports of the loopback device,
keeps its files in a temporary folder, and is stopped on each way out. The status is 1 where a row of this project is left out.
"""
import argparse
import datetime
import glob
import grp
import math
import os
import pwd
import random
import shutil
import signal
import socket
import statistics
import subprocess
import sys
import tempfile
import time

HERE = os.path.dirname(os.path.realpath(__file__))
SESSION = os.path.join(HERE, 'out', 'session')
PEERS = ('sanlock', 'etcd', 'redis', 'postgres', 'flock')
PACKAGES = ('sanlock', 'etcd-server', 'redis-server', 'postgresql-[0-9]*', 'util-linux')
TITLES = {
    'session': 'take and release, one open session',
    'contend': 'eight clients take and release one lock: the time over the turns of all',
    'fresh': 'take and release, fresh processes, quiet',
    'busy': 'take and release, fresh processes, all processors busy',
    'growth': 'one fresh process, by the commands in the log',
    'takeover': 'from the kill of the holder to the next holder',
}
NOWHERE = {
    "the kernel's DLM": 'it needs a module of the kernel and a cluster of corosync; no stage drives it',
    'o2cb': 'it needs modules of the kernel and a cluster of ocfs2; no stage drives it',
    'Redis, takeover': 'a key ends when its client said, whatever becomes of the client',
    'PostgreSQL, takeover': 'no case is built: psql runs no command under a lock',
}
ENDS = (signal.SIGINT, signal.SIGTERM, signal.SIGHUP)
SLOTS, TURNS, CLIENTS, AREA, LIMIT = 4096, 2000, 8, 1 << 20, 120


class LeftOut(Exception):
    """Why something cannot run here."""


CAUSES = (LeftOut, OSError, LookupError, subprocess.SubprocessError)


class Results:
    """The times of all rows, in the order of the table, and what is left out."""

    def __init__(self):
        self.rows, self.left, self.lost = {}, [], False

    def leave(self, who, why):
        self.left.append(f'left out: {who}: {why}')
        print(self.left[-1], file=sys.stderr, flush=True)

    def in_turn(self, system, stage, kinds, rounds):
        """Times each kind once in each round, in a random order. A kind is a function that gives the nanoseconds of some turns."""
        for who in kinds:
            self.rows.setdefault((stage, who), {})
        for number in range(1, rounds + 1):
            for who in random.sample(list(kinds), len(kinds)):
                print(f'{system}, {stage}, round {number}: {who}', file=sys.stderr, flush=True)
                try:
                    self.rows[stage, who].setdefault(system, []).append(kinds[who]())
                except CAUSES as why:
                    self.leave(f'{who}, {stage}, {system}', why)
                    self.lost |= who.startswith('this')
                    del kinds[who], self.rows[stage, who][system]

    def print_table(self, systems):
        print('| | | ' + ' | '.join(f'{it}: median | medians of the rounds | 99 of 100' for it in systems) + ' |')
        print('|---|---|' + '---|---|---|' * len(systems))
        told = None
        for (stage, who), by_system in self.rows.items():
            if by_system:
                title, told = (TITLES[stage] if stage != told else ''), stage
                print(f'| {title} | {who} | ' + ' | '.join(cells(by_system.get(it)) for it in systems) + ' |')


def cells(rounds):
    if not rounds:
        return '– | – | –'
    medians = [statistics.median(it) for it in rounds]
    every = sorted(it for times in rounds for it in times)
    spread = f'{length(min(medians))} to {length(max(medians))}' if len(medians) > 1 else '–'
    late = length(every[-1 - len(every) // 100]) if len(every) >= 100 else '–'
    return f'{length(statistics.median(medians))} | {spread} | {late}'


def length(nanoseconds):
    """Three digits and a unit."""
    size, unit = next((it for it in ((1e9, 's'), (1e6, 'ms')) if nanoseconds >= it[0]), (1e3, 'us'))
    number = max(nanoseconds, 1) / size
    return f'{number:.{max(0, 2 - math.floor(math.log10(number)))}f} {unit}'


class Place:
    """A temporary folder on one file system, and the processes that were started for it. Its end stops them and removes it."""

    def __init__(self, folder):
        self.system = said(['findmnt', '-n', '-o', 'FSTYPE', '--target', folder]).split()[-1]
        self.at = tempfile.mkdtemp(prefix='peers.', dir=folder)
        os.chmod(self.at, 0o711)  # PostgreSQL may run as a user of its own
        self.processes = []

    def __enter__(self):
        return self

    def __exit__(self, *_):
        former = {it: signal.signal(it, signal.SIG_IGN) for it in ENDS}
        for process, ends_by in reversed(self.processes):
            stop(process, ends_by)
        shutil.rmtree(self.at, ignore_errors=True)
        for number, handler in former.items():
            signal.signal(number, handler)

    def path(self, *names):
        return os.path.join(self.at, *names)

    def folder(self, name):
        """A new folder; an older one of that name goes."""
        shutil.rmtree(self.path(name), ignore_errors=True)
        os.mkdir(self.path(name))
        return self.path(name)

    def absent(self, name):
        """A path where nothing is; a file of that name goes."""
        if os.path.exists(self.path(name)):
            os.unlink(self.path(name))
        return self.path(name)

    def start(self, words, ends_by=signal.SIGKILL, as_user=(), **more):
        """Starts a process in a group of its own. It ends with this one, also where this one is killed."""
        if not shutil.which(words[0]):
            raise LeftOut(f'there is no program {words[0]}')
        with open(self.path('log'), 'ab') as log:
            process = subprocess.Popen(['setpriv', *as_user, '--pdeathsig', 'KILL', *words], stdin=subprocess.DEVNULL, stdout=log, stderr=log,
                                       env={**os.environ, **more}, start_new_session=True)
        self.processes.append((process, ends_by))
        return process

    def end(self, process):
        stop(process, signal.SIGKILL)
        self.processes = [it for it in self.processes if it[0] is not process]

    def timed(self, *commands, **more):
        """The nanoseconds that these commands take as fresh processes, one after the other. Each has to end well."""
        files = [(os.POSIX_SPAWN_OPEN, 1, os.devnull, os.O_WRONLY, 0), (os.POSIX_SPAWN_OPEN, 2, self.path('said'), os.O_WRONLY | os.O_CREAT | os.O_TRUNC, 0o600)]
        environment, child = {**os.environ, **more}, None
        signal.setitimer(signal.ITIMER_REAL, LIMIT)
        try:
            began = time.perf_counter_ns()
            for words in commands:
                child = os.posix_spawnp(words[0], words, environment, file_actions=files, setsigdef=[signal.SIGPIPE])
                status, child = os.waitpid(child, 0)[1], None
                if status != 0:
                    with open(self.path('said'), encoding='utf-8', errors='replace') as file:
                        raise LeftOut(ended(words, os.waitstatus_to_exitcode(status), file.read()))
            return time.perf_counter_ns() - began
        finally:
            signal.setitimer(signal.ITIMER_REAL, 0)
            if child is not None:
                os.kill(child, signal.SIGKILL)
                os.waitpid(child, 0)


def stop(process, ends_by):
    """Ends a process, by a signal that it may hear of or with its whole group. The number of one that was waited for may be another's by now."""
    if ends_by != signal.SIGKILL:
        process.send_signal(ends_by)
        try:
            process.wait(10)
        except subprocess.TimeoutExpired:
            pass
    if process.returncode is None:
        os.killpg(process.pid, signal.SIGKILL)
        process.wait()


def ended(words, status, text):
    return f'{os.path.basename(words[0])} ended with {status}: {(text.strip().splitlines() or ["nothing printed"])[-1][:200]}'


def said(words, limit=LIMIT, **more):
    """What a command prints; it has to end well."""
    done = subprocess.run(words, capture_output=True, text=True, stdin=subprocess.DEVNULL, timeout=limit, env={**os.environ, **more})
    if done.returncode != 0:
        raise LeftOut(ended(words, done.returncode, done.stderr + done.stdout))
    return done.stdout


def until(asks, what, seconds=30, pause=0.1):
    """Asks again and again until the answer is true."""
    end = time.monotonic() + seconds
    while not asks():
        if time.monotonic() > end:
            raise LeftOut(f'{what}: not within {seconds} s')
        time.sleep(pause)


def answers(words, wanted='', **more):
    """A question for `until`: whether the command ends well and prints what is wanted."""
    def ask():
        try:
            return wanted in said(words, **more)
        except LeftOut:
            return False
    return ask


def free_ports(count):
    sockets = [socket.create_server(('127.0.0.1', 0)) for _ in range(count)]
    ports = [it.getsockname()[1] for it in sockets]
    for it in sockets:
        it.close()
    return ports


# ---- the peers: each function starts servers and says how they are spoken to ----

def start_sanlock(place, name='san', hosts=1, io_timeout=1):
    """Daemons over one file: a lockspace, then two leases. Gives of each its environment and process, and the path of the file."""
    leases, daemons, joins, seconds = place.path(name + '.leases'), [], [], ['-o', str(io_timeout)]
    with open(leases, 'wb') as file:
        file.truncate(3 * AREA)
    said(['sanlock', 'direct', 'init', '-s', f'peers:0:{leases}:0', *seconds])
    for number in range(2):
        said(['sanlock', 'direct', 'init', '-r', lease(leases, number)])
    user, group = pwd.getpwuid(os.getuid()).pw_name, grp.getgrgid(os.getgid()).gr_name
    for host in range(hosts):
        environment = {'SANLOCK_RUN_DIR': place.folder(f'{name}.{host}'), 'SANLOCK_PRIVILEGED': '0'}
        words = ['sanlock', 'daemon', '-D', '-w', '0', '-h', '0', '-l', '0', '-U', user, '-G', group, '-e', f'host{host}']
        daemons.append((environment, place.start(words, **environment)))
        until(answers(['sanlock', 'client', 'status'], **environment), 'sanlock answers')
        joins.append(place.start(['sanlock', 'client', 'add_lockspace', '-s', f'peers:{host + 1}:{leases}:0', *seconds], **environment))
    if [it.wait(LIMIT) for it in joins] != [0] * hosts:
        raise LeftOut('a daemon of sanlock did not join its lockspace')
    return daemons, leases


def lease(leases, number):
    return f'peers:n{number}:{leases}:{(number + 1) * AREA}'


def start_etcd(place, members):
    urls = [f'http://127.0.0.1:{it}' for it in free_ports(2 * members)]
    cluster = ','.join(f'e{it}={urls[2 * it + 1]}' for it in range(members))
    for it in range(members):
        client, peer = urls[2 * it:2 * it + 2]
        place.start(['etcd', '--name', f'e{it}', '--data-dir', place.folder(f'etcd{members}.{it}'), '--listen-client-urls', client, '--advertise-client-urls', client,
                     '--listen-peer-urls', peer, '--initial-advertise-peer-urls', peer, '--initial-cluster', cluster, '--initial-cluster-token', f'peers{members}'], signal.SIGTERM)
    target = urls[0].removeprefix('http://')
    until(answers(['etcdctl', '--endpoints', target, 'get', 'nothing', '-w', 'json'], ETCDCTL_API='3'), 'etcd answers')
    return target


def start_redis(place):
    port = str(free_ports(1)[0])
    place.start(['redis-server', '--port', port, '--bind', '127.0.0.1', '--appendonly', 'yes', '--appendfsync', 'always', '--save', '',
                 '--auto-aof-rewrite-percentage', '0', '--dir', place.folder('redis')], signal.SIGTERM)
    until(answers(['redis-cli', '-p', port, 'PING'], 'PONG'), 'Redis answers')
    return f'127.0.0.1:{port}'


def start_postgres(place):
    """As the user postgres where this is run by root: PostgreSQL refuses root."""
    folders = sorted(glob.glob('/usr/lib/postgresql/*/bin'))
    if not folders:
        raise LeftOut('there is no program postgres')
    port, data, as_user = str(free_ports(1)[0]), place.folder('postgres'), ()
    if os.getuid() == 0:
        shutil.chown(data, 'postgres', 'postgres')
        as_user = ('--reuid=postgres', '--regid=postgres', '--clear-groups')
    if place.start([folders[-1] + '/initdb', '-A', 'trust', '-U', 'postgres', '-D', data], signal.SIGTERM, as_user).wait(LIMIT) != 0:
        raise LeftOut('initdb did not end well')
    place.start([folders[-1] + '/postgres', '-D', data, '-p', port, '-k', '', '-h', '127.0.0.1', '-c', 'dynamic_shared_memory_type=mmap'], signal.SIGINT, as_user)
    target = f'host=127.0.0.1 port={port} user=postgres dbname=postgres'
    until(answers(['psql', '-qAt', '-c', 'SELECT 1', target]), 'PostgreSQL answers')
    return target


def start_peers(place, wanted, results):
    """Starts what can run here. What is left out is not among the keys."""
    starts = {'sanlock': start_sanlock, 'etcd 1': lambda it: start_etcd(it, 1), 'etcd 3': lambda it: start_etcd(it, 3), 'redis': start_redis,
              'postgres': start_postgres, 'flock': lambda it: it.path('flock')}
    started = {}
    for key, start in starts.items():
        if key.split()[0] in wanted:
            try:
                started[key] = start(place)
            except CAUSES as why:
                results.leave(f'{key}, {place.system}', why)
    return started


# ---- the stages ----

class Stages:
    def __init__(self, args, place, peers, results, is_last):
        self.args, self.place, self.peers, self.results, self.is_last = args, place, peers, results, is_last
        self.dlm, self.mg_lock = programs_of(args.programs)
        self.etcds = {f'{it} member' + 's' * (it > 1): peers[f'etcd {it}'] for it in (1, 3) if f'etcd {it}' in peers}
        if 'sanlock' in peers:
            ((self.san, _),), self.leases = peers['sanlock']

    def images(self, disks, name='images'):
        folder = self.place.folder(name)
        said([self.dlm, 'format', folder, str(disks), str(SLOTS), '7'])
        return folder

    def in_turn(self, stage, kinds, rounds=None):
        self.results.in_turn(self.place.system, stage, kinds, rounds or self.args.rounds)

    def session(self):
        def turns(kind, target, most=TURNS, **more):
            return [int(it) for it in said([SESSION, 'time', kind, target, str(most), str(self.args.seconds)], **more).split()]

        kinds = {
            'this, a session, 3 disks': lambda: turns('session', self.images(3)),
            'this, two commands, 3 disks': lambda: turns('commands', self.images(3)),
            'this, two commands, 1 disk': lambda: turns('commands', self.images(1)),
        }
        if 'sanlock' in self.peers:
            kinds['sanlock'] = lambda: turns('sanlock', self.leases, **self.san)
        for members, target in self.etcds.items():
            kinds[f'etcd, {members}'] = lambda target=target: turns('etcd', target)
        for who, kind, most in (('Redis', 'redis', 5000), ('PostgreSQL', 'postgres', 5000), ('`flock`', 'flock', 20000)):
            if kind in self.peers:
                kinds[who] = lambda kind=kind, most=most: turns(kind, self.peers[kind], most)
        self.in_turn('session', kinds)

    def contend(self):
        def turns(kind, target, **more):
            return [int(said([SESSION, 'contend', kind, target, str(CLIENTS), str(TURNS // CLIENTS), str(self.args.seconds)], **more))]

        kinds = {
            'this, a session each, 3 disks': lambda: turns('session', self.images(3)),
            'this, two commands, 3 disks': lambda: turns('commands', self.images(3)),
        }
        if 'sanlock' in self.peers:
            kinds['sanlock'] = lambda: turns('sanlock', self.leases, **self.san)
        for members, target in self.etcds.items():
            kinds[f'etcd, {members}'] = lambda target=target: turns('etcd', target)
        for who, kind in (('Redis', 'redis'), ('PostgreSQL', 'postgres'), ('`flock`', 'flock')):
            if kind in self.peers:
                kinds[who] = lambda kind=kind: turns(kind, self.peers[kind])
        self.in_turn('contend', kinds)

    def fresh(self, stage='fresh'):
        def turns(*commands, **more):
            return [self.place.timed(*commands, **more) for _ in range(self.args.turns)]

        def submit(disks):
            words = [self.dlm, 'submit', self.images(disks), '0']
            return [self.place.timed([*words, 'enqueue', '1', str(2 * it - 1), str(it), 'EX', 'db'], [*words, 'release', '1', str(2 * it), str(it)])
                    for it in range(1, self.args.turns + 1)]

        kinds = {}
        for number, disks in ((3, '3 disks'), (1, '1 disk')):
            kinds[f'this, `dlm submit` twice, {disks}'] = lambda number=number: submit(number)
            kinds[f'this, `mg-lock .. true`, {disks}'] = lambda number=number: turns([self.mg_lock, self.images(number), '0', 'db', '--', 'true'])
        if 'sanlock' in self.peers:
            # sanlock's clients take leases for a process that the daemon knows: one that holds another lease.
            note = self.place.absent('known')
            known = self.place.start(['sanlock', 'client', 'command', '-r', lease(self.leases, 1), '-c', SESSION, 'note', note, 'hold'], **self.san)
            until(lambda: os.path.exists(note), 'sanlock client command')
            words = ['-r', lease(self.leases, 0), '-p', str(known.pid)]
            kinds['sanlock, `client acquire` and `release`'] = lambda: turns(
                ['sanlock', 'client', 'acquire', *words], ['sanlock', 'client', 'release', *words], **self.san)
        for members, target in self.etcds.items():
            kinds[f'`etcdctl lock db true`, {members}'] = lambda target=target: turns(['etcdctl', '--endpoints', target, 'lock', 'db', 'true'], ETCDCTL_API='3')
        if 'redis' in self.peers:
            cli = ['redis-cli', '-e', '-p', self.peers['redis'].split(':')[1]]
            kinds['`redis-cli` SET NX, then DEL'] = lambda: turns([*cli, 'SET', 'db', '1', 'NX', 'PX', '60000'], [*cli, 'DEL', 'db'])
        if 'postgres' in self.peers:
            query = 'SELECT pg_advisory_lock(1), pg_advisory_unlock(1)'
            kinds['`psql`, an advisory lock'] = lambda: turns(['psql', '-qAt', '-c', query, self.peers['postgres']])
        if 'flock' in self.peers:
            kinds['`flock FILE true`'] = lambda: turns(['flock', self.peers['flock'], 'true'])
        kinds['`true` alone, no lock'] = lambda: turns(['true'])
        self.in_turn(stage, kinds)
        if 'sanlock' in self.peers:
            self.place.end(known)

    def busy(self):
        spinning = [self.place.start([sys.executable, '-c', 'while True: pass']) for _ in os.sched_getaffinity(0)]
        try:
            time.sleep(1)
            self.fresh('busy')
            if any(it.poll() is not None for it in spinning):
                sys.exit('peers.py: a process that should have kept a processor busy had ended')
        finally:
            for it in spinning:
                self.place.end(it)

    def growth(self):
        def turns(log, words):
            folder = self.place.folder('images')
            for name in os.listdir(log):
                shutil.copyfile(os.path.join(log, name), os.path.join(folder, name))
                with open(os.path.join(folder, name), 'rb+') as file:
                    os.fsync(file.fileno())
            return [self.place.timed(words(folder, it)) for it in range(1, min(self.args.turns, 5) + 1)]

        kinds = {}
        for commands in (0, 240, 4000):
            log = self.images(3, f'log{commands}')
            if commands and len(said([SESSION, 'time', 'commands', log, str(commands // 2), '3600'], 3600).split()) != commands // 2:
                raise LeftOut(f'{commands} commands did not get into a log within an hour')
            for what, words in (
                    ('`dlm submit`', lambda folder, it: [self.dlm, 'submit', folder, '1', 'enqueue', '2', str(it), str(1000 + it), 'NL', 'other']),
                    ('`dlm table`', lambda folder, _: [self.dlm, 'table', folder, '1']),
                    ('`mg-lock .. true`', lambda folder, _: [self.mg_lock, folder, '0', 'db', '--', 'true'])):
                kinds[f'this, {what}, {commands:,} commands'] = lambda log=log, words=words: turns(log, words)
        self.in_turn('growth', kinds)

    def takeover(self):
        def lock(other, after):
            folder = self.images(3)
            return self.waits(*[[self.mg_lock, folder, host, 'db', '--'] for host in ('0', other)], after and after(folder))

        kinds = {
            'this, `mg-lock`, the same host number': lambda: lock('0', None),
            'this, another host; at once `mg-lock --recover` for the first': lambda: lock('1', lambda folder: [self.mg_lock, '--recover', folder, '0']),
            'this, another host; at once `dlm submit .. purge`': lambda: lock('1', lambda folder: [self.dlm, 'submit', folder, '2', 'purge', '1', '1', '0']),
        }
        if 'sanlock' in self.peers:
            kinds['sanlock, the process killed, the same host asks again'] = lambda: self.asks(self.leases, self.san, self.san)
        if 'etcd 1' in self.peers:
            for ttl in (10, 2):
                words = ['etcdctl', '--endpoints', self.peers['etcd 1'], 'lock', f'--ttl={ttl}', 'db', '--']
                kinds[f'`etcdctl lock --ttl={ttl}`, 1 member'] = lambda words=words: self.waits(words, words, settle=3, ETCDCTL_API='3')
        if 'flock' in self.peers:
            kinds['`flock`'] = lambda: self.waits(*[['flock', self.peers['flock']]] * 2)
        self.in_turn('takeover', kinds)
        if 'sanlock' in self.peers and self.is_last:
            for seconds in (1, 10) if self.args.long else (1,):
                who = f'sanlock, process and daemon killed, another host asks again, io_timeout {seconds}'
                self.in_turn('takeover', {who: lambda: self.sanlock_hosts(seconds)}, 1)

    def waits(self, holder, waiter, after=None, settle=1, **more):
        """The nanoseconds from the kill of a holder until the command of a waiter has begun. Both run a command under the lock."""
        first, second = self.place.absent('first'), self.place.absent('second')
        started = [self.place.start([*holder, SESSION, 'note', first, 'hold'], **more)]
        try:
            until(lambda: os.path.exists(first), 'the holder begins', pause=0.001)
            started.append(self.place.start([*waiter, SESSION, 'note', second], **more))
            time.sleep(settle)
            if os.path.exists(second):
                raise LeftOut('the waiter did not wait')
            began = time.perf_counter_ns()
            os.killpg(started[0].pid, signal.SIGKILL)
            if after:
                said(after)
            until(lambda: os.path.exists(second), 'the waiter begins', LIMIT, 0.0005)
            took = time.perf_counter_ns() - began
            started[1].wait(LIMIT)
            return [took]
        finally:
            for it in started:
                self.place.end(it)

    def asks(self, leases, first, second, daemon=None):
        """The same of sanlock, where nobody can wait: its lease is asked for again and again. `first` and `second` are the environments of two daemons."""
        notes = self.place.absent('first'), self.place.absent('second')
        words = ['sanlock', 'client', 'command', '-r', lease(leases, 0), '-c', SESSION, 'note']
        holds = self.place.start([*words, notes[0], 'hold'], **first)
        until(lambda: os.path.exists(notes[0]), 'the holder begins', pause=0.001)
        began = time.perf_counter_ns()
        for it in filter(None, (daemon, holds)):
            self.place.end(it)
        while not os.path.exists(notes[1]):
            if time.perf_counter_ns() - began > 300e9:
                raise LeftOut('no lease within 300 s')
            asks = self.place.start([*words, notes[1]], **second)
            until(lambda: os.path.exists(notes[1]) or asks.poll() is not None, 'sanlock client command', 300, 0.0005)
            took = time.perf_counter_ns() - began
            asks.wait(LIMIT)
            self.place.end(asks)
        return [took]

    def sanlock_hosts(self, io_timeout):
        ((first, daemon), (second, other)), leases = start_sanlock(self.place, f'hosts{io_timeout}', 2, io_timeout)
        try:
            return self.asks(leases, first, second, daemon)
        finally:
            self.place.end(other)


# ---- the page ----

def bare_sync(place):
    """The median of a write of 4 KiB and its sync."""
    times = []
    with open(place.path('bare'), 'wb') as file:
        for _ in range(100):
            began = time.perf_counter_ns()
            os.pwrite(file.fileno(), bytes(4096), 0)
            os.fdatasync(file.fileno())
            times.append(time.perf_counter_ns() - began)
    return length(statistics.median(times))


def programs_of(checkout):
    return os.path.join(checkout, 'crates', 'dlm', 'out', 'dlm'), os.path.join(checkout, 'capi', 'out', 'mg-lock')


def read_words():
    words = argparse.ArgumentParser(description=__doc__, formatter_class=argparse.RawDescriptionHelpFormatter)
    words.add_argument('--programs', metavar='CHECKOUT', default=os.path.dirname(os.path.dirname(HERE)), help='where ./dlm and capi/build.sh have run; this one if it is left out')
    words.add_argument('--folders', metavar='DIR', nargs='+', default=['/dev/shm', tempfile.gettempdir()], help="one on each file system; /dev/shm and the system's temporary folder if left out")
    words.add_argument('--stages', nargs='+', choices=TITLES, default=TITLES)
    words.add_argument('--peers', nargs='*', choices=PEERS, default=PEERS)
    words.add_argument('--rounds', type=int, default=3)
    words.add_argument('--turns', type=int, default=20, help='of fresh processes in a round, up to 1,000')
    words.add_argument('--seconds', type=float, default=3, help='of an open session in a round, at the most')
    words.add_argument('--long', action='store_true', help="sanlock's takeover at its default io_timeout too: some three minutes more")
    args = words.parse_args()
    if args.rounds < 1 or not 1 <= args.turns <= 1000 or not args.seconds > 0 or not all(os.path.isdir(it) for it in args.folders):
        words.error('a number is out of range, or a folder is not there')
    for path, how in zip((SESSION, *programs_of(args.programs)), ('bench/peers/build.sh', './dlm', 'capi/build.sh')):
        if not os.access(path, os.X_OK):
            sys.exit(f'peers.py: there is no program {os.path.basename(path)}: run {how} first')
    return args


def give_up(*_):
    raise LeftOut(f'not within {LIMIT} s')


def main():
    args, results, syncs, load = read_words(), Results(), {}, os.getloadavg()[0]
    os.environ['PATH'] += ':/usr/sbin:/sbin'
    for number in ENDS:
        signal.signal(number, lambda it, _: sys.exit(128 + it))
    signal.signal(signal.SIGALRM, give_up)
    for folder in args.folders:
        with Place(folder) as place:
            if place.system in syncs:
                results.leave(folder, f'another folder of {place.system} came before it')
                continue
            syncs[place.system] = bare_sync(place)
            stages = Stages(args, place, start_peers(place, args.peers, results), results, folder == args.folders[-1])
            for stage in args.stages:
                try:
                    getattr(stages, stage)()
                except CAUSES as why:
                    results.leave(f'{stage}, {place.system}', why)
                    results.lost = True
    for who, why in NOWHERE.items():
        results.leave(who, why)
    with open('/proc/cpuinfo', encoding='utf-8') as file:
        model = next((it.split(': ')[1].strip() for it in file if it.startswith('model name')), 'of a model that is not told')
    print(f'Taken on {datetime.datetime.now(datetime.timezone.utc).date()}. The machine: {len(os.sched_getaffinity(0))} processors ({model}), '
          f'Linux {os.uname().release.split("-")[0]}, load at the start {load:.1f}. A write of 4 KiB and its sync take '
          + ', '.join(f'{it} on {system}' for system, it in syncs.items()) + f'. Rounds: {args.rounds}.\n')
    known = subprocess.run(['dpkg-query', '-W', '-f', '${Package} ${Version}\n', *PACKAGES], capture_output=True, text=True).stdout
    commit = subprocess.run(['git', '-C', args.programs, 'describe', '--always', '--dirty', '--exclude=*'], capture_output=True, text=True).stdout.strip()
    print(', '.join([f'Versions: this {commit or "not told"}', *(it for it in known.splitlines() if not it.endswith(' '))]) + '.\n')
    results.print_table(list(syncs))
    print('\n' + '\n'.join(f'- {it}' for it in results.left))
    return 1 if results.lost else 0


if __name__ == '__main__':
    sys.exit(main())
