//! `dlm run` in plain Rust, without proofs: what the time and the memory of the proved program are compared with.
//! It reads the same scripts and prints the same text, and keeps to no more than that asks for.

mod lock_tables;

use lock_tables::{Action, Command, Flat, MODES, Mode, Name, Record, Reply, State, Table, name};
use std::fmt;
use std::io::{self, BufWriter, Write};

const HOSTS: usize = 16;
const COPY: usize = 128;
const BLOCK: usize = 2 * COPY;
const ROW: usize = HOSTS * BLOCK;
const ROWS_AT: usize = 8192;
const OPEN: u8 = 0xA5;
const VERSION: u8 = 2;
const LAST: u64 = 1 << 62;

type Value = [u8; 48];

fn number(bytes: &[u8]) -> u64 {
    u64::from_be_bytes(bytes[..8].try_into().unwrap())
}

// DISKS

#[derive(Clone, Copy, PartialEq, Eq)]
enum Fault {
    Reset,
    Gone,
}

/// A device call of an attempt: where it goes in the image, and the bytes that a write puts there.
#[derive(Clone, Copy)]
enum Call {
    Attach,
    Read { boot: u64, at: usize },
    Write { boot: u64, at: usize, bytes: [u8; COPY], len: usize },
    Sync { boot: u64 },
}

enum Heard<'a> {
    Booted(u64),
    Row(&'a [u8]),
    Done,
    Fault,
}

/// Bytes, and a bit for each that says whether it is unsynced; the words of bits that are not zero stand in a list.
struct Disk {
    bytes: Vec<u8>,
    unsynced: Vec<u64>,
    dirty: Vec<u32>,
    boot: u64,
    gone: bool,
}

impl Disk {
    fn new(size: usize) -> Disk {
        Disk { bytes: vec![0; size], unsynced: vec![0; size.div_ceil(64)], dirty: Vec::new(), boot: 1, gone: false }
    }

    fn refusal(&self, call: &Call) -> Option<Fault> {
        let boot = match call {
            Call::Attach => self.boot,
            Call::Read { boot, .. } | Call::Write { boot, .. } | Call::Sync { boot } => *boot,
        };
        if self.gone {
            Some(Fault::Gone)
        } else if boot != self.boot {
            Some(Fault::Reset)
        } else {
            None
        }
    }

    fn put(&mut self, at: usize, bytes: &[u8]) {
        self.bytes[at..at + bytes.len()].copy_from_slice(bytes);
        for position in at..at + bytes.len() {
            let word = &mut self.unsynced[position / 64];
            if *word == 0 {
                self.dirty.push((position / 64) as u32);
            }
            *word |= 1 << (position % 64);
        }
    }

    fn sync(&mut self) {
        for word in self.dirty.drain(..) {
            self.unsynced[word as usize] = 0;
        }
    }

    fn crash(&mut self, given: &[u8]) {
        self.dirty.sort_unstable();
        let mut taken = 0;
        for word in &self.dirty {
            let mut bits = self.unsynced[*word as usize];
            while bits != 0 {
                self.bytes[*word as usize * 64 + bits.trailing_zeros() as usize] = given[taken % given.len()];
                taken += 1;
                bits &= bits - 1;
            }
        }
        self.sync();
        self.boot += 1;
    }
}

fn filled(given: &[u8], len: usize) -> Vec<u8> {
    given.iter().copied().cycle().take(len).collect()
}

// BLOCKS

#[derive(Clone, Copy, Default)]
struct Says {
    mbal: u64,
    bal: u64,
    input: Option<Value>,
}

/// A block as a row shows it: the copy that is written next, whether its gate stands open, and the sequence number before.
#[derive(Clone, Copy, Default)]
struct Block {
    says: Says,
    sequence: u64,
    next: usize,
    next_open: bool,
}

fn is_ballot_of(host: usize, ballot: u64) -> bool {
    (1..=LAST).contains(&ballot) && (ballot - 1) % HOSTS as u64 == host as u64
}

fn says_of(host: usize, copy: &[u8]) -> Option<Says> {
    let (mbal, bal) = (number(&copy[16..]), number(&copy[24..]));
    let plain = copy[1] == VERSION && copy[2] <= 1 && copy[3..8] == [0; 5] && (1..=LAST).contains(&number(&copy[8..]));
    if !plain || copy[80..] != [0; COPY - 80] || !is_ballot_of(host, mbal) {
        return None;
    }
    if copy[2] == 0 {
        return (bal == 0 && copy[32..80] == [0; 48]).then_some(Says { mbal, bal, input: None });
    }
    let sound = is_ballot_of(host, bal) && bal <= mbal;
    sound.then(|| Says { mbal, bal, input: Some(copy[32..80].try_into().unwrap()) })
}

/// The host's block in a row, or none where it is damaged.
fn block_of(host: usize, row: &[u8]) -> Option<Block> {
    let block = &row[host * BLOCK..][..BLOCK];
    let (first, second) = block.split_at(COPY);
    let one = (first[0] == OPEN).then(|| says_of(host, first));
    let two = (second[0] == OPEN).then(|| says_of(host, second));
    let of = |says: Option<Says>, copy: &[u8], next: usize, next_open: bool| {
        Some(Block { says: says?, sequence: number(&copy[8..]), next, next_open })
    };
    match (one, two) {
        (None, None) => Some(Block::default()),
        (Some(says), None) => of(says, first, 1, false),
        (None, Some(says)) => of(says, second, 0, false),
        (Some(a), Some(b)) => {
            let (_, _) = (a?, b?);
            match number(&first[8..]).cmp(&number(&second[8..])) {
                std::cmp::Ordering::Equal => None,
                std::cmp::Ordering::Greater => of(a, first, 1, true),
                std::cmp::Ordering::Less => of(b, second, 0, true),
            }
        }
    }
}

// AN ATTEMPT

#[derive(Clone, Copy)]
struct Visit {
    boot: u64,
    own: Block,
}

#[derive(Clone, Copy, PartialEq, Eq)]
enum Phase {
    Opening,
    One,
    Two,
}

#[derive(Clone, Copy, PartialEq, Eq)]
enum End {
    Committed(Value),
    Empty,
    Outrun(u64),
    NoMajority,
    BallotsSpent,
}

struct Attempt {
    host: usize,
    slot: usize,
    input: Option<Value>,
    visits: [Option<Visit>; 7],
    disks: usize,
    phase: Phase,
    disk: usize,
    step: usize,
    highest: u64,
    best: Says,
    says: Says,
    taken: Option<u64>,
    end: Option<End>,
}

impl Attempt {
    fn new(host: usize, slot: usize, disks: usize, floor: u64, input: Option<Value>) -> Attempt {
        let mut visits = [None; 7];
        visits[..disks].fill(Some(Visit { boot: 0, own: Block::default() }));
        let says = Says::default();
        Attempt { host, slot, input, visits, disks, phase: Phase::Opening, disk: 0, step: 0, highest: floor, best: says, says, taken: None, end: None }
    }

    fn row_at(&self) -> usize {
        ROWS_AT + ROW * self.slot
    }

    fn call(&self) -> Call {
        let visit = self.visits[self.disk].unwrap();
        let boot = visit.boot;
        let read = Call::Read { boot, at: self.row_at() };
        if self.phase == Phase::Opening {
            return [Call::Attach, Call::Sync { boot }, read][self.step];
        }
        let copy = self.row_at() + self.host * BLOCK + visit.own.next * COPY;
        let mut bytes = [0; COPY];
        match self.step {
            0 => Call::Write { boot, at: copy, bytes, len: usize::from(visit.own.next_open) },
            2 => {
                bytes[0] = VERSION;
                bytes[1] = u8::from(self.says.input.is_some());
                bytes[7..15].copy_from_slice(&(visit.own.sequence + 1).to_be_bytes());
                bytes[15..23].copy_from_slice(&self.says.mbal.to_be_bytes());
                bytes[23..31].copy_from_slice(&self.says.bal.to_be_bytes());
                bytes[31..79].copy_from_slice(&self.says.input.unwrap_or([0; 48]));
                Call::Write { boot, at: copy + 1, bytes, len: COPY - 1 }
            }
            4 => {
                bytes[0] = OPEN;
                Call::Write { boot, at: copy, bytes, len: 1 }
            }
            6 => read,
            _ => Call::Sync { boot },
        }
    }

    fn hear(&mut self, heard: Heard) {
        let last = if self.phase == Phase::Opening { 2 } else { 6 };
        match heard {
            Heard::Fault => self.visits[self.disk] = None,
            Heard::Booted(boot) => self.visits[self.disk].as_mut().unwrap().boot = boot,
            Heard::Row(row) => self.read(row),
            Heard::Done => {}
        }
        if self.end.is_some() {
            return;
        }
        if self.visits[self.disk].is_none() || self.step == last {
            self.visit_from(self.disk + 1);
        } else {
            self.step += 1;
        }
    }

    fn read(&mut self, row: &[u8]) {
        let mut blocks = [Block::default(); HOSTS];
        for (host, block) in blocks.iter_mut().enumerate() {
            match block_of(host, row) {
                Some(found) => *block = found,
                None => {
                    self.visits[self.disk] = None;
                    return;
                }
            }
        }
        self.visits[self.disk].as_mut().unwrap().own = blocks[self.host];
        if self.phase == Phase::Opening {
            self.highest = blocks.iter().map(|block| block.says.mbal).fold(self.highest, u64::max);
            if blocks[self.host].says.bal > self.best.bal {
                self.best = blocks[self.host].says;
            }
            return;
        }
        let others = blocks.iter().enumerate().filter(|(host, _)| *host != self.host).map(|(_, block)| &block.says);
        let top = others.clone().map(|says| says.mbal).max().unwrap_or(0);
        if self.phase == Phase::One {
            self.best = others.fold(self.best, |best, says| if says.bal > best.bal { *says } else { best });
        }
        if top > self.says.mbal {
            self.end = Some(End::Outrun(top));
        }
    }

    fn visit_from(&mut self, from: usize) {
        let mut next = from;
        self.step = 0;
        loop {
            while next < self.disks && self.visits[next].is_none_or(|visit| self.is_spent(&visit)) {
                self.visits[next] = None;
                next += 1;
            }
            if 2 * self.visits.iter().flatten().count() <= self.disks {
                self.end = Some(End::NoMajority);
                return;
            }
            if next < self.disks {
                self.disk = next;
                return;
            }
            if !self.next_phase() {
                return;
            }
            next = 0;
        }
    }

    fn is_spent(&self, visit: &Visit) -> bool {
        self.phase != Phase::Opening && visit.own.sequence >= LAST
    }

    fn next_phase(&mut self) -> bool {
        match self.phase {
            Phase::Opening => {
                let round = self.highest.saturating_sub(self.host as u64).div_ceil(HOSTS as u64);
                let ballot = HOSTS as u64 * round + self.host as u64 + 1;
                if ballot > LAST {
                    self.end = Some(End::BallotsSpent);
                    return false;
                }
                self.taken = Some(ballot);
                self.says = Says { mbal: ballot, ..self.best };
                self.phase = Phase::One;
            }
            Phase::One => {
                let Some(value) = self.best.input.or(self.input) else {
                    self.end = Some(End::Empty);
                    return false;
                };
                self.says = Says { mbal: self.says.mbal, bal: self.says.mbal, input: Some(value) };
                self.phase = Phase::Two;
            }
            Phase::Two => {
                self.end = Some(End::Committed(self.says.input.unwrap()));
                return false;
            }
        }
        true
    }
}

// COMMANDS AND LOCKS

fn text(mode: Mode) -> &'static str {
    ["NL", "CR", "CW", "PR", "PW", "EX"][mode as usize]
}

impl Command {
    fn encode(&self) -> Value {
        let mut value = [0; 48];
        let (kind, lock) = match self.action {
            Action::Enqueue { lock, .. } => (1, lock),
            Action::Convert { lock, .. } => (2, lock),
            Action::Release(lock) => (3, lock),
            Action::Cancel(lock) => (4, lock),
            Action::Status(lock) => (5, lock),
            Action::Purge(_) => (6, 0),
            Action::Forget(_) => (10, 0),
        };
        value[..3].copy_from_slice(&[kind, self.host, self.client]);
        value[6..8].copy_from_slice(&lock.to_be_bytes());
        value[8..16].copy_from_slice(&self.request.to_be_bytes());
        match self.action {
            Action::Enqueue { name, mode, no_queue, .. } => {
                value[3] = mode as u8;
                value[4] = u8::from(no_queue);
                value[5] = name.len;
                value[17..32].copy_from_slice(&name.bytes);
            }
            Action::Convert { mode, no_queue, .. } => {
                value[3] = mode as u8;
                value[4] = u8::from(no_queue);
            }
            Action::Purge(gone) | Action::Forget(gone) => value[16] = gone,
            _ => {}
        }
        value
    }

    /// Of the values that commands have: a script puts no others into the log.
    fn decode(value: &Value) -> Command {
        let lock = u16::from_be_bytes([value[6], value[7]]);
        let mode = MODES[value[3] as usize];
        let no_queue = value[4] == 1;
        let action = match value[0] {
            1 => Action::Enqueue { lock, name: name(&value[17..][..value[5] as usize]), mode, no_queue },
            2 => Action::Convert { lock, mode, no_queue },
            3 => Action::Release(lock),
            4 => Action::Cancel(lock),
            5 => Action::Status(lock),
            6 => Action::Purge(value[16]),
            _ => Action::Forget(value[16]),
        };
        Command { host: value[1], client: value[2], request: number(&value[8..]), action }
    }
}

impl fmt::Display for Reply {
    fn fmt(&self, f: &mut fmt::Formatter) -> fmt::Result {
        match self {
            Reply::Purged(count) => write!(f, "Purged({count})"),
            Reply::State(State::Granted(held)) => write!(f, "State(held={}, wanted=-)", text(*held)),
            Reply::State(State::Waiting(wanted)) => write!(f, "State(held=-, wanted={})", text(*wanted)),
            Reply::State(State::Converting(held, wanted)) => write!(f, "State(held={}, wanted={})", text(*held), text(*wanted)),
            Reply::Refused(refusal) => write!(f, "{} {refusal:?}", 11 + *refusal as u8),
            Reply::Granted | Reply::Queued | Reply::Released | Reply::Cancelled | Reply::Forgotten => write!(f, "{self:?}"),
        }
    }
}

/// The locks of each name, those of a queue in its order.
fn show(table: &Flat, out: &mut impl Write) -> io::Result<()> {
    if table.records.is_empty() {
        return writeln!(out, "empty");
    }
    let mut names: Vec<&Name> = table.records.iter().map(|record| &record.name).collect();
    names.sort_unstable();
    names.dedup();
    for name in names {
        out.write_all(&name.bytes[..name.len as usize])?;
        writeln!(out)?;
        let of_name = || table.records.iter().filter(|record| record.name == *name);
        let line = |out: &mut dyn Write, what: &str, record: &Record| write!(out, "  {what} {} {} {}", record.lock, record.client, record.host);
        let mut granted: Vec<&Record> = of_name().collect();
        granted.sort_unstable_by_key(|record| record.lock);
        for record in granted {
            if let State::Granted(held) = record.state {
                line(out, "granted", record)?;
                writeln!(out, " {}", text(held))?;
            }
        }
        for record in of_name() {
            if let State::Converting(held, wanted) = record.state {
                line(out, "converting", record)?;
                writeln!(out, " {} {}", text(held), text(wanted))?;
            }
        }
        for record in of_name() {
            if let State::Waiting(wanted) = record.state {
                line(out, "waiting", record)?;
                writeln!(out, " {}", text(wanted))?;
            }
        }
    }
    Ok(())
}

// A HOST

struct Operation {
    submitted: Option<Value>,
    tries: u8,
    attempt: Attempt,
}

#[derive(Default)]
struct Host {
    learned: usize,
    table: Flat,
    floor: u64,
    doing: Option<Operation>,
}

enum Answer {
    Ack(usize, Reply),
    Recovered(usize),
    Refused(u8, &'static str),
}

struct Shape {
    disks: usize,
    slots: usize,
}

impl Host {
    fn try_slot(&mut self, shape: &Shape, host: usize, submitted: Option<Value>, tries: u8) -> Option<Answer> {
        if self.learned == shape.slots {
            return Some(if submitted.is_some() { Answer::Refused(9, "LogFull") } else { Answer::Recovered(self.learned) });
        }
        let attempt = Attempt::new(host, self.learned, shape.disks, self.floor, submitted);
        self.doing = Some(Operation { submitted, tries, attempt });
        None
    }

    fn hear(&mut self, shape: &Shape, host: usize, heard: Heard) -> Option<Answer> {
        let doing = self.doing.as_mut()?;
        doing.attempt.hear(heard);
        let end = doing.attempt.end?;
        let (submitted, tries) = (doing.submitted, doing.tries);
        self.floor = self.floor.max(doing.attempt.taken.unwrap_or(0));
        self.doing = None;
        match end {
            End::Committed(value) => {
                let reply = self.table.apply(&Command::decode(&value));
                let slot = self.learned;
                self.learned += 1;
                self.floor = 0;
                if submitted == Some(value) {
                    return Some(Answer::Ack(slot, reply));
                }
                self.try_slot(shape, host, submitted, tries)
            }
            End::Empty => Some(Answer::Recovered(self.learned)),
            End::Outrun(mbal) => {
                self.floor = self.floor.max(mbal);
                if tries == 1 {
                    return Some(Answer::Refused(6, "Outrun"));
                }
                self.try_slot(shape, host, submitted, tries - 1)
            }
            End::NoMajority => Some(Answer::Refused(7, "NoMajority")),
            End::BallotsSpent => Some(Answer::Refused(8, "BallotsSpent")),
        }
    }
}

// SCRIPTS

enum Event {
    Start(usize),
    Stop(usize),
    Submit(Command, u8),
    Recover(usize, u8),
    Steps(usize, usize),
    Tear(usize, Vec<u8>),
    Fail(usize, Vec<u8>),
    Crash(usize, Vec<u8>),
    Gone(usize),
    Show(usize),
}

fn number_in(word: &str, low: u64, high: u64) -> Option<u64> {
    let plain = !word.is_empty() && word.bytes().all(|byte| byte.is_ascii_digit()) && (word == "0" || !word.starts_with('0'));
    let found = plain.then(|| word.parse::<u64>().ok())??;
    (low..=high).contains(&found).then_some(found)
}

fn host_in(word: &str) -> Option<usize> {
    Some(number_in(word, 0, HOSTS as u64 - 1)? as usize)
}

fn given_in(word: &str) -> Option<Vec<u8>> {
    let digit = |byte: u8| match byte {
        b'0'..=b'9' => Some(byte - b'0'),
        b'a'..=b'f' => Some(byte - b'a' + 10),
        _ => None,
    };
    let pairs = word.as_bytes().chunks(2);
    if word.is_empty() || word.len() > 128 {
        return None;
    }
    pairs.map(|pair| Some(16 * digit(pair[0])? + digit(*pair.get(1)?)?)).collect()
}

fn command_in(host: usize, words: &[&str]) -> Option<Command> {
    let (kind, client, request, rest) = match words {
        [kind, client, request, rest @ ..] => (*kind, client, request, rest),
        _ => return None,
    };
    let lock = |word: &str| Some(number_in(word, 1, 65535)? as u16);
    let mode = |word: &str| MODES.into_iter().find(|mode| text(*mode) == word);
    let name = |word: &str| {
        let fits = (1..=15).contains(&word.len()) && word.bytes().all(|byte| (0x21..=0x7e).contains(&byte));
        fits.then(|| name(word.as_bytes()))
    };
    let action = match (kind, rest) {
        ("enqueue", [l, m, n]) => Action::Enqueue { lock: lock(l)?, name: name(n)?, mode: mode(m)?, no_queue: false },
        ("enqueue", [l, m, n, "noqueue"]) => Action::Enqueue { lock: lock(l)?, name: name(n)?, mode: mode(m)?, no_queue: true },
        ("convert", [l, m]) => Action::Convert { lock: lock(l)?, mode: mode(m)?, no_queue: false },
        ("convert", [l, m, "noqueue"]) => Action::Convert { lock: lock(l)?, mode: mode(m)?, no_queue: true },
        ("release", [l]) => Action::Release(lock(l)?),
        ("cancel", [l]) => Action::Cancel(lock(l)?),
        ("status", [l]) => Action::Status(lock(l)?),
        ("purge", [h]) => Action::Purge(host_in(h)? as u8),
        ("forget", [gone]) => Action::Forget(number_in(gone, 0, 255)? as u8),
        _ => return None,
    };
    Some(Command { host: host as u8, client: number_in(client, 0, 255)? as u8, request: number_in(request, 1, LAST)?, action })
}

fn event_in(disks: usize, words: &[&str]) -> Option<Event> {
    let disk = |word: &str| Some(number_in(word, 0, disks as u64 - 1)? as usize);
    let tries = |word: &str| Some(number_in(word, 1, 255)? as u8);
    Some(match words {
        ["start", h] => Event::Start(host_in(h)?),
        ["stop", h] => Event::Stop(host_in(h)?),
        ["submit", h, t, command @ ..] => Event::Submit(command_in(host_in(h)?, command)?, tries(t)?),
        ["recover", h, t] => Event::Recover(host_in(h)?, tries(t)?),
        ["step", h] => Event::Steps(host_in(h)?, 1),
        ["step", h, n] => Event::Steps(host_in(h)?, number_in(n, 1, 100_000)? as usize),
        ["tear", h, given] => Event::Tear(host_in(h)?, given_in(given)?),
        ["fail", h, given] => Event::Fail(host_in(h)?, given_in(given)?),
        ["crash", k, given] => Event::Crash(disk(k)?, given_in(given)?),
        ["gone", k] => Event::Gone(disk(k)?),
        ["show", h] => Event::Show(host_in(h)?),
        _ => return None,
    })
}

/// The shape of the cluster and the events, or the number of the first bad line.
fn read_script(bytes: &[u8]) -> Result<(Shape, Vec<Event>), usize> {
    let mut lines: Vec<&[u8]> = bytes.split(|byte| *byte == b'\n').collect();
    if lines.last().is_some_and(|line| line.is_empty()) {
        lines.pop();
    }
    let mut shape = None;
    let mut events = Vec::new();
    let mut count = 0;
    for (at, line) in lines.iter().enumerate() {
        if line.is_empty() || line[0] == b'#' {
            continue;
        }
        let text = std::str::from_utf8(line).map_err(|_| at + 1)?;
        let words: Vec<&str> = text.split(' ').collect();
        let read = match (&shape, words.as_slice()) {
            (None, ["cluster", d, s]) => number_in(d, 1, 7).zip(number_in(s, 1, 4096)).map(|(disks, slots)| {
                shape = Some(Shape { disks: disks as usize, slots: slots as usize });
            }),
            (None, _) => None,
            (Some(shape), words) => event_in(shape.disks, words).map(|event| {
                count += match event {
                    Event::Steps(_, n) => n,
                    Event::Show(_) => 0,
                    _ => 1,
                };
                events.push(event);
            }),
        };
        if read.is_none() || count > 1_000_000 {
            return Err(at + 1);
        }
    }
    shape.map(|shape| (shape, events)).ok_or(lines.len() + 1)
}

// THE CLUSTER

struct Cluster<W: Write> {
    shape: Shape,
    disks: Vec<Disk>,
    hosts: [Option<Host>; HOSTS],
    out: W,
}

impl<W: Write> Cluster<W> {
    fn say(&mut self, place: usize, host: usize, answer: Option<Answer>) -> io::Result<()> {
        match answer {
            None => Ok(()),
            Some(Answer::Ack(slot, reply)) => writeln!(self.out, "{place} h{host} ack {slot} {reply}"),
            Some(Answer::Recovered(length)) => writeln!(self.out, "{place} h{host} recovered {length}"),
            Some(Answer::Refused(number, name)) => writeln!(self.out, "{place} h{host} refused {number} {name}"),
        }
    }

    fn next(&self, host: usize) -> Option<(usize, Call)> {
        let attempt = &self.hosts[host].as_ref()?.doing.as_ref()?.attempt;
        Some((attempt.disk, attempt.call()))
    }

    fn step(&mut self, host: usize) -> Option<Answer> {
        let (at, call) = self.next(host)?;
        let disk = &mut self.disks[at];
        let heard = match (disk.refusal(&call), &call) {
            (Some(_), _) => Heard::Fault,
            (None, Call::Attach) => Heard::Booted(disk.boot),
            (None, Call::Read { at, .. }) => Heard::Row(&disk.bytes[*at..*at + ROW]),
            (None, Call::Write { at, bytes, len, .. }) => {
                disk.put(*at, &bytes[..*len]);
                Heard::Done
            }
            (None, Call::Sync { .. }) => {
                disk.sync();
                Heard::Done
            }
        };
        self.hosts[host].as_mut()?.hear(&self.shape, host, heard)
    }

    fn spoil(&mut self, host: usize, given: &[u8]) -> Option<bool> {
        let (at, call) = self.next(host)?;
        if self.disks[at].refusal(&call).is_some() {
            return None;
        }
        if let Call::Write { at: place, len, .. } = call {
            self.disks[at].put(place, &filled(given, len));
            return Some(true);
        }
        Some(false)
    }

    fn tear(&mut self, host: usize, given: &[u8]) {
        let is_write = matches!(self.next(host), Some((_, Call::Write { .. })));
        if is_write && self.spoil(host, given).is_some() {
            self.hosts[host] = None;
        }
    }

    fn happen(&mut self, place: usize, event: &Event) -> io::Result<()> {
        match event {
            Event::Start(host) => {
                self.hosts[*host].get_or_insert_default();
            }
            Event::Stop(host) => self.hosts[*host] = None,
            Event::Submit(command, tries) => {
                let host = usize::from(command.host);
                if let Some(found) = self.hosts[host].as_mut().filter(|found| found.doing.is_none()) {
                    let answer = found.try_slot(&self.shape, host, Some(command.encode()), *tries);
                    self.say(place, host, answer)?;
                }
            }
            Event::Recover(host, tries) => {
                if let Some(found) = self.hosts[*host].as_mut().filter(|found| found.doing.is_none()) {
                    let answer = found.try_slot(&self.shape, *host, None, *tries);
                    self.say(place, *host, answer)?;
                }
            }
            Event::Steps(host, count) => {
                for at in 0..*count {
                    let answer = self.step(*host);
                    self.say(place + at, *host, answer)?;
                }
            }
            Event::Tear(host, given) => self.tear(*host, given),
            Event::Fail(host, given) => {
                if self.spoil(*host, given).is_some() {
                    let answer = self.hosts[*host].as_mut().and_then(|found| found.hear(&self.shape, *host, Heard::Fault));
                    self.say(place, *host, answer)?;
                }
            }
            Event::Crash(disk, given) if !self.disks[*disk].gone => self.disks[*disk].crash(given),
            Event::Crash(..) => {}
            Event::Gone(disk) => self.disks[*disk].gone = true,
            Event::Show(host) => match &self.hosts[*host] {
                Some(found) => show(&found.table, &mut self.out)?,
                None => writeln!(self.out, "host {host} is stopped")?,
            },
        }
        Ok(())
    }
}

fn main() -> io::Result<()> {
    let path = std::env::args().nth(1).unwrap_or("/dev/stdin".into());
    let bytes = std::fs::read(path)?;
    let (shape, events) = match read_script(&bytes) {
        Ok(script) => script,
        Err(line) => {
            eprintln!("dlm: 23 BadLine {line}");
            std::process::exit(1);
        }
    };
    let size = ROWS_AT + ROW * shape.slots;
    let disks = (0..shape.disks).map(|_| Disk::new(size)).collect();
    let mut cluster = Cluster { shape, disks, hosts: Default::default(), out: BufWriter::new(io::stdout().lock()) };
    let mut place = 0;
    for event in &events {
        cluster.happen(place, event)?;
        place += match event {
            Event::Steps(_, n) => *n,
            Event::Show(_) => 0,
            _ => 1,
        };
    }
    cluster.out.flush()
}
