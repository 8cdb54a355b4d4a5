// Two lock tables in plain Rust: a flat list, and maps.
#![allow(dead_code)]

use std::collections::{BTreeMap, BTreeSet, HashMap, VecDeque};

#[derive(Clone, Copy, PartialEq, Debug)]
pub enum Mode {
    Null,
    ConcurrentRead,
    ConcurrentWrite,
    ProtectedRead,
    ProtectedWrite,
    Exclusive,
}

pub const MODES: [Mode; 6] =
    [Mode::Null, Mode::ConcurrentRead, Mode::ConcurrentWrite, Mode::ProtectedRead, Mode::ProtectedWrite, Mode::Exclusive];

pub fn compatible(a: Mode, b: Mode) -> bool {
    const MASKS: [u8; 6] = [0b111111, 0b011111, 0b000111, 0b001011, 0b000011, 0b000001];
    MASKS[a as usize] >> b as u8 & 1 == 1
}

#[derive(Clone, Copy, PartialEq, Debug)]
pub enum State {
    Granted(Mode),
    Converting(Mode, Mode),
    Waiting(Mode),
}

#[derive(Clone, Copy, PartialEq, Eq, PartialOrd, Ord)]
pub struct Name {
    pub bytes: [u8; 15],
    pub len: u8,
}

#[derive(Clone, Copy)]
pub struct Record {
    pub lock: u16,
    pub client: u8,
    pub host: u8,
    pub name: Name,
    pub state: State,
}

#[derive(Clone, Copy)]
pub enum Action {
    Enqueue { lock: u16, name: Name, mode: Mode, no_queue: bool },
    Convert { lock: u16, mode: Mode, no_queue: bool },
    Release(u16),
    Cancel(u16),
    Status(u16),
    Purge(u8),
    Forget(u8),
}

#[derive(Clone, Copy)]
pub struct Command {
    pub host: u8,
    pub client: u8,
    pub request: u64,
    pub action: Action,
}

#[derive(Clone, Copy, PartialEq, Debug)]
pub enum Refusal {
    LockInUse,
    NoSuchLock,
    NotOwner,
    AlreadyConverting,
    StillWaiting,
    NotQueued,
    TableFull,
    Stale,
    ClientsFull,
    NothingToCancel,
}

#[derive(Clone, Copy, PartialEq, Debug)]
pub enum Reply {
    Granted,
    Queued,
    Released,
    Cancelled,
    Purged(u16),
    Forgotten,
    State(State),
    Refused(Refusal),
}

pub trait Table: Default {
    fn apply(&mut self, command: &Command) -> Reply;
}

// FLAT: one list of records, in which to join a queue is to move to the list's end

#[derive(Clone, Default)]
pub struct Flat {
    pub records: Vec<Record>,
    clients: Vec<(u8, u64, Reply)>,
}

impl Flat {
    fn admits(&self, lock: u16, name: &Name, mode: Mode) -> bool {
        self.records.iter().all(|other| {
            other.lock == lock
                || other.name != *name
                || match other.state {
                    State::Granted(held) | State::Converting(held, _) => compatible(held, mode),
                    State::Waiting(_) => true,
                }
        })
    }

    fn head(&self, name: &Name) -> Option<usize> {
        let on = |record: &Record| record.name == *name;
        let converts = |record: &Record| matches!(record.state, State::Converting(..));
        let waits = |record: &Record| matches!(record.state, State::Waiting(_));
        self.records
            .iter()
            .position(|record| on(record) && converts(record))
            .or_else(|| self.records.iter().position(|record| on(record) && waits(record)))
    }

    fn put(&mut self, record: Record) {
        self.records.retain(|other| other.lock != record.lock);
        self.records.push(record);
    }

    fn settle(&mut self, name: &Name) {
        while let Some(at) = self.head(name) {
            let mut first = self.records[at];
            let (State::Converting(_, wanted) | State::Waiting(wanted)) = first.state else { return };
            if !self.admits(first.lock, name, wanted) {
                return;
            }
            first.state = State::Granted(wanted);
            self.put(first);
        }
    }

    fn own(&self, client: u8, lock: u16) -> Result<Record, Reply> {
        let own = self.records.iter().find(|record| record.lock == lock).ok_or(Reply::Refused(Refusal::NoSuchLock))?;
        if own.client == client { Ok(*own) } else { Err(Reply::Refused(Refusal::NotOwner)) }
    }

    fn act(&mut self, command: &Command) -> Result<Reply, Reply> {
        let client = command.client;
        match command.action {
            Action::Enqueue { lock, name, mode, no_queue } => {
                if self.records.iter().any(|record| record.lock == lock) {
                    return Err(Reply::Refused(Refusal::LockInUse));
                }
                if self.records.len() >= 256 {
                    return Err(Reply::Refused(Refusal::TableFull));
                }
                let granted = self.head(&name).is_none() && self.admits(lock, &name, mode);
                if !granted && no_queue {
                    return Err(Reply::Refused(Refusal::NotQueued));
                }
                let state = if granted { State::Granted(mode) } else { State::Waiting(mode) };
                self.put(Record { lock, client, host: command.host, name, state });
                Ok(if granted { Reply::Granted } else { Reply::Queued })
            }
            Action::Convert { lock, mode, no_queue } => {
                let mut own = self.own(client, lock)?;
                let held = match own.state {
                    State::Granted(held) => held,
                    State::Converting(..) => return Err(Reply::Refused(Refusal::AlreadyConverting)),
                    State::Waiting(_) => return Err(Reply::Refused(Refusal::StillWaiting)),
                };
                if self.admits(lock, &own.name, mode) {
                    own.state = State::Granted(mode);
                    self.put(own);
                    self.settle(&own.name);
                    return Ok(Reply::Granted);
                }
                if no_queue {
                    return Err(Reply::Refused(Refusal::NotQueued));
                }
                own.state = State::Converting(held, mode);
                self.put(own);
                Ok(Reply::Queued)
            }
            Action::Release(lock) => {
                let own = self.own(client, lock)?;
                self.records.retain(|other| other.lock != lock);
                self.settle(&own.name);
                Ok(Reply::Released)
            }
            Action::Cancel(lock) => {
                let mut own = self.own(client, lock)?;
                match own.state {
                    State::Granted(_) => return Err(Reply::Refused(Refusal::NothingToCancel)),
                    State::Converting(held, _) => {
                        own.state = State::Granted(held);
                        self.put(own);
                    }
                    State::Waiting(_) => self.records.retain(|other| other.lock != lock),
                }
                self.settle(&own.name);
                Ok(Reply::Cancelled)
            }
            Action::Status(lock) => {
                let found = self.records.iter().find(|record| record.lock == lock);
                Ok(found.map_or(Reply::Refused(Refusal::NoSuchLock), |record| Reply::State(record.state)))
            }
            Action::Purge(host) => {
                let names: BTreeSet<Name> =
                    self.records.iter().filter(|record| record.host == host).map(|record| record.name).collect();
                let before = self.records.len();
                self.records.retain(|record| record.host != host);
                let count = before - self.records.len();
                for name in names {
                    self.settle(&name);
                }
                Ok(Reply::Purged(count as u16))
            }
            Action::Forget(gone) if self.records.iter().any(|record| record.client == gone) => Err(Reply::Refused(Refusal::LockInUse)),
            Action::Forget(_) => Ok(Reply::Forgotten),
        }
    }
}

impl Table for Flat {
    fn apply(&mut self, command: &Command) -> Reply {
        let known = self.clients.iter().position(|last| last.0 == command.client);
        match known.map(|at| self.clients[at]) {
            None if self.clients.len() >= 32 => return Reply::Refused(Refusal::ClientsFull),
            Some((_, request, _)) if command.request < request => return Reply::Refused(Refusal::Stale),
            Some((_, request, reply)) if command.request == request => return reply,
            _ => {}
        }
        let reply = self.act(command).unwrap_or_else(|refused| refused);
        self.clients.retain(|last| last.0 != command.client);
        self.clients.push((command.client, command.request, reply));
        if let (Action::Forget(gone), Reply::Forgotten) = (command.action, reply) {
            self.clients.retain(|last| last.0 != gone);
        }
        reply
    }
}

// MAPS: the records by number, and of each name its holders, its counters and its two queues

#[derive(Default)]
pub struct Group {
    held: [u16; 6],
    granted: BTreeSet<u16>,
    converting: VecDeque<u16>,
    waiting: VecDeque<u16>,
}

impl Group {
    fn admits(&self, own: Option<Mode>, wanted: Mode) -> bool {
        MODES.iter().all(|mode| {
            let held = self.held[*mode as usize] - u16::from(own == Some(*mode));
            held == 0 || compatible(*mode, wanted)
        })
    }

    fn join(&mut self, lock: u16, state: State) {
        match state {
            State::Granted(mode) => {
                self.held[mode as usize] += 1;
                self.granted.insert(lock);
            }
            State::Converting(held, _) => {
                self.held[held as usize] += 1;
                self.converting.push_back(lock);
            }
            State::Waiting(_) => self.waiting.push_back(lock),
        }
    }

    fn leave(&mut self, lock: u16, state: State) {
        match state {
            State::Granted(mode) => {
                self.held[mode as usize] -= 1;
                self.granted.remove(&lock);
            }
            State::Converting(held, _) => {
                self.held[held as usize] -= 1;
                self.converting.retain(|other| *other != lock);
            }
            State::Waiting(_) => self.waiting.retain(|other| *other != lock),
        }
    }

    fn is_empty(&self) -> bool {
        self.granted.is_empty() && self.converting.is_empty() && self.waiting.is_empty()
    }
}

#[derive(Default)]
pub struct Maps {
    records: HashMap<u16, Record>,
    names: BTreeMap<Name, Group>,
    clients: BTreeMap<u8, (u64, Reply)>,
}

impl Maps {
    fn own(&self, client: u8, lock: u16) -> Result<Record, Reply> {
        let own = self.records.get(&lock).ok_or(Reply::Refused(Refusal::NoSuchLock))?;
        if own.client == client { Ok(*own) } else { Err(Reply::Refused(Refusal::NotOwner)) }
    }

    fn restate(&mut self, own: &Record, state: State) {
        let group = self.names.get_mut(&own.name).unwrap();
        group.leave(own.lock, own.state);
        group.join(own.lock, state);
        self.records.insert(own.lock, Record { state, ..*own });
    }

    fn take_away(&mut self, own: &Record) {
        self.records.remove(&own.lock);
        let group = self.names.get_mut(&own.name).unwrap();
        group.leave(own.lock, own.state);
        if group.is_empty() {
            self.names.remove(&own.name);
        }
    }

    fn settle(&mut self, name: &Name) {
        let Some(group) = self.names.get_mut(name) else { return };
        while let Some(lock) = group.converting.front().or(group.waiting.front()).copied() {
            let first = self.records.get_mut(&lock).unwrap();
            let (own, wanted) = match first.state {
                State::Converting(held, wanted) => (Some(held), wanted),
                State::Waiting(wanted) => (None, wanted),
                State::Granted(_) => return,
            };
            if !group.admits(own, wanted) {
                return;
            }
            match own {
                Some(held) => {
                    group.held[held as usize] -= 1;
                    group.converting.pop_front();
                }
                None => {
                    group.waiting.pop_front();
                }
            }
            first.state = State::Granted(wanted);
            group.join(lock, first.state);
        }
    }

    fn act(&mut self, command: &Command) -> Result<Reply, Reply> {
        let client = command.client;
        match command.action {
            Action::Enqueue { lock, name, mode, no_queue } => {
                if self.records.contains_key(&lock) {
                    return Err(Reply::Refused(Refusal::LockInUse));
                }
                if self.records.len() >= 256 {
                    return Err(Reply::Refused(Refusal::TableFull));
                }
                let granted = self.names.get(&name).is_none_or(|group| {
                    group.converting.is_empty() && group.waiting.is_empty() && group.admits(None, mode)
                });
                if !granted && no_queue {
                    return Err(Reply::Refused(Refusal::NotQueued));
                }
                let state = if granted { State::Granted(mode) } else { State::Waiting(mode) };
                self.names.entry(name).or_default().join(lock, state);
                self.records.insert(lock, Record { lock, client, host: command.host, name, state });
                Ok(if granted { Reply::Granted } else { Reply::Queued })
            }
            Action::Convert { lock, mode, no_queue } => {
                let own = self.own(client, lock)?;
                let held = match own.state {
                    State::Granted(held) => held,
                    State::Converting(..) => return Err(Reply::Refused(Refusal::AlreadyConverting)),
                    State::Waiting(_) => return Err(Reply::Refused(Refusal::StillWaiting)),
                };
                if self.names[&own.name].admits(Some(held), mode) {
                    self.restate(&own, State::Granted(mode));
                    self.settle(&own.name);
                    return Ok(Reply::Granted);
                }
                if no_queue {
                    return Err(Reply::Refused(Refusal::NotQueued));
                }
                self.restate(&own, State::Converting(held, mode));
                Ok(Reply::Queued)
            }
            Action::Release(lock) => {
                let own = self.own(client, lock)?;
                self.take_away(&own);
                self.settle(&own.name);
                Ok(Reply::Released)
            }
            Action::Cancel(lock) => {
                let own = self.own(client, lock)?;
                match own.state {
                    State::Granted(_) => return Err(Reply::Refused(Refusal::NothingToCancel)),
                    State::Converting(held, _) => self.restate(&own, State::Granted(held)),
                    State::Waiting(_) => self.take_away(&own),
                }
                self.settle(&own.name);
                Ok(Reply::Cancelled)
            }
            Action::Status(lock) => {
                let found = self.records.get(&lock);
                Ok(found.map_or(Reply::Refused(Refusal::NoSuchLock), |record| Reply::State(record.state)))
            }
            Action::Purge(host) => {
                let gone: Vec<Record> = self.records.values().filter(|record| record.host == host).copied().collect();
                for record in &gone {
                    self.take_away(record);
                }
                let names: BTreeSet<Name> = gone.iter().map(|record| record.name).collect();
                for name in names {
                    self.settle(&name);
                }
                Ok(Reply::Purged(gone.len() as u16))
            }
            Action::Forget(gone) if self.records.values().any(|record| record.client == gone) => Err(Reply::Refused(Refusal::LockInUse)),
            Action::Forget(_) => Ok(Reply::Forgotten),
        }
    }
}

impl Table for Maps {
    fn apply(&mut self, command: &Command) -> Reply {
        match self.clients.get(&command.client) {
            None if self.clients.len() >= 32 => return Reply::Refused(Refusal::ClientsFull),
            Some((request, _)) if command.request < *request => return Reply::Refused(Refusal::Stale),
            Some((request, reply)) if command.request == *request => return *reply,
            _ => {}
        }
        let reply = self.act(command).unwrap_or_else(|refused| refused);
        self.clients.insert(command.client, (command.request, reply));
        if let (Action::Forget(gone), Reply::Forgotten) = (command.action, reply) {
            self.clients.remove(&gone);
        }
        reply
    }
}

// NAMES

/// A name of these bytes.
pub fn name(text: &[u8]) -> Name {
    let mut bytes = [0; 15];
    bytes[..text.len()].copy_from_slice(text);
    Name { bytes, len: text.len() as u8 }
}

/// One of a thousand names: `row-`, and three digits.
pub fn row_name(at: u16) -> Name {
    let digit = |ones: u16| b'0' + (ones % 10) as u8;
    name(&[b'r', b'o', b'w', b'-', digit(at / 100), digit(at / 10), digit(at)])
}
