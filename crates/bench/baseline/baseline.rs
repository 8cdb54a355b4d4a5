//! The benchmarks' work in plain Rust, without proofs: what the times of the proved program are compared with.
//! It prints the same lines. A row is decoded with the same tests, and once more without those for damage, as in what else reads rows;
//! commands go to a flat lock table, and once more to one of maps, as those of the first path, which keeps no receipts.

mod lock_tables;

use lock_tables::{Action, Command, Flat, Maps, Mode, Record, Reply, State, Table, compatible, name, row_name};
use std::hint::black_box;
use std::time::Instant;

const HOSTS: usize = 16;
const COPY: usize = 128;
const BLOCK: usize = 2 * COPY;
const ROW: usize = HOSTS * BLOCK;
const ROWS_AT: usize = 2 * ROW;
const BODY: usize = COPY - 9;
const VERSION: u8 = 2;
const OPEN: u8 = 0xA5;

#[derive(Clone, Copy, Debug)]
#[allow(dead_code)]
enum Fault {
    Reset,
    Failed,
    Gone,
}

// A DISK: bytes, and for each a stamp; a position is unsynced where its stamp is the present epoch

struct Disk {
    bytes: Vec<u8>,
    stamps: Vec<u32>,
    epoch: u32,
    boot: u64,
    gone: bool,
    failing: Option<Vec<u8>>,
}

/// So many zeros, each of them put there: the system hands out no page later on.
fn zeros<T: From<u8>>(size: usize) -> Vec<T> {
    (0..size).map(|_| T::from(black_box(0))).collect()
}

impl Disk {
    fn new(size: usize) -> Disk {
        Disk { bytes: zeros(size), stamps: zeros(size), epoch: 1, boot: 1, gone: false, failing: None }
    }

    fn permit(&mut self, boot: u64) -> Result<(), Fault> {
        if self.gone {
            Err(Fault::Gone)
        } else if boot != self.boot {
            Err(Fault::Reset)
        } else if self.failing.take().is_some() {
            Err(Fault::Failed)
        } else {
            Ok(())
        }
    }

    fn attach(&mut self) -> Result<u64, Fault> {
        self.permit(self.boot)?;
        Ok(self.boot)
    }

    fn read(&mut self, boot: u64, at: usize, into: &mut [u8]) -> Result<(), Fault> {
        self.permit(boot)?;
        into.copy_from_slice(&self.bytes[at..at + into.len()]);
        Ok(())
    }

    fn write(&mut self, boot: u64, at: usize, from: &[u8]) -> Result<(), Fault> {
        self.permit(boot)?;
        self.bytes[at..at + from.len()].copy_from_slice(from);
        self.stamps[at..at + from.len()].fill(self.epoch);
        Ok(())
    }

    fn sync(&mut self, boot: u64) -> Result<(), Fault> {
        self.permit(boot)?;
        if self.epoch == u32::MAX {
            self.stamps.fill(0);
            self.epoch = 1;
        } else {
            self.epoch += 1;
        }
        Ok(())
    }
}

fn disk_calls(disk: &mut Disk, count: u32) -> Result<(), Fault> {
    let first = disk.bytes.len() - 2048;
    let mut boot = disk.attach()?;
    let mut row = [0; 1024];
    for call in 0..count {
        match call % 4 {
            0 => boot = disk.attach()?,
            1 => disk.read(boot, first, &mut row)?,
            2 => disk.write(boot, first + 1024, &[7; 64])?,
            _ => disk.sync(boot)?,
        }
    }
    black_box(row);
    Ok(())
}

// BLOCKS AND ROWS

fn number(bytes: &[u8]) -> u64 {
    u64::from_be_bytes(bytes[..8].try_into().unwrap())
}

/// The copy of a block that counts, by its gates and sequence numbers.
fn current(block: &[u8]) -> Option<usize> {
    match (block[0] == OPEN, block[COPY] == OPEN) {
        (true, true) if number(&block[8..]) < number(&block[COPY + 8..]) => Some(1),
        (true, _) => Some(0),
        (false, true) => Some(1),
        (false, false) => None,
    }
}

/// Writes a body over a block as it was read, in six calls.
fn write_over(disk: &mut Disk, boot: u64, at: usize, block: &[u8], body: &[u8; BODY]) -> Result<(), Fault> {
    let (target, sequence) = match current(block) {
        None => (0, 1),
        Some(half) => (1 - half, number(&block[COPY * half + 8..]) + 1),
    };
    let mut copy = [0; COPY];
    copy[0] = OPEN;
    copy[1..8].copy_from_slice(&body[..7]);
    copy[8..16].copy_from_slice(&sequence.to_be_bytes());
    copy[16..].copy_from_slice(&body[7..]);
    let gate = at + COPY * target;
    let closes = usize::from(block[COPY * target] == OPEN);
    disk.write(boot, gate, &[0][..closes])?;
    disk.sync(boot)?;
    disk.write(boot, gate + 1, &copy[1..])?;
    disk.sync(boot)?;
    disk.write(boot, gate, &copy[..1])?;
    disk.sync(boot)
}

fn block_write(disk: &mut Disk, count: u32) -> Result<(), Fault> {
    let boot = disk.attach()?;
    let mut body = [0; BODY];
    for write in 0..count {
        body[0] = (write % 251) as u8;
        let mut block = [0; BLOCK];
        disk.read(boot, 0, &mut block)?;
        write_over(disk, boot, 0, &block, &body)?;
    }
    Ok(())
}

type Value = [u8; 48];

#[derive(Clone, Copy, Default)]
struct Says {
    mbal: u64,
    bal: u64,
    inp: Option<Value>,
}

fn body_of(says: &Says) -> [u8; BODY] {
    let mut body = [0; BODY];
    body[0] = VERSION;
    body[1] = u8::from(says.inp.is_some());
    body[7..15].copy_from_slice(&says.mbal.to_be_bytes());
    body[15..23].copy_from_slice(&says.bal.to_be_bytes());
    body[23..71].copy_from_slice(&says.inp.unwrap_or([0; 48]));
    body
}

/// What the current copies of a row say.
fn decode_row(row: &[u8; ROW]) -> [Says; HOSTS] {
    let mut cells = [Says::default(); HOSTS];
    for (host, block) in row.chunks_exact(BLOCK).enumerate() {
        if let Some(half) = current(block) {
            let copy = &block[COPY * half..COPY * half + COPY];
            cells[host] = Says {
                mbal: number(&copy[16..]),
                bal: number(&copy[24..]),
                inp: (copy[2] == 1).then(|| copy[32..80].try_into().unwrap()),
            };
        }
    }
    cells
}

/// A block as it was read: what its owner needs to write over it, and what it says.
#[derive(Clone, Copy, Default)]
struct Cell {
    current: Option<usize>,
    sequence: u64,
    body: Body,
    next_is_open: bool,
    says: Says,
}

#[derive(Clone, Copy)]
struct Body([u8; BODY]);

impl Default for Body {
    fn default() -> Body {
        Body([0; BODY])
    }
}

const LAST: u64 = 1 << 62;

fn is_ballot_of(host: usize, ballot: u64) -> bool {
    (1..=LAST).contains(&ballot) && (ballot - 1) % HOSTS as u64 == host as u64
}

/// Host 0's least ballot above one.
fn first_above(top: u64) -> u64 {
    let hosts = HOSTS as u64;
    top.div_ceil(hosts) * hosts + 1
}

/// Whether an open copy in a host's block is spelled as that host may spell it.
fn is_sound(host: usize, copy: &[u8]) -> bool {
    let (mbal, bal) = (number(&copy[16..]), number(&copy[24..]));
    (1..=LAST).contains(&number(&copy[8..]))
        && is_ballot_of(host, mbal)
        && match copy[1..8] {
            [VERSION, 1, 0, 0, 0, 0, 0] => is_ballot_of(host, bal) && bal <= mbal && copy[80..] == [0; COPY - 80],
            [VERSION, 0, 0, 0, 0, 0, 0] => bal == 0 && copy[32..] == [0; COPY - 32],
            _ => false,
        }
}

/// A row with all tests for damage, and with all that a writer goes by.
fn decode_whole_row(row: &[u8; ROW]) -> Option<[Cell; HOSTS]> {
    let mut cells = [Cell::default(); HOSTS];
    for (host, block) in row.chunks_exact(BLOCK).enumerate() {
        let (first, second) = block.split_at(COPY);
        let open = [first[0] == OPEN, second[0] == OPEN];
        if open[0] && !is_sound(host, first) || open[1] && !is_sound(host, second) {
            return None;
        }
        if open == [true, true] && number(&first[8..]) == number(&second[8..]) {
            return None;
        }
        if let Some(half) = current(block) {
            let copy = &block[COPY * half..COPY * half + COPY];
            let cell = &mut cells[host];
            cell.current = Some(half);
            cell.sequence = number(&copy[8..]);
            cell.body.0[..7].copy_from_slice(&copy[1..8]);
            cell.body.0[7..].copy_from_slice(&copy[16..]);
            cell.next_is_open = open[1 - half];
            cell.says = Says {
                mbal: number(&copy[16..]),
                bal: number(&copy[24..]),
                inp: (copy[2] == 1).then(|| copy[32..80].try_into().unwrap()),
            };
        }
    }
    Some(cells)
}

fn written_row() -> Result<[u8; ROW], Fault> {
    let mut disk = Disk::new(ROW);
    let boot = disk.attach()?;
    for host in 0..HOSTS {
        let ballot = host as u64 + 1;
        for says in [
            Says { mbal: ballot, bal: 0, inp: None },
            Says { mbal: ballot, bal: ballot, inp: Some([1; 48]) },
        ] {
            let mut block = [0; BLOCK];
            disk.read(boot, BLOCK * host, &mut block)?;
            write_over(&mut disk, boot, BLOCK * host, &block, &body_of(&says))?;
        }
    }
    let mut row = [0; ROW];
    disk.read(boot, 0, &mut row)?;
    Ok(row)
}

/// The last byte of the value in the last copy of a row.
const LAST_OF_VALUE: usize = ROW - COPY + 79;

fn decode_rows(row: &mut [u8; ROW], count: u32) -> bool {
    (0..count).all(|time| {
        let last = (time % 251) as u8;
        row[LAST_OF_VALUE] = last;
        let cells = black_box(decode_row(black_box(row)));
        cells.iter().all(|cell| cell.inp.is_some()) && cells[HOSTS - 1].inp.is_some_and(|value| value[47] == last)
    })
}

fn decode_whole_rows(row: &mut [u8; ROW], count: u32) -> bool {
    (0..count).all(|time| {
        let last = (time % 251) as u8;
        row[LAST_OF_VALUE] = last;
        black_box(decode_whole_row(black_box(row))).is_some_and(|cells| {
            cells.iter().all(|cell| cell.says.inp.is_some()) && cells[HOSTS - 1].says.inp.is_some_and(|value| value[47] == last)
        })
    })
}

// COMMANDS TO A LOCK TABLE

fn command_at(place: u32) -> Command {
    let client = place % 8;
    let round = place / 8;
    let lock = client as u16 + 1;
    let action = match round % 3 {
        0 => {
            let name = name(if client < 4 { b"accounts" } else { b"orders" });
            Action::Enqueue { lock, name, mode: Mode::ConcurrentRead, no_queue: false }
        }
        1 => {
            let mode = if client % 2 == 0 { Mode::ProtectedRead } else { Mode::ProtectedWrite };
            Action::Convert { lock, mode, no_queue: false }
        }
        _ => Action::Release(lock),
    };
    Command { host: 0, client: client as u8, request: u64::from(round) + 1, action }
}

fn standing_table<T: Table>() -> T {
    let mut table = T::default();
    for place in 0..248 {
        let (lock, name) = (place + 9, name(b"standing"));
        let action = Action::Enqueue { lock, name, mode: Mode::ConcurrentRead, no_queue: false };
        table.apply(&Command { host: 0, client: 8, request: u64::from(place) + 1, action });
    }
    table
}

/// A table to which another was copied.
fn renewed_table() -> Flat {
    standing_table::<Flat>().clone()
}

fn apply(table: &mut impl Table, count: u32) -> bool {
    (0..count).all(|place| !matches!(table.apply(&command_at(place)), Reply::Refused(_)))
}

// BLOCKING: whether 32 clients with eight locks each wait for one another in a circle

fn waiting_table() -> Flat {
    let mut table = Flat::default();
    for place in 0..256 {
        let (lock, name) = (place + 1, name(&[b'A' + (place / 8) as u8]));
        let action = Action::Enqueue { lock, name, mode: Mode::Exclusive, no_queue: false };
        table.apply(&Command { host: 0, client: (place % 32) as u8, request: u64::from(place / 32) + 1, action });
    }
    table.records.sort_by_key(|record| (record.name, matches!(record.state, State::Waiting(_)), record.lock));
    table
}

fn in_the_way(i: usize, x: &Record, j: usize, y: &Record) -> bool {
    let (wanted, converts) = match x.state {
        State::Granted(_) => return false,
        State::Converting(_, wanted) => (wanted, true),
        State::Waiting(wanted) => (wanted, false),
    };
    match y.state {
        State::Granted(held) => x.lock != y.lock && !compatible(held, wanted),
        State::Converting(held, _) => {
            (x.lock != y.lock && !compatible(held, wanted)) || (converts && j < i) || !converts
        }
        State::Waiting(_) => !converts && j < i,
    }
}

/// The first client of a circle, if there is one.
fn circle(locks: &[Record]) -> Option<usize> {
    let mut edges = [false; 65536];
    for (i, x) in locks.iter().enumerate() {
        for (j, y) in locks.iter().enumerate() {
            let pair = 256 * usize::from(x.client) + usize::from(y.client);
            if !edges[pair] && in_the_way(i, x, j, y) && x.name == y.name {
                edges[pair] = true;
            }
        }
    }
    let mut left = [true; 256];
    loop {
        let mut taken = false;
        for a in 0..256 {
            if left[a] && !(0..256).fold(false, |held, b| held | (edges[256 * a + b] & left[b])) {
                left[a] = false;
                taken = true;
            }
        }
        if !taken {
            return left.iter().position(|&left| left);
        }
    }
}

fn blocking(table: &mut Flat, count: u32) -> bool {
    (0..count).all(|_| circle(black_box(&table.records)).is_none())
}

// THE FIRST PATH: host 0 alone, over one disk

#[derive(Clone, Copy)]
#[allow(dead_code)]
enum Entry {
    Submit(Command),
    Called(u8),
}

struct Host {
    disk: Disk,
    table: Maps,
    learned: Vec<Command>,
    journal: Vec<Entry>,
}

impl Host {
    fn read_row(&mut self, boot: u64, at: usize) -> Result<([u8; ROW], [Says; HOSTS]), Fault> {
        let mut row = [0; ROW];
        self.disk.read(boot, at, &mut row)?;
        self.journal.push(Entry::Called(1));
        let cells = decode_row(&row);
        Ok((row, cells))
    }

    fn write_own(&mut self, boot: u64, at: usize, row: &[u8; ROW], says: &Says) -> Result<(), Fault> {
        write_over(&mut self.disk, boot, at, &row[..BLOCK], &body_of(says))?;
        self.journal.extend([Entry::Called(2); 6]);
        Ok(())
    }

    /// Whether the command was acknowledged.
    fn submit(&mut self, command: Command, value: Value) -> Result<bool, Fault> {
        self.journal.push(Entry::Submit(command));
        let at = ROWS_AT + ROW * self.learned.len();
        let boot = self.disk.attach()?;
        self.disk.sync(boot)?;
        self.journal.extend([Entry::Called(0), Entry::Called(3)]);
        let (row, cells) = self.read_row(boot, at)?;
        let top = cells.iter().map(|cell| cell.mbal).max().unwrap_or(0);
        let ballot = first_above(top);
        let promise = Says { mbal: ballot, ..cells[0] };
        self.write_own(boot, at, &row, &promise)?;
        let (row, cells) = self.read_row(boot, at)?;
        if cells[1..].iter().any(|cell| cell.mbal > ballot) {
            return Ok(false);
        }
        let best = cells.iter().max_by_key(|cell| cell.bal).and_then(|cell| cell.inp);
        let vote = Says { mbal: ballot, bal: ballot, inp: Some(best.unwrap_or(value)) };
        self.write_own(boot, at, &row, &vote)?;
        let (_, cells) = self.read_row(boot, at)?;
        if cells[1..].iter().any(|cell| cell.mbal > ballot) {
            return Ok(false);
        }
        let is_refused = matches!(self.table.apply(&command), Reply::Refused(_));
        self.learned.push(command);
        Ok(!is_refused && vote.inp == Some(value))
    }
}

fn first_path(host: &mut Host, count: u32) -> Result<bool, Fault> {
    for place in 0..count {
        let at = (place % 256) as u16;
        let action = if place / 256 % 2 == 0 {
            Action::Enqueue { lock: at + 1, name: row_name(at), mode: Mode::Exclusive, no_queue: false }
        } else {
            Action::Release(at + 1)
        };
        let command = Command { host: 0, client: (place % 32) as u8, request: u64::from(place) + 1, action };
        let mut value = [0; 48];
        value[..4].copy_from_slice(&place.to_be_bytes());
        if !host.submit(command, value)? {
            return Ok(false);
        }
    }
    Ok(true)
}

// A WHOLE ATTEMPT: host 0 with an input, over some disks. It gives up at the first fault.

const DISKS: usize = 7;
const SLOTS: usize = 4096;

/// What is kept of a disk: its boot number, and the own block as it was read last.
#[derive(Clone, Copy)]
struct Visit {
    boot: u64,
    block: [u8; BLOCK],
}

struct Attempt<const N: usize> {
    disks: [Disk; N],
    row: [u8; ROW],
}

impl<const N: usize> Attempt<N> {
    fn new() -> Attempt<N> {
        Attempt { disks: std::array::from_fn(|_| Disk::new(ROWS_AT + ROW * SLOTS)), row: [0; ROW] }
    }

    /// What the row of a disk says. The own block in it is kept.
    fn read_row(&mut self, disk: usize, at: usize, visit: &mut Visit) -> Result<[Says; HOSTS], Fault> {
        self.disks[disk].read(visit.boot, at, &mut self.row)?;
        visit.block.copy_from_slice(&self.row[..BLOCK]);
        Ok(decode_row(&self.row))
    }

    fn write_own(&mut self, disk: usize, at: usize, visit: &mut Visit, says: &Says) -> Result<[Says; HOSTS], Fault> {
        write_over(&mut self.disks[disk], visit.boot, at, &visit.block, &body_of(says))?;
        self.read_row(disk, at, visit)
    }

    /// Whether the input was committed.
    fn commit(&mut self, slot: usize, input: Value) -> Result<bool, Fault> {
        let at = ROWS_AT + ROW * slot;
        let mut visits = [Visit { boot: 0, block: [0; BLOCK] }; N];
        let mut top = 0;
        let mut best = Says::default();
        for (disk, visit) in visits.iter_mut().enumerate() {
            visit.boot = self.disks[disk].attach()?;
            self.disks[disk].sync(visit.boot)?;
            let cells = self.read_row(disk, at, visit)?;
            top = cells.iter().map(|cell| cell.mbal).fold(top, u64::max);
            if best.bal < cells[0].bal {
                best = cells[0];
            }
        }
        let ballot = first_above(top);
        let promise = Says { mbal: ballot, ..best };
        for (disk, visit) in visits.iter_mut().enumerate() {
            let cells = self.write_own(disk, at, visit, &promise)?;
            if cells[1..].iter().any(|cell| cell.mbal > ballot) {
                return Ok(false);
            }
            for cell in &cells[1..] {
                if best.bal < cell.bal {
                    best = *cell;
                }
            }
        }
        let vote = Says { mbal: ballot, bal: ballot, inp: Some(best.inp.unwrap_or(input)) };
        for (disk, visit) in visits.iter_mut().enumerate() {
            let cells = self.write_own(disk, at, visit, &vote)?;
            if cells[1..].iter().any(|cell| cell.mbal > ballot) {
                return Ok(false);
            }
        }
        Ok(vote.inp == Some(input))
    }
}

fn attempts(work: &mut Attempt<DISKS>, count: u32) -> Result<bool, Fault> {
    for slot in 0..count {
        if !work.commit(slot as usize, [7; 48])? {
            return Ok(false);
        }
    }
    Ok(true)
}

/// The bytes that an attempt moves, copied and nothing else.
struct Copies {
    buffers: [Vec<u8>; DISKS],
    row: [u8; ROW],
}

impl Copies {
    /// Each buffer is filled by one call, as the proved program does it; with ones, since the system puts zeros off.
    fn new() -> Copies {
        Copies { buffers: std::array::from_fn(|_| vec![black_box(1); ROWS_AT + ROW * SLOTS]), row: [0; ROW] }
    }

    fn read(&mut self, disk: usize, at: usize) {
        self.row.copy_from_slice(&self.buffers[disk][at..at + ROW]);
        black_box(&self.row);
    }

    fn write(&mut self, disk: usize, at: usize) {
        self.buffers[disk][at + 1..at + COPY].copy_from_slice(&[7; COPY - 1]);
        self.buffers[disk][at..at + 1].copy_from_slice(&[7]);
    }

    /// Copies what an attempt on this blank slot reads and writes, in its order.
    fn copy(&mut self, slot: usize) {
        let at = ROWS_AT + ROW * slot;
        for disk in 0..DISKS {
            self.read(disk, at);
        }
        for half in 0..2 {
            for disk in 0..DISKS {
                self.write(disk, at + COPY * half);
                self.read(disk, at);
            }
        }
    }
}

fn copies(work: &mut Copies, count: u32) -> bool {
    (0..count).all(|slot| {
        work.copy(slot as usize);
        work.row[COPY] == 7
    })
}

// A LOG THAT IS LEARNED: host 0 alone, over one disk

struct Learner {
    attempt: Attempt<1>,
    learned: Vec<Value>,
}

impl Learner {
    /// So many slots are learned already.
    fn new(learned: u32) -> Learner {
        let mut log = Learner { attempt: Attempt::new(), learned: Vec::with_capacity(SLOTS) };
        assert!(learn(&mut log, learned).unwrap());
        log
    }

    /// Whether the value was put at the next slot.
    fn place(&mut self, value: Value) -> Result<bool, Fault> {
        let is_placed = self.attempt.commit(self.learned.len(), value)?;
        if is_placed {
            self.learned.push(value);
        }
        Ok(is_placed)
    }
}

fn learn(log: &mut Learner, count: u32) -> Result<bool, Fault> {
    for _ in 0..count {
        let mut value = [7; 48];
        value[..2].copy_from_slice(&(log.learned.len() as u16).to_be_bytes());
        if !log.place(value)? {
            return Ok(false);
        }
    }
    Ok(true)
}

/// The shortest of twenty rounds, each from new, in nanoseconds; printed as nanoseconds an operation.
fn timed<T>(name: &str, count: u32, new: impl Fn() -> T, run: impl Fn(&mut T, u32) -> bool) -> u64 {
    let mut best = u64::MAX;
    for _ in 0..20 {
        let mut work = new();
        let start = Instant::now();
        assert!(run(&mut work, count), "{name}");
        best = best.min(start.elapsed().as_nanos() as u64);
    }
    let tenths = best * 10 / u64::from(count);
    println!("{name} {count} {}.{}", tenths / 10, tenths % 10);
    best
}

fn main() {
    let calls = |disk: &mut Disk, count| disk_calls(disk, count).is_ok();
    let those = timed("disk_calls_2k", 1_000_000, || Disk::new(2048), calls);
    let these = timed("disk_calls_4m", 1_000_000, || Disk::new(4 << 20), calls);
    println!("disk_calls_4m/disk_calls_2k {:.2}", these as f64 / those as f64);
    timed("block_write", 200_000, || Disk::new(2048), |disk, count| block_write(disk, count).is_ok());
    timed("decode_row", 200_000, || written_row().unwrap(), decode_whole_rows);
    timed("decode_row_untested", 200_000, || written_row().unwrap(), decode_rows);
    let those = timed("apply", 1_000_000, standing_table::<Flat>, apply);
    timed("apply_maps", 1_000_000, standing_table::<Maps>, apply);
    let these = timed("apply_renewed", 1_000_000, renewed_table, apply);
    println!("apply_renewed/apply {:.2}", these as f64 / those as f64);
    timed("blocking", 1_000, waiting_table, blocking);
    let host = || Host {
        disk: Disk::new(ROWS_AT + ROW * 4096),
        table: Maps::default(),
        learned: Vec::new(),
        journal: Vec::new(),
    };
    let spent = timed("first_path", 4096, host, |host, count| first_path(host, count).unwrap_or(false));
    println!("first_path/second {}", 4096 * 1_000_000_000 / spent);
    let direct = timed("direct", 4096, host, |host, count| first_path(host, count).unwrap_or(false));
    println!("first_path/direct {:.2}", spent as f64 / direct as f64);
    let these = timed("attempt", 4096, Attempt::new, |work, count| attempts(work, count).unwrap_or(false));
    let those = timed("copies", 4096, Copies::new, copies);
    println!("attempt/copies {:.2}", these as f64 / those as f64);
    let learning = |log: &mut Learner, count| learn(log, count).unwrap_or(false);
    timed("learn", 4096, || Learner::new(0), learning);
    let those = timed("learn_first", 512, || Learner::new(0), learning);
    let these = timed("learn_last", 512, || Learner::new(3584), learning);
    println!("learn_last/learn_first {:.2}", these as f64 / those as f64);
}
