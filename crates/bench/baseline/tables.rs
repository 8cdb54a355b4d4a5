// The commands of `bench tables` to two lock tables in plain Rust: a flat list, and maps. Prints both in nanoseconds a command.
mod lock_tables;

use lock_tables::*;
use std::time::Instant;

const KINDS: [&str; 8] = ["enqueue", "convert", "status", "release", "wait", "cancel", "through", "purge"];

const TURNS: u64 = 300;

#[derive(Clone, Copy)]
struct Shape {
    standing: u16,
    one_name: bool,
}

fn name_at(shape: Shape, at: u16) -> Name {
    row_name(if shape.one_name { 0 } else { at })
}

fn command_at(shape: Shape, kind: usize, client: u8, place: u16, request: u64) -> Command {
    let waits = kind == 4 || kind == 5;
    let on = if waits { place % shape.standing } else { place };
    let lock = place.wrapping_mul(37) % 256 + 1;
    let name = name_at(shape, on);
    let action = match kind {
        0 | 6 => Action::Enqueue { lock, name, mode: Mode::ConcurrentRead, no_queue: false },
        1 => Action::Convert { lock, mode: Mode::ConcurrentWrite, no_queue: false },
        2 => Action::Status(lock),
        3 => Action::Release(lock),
        4 => Action::Enqueue { lock, name, mode: Mode::Exclusive, no_queue: false },
        5 => Action::Cancel(lock),
        _ => Action::Purge(1),
    };
    Command { host: u8::from(kind == 6), client, request: request + 1, action }
}

fn together(table: &mut impl Table, shape: Shape, kind: usize, request: u64) -> u64 {
    let commands: [Command; 8] =
        std::array::from_fn(|at| command_at(shape, kind, at as u8, shape.standing + at as u16, request));
    let start = Instant::now();
    for command in &commands[..if kind == 7 { 1 } else { 8 }] {
        assert!(!matches!(table.apply(command), Reply::Refused(_)));
    }
    start.elapsed().as_nanos() as u64
}

fn best_of<T: Table>(shape: Shape) -> [u64; 8] {
    let mut best = [u64::MAX; 8];
    for _ in 0..30 {
        let mut table = T::default();
        for at in 0..shape.standing {
            table.apply(&command_at(shape, 0, 8, at, u64::from(at)));
        }
        let mut spent = [0; 8];
        for turn in 0..TURNS {
            for (kind, spent) in spent.iter_mut().enumerate() {
                *spent += together(&mut table, shape, kind, turn * 8 + kind as u64);
            }
        }
        for (best, spent) in best.iter_mut().zip(spent) {
            *best = spent.min(*best);
        }
    }
    best
}

fn main() {
    for (locks, standing, names) in [(8, 4, "one"), (8, 4, "own"), (256, 248, "one"), (256, 248, "own")] {
        let shape = Shape { standing, one_name: names == "one" };
        let (flat, maps) = (best_of::<Flat>(shape), best_of::<Maps>(shape));
        for kind in 0..8 {
            let count = if kind == 7 { TURNS } else { TURNS * 8 };
            let tenths = |spent: u64| format!("{}.{}", spent / count, spent * 10 / count % 10);
            println!("{}_{locks}_{names} {} {}", KINDS[kind], tenths(flat[kind]), tenths(maps[kind]));
        }
    }
}
