//! The system calls of `dlm submit` and of `dlm table` over image files, in plain code that decides nothing:
//! `images submit DIR` and `images table DIR SLOTS` make the calls, `images fill DIR SLOTS` puts commands into the first slots.
//! With a last word `marked` the commands are marked, or read as such.

use std::fs::{File, OpenOptions};
use std::os::unix::fs::FileExt;

const HEADER: usize = 1024;
const ROW: usize = 4096;
const COPY: usize = 128;
const VALUE: usize = 48;

fn open(dir: &str, disk: usize) -> File {
    let path = format!("{dir}/disk{disk}.img");
    OpenOptions::new().read(true).write(true).open(path).unwrap()
}

/// The images, each opened, measured, and its header read.
fn open_all(dir: &str) -> Vec<File> {
    let mut header = [0; HEADER];
    let mut disks = Vec::new();
    for disk in 0..7 {
        let path = format!("{dir}/disk{disk}.img");
        let Ok(file) = OpenOptions::new().read(true).write(true).open(path) else {
            continue;
        };
        assert!(file.metadata().unwrap().len() >= HEADER as u64);
        read_twice(&file, &mut header, 0);
        disks.push(file);
    }
    disks
}

/// Two reads that tell the same bytes.
fn read_twice(file: &File, into: &mut [u8], at: u64) {
    let mut again = [0; ROW];
    file.read_exact_at(into, at).unwrap();
    file.read_exact_at(&mut again[..into.len()], at).unwrap();
    assert!(into[..] == again[..into.len()]);
}

/// A block's six calls, of which the first puts no byte, and the read behind them.
fn write_block(disk: &File, place: u64, copy: &[u8; COPY], row: &mut [u8; ROW], row_at: u64) {
    disk.sync_data().unwrap();
    disk.write_all_at(&copy[1..], place + 1).unwrap();
    disk.sync_data().unwrap();
    disk.write_all_at(&copy[..1], place).unwrap();
    disk.sync_data().unwrap();
    read_twice(disk, row, row_at);
}

/// Where the row of a slot begins.
fn row_of(slot: u64) -> u64 {
    8192 + ROW as u64 * slot
}

/// The opening of an attempt, in which the row is read.
fn open_row(disks: &[File], slot: u64, row: &mut [u8; ROW]) {
    for disk in disks {
        disk.sync_data().unwrap();
        read_twice(disk, row, row_of(slot));
    }
}

/// An attempt of host 0 on a slot where its blocks are blank, of one phase, as on a slot with no command, or of two.
fn attempt(disks: &[File], slot: u64, phases: u8, command: &[u8; VALUE], row: &mut [u8; ROW]) {
    open_row(disks, slot, row);
    for phase in 1..=phases {
        let copy = copy_of(phase, command);
        for disk in disks {
            let place = row_of(slot) + COPY as u64 * u64::from(phase - 1);
            write_block(disk, place, &copy, row, row_of(slot));
        }
    }
}

/// A look at a slot without a mark: more than half of the disks show that.
fn look(disks: &[File], slot: u64, row: &mut [u8; ROW]) {
    for disk in &disks[..disks.len() / 2 + 1] {
        read_twice(disk, row, row_of(slot));
    }
}

/// The marking of a slot whose block was written twice: its first copy is written again, from a gate that is open.
fn mark(disks: &[File], slot: u64, command: &[u8; VALUE], row: &mut [u8; ROW]) {
    let copy = marked(command);
    let place = row_of(slot);
    for disk in disks {
        disk.sync_data().unwrap();
        read_twice(disk, row, place);
        disk.write_all_at(&[0], place).unwrap();
        disk.sync_data().unwrap();
        disk.write_all_at(&copy[1..], place + 1).unwrap();
        disk.sync_data().unwrap();
        disk.write_all_at(&copy[..1], place).unwrap();
        disk.sync_data().unwrap();
    }
}

/// A copy as the first phase leaves it, or the second.
fn copy_of(phase: u8, command: &[u8; VALUE]) -> [u8; COPY] {
    let mut copy = [0; COPY];
    copy[0] = 0xa5;
    copy[1] = 2;
    copy[15] = phase;
    copy[23] = 1;
    if phase == 2 {
        copy[2] = 1;
        copy[31] = 1;
        copy[32..32 + VALUE].copy_from_slice(command);
    }
    copy
}

/// A copy as a marking leaves it.
fn marked(command: &[u8; VALUE]) -> [u8; COPY] {
    let mut copy = copy_of(2, command);
    copy[3] = 1;
    copy[15] = 3;
    copy
}

/// Client 1's next request: the status of lock 1.
fn command(slot: u64) -> [u8; VALUE] {
    let mut command = [0; VALUE];
    command[..8].copy_from_slice(&[5, 0, 1, 0, 0, 0, 0, 1]);
    command[8..16].copy_from_slice(&(slot + 1).to_be_bytes());
    command
}

/// Puts commands into the first slots of an image, as attempts leave them there, or markings.
fn fill(file: &File, slots: u64, with_marks: bool) {
    for slot in 0..slots {
        let command = command(slot);
        let first = if with_marks { marked(&command) } else { copy_of(1, &command) };
        file.write_all_at(&first, row_of(slot)).unwrap();
        file.write_all_at(&copy_of(2, &command), row_of(slot) + COPY as u64).unwrap();
    }
}

fn main() {
    let words: Vec<String> = std::env::args().skip(1).collect();
    let dir = words[1].as_str();
    let slots: u64 = words.get(2).map_or(1, |word| word.parse().unwrap());
    let with_marks = words.get(3).is_some_and(|word| word == "marked");
    let mut row = [0; ROW];
    match words[0].as_str() {
        "fill" => {
            for disk in 0..3 {
                fill(&open(dir, disk), slots, with_marks);
            }
        }
        "submit" => {
            let disks = open_all(dir);
            look(&disks, 0, &mut row);
            attempt(&disks, 0, 2, &command(0), &mut row);
            println!("ack 0 12 NoSuchLock");
            mark(&disks, 0, &command(0), &mut row);
        }
        _ => {
            let disks = open_all(dir);
            // One disk tells each marked slot.
            let marked = if with_marks { slots } else { 0 };
            for slot in 0..marked {
                read_twice(&disks[0], &mut row, row_of(slot));
            }
            look(&disks, marked, &mut row);
            for slot in marked..slots {
                attempt(&disks, slot, 2, &command(slot), &mut row);
            }
            attempt(&disks, slots, 1, &[0; VALUE], &mut row);
            println!("recovered {slots}");
        }
    }
}
