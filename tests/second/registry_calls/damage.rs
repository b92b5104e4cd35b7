//! Records that no call leaves, or that others leave: one octet other, labels or destinations doubled, lengths
//! out of range, octets that are not 0 where nothing is held, places moved, and other lengths.

use crate::random::Random;
use crate::registry::record::{port_at, run_at, LENGTH, PORT, PORTS_AT, RUN, SESSION_AT, TEXT_AT};
use crate::registry::{MAX_PORTS, MAX_RUNS};

/// The record with one or two things other.
pub fn damaged(random: &mut Random, record: &[u8]) -> Vec<u8> {
    let mut record = record.to_vec();
    for _ in 0..random.pick(&[1, 1, 1, 2]) {
        if record.len() == LENGTH {
            change(random, &mut record);
        }
    }
    record
}

fn change(random: &mut Random, record: &mut Vec<u8>) {
    match random.below(16) {
        0 | 1 => one_octet(random, record),
        2 | 3 => doubled_label(random, record),
        4 | 5 => doubled_destination(random, record),
        6..=8 => length(random, record),
        9..=11 => unused(random, record),
        12 => freed(random, record),
        13 => moved(random, record),
        14 => session(random, record),
        _ => other_length(random, record),
    }
}

/// Any octet becomes any other.
fn one_octet(random: &mut Random, record: &mut [u8]) {
    let at = random.below(LENGTH);
    record[at] = record[at].wrapping_add(random.between(1, 255) as u8);
}

/// A place for a run that is taken, if there is one; else any.
fn some_run(random: &mut Random, record: &[u8]) -> usize {
    let taken: Vec<usize> = (0..MAX_RUNS)
        .filter(|&run| record[run_at(run)] != 0)
        .collect();
    if taken.is_empty() {
        random.below(MAX_RUNS)
    } else {
        random.pick(&taken)
    }
}

/// A place for a port in a run that is taken, if there is one; else any.
fn some_port(random: &mut Random, record: &[u8], run: usize) -> usize {
    let taken: Vec<usize> = (0..MAX_PORTS)
        .filter(|&port| record[port_at(run, port)] != 0)
        .collect();
    if taken.is_empty() {
        random.below(MAX_PORTS)
    } else {
        random.pick(&taken)
    }
}

/// A run gets the label of another one, or a free place the whole run.
fn doubled_label(random: &mut Random, record: &mut [u8]) {
    let from = run_at(some_run(random, record));
    let to = run_at(random.below(MAX_RUNS));
    let count = if record[to] == 0 { RUN } else { PORTS_AT };
    record.copy_within(from..from + count, to);
}

/// A port gets the destination of another one of the run, or a free place the whole port.
fn doubled_destination(random: &mut Random, record: &mut [u8]) {
    let run = some_run(random, record);
    let from = port_at(run, some_port(random, record, run));
    let to = port_at(run, random.below(MAX_PORTS));
    let count = if record[to] == 0 { PORT } else { TEXT_AT };
    record.copy_within(from..from + count, to);
}

/// The length of a label, a destination or a text is another one.
fn length(random: &mut Random, record: &mut [u8]) {
    let run = some_run(random, record);
    let port = port_at(run, some_port(random, record, run));
    let at = random.pick(&[run_at(run), port, port, port + TEXT_AT, port + TEXT_AT]);
    record[at] = match random.below(4) {
        0 => record[at].wrapping_add(1),
        1 => record[at].wrapping_sub(1),
        _ => random.pick(&[0, 1, 32, 33, 64, 65, 128, 255]),
    };
}

/// An octet that is 0 is not 0: often one just after a text, or in a place that is free.
fn unused(random: &mut Random, record: &mut [u8]) {
    let run = some_run(random, record);
    let port = port_at(run, some_port(random, record, run));
    let start = random.pick(&[run_at(run), port, port + TEXT_AT]);
    let after = start + 1 + usize::from(record[start]);
    let at = match random.below(3) {
        0 if after < LENGTH => after,
        1 => port_at(run, random.below(MAX_PORTS)) + random.below(PORT),
        _ => random.below(LENGTH),
    };
    if record[at] == 0 {
        record[at] = random.pick(&[1, 97, 255]);
    }
}

/// Only the first text of a place is cleared, and not what is after it, or only its length.
fn freed(random: &mut Random, record: &mut [u8]) {
    let run = some_run(random, record);
    let port = port_at(run, some_port(random, record, run));
    let (at, whole) = random.pick(&[(run_at(run), PORTS_AT), (port, TEXT_AT)]);
    let count = random.pick(&[1, whole]);
    record[at..at + count].fill(0);
}

/// Two places are swapped: of runs, or of ports of a run.
fn moved(random: &mut Random, record: &mut [u8]) {
    let run = some_run(random, record);
    let (one, other, size) = if random.once_in(2) {
        (run_at(run), run_at(random.below(MAX_RUNS)), RUN)
    } else {
        let port = port_at(run, some_port(random, record, run));
        (port, port_at(run, random.below(MAX_PORTS)), PORT)
    };
    for index in 0..size {
        record.swap(one + index, other + index);
    }
}

/// Another session, also in a place that is free.
fn session(random: &mut Random, record: &mut [u8]) {
    let run = some_run(random, record);
    let port = port_at(run, random.below(MAX_PORTS));
    record[port + SESSION_AT + random.below(8)] = random.below(256) as u8;
}

fn other_length(random: &mut Random, record: &mut Vec<u8>) {
    let length = random.pick(&[0, 1, RUN, LENGTH - 1, LENGTH + 1, LENGTH + RUN, 65_536]);
    record.resize(length, 0);
}
