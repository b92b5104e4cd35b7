//! The fixed calls of a registry: the night of the wrong port, each number, sizes at their limits and one more,
//! sessions that differ in one octet, places used again, and records that are sound or not.

use crate::registry::record::{port_at, run_at, LENGTH, PORT, PORTS_AT, RUN, SESSION_AT, TEXT_AT};
use crate::registry::{MAX_DESTINATION, MAX_LABEL, MAX_PORTS, MAX_RUNS, MAX_TEXT};
use crate::registry_calls::{first_record, replies, Call};

/// The octets of the calls.
pub fn calls() -> Vec<u8> {
    all().iter().flat_map(Call::octets).collect()
}

/// The calls, in groups; each begins with an empty registry.
pub fn all() -> Vec<Call> {
    let groups = [
        wrong_port(),
        again(),
        sessions(),
        eight_places(),
        four_runs(),
        sizes(),
        alike(),
        orders(),
        records(),
        lengths(),
    ];
    let from_empty = |group: Vec<Call>| [vec![Call::Set(first_record())], group].concat();
    groups.map(from_empty).concat()
}

fn open(run: &[u8]) -> Call {
    let run = run.to_vec();
    Call::Open { run }
}

fn close(run: &[u8]) -> Call {
    let run = run.to_vec();
    Call::Close { run }
}

fn publish(run: &[u8], destination: &[u8], text: &[u8], session: u64) -> Call {
    Call::Publish {
        run: run.to_vec(),
        destination: destination.to_vec(),
        text: text.to_vec(),
        session,
    }
}

fn ask(run: &[u8], destination: &[u8]) -> Call {
    Call::Ask {
        run: run.to_vec(),
        destination: destination.to_vec(),
    }
}

fn end(session: u64) -> Call {
    Call::End { session }
}

/// The record that calls leave on an empty registry.
fn left_by(calls: &[Call]) -> Vec<u8> {
    let replies = replies(calls);
    replies.last().expect("a call").record.clone()
}

/// Yesterday's ocean run is still open when today's is asked for its port.
fn wrong_port() -> Vec<Call> {
    let (yesterday, today) = (b"ocean-0611", b"ocean-0612");
    vec![
        open(yesterday),
        publish(yesterday, b"ocean", b"node7:40111", 1),
        open(today),
        ask(today, b"ocean"),
        ask(yesterday, b"ocean"),
        publish(today, b"ocean", b"node9:40200", 2),
        ask(today, b"ocean"),
        ask(yesterday, b"ocean"),
        end(2),
        ask(today, b"ocean"),
        close(yesterday),
        ask(yesterday, b"ocean"),
        ask(today, b"ocean"),
        publish(yesterday, b"ocean", b"node7:40111", 1),
    ]
}

/// The same session publishes again, with a longer and a shorter text; another one is refused until it ends.
fn again() -> Vec<Call> {
    vec![
        open(b"r"),
        publish(b"r", b"ice", b"a:1", 5),
        publish(b"r", b"ice", b"a longer text:2", 5),
        publish(b"r", b"ice", b"b", 5),
        publish(b"r", b"ice", b"b", 5),
        ask(b"r", b"ice"),
        publish(b"r", b"ice", b"c", 6),
        end(6),
        ask(b"r", b"ice"),
        end(5),
        end(5),
        ask(b"r", b"ice"),
        publish(b"r", b"ice", b"c", 6),
        ask(b"r", b"ice"),
    ]
}

/// Sessions 0 and 2^64 - 1, and those that differ from 0 in one octet.
fn sessions() -> Vec<Call> {
    let mut calls = vec![open(b"r"), end(0), end(u64::MAX)];
    let octets: Vec<u64> = (0..8).map(|octet| 1 << (8 * octet)).collect();
    calls.push(publish(b"r", b"zero", b"z", 0));
    calls.push(publish(b"r", b"last", b"l", u64::MAX));
    for &session in &octets {
        calls.push(publish(b"r", b"zero", b"y", session));
        calls.push(publish(b"r", b"last", b"k", u64::MAX - session));
        calls.push(end(session));
        calls.push(end(u64::MAX - session));
    }
    for session in [0, u64::MAX] {
        calls.push(publish(b"r", b"zero", b"x", session));
        calls.push(publish(b"r", b"last", b"j", session));
        calls.push(end(session));
        calls.push(ask(b"r", b"zero"));
        calls.push(ask(b"r", b"last"));
    }
    calls
}

/// All places of a run taken, by two sessions, and one more; then places used again after an end and a close.
fn eight_places() -> Vec<Call> {
    let name = |port: usize| [b'1' + port as u8];
    let mut calls = vec![open(b"r"), open(b"s")];
    for port in 0..=MAX_PORTS {
        let session = port as u64 % 2;
        calls.push(publish(b"r", &name(port), &name(port), session));
    }
    calls.push(publish(b"r", b"2", b"other", 0));
    calls.push(publish(b"r", b"8", b"same", 1));
    calls.push(publish(b"s", b"9", b"9", 0));
    calls.push(end(1));
    for port in 0..=MAX_PORTS {
        calls.push(ask(b"r", &name(port)));
    }
    for destination in [b"c", b"b", b"a", b"d", b"e"] {
        calls.push(publish(b"r", destination, destination, 3));
    }
    calls.extend([close(b"r"), open(b"r"), ask(b"r", b"1"), end(0)]);
    calls.extend([publish(b"r", b"1", b"1", 0), ask(b"s", b"9")]);
    calls
}

/// Four runs and one more; a place used again after a close, with nothing of the run that had it.
fn four_runs() -> Vec<Call> {
    vec![
        open(b"a"),
        open(b"b"),
        open(b"a"),
        open(b"c"),
        open(b"d"),
        open(b"e"),
        open(b"d"),
        close(b"e"),
        publish(b"b", b"ice", b"p", 1),
        publish(b"d", b"ice", b"q", 1),
        close(b"b"),
        close(b"b"),
        publish(b"b", b"ice", b"p", 1),
        ask(b"b", b"ice"),
        open(b"e"),
        ask(b"e", b"ice"),
        ask(b"d", b"ice"),
        open(b"b"),
        end(1),
        close(b"a"),
        close(b"d"),
        open(b"b"),
        open(b"a"),
    ]
}

/// 0, 1, the most and one more octet in each text of each call.
fn sizes() -> Vec<Call> {
    let texts = |most: usize| [0, 1, most, most + 1].map(|length| vec![b'x'; length]);
    let runs = texts(MAX_LABEL);
    let mut calls: Vec<Call> = runs.iter().map(|run| open(run)).collect();
    for run in &runs {
        for destination in texts(MAX_DESTINATION) {
            for text in texts(MAX_TEXT) {
                calls.push(publish(run, &destination, &text, 1));
            }
            calls.push(ask(run, &destination));
        }
    }
    calls.extend([256, 256 + MAX_LABEL].map(|length| open(&vec![b'x'; length])));
    calls.push(publish(b"x", b"x", &[b'x'; 256 + MAX_TEXT], 1));
    calls.extend(runs.iter().map(|run| close(run)));
    calls
}

/// Labels and destinations that are a beginning of each other, differ in the last octet, or have octet 0.
fn alike() -> Vec<Call> {
    let long = |last: u8| [vec![b'a'; MAX_LABEL - 1], vec![last]].concat();
    let labels = [vec![0], vec![0, 0], long(0), long(b'a')];
    let mut calls: Vec<Call> = labels.iter().map(|label| open(label)).collect();
    for (index, label) in labels.iter().enumerate() {
        for destination in &labels {
            calls.push(publish(label, destination, destination, index as u64));
        }
    }
    for label in labels.iter().chain([&vec![b'a'; MAX_LABEL - 1]]) {
        for destination in &labels {
            calls.push(ask(label, destination));
        }
    }
    calls.push(end(2));
    calls.extend(labels.iter().map(|label| ask(label, b"\0")));
    calls
}

/// Where two numbers fit, in every call that has both.
fn orders() -> Vec<Call> {
    let mut calls: Vec<Call> = [b"a", b"b", b"c", b"d"].map(|run| open(run)).to_vec();
    for port in 0..MAX_PORTS {
        calls.push(publish(b"a", &[b'1' + port as u8], b"p", 1));
    }
    calls.extend([
        open(b""),
        open(b"a"),
        publish(b"e", b"", b"p", 1),
        publish(b"e", b"1", b"", 1),
        publish(b"a", b"1", b"", 2),
        publish(b"a", b"9", b"", 1),
        publish(b"e", b"1", b"p", 2),
        publish(b"a", b"1", b"p", 2),
        publish(b"a", b"9", b"p", 2),
        ask(b"e", b""),
        ask(b"", b"1"),
        close(b""),
    ]);
    calls
}

/// Each kind of call.
fn each_call() -> Vec<Call> {
    vec![
        open(b"new"),
        open(b""),
        close(b"r"),
        close(b"none"),
        publish(b"r", b"new", b"n", 9),
        publish(b"r", b"ice", b"n", 9),
        ask(b"r", b"ice"),
        ask(b"none", b"ice"),
        ask(b"r", b""),
        end(9),
        end(1),
    ]
}

/// A record with two runs, in the first two ports.
fn two_runs() -> Vec<u8> {
    left_by(&[
        open(b"r"),
        open(b"s"),
        publish(b"r", b"ice", b"a:1", 1),
        publish(b"r", b"sea", b"a:2", 0),
        publish(b"s", b"ice", b"b:1", 1),
    ])
}

/// Octets of it that are others: of the first run's label, its first port, its first free place, and of the
/// places for other runs.
fn one_octet() -> Vec<Vec<u8>> {
    let label = run_at(0);
    let (ice, free) = (port_at(0, 0), port_at(0, 2));
    let changes = [
        (label, &[0, 33, 255][..]),
        (label + 1, b"sq"),
        (label + 2, &[1]),
        (label + MAX_LABEL, &[1]),
        (ice, &[0, 2, 4, 33]),
        (ice + 4, &[1]),
        (ice + MAX_DESTINATION, &[1]),
        (ice + TEXT_AT, &[0, 64, 65]),
        (ice + TEXT_AT + 4, &[1]),
        (ice + TEXT_AT + MAX_TEXT, &[1]),
        (ice + SESSION_AT, &[255]),
        (ice + SESSION_AT + 7, &[0]),
        (free, &[1]),
        (free + 1, &[1]),
        (free + TEXT_AT, &[1]),
        (free + SESSION_AT, &[1]),
        (free + SESSION_AT + 7, &[1]),
        (run_at(1), &[0]),
        (run_at(2), &[1]),
        (run_at(2) + 1, &[1]),
        (run_at(2) + PORTS_AT, &[1]),
        (LENGTH - 1, &[1]),
    ];
    let mut records = Vec::new();
    for (at, octets) in changes {
        for &octet in octets {
            let mut record = two_runs();
            record[at] = octet;
            records.push(record);
        }
    }
    records
}

/// Parts of it that are copied: a destination or a label twice, a run twice or gone, another run's port.
fn copied_parts() -> Vec<Vec<u8>> {
    let label = run_at(0);
    let (ice, sea, free) = (port_at(0, 0), port_at(0, 1), port_at(0, 2));
    let copies = [
        (ice, TEXT_AT, sea),
        (ice, TEXT_AT, free),
        (label, PORTS_AT, run_at(1)),
        (label, RUN, run_at(MAX_RUNS - 1)),
        (run_at(2), RUN, label),
        (ice, PORT, port_at(1, 1)),
        (ice, SESSION_AT, port_at(1, 1)),
        (sea, PORT, port_at(1, 1)),
    ];
    let copied = |&(from, count, to): &(usize, usize, usize)| {
        let mut record = two_runs();
        record.copy_within(from..from + count, to);
        record
    };
    copies.iter().map(copied).collect()
}

/// Each call on these, and on the record as it was.
fn records() -> Vec<Call> {
    let others = vec![vec![0xff; LENGTH], vec![1; LENGTH], two_runs()];
    let records = [one_octet(), copied_parts(), others].concat();
    let on_each = |record: Vec<u8>| [vec![Call::Set(record)], each_call()].concat();
    records.into_iter().flat_map(on_each).collect()
}

/// Records of other lengths, all 0, and the front of one that has a run; then a sound one.
fn lengths() -> Vec<Call> {
    let one = left_by(&[open(b"r"), publish(b"r", b"ice", b"a:1", 1)]);
    let other = |length: usize| {
        let mut record = one.clone();
        record.resize(length, 0);
        record
    };
    let mut calls = Vec::new();
    for record in [
        vec![],
        vec![0],
        vec![0; RUN],
        vec![0; LENGTH - 1],
        vec![0; LENGTH + 1],
        other(RUN),
        other(LENGTH - 1),
        other(LENGTH + 1),
        other(LENGTH + RUN),
    ] {
        calls.push(Call::Set(record));
        calls.extend(each_call());
    }
    calls.push(Call::Set(one));
    calls.extend(each_call());
    calls
}
