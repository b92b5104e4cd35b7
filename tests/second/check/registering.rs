//! Tests of a registry: small histories told from their calls alone, two histories of a run that stays opened,
//! and records against those that are written.

use crate::fixed::registering;
use crate::random::Random;
use crate::registry::record::{port_at, read, run_at, write, LENGTH, TEXT_AT};
use crate::registry::{Registry, MAX_PORTS, MAX_RUNS};
use crate::registry_calls::damage::damaged;
use crate::registry_calls::sequence::{any_call, sequence};
use crate::registry_calls::{replies, Call, Reply};
use std::collections::BTreeSet;

fn open(run: &str) -> Call {
    let run = run.as_bytes().to_vec();
    Call::Open { run }
}

fn close(run: &str) -> Call {
    let run = run.as_bytes().to_vec();
    Call::Close { run }
}

fn publish(run: &str, destination: &str, text: &str, session: u64) -> Call {
    Call::Publish {
        run: run.as_bytes().to_vec(),
        destination: destination.as_bytes().to_vec(),
        text: text.as_bytes().to_vec(),
        session,
    }
}

fn ask(run: &str, destination: &str) -> Call {
    Call::Ask {
        run: run.as_bytes().to_vec(),
        destination: destination.as_bytes().to_vec(),
    }
}

/// The text that was last published under the destination in the run and not withdrawn, read from the last
/// call back; each call with whether it was accepted.
fn told(history: &[(Call, bool)], run: &[u8], destination: &[u8]) -> Option<Vec<u8>> {
    let mut ended = BTreeSet::new();
    for (call, accepted) in history.iter().rev().filter(|(_, accepted)| *accepted) {
        assert!(accepted);
        match call {
            Call::Publish {
                run: label,
                destination: name,
                text,
                session,
            } if label == run && name == destination => {
                return (!ended.contains(session)).then(|| text.clone());
            }
            Call::End { session } => {
                ended.insert(*session);
            }
            Call::Close { run: label } if label == run => return None,
            _ => {}
        }
    }
    None
}

/// Whether the run is open, read from the last call back.
fn is_open(history: &[(Call, bool)], run: &[u8]) -> bool {
    let named = history.iter().rev().filter(|(_, accepted)| *accepted);
    for (call, _) in named {
        match call {
            Call::Open { run: label } if label == run => return true,
            Call::Close { run: label } if label == run => return false,
            _ => {}
        }
    }
    false
}

/// The text that an answer to asking says, in the record.
fn text_in(reply: &Reply) -> Option<Vec<u8>> {
    let answer = reply.answer as usize;
    let start = answer & 0xffff;
    (answer > 0xffff).then(|| reply.record[start..start + (answer >> 16)].to_vec())
}

#[test]
fn asking_is_told_by_the_history() {
    let alphabet = [
        open("r"),
        open("s"),
        close("r"),
        publish("r", "d", "1", 1),
        publish("r", "d", "2", 2),
        publish("s", "d", "3", 1),
        publish("r", "e", "4", 1),
        Call::End { session: 1 },
    ];
    let length = 5u32;
    for number in 0..alphabet.len().pow(length) {
        let mut history = Vec::new();
        let mut record = write(&Registry::default());
        for place in 0..length {
            let call = &alphabet[number / alphabet.len().pow(place) % alphabet.len()];
            let reply = Reply::of(&record, call);
            assert!(reply.answer == 0 || reply.record == record);
            record = reply.record;
            history.push((call.clone(), reply.answer == 0));
        }
        for (run, destination) in [("r", "d"), ("s", "d"), ("r", "e")] {
            let reply = Reply::of(&record, &ask(run, destination));
            let (run, destination) = (run.as_bytes(), destination.as_bytes());
            assert_eq!(reply.answer == 91, !is_open(&history, run));
            assert_eq!(text_in(&reply), told(&history, run, destination));
        }
    }
}

/// Whether a call names the run, or is a session's end.
fn concerns(call: &Call, label: &[u8]) -> bool {
    match call {
        Call::Publish { run, .. } | Call::Ask { run, .. } => run == label,
        Call::End { .. } => true,
        _ => false,
    }
}

/// The octets of the place that the run has.
fn octets_of(record: &[u8], label: &[u8]) -> Vec<u8> {
    let registry = read(record).expect("a sound record");
    let at = run_at(registry.runs[label].place);
    record[at..run_at(registry.runs[label].place + 1)].to_vec()
}

/// A random history of an empty registry, in which the run is not closed.
fn history(random: &mut Random, label: &[u8], count: usize) -> Vec<(Call, Reply)> {
    let mut record = write(&Registry::default());
    let mut history = Vec::new();
    while history.len() < count {
        let call = any_call(random, &record);
        if !matches!(&call, Call::Close { run } if run == label) {
            let reply = Reply::of(&record, &call);
            record.clone_from(&reply.record);
            history.push((call, reply));
        }
    }
    history
}

/// "two histories of an empty register that have, from its opening on, the same calls naming that run and the
/// same session ends, in the same order, give that run the same answers and records": any history, and the one
/// of these calls alone.
#[test]
fn other_runs_change_nothing() {
    let label = b"ocean-0611";
    let mut random = Random::new(21);
    let mut compared = 0;
    for _ in 0..300 {
        let history = history(&mut random, label, 200);
        let opens = |(call, reply): &(Call, Reply)| {
            matches!(call, Call::Open { run } if run == label) && reply.answer == 0
        };
        let Some(first) = history.iter().position(opens) else {
            continue;
        };
        let mut alone = Reply::of(&write(&Registry::default()), &history[first].0).record;
        for (call, reply) in &history[first + 1..] {
            if concerns(call, label) {
                let other = Reply::of(&alone, call);
                assert_eq!(text_in(&other), text_in(reply));
                assert!(text_in(reply).is_some() || other.answer == reply.answer);
                alone = other.record;
                compared += 1;
            }
            assert_eq!(octets_of(&alone, label), octets_of(&reply.record, label));
        }
    }
    assert!(compared > 5_000);
}

/// The registry that octets show, however wrong they are, as it would be written: what is read of a place that
/// begins with 0 is nothing.
fn shown_again(octets: &[u8]) -> Option<Vec<u8>> {
    let mut record = vec![0; LENGTH];
    let mut copy = |at: usize, most: usize| {
        let length = usize::from(octets[at]);
        let good = (1..=most).contains(&length);
        let end = at + 1 + length.min(most);
        record[at..end].copy_from_slice(&octets[at..end]);
        good.then_some(octets[at + 1..end].to_vec())
    };
    let mut labels = BTreeSet::new();
    let mut sessions = Vec::new();
    for run in (0..MAX_RUNS).filter(|&run| octets[run_at(run)] != 0) {
        if !labels.insert(copy(run_at(run), 32)?) {
            return None;
        }
        let mut destinations = BTreeSet::new();
        for port in (0..MAX_PORTS).filter(|&port| octets[port_at(run, port)] != 0) {
            let at = port_at(run, port);
            if !destinations.insert(copy(at, 32)?) {
                return None;
            }
            copy(at + TEXT_AT, 64)?;
            sessions.push(at + 98);
        }
    }
    for at in sessions {
        record[at..at + 8].copy_from_slice(&octets[at..at + 8]);
    }
    Some(record)
}

#[test]
fn sound_records_are_those_that_are_written() {
    let mut random = Random::new(89);
    let (mut sound, mut unsound) = (0, 0);
    for step in sequence(&mut random, 4_000) {
        let record = damaged(&mut random, &step.before);
        if record.len() != LENGTH {
            assert_eq!(read(&record), None);
            continue;
        }
        let again = shown_again(&record);
        let is_sound = again.is_some_and(|again| again == record);
        assert_eq!(read(&record).is_some(), is_sound);
        if let Some(registry) = read(&record) {
            assert_eq!(write(&registry), record);
        }
        sound += usize::from(is_sound);
        unsound += usize::from(!is_sound);
    }
    assert!(sound > 500 && unsound > 500);
}

/// Each octet of a record by itself, with the values at the edges of lengths.
#[test]
fn each_octet_counts() {
    let calls = [
        open("r"),
        open("s"),
        publish("r", "ice", "a:1", 1),
        publish("s", "ice", "b:1", 1),
    ];
    let record = &replies(&calls)[3].record;
    for at in 0..LENGTH {
        for octet in [0, 1, 2, 31, 32, 33, 63, 64, 65, 114, 115, 255] {
            let mut other = record.clone();
            other[at] = octet;
            let again = shown_again(&other);
            assert_eq!(
                read(&other).is_some(),
                again.is_some_and(|again| again == other)
            );
        }
    }
}

/// The fixed calls have each number, and what is read of their octets are these calls.
#[test]
fn fixed_calls_have_each_number() {
    let calls = registering::all();
    assert_eq!(
        crate::registry_calls::read(&registering::calls()),
        Some(calls.clone())
    );
    let answers: BTreeSet<u64> = replies(&calls).iter().map(|reply| reply.answer).collect();
    assert!((89..=95).all(|number| answers.contains(&number)));
}
