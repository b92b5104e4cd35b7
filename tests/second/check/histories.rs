//! Tests of random calls of a session: frames are answered as they are meant, calls change what they may
//! and no more, and ids and deliveries are those that the history of calls says.

use super::sessions::open;
use crate::block;
use crate::client::right::right;
use crate::client::wrong::{wrong, FRESH, OPEN};
use crate::compare_session::{in_short, ANSWERS};
use crate::random::Random;
use crate::session::delivery::Mode;
use crate::session::opening::ONLY_1_2;
use crate::session::record::{make, Record};
use crate::session::{Accepted, Phase, COUNTED};
use crate::session_calls::accounts::{self, Totals};
use crate::session_calls::records;
use crate::session_calls::sequence::{sequence, Step};
use crate::session_calls::Call;
use crate::version::Version;
use std::collections::{BTreeMap, BTreeSet};

#[test]
fn frames_are_answered_as_meant() {
    let mut random = Random::new(10);
    for round in 0..20_000 {
        let phase = [Phase::Fresh, Phase::Open][round % 2];
        let mut session = records::session(&mut random, phase);
        let numbers: &[usize] = if phase == Phase::Fresh { &FRESH } else { &OPEN };
        let number = random.pick(numbers);
        if let Some(frame) = wrong(&mut random, &session, number) {
            assert_eq!(session.clone().frame(&frame, 7), Err(number), "{frame:?}");
        }
        let frame = right(&mut random, &session);
        let receipt = frame.first(b"receipt").is_some() && phase == Phase::Open;
        let later = COUNTED.map(|name| {
            let named = frame.entries.iter().filter(|entry| entry.name == name);
            named.count().saturating_sub(1)
        });
        assert_eq!(
            session.frame(&frame, 7),
            Ok(Accepted { receipt, later }),
            "{frame:?}"
        );
    }
}

fn number_of(answer: &str) -> Option<usize> {
    answer.strip_prefix("refused ")?.parse().ok()
}

/// Gives a record the deliveries of another.
fn take_deliveries(record: &mut Record, other: &Record) {
    record.labels = other.labels.clone();
    record.owners = other.owners.clone();
    record.count = other.count;
}

/// Closes the record and empties its places of deliveries.
fn close(record: &mut Record) {
    record.phase = 2;
    let (_, empty) = make(0, 0, ONLY_1_2);
    take_deliveries(record, &empty);
}

/// What a call leaves of the record: "38 and 39 leave the session unchanged; every other number closes
/// it and changes nothing else" but the deliveries; what is accepted sets last-heard; "a call that records a
/// delivery and is refused leaves the session as it was".
#[test]
fn calls_change_only_what_they_may() {
    let mut random = Random::new(11);
    let mut answers = BTreeSet::new();
    for Step {
        call,
        before,
        reply,
    } in sequence(&mut random, 30_000)
    {
        answers.insert((call.name(), in_short(&reply.answer)));
        let mut expected = before;
        match (&call, number_of(&reply.answer)) {
            (Call::Make { .. } | Call::Set(_), _) => continue,
            (Call::TimedOut { .. } | Call::Pending { .. }, _) | (_, Some(38 | 39)) => {}
            (Call::Deliver { .. }, Some(_)) => {}
            (Call::Deliver { .. }, None) => take_deliveries(&mut expected, &reply.record),
            (_, Some(_)) => close(&mut expected),
            (Call::HeartBeat { time, .. }, None) => expected.state.last_heard = *time,
            (Call::Frame { command, time, .. }, None) => {
                let after = &reply.record;
                expected.state.last_heard = *time;
                match command {
                    5 | 13 => {
                        expected.phase = 1;
                        expected.state.shared = after.state.shared;
                        expected.state.client_to_server = after.state.client_to_server;
                        expected.state.server_to_client = after.state.server_to_client;
                    }
                    7 => close(&mut expected),
                    14 | 15 => {
                        expected.subscriptions = after.subscriptions.clone();
                        expected.modes = after.modes.clone();
                        if *command == 15 {
                            take_deliveries(&mut expected, after);
                        }
                    }
                    2 | 10 => take_deliveries(&mut expected, after),
                    1 | 3 | 4 => expected.transactions = after.transactions.clone(),
                    _ => {}
                }
            }
        }
        assert_eq!(reply.record, expected, "{call:?}");
    }
    let all: usize = ANSWERS.iter().map(|answers| answers.len()).sum();
    assert_eq!(answers.len(), all);
    assert_eq!(all, 2 + 1 + 2 * (19 + 3 + 3 + 6) + 4);
}

/// The accounts are even after each call, and what is pending is what the session holds.
#[test]
fn accounts_are_even() {
    let mut random = Random::new(14);
    let mut totals = Totals::default();
    for _ in 0..50 {
        totals.add(&accounts::of(&sequence(&mut random, 400)));
    }
    let counts = [
        totals.made,
        totals.acknowledged,
        totals.refused,
        totals.dropped,
        totals.pending,
    ];
    assert_eq!(counts[0], counts[1..].iter().sum::<usize>());
    assert!(totals.lives > 100, "{:?}", totals);
    assert!(counts.iter().all(|&count| count > 200), "{:?}", totals);
}

/// Which kind of recording a step is, if the test looks for it. The labels are those recorded before it.
fn recording_kind(step: &Step, id: &[u8], label: &[u8], labels: &Labels) -> Option<&'static str> {
    let session = step.before.session()?;
    let equal = session
        .pending(label)
        .map(|place| &session.deliveries[place]);
    let other = equal.is_some_and(|equal| equal.subscription != id);
    let auto = session.mode(id) == Some(Mode::Auto);
    Some(match (&step.reply.answer[..], label.len()) {
        ("refused 62", 0) => "a label of 0 octets",
        ("refused 62", 33) => "a label of 33 octets",
        ("refused 62", _) if other => "the label of another subscription",
        ("refused 62", _) if equal.is_some() => "the label of its subscription",
        ("refused 61", _) => "one more",
        ("recorded", _) if auto && session.deliveries.len() == 64 => "auto with 64 pending",
        ("recorded", _) if auto => "auto",
        ("recorded", _) if session.deliveries.len() == 63 => "the 64th",
        ("recorded", _) if labels.contains(label) => "a label used again",
        ("recorded", 1) => "a label of 1 octet",
        ("recorded", 32) => "a label of 32 octets",
        _ => return None,
    })
}

/// Which kind of frame a step is, likewise.
fn frame_kind(step: &Step, number: u32, block: &[u8], labels: &Labels) -> Option<&'static str> {
    let session = step.before.session()?;
    let entries = block::read(block)?;
    let label = match session.version() {
        Version::V1_1 => &b"message-id"[..],
        Version::V1_2 => b"id",
    };
    let entry = entries.iter().find(|entry| entry.name == label);
    let label = entry.map_or(&[][..], |entry| &entry.value);
    let gone = session.deliveries.len() - usize::from(step.reply.record.count);
    Some(match (number, &step.reply.answer[..]) {
        (2 | 10, "refused 60") if labels.contains(label) => "60 of a settled label",
        (2 | 10, "refused 60") => "60 of an unknown label",
        (2, "accepted") if gone > 1 => "an ACK of many",
        (10, "accepted") if gone > 1 => "a NACK of many",
        (2 | 10, "accepted") if session.pending(label) > Some(0) => "one that is not the oldest",
        (15, "accepted") if gone > 0 => "UNSUBSCRIBE",
        (7, "accepted") if gone > 0 => "DISCONNECT",
        (_, "refused 43") if gone > 0 => "a refusal",
        _ => return None,
    })
}

/// Labels that were recorded.
type Labels = BTreeSet<Vec<u8>>;

/// The random lives have all that deliveries can meet.
#[test]
fn lives_have_deliveries_of_every_kind() {
    let mut random = Random::new(17);
    let mut counts: BTreeMap<&str, usize> = BTreeMap::new();
    for _ in 0..200 {
        let mut labels = Labels::new();
        for step in sequence(&mut random, 400) {
            let kind = match &step.call {
                Call::Deliver {
                    subscription,
                    label,
                    ..
                } => recording_kind(&step, subscription, label, &labels),
                Call::Frame { command, block, .. } => frame_kind(&step, *command, block, &labels),
                _ => None,
            };
            *counts.entry(kind.unwrap_or("another")).or_default() += 1;
            match &step.call {
                Call::Make { .. } | Call::Set(_) => labels.clear(),
                Call::Deliver { label, .. } if step.reply.answer == "recorded" => {
                    labels.insert(label.clone());
                }
                _ => {}
            }
        }
    }
    assert_eq!(counts.len(), 20, "{counts:?}");
    assert!(counts.values().all(|&count| count >= 5), "{:?}", counts);
}

/// The ids of one kind, each with its place, by what the history of accepted calls says.
#[derive(Default)]
struct History(BTreeMap<Vec<u8>, usize>);

impl History {
    fn takes(&mut self, id: &[u8]) {
        let free = |place: &usize| self.0.values().all(|taken| taken != place);
        let place = (0..).find(free).expect("a place");
        assert_eq!(self.0.insert(id.to_vec(), place), None);
    }

    fn frees(&mut self, id: &[u8]) {
        assert!(self.0.remove(id).is_some());
    }

    /// Whether the places hold these ids and no others.
    fn is_in(&self, places: &[Option<Vec<u8>>]) -> bool {
        let live = places.iter().flatten().count();
        let there = |(id, place): (&Vec<u8>, &usize)| places[*place].as_ref() == Some(id);
        live == self.0.len() && self.0.iter().all(there)
    }
}

/// "A new id takes the first free place (length 0); UNSUBSCRIBE, COMMIT and ABORT free one, to be used
/// again."
#[test]
fn ids_are_those_of_the_history() {
    let mut random = Random::new(12);
    for _ in 0..60 {
        let mut session = open().session().expect("a valid session");
        let (mut subscriptions, mut transactions) = (History::default(), History::default());
        for _ in 0..200 {
            let frame = right(&mut random, &session);
            session.frame(&frame, 7).expect("accepted");
            let first = |name: &[u8]| frame.first(name).unwrap_or_default();
            match frame.command.name() {
                b"SUBSCRIBE" => subscriptions.takes(first(b"id")),
                b"UNSUBSCRIBE" => subscriptions.frees(first(b"id")),
                b"BEGIN" => transactions.takes(first(b"transaction")),
                b"COMMIT" | b"ABORT" => transactions.frees(first(b"transaction")),
                _ => {}
            }
            assert!(subscriptions.is_in(&session.subscriptions));
            assert!(transactions.is_in(&session.transactions));
        }
    }
}
