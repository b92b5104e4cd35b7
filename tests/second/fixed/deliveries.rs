//! The fixed calls of deliveries, document 02, C-15: recording, settling, dropping, ack modes, and each part
//! of 38's rule for them.

use super::{connect, frame, heart_beat, offers, open, set, subscribe, timed_out, unsubscribe};
use crate::session::delivery::{Delivery, Mode, DELIVERIES};
use crate::session::opening::ONLY_1_2;
use crate::session::record::Record;
use crate::session::{MAX_ID, SUBSCRIPTIONS};
use crate::session_calls::records::put;
use crate::session_calls::{Call, Way};

pub fn deliver(subscription: &str, label: &str) -> Call {
    Call::Deliver {
        way: Way::ByValue,
        subscription: subscription.as_bytes().to_vec(),
        label: label.as_bytes().to_vec(),
    }
}

pub fn pending(index: u32) -> Call {
    Call::Pending { index }
}

fn ack(label: &str) -> Call {
    frame(b"ACK", &[("id", label)])
}

fn nack(label: &str) -> Call {
    frame(b"NACK", &[("id", label)])
}

fn subscribe_in(id: &str, mode: &str) -> Call {
    let entries = [("ack", mode), ("destination", "/q"), ("id", id)];
    frame(b"SUBSCRIBE", &entries)
}

/// An open record whose subscriptions have these modes, with these pending deliveries, oldest first.
pub fn holding(subscriptions: &[(&str, Mode)], deliveries: &[(&str, &str)]) -> Record {
    let ids: Vec<&str> = subscriptions.iter().map(|(id, _)| *id).collect();
    let mut session = open(&ids, &[]).session().expect("a valid session");
    for (id, mode) in subscriptions {
        session.modes.insert(id.as_bytes().to_vec(), *mode);
    }
    for (id, label) in deliveries {
        session.deliveries.push(Delivery {
            subscription: id.as_bytes().to_vec(),
            mode: session.modes[id.as_bytes()],
            label: label.as_bytes().to_vec(),
        });
    }
    Record::of(&session)
}

/// One subscription of each mode.
const THREE: [(&str, Mode); 3] = [
    ("c", Mode::Client),
    ("i", Mode::Individual),
    ("a", Mode::Auto),
];

/// Four deliveries of the first two of these, in turn.
fn four() -> Record {
    holding(&THREE, &[("c", "1"), ("i", "2"), ("c", "3"), ("i", "4")])
}

/// A fresh session and a closed one, labels of 0, 1, 31, 32 and 33 octets, equal ones, auto mode, and ids
/// that are not live.
pub fn recording() -> Vec<Call> {
    let longest = "l".repeat(MAX_ID);
    let long = "l".repeat(MAX_ID + 1);
    vec![
        offers(0, 0, ONLY_1_2),
        deliver("c", "m"),
        set(&holding(&THREE, &[])),
        pending(0),
        deliver("c", "m1"),
        deliver("i", "m2"),
        deliver("c", "m3"),
        deliver("a", "m4"),
        pending(0),
        pending(1),
        pending(2),
        pending(3),
        deliver("c", "m1"),
        deliver("i", "m1"),
        deliver("a", "m1"),
        deliver("c", ""),
        deliver("a", ""),
        deliver("c", &long),
        deliver("c", &longest),
        deliver("c", &longest[1..]),
        deliver("i", "m"),
        deliver("i", "m\0"),
        deliver("i", "i"),
        deliver("a", "m4"),
        deliver("i", "m4"),
        deliver("", "x"),
        deliver("d", "x"),
        deliver("d", ""),
        deliver("c\0", "m1"),
        deliver(&long, "x"),
        pending(3),
        pending(u32::MAX),
        heart_beat(8),
        timed_out(8),
        frame(b"DISCONNECT", &[]),
        pending(0),
        deliver("c", "x"),
        deliver("", ""),
    ]
}

/// ACK and NACK in both modes, labels that are used again, a transaction that is aborted later, and 60 with
/// what comes before it.
pub fn settling() -> Vec<Call> {
    let subscriptions = [
        ("a", Mode::Client),
        ("b", Mode::Individual),
        ("c", Mode::Client),
    ];
    let seven = [
        ("a", "1"),
        ("b", "2"),
        ("a", "3"),
        ("c", "4"),
        ("b", "5"),
        ("a", "6"),
        ("b", "7"),
    ];
    let long = "1".repeat(MAX_ID + 1);
    let again = || set(&four());
    vec![
        set(&holding(&subscriptions, &seven)),
        ack("3"),
        pending(0),
        pending(1),
        nack("5"),
        deliver("b", "3"),
        ack("7"),
        frame(b"BEGIN", &[("transaction", "t")]),
        frame(
            b"ACK",
            &[
                ("transaction", "t"),
                ("receipt", "r"),
                ("id", "6"),
                ("id", "2"),
            ],
        ),
        frame(b"ABORT", &[("transaction", "t")]),
        pending(2),
        pending(3),
        nack("4"),
        deliver("c", "6"),
        nack("6"),
        ack("1"),
        pending(0),
        again(),
        ack(""),
        again(),
        nack(&long),
        again(),
        deliver("a", "5"),
        ack("5"),
        again(),
        nack("c"),
        again(),
        ack("1\0"),
        again(),
        frame(b"ACK", &[("id", "x"), ("transaction", "t")]),
        again(),
        frame(b"NACK", &[("id", "x"), ("transaction", "")]),
        again(),
        frame(b"ACK", &[("message-id", "1"), ("subscription", "c")]),
    ]
}

/// So many deliveries of the first of the three, as `label-01`.
fn many(count: usize) -> Record {
    let labels: Vec<String> = (1..=count)
        .map(|number| format!("label-{number:02}"))
        .collect();
    let deliveries: Vec<(&str, &str)> = labels.iter().map(|label| ("c", &label[..])).collect();
    holding(&THREE, &deliveries)
}

/// The 64th delivery and one more, in auto mode too, and the places used again.
pub fn full() -> Vec<Call> {
    vec![
        set(&many(DELIVERIES - 1)),
        deliver("i", "last"),
        deliver("i", "one more"),
        deliver("c", "one more"),
        deliver("c", "last"),
        deliver("c", ""),
        deliver("d", "last"),
        deliver("a", "one more"),
        deliver("a", "label-01"),
        pending(62),
        pending(63),
        pending(64),
        frame(b"SEND", &[("destination", "/q")]),
        ack("last"),
        deliver("c", "last"),
        ack("label-62"),
        pending(0),
        pending(1),
        nack("last"),
        pending(0),
        deliver("i", "label-01"),
    ]
}

/// UNSUBSCRIBE, and each kind of close; what 39 leaves.
pub fn dropping() -> Vec<Call> {
    let again = || set(&four());
    vec![
        again(),
        unsubscribe("c"),
        pending(0),
        pending(1),
        subscribe("c"),
        deliver("c", "5"),
        deliver("i", "1"),
        unsubscribe("i"),
        pending(0),
        again(),
        frame(b"DISCONNECT", &[("receipt", "r")]),
        pending(0),
        heart_beat(9),
        again(),
        frame(b"MESSAGE", &[("subscription", "c"), ("ack", "5")]),
        again(),
        connect("1.2", "0,0"),
        again(),
        frame(b"SEND", &[]),
        again(),
        unsubscribe("d"),
        again(),
        Call::Frame {
            way: Way::ByValue,
            command: 16,
            time: 7,
            block: Vec::new(),
        },
        pending(3),
    ]
}

/// The modes, 49 and what comes before it; other commands have no mode.
pub fn modes() -> Vec<Call> {
    let ids: Vec<String> = (0..SUBSCRIPTIONS)
        .map(|number| format!("s{number}"))
        .collect();
    let ids: Vec<&str> = ids.iter().map(String::as_str).collect();
    let entries = |first, second| {
        let entries = [
            ("id", "f"),
            ("ack", first),
            ("ack", second),
            ("destination", ""),
        ];
        frame(b"SUBSCRIBE", &entries)
    };
    let again = || set(&holding(&[("c", Mode::Client)], &[("c", "1")]));
    vec![
        set(&open(&[], &[])),
        subscribe_in("a", "client"),
        subscribe_in("b", "client-individual"),
        subscribe_in("c", "auto"),
        subscribe("d"),
        entries("client", "none"),
        unsubscribe("b"),
        subscribe("e"),
        unsubscribe("a"),
        subscribe_in("b", "client-individual"),
        frame(b"UNSUBSCRIBE", &[("ack", "none"), ("id", "f")]),
        frame(b"SEND", &[("ack", "none"), ("destination", "")]),
        subscribe_in("a", "Client"),
        again(),
        subscribe_in("f", ""),
        again(),
        subscribe_in("f", "client-individual "),
        again(),
        entries("none", "client"),
        again(),
        subscribe_in("c", "none"),
        again(),
        subscribe_in("", "none"),
        set(&open(&ids, &[])),
        subscribe_in("17th", "none"),
    ]
}

/// Each part of 38's rule for modes and deliveries broken alone, and then a call of any kind.
pub fn invalid() -> Vec<Call> {
    let spoiled = |spoil: &dyn Fn(&mut Record)| {
        let mut record = four();
        spoil(&mut record);
        set(&record)
    };
    let last = DELIVERIES - 1;
    let mut over = many(DELIVERIES);
    over.count = DELIVERIES as u8 + 1;
    let send = frame(b"SEND", &[("destination", "/q")]);
    vec![
        spoiled(&|record| record.modes[2] = 3),
        send.clone(),
        spoiled(&|record| record.modes[0] = 255),
        deliver("i", "5"),
        spoiled(&|record| record.modes[3] = 1),
        deliver("c", "5"),
        spoiled(&|record| record.modes[15] = 2),
        pending(0),
        set(&over),
        heart_beat(7),
        spoiled(&|record| record.count = 255),
        pending(0),
        spoiled(&|record| record.count = 5),
        timed_out(7),
        spoiled(&|record| record.count = 3),
        ack("1"),
        spoiled(&|record| record.count = 0),
        deliver("c", "5"),
        spoiled(&|record| record.phase = 0),
        connect("1.2", "0,0"),
        spoiled(&|record| record.phase = 2),
        heart_beat(7),
        spoiled(&|record| put(&mut record.labels, 1, b"")),
        pending(0),
        spoiled(&|record| record.labels.lengths[0] = 33),
        ack("1"),
        spoiled(&|record| record.labels.lengths[3] = 255),
        send.clone(),
        spoiled(&|record| record.labels.octets[1] = 1),
        send.clone(),
        spoiled(&|record| record.labels.octets[3 * MAX_ID + MAX_ID - 1] = 1),
        pending(3),
        spoiled(&|record| put(&mut record.labels, 3, b"1")),
        deliver("i", "5"),
        spoiled(&|record| put(&mut record.labels, 2, b"1")),
        nack("1"),
        spoiled(&|record| record.owners[1] = 16),
        pending(0),
        spoiled(&|record| record.owners[3] = 255),
        send.clone(),
        spoiled(&|record| record.owners[2] = 3),
        send.clone(),
        spoiled(&|record| record.owners[0] = 2),
        ack("1"),
        spoiled(&|record| record.modes[1] = 0),
        timed_out(7),
        spoiled(&|record| put(&mut record.labels, last, b"1st")),
        send.clone(),
        spoiled(&|record| record.labels.lengths[4] = 1),
        deliver("c", "5"),
        spoiled(&|record| record.labels.octets[last * MAX_ID] = 1),
        heart_beat(7),
        spoiled(&|record| record.owners[4] = 1),
        send.clone(),
        spoiled(&|record| record.owners[last] = 16),
        pending(4),
    ]
}

/// Records with modes that are valid though no call leaves them, of a fresh session and of a closed one.
pub fn valid() -> Vec<Call> {
    let subscriptions = [("x", Mode::Individual), ("y", Mode::Client)];
    let mut fresh = holding(&subscriptions, &[]);
    fresh.phase = 0;
    let mut closed = fresh.clone();
    closed.phase = 2;
    vec![
        set(&fresh),
        deliver("x", "1"),
        connect("1.2", "0,0"),
        deliver("y", "1"),
        deliver("x", "2"),
        pending(0),
        pending(1),
        set(&closed),
        pending(0),
        deliver("x", "1"),
        heart_beat(7),
    ]
}
