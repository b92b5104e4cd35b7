//! The fixed inputs of document 02's C-18: sessions that offer and choose each version, ACK and NACK of 1.1, and
//! a client's life in 1.1.

use super::deliveries::{deliver, holding, pending};
use super::{connect, frame, offers, set};
use crate::session::delivery::Mode;
use crate::session::opening::{BOTH, OFFERS, ONLY_1_1};
use crate::session::record::Record;
use crate::session::MAX_ID;
use crate::session_calls::Call;

/// A client's life as a log: what is read in 1.2 up to the end of CONNECT, then in 1.1, with 13 in values; messages
/// that are recorded or not; an ACK for another subscription's label; and what comes after that, still in 1.1.
pub fn stream() -> Vec<u8> {
    let parts: [&[u8]; 28] = [
        b"\r\n\n",
        b"MESSAGE\r\nsubscription:b\r\nmessage-id:early\\r\r\n\r\n\0",
        b"CONNECT\r\naccept-version:1.0,1.1\r\nhost:stomp\\example\r\nheart-beat:1000,0\r\nreceipt:no\r\n\r\n\0",
        b"\n",
        b"SUBSCRIBE\nid:a\\cb\r\ndestination:/queue/a\r\nid:later\nack:client\n\n\0",
        b"SUBSCRIBE\ndestination:/queue/b\nreceipt:r-1\r\nid:b\n\n\0",
        b"MESSAGE\nsubscription:a\\cb\r\nmessage-id:m\\c1\nack:other\ndestination:/queue/a\n\none\0",
        b"MESSAGE\nsubscription:b\nack:m\\c2\nmessage-id:m\\c1\n\n\0",
        b"MESSAGE\nsubscription:b\nmessage-id:m\\c2\nmessage-id:m\\c1\n\n\0",
        b"MESSAGE\nmessage-id:\r\nsubscription:a\\cb\r\ncontent-length:3\n\n\0\r\n\0",
        b"MESSAGE\nsubscription:a\\cb\r\nack:3\n\n\0\n",
        b"MESSAGE\nsubscription:a\\cb\nmessage-id:3\n\n\0",
        b"MESSAGE\nmessage-id:m\\c3\nack:3\n\n\0",
        b"BEGIN\ntransaction:tx1\r\n\n\0\n",
        b"SEND\ndestination:/queue/a\ntransaction:tx1\r\nreceipt:r-2\ncontent-length:3\n\na\0b\0",
        b"SEND\n\r:\r\ndestination:/a\ntransaction:tx1\r\ntransaction:tx1\ndestination:/b\n\n\0",
        b"ACK\nid:12345\nsubscription:a\\cb\r\nmessage-id:m\\c1\nid:\ntransaction:tx1\r\n\n\0",
        b"NACK\nmessage-id:\r\nsubscription:a\\cb\r\nsubscription:b\n\n\0",
        b"COMMIT\ntransaction:tx1\r\nreceipt:\n\n\0\n\n",
        b"UNSUBSCRIBE\nid:a\\cb\r\n\n\0",
        b"SUBSCRIBE\nid:a\\\\cb\ndestination:/queue/c\nack:client-individual\n\n\0",
        b"MESSAGE\nsubscription:a\\\\cb\nmessage-id:12345\n\n\0",
        b"MESSAGE\nsubscription:a\\\\cb\nmessage-id:12346\nack:12345\n\n\0",
        b"ACK\nsubscription:a\\\\cb\nmessage-id:12346\nreceipt:r-3\n\n\0",
        b"ACK\nsubscription:b\nmessage-id:12345\nid:12345\n\n\0",
        b"MESSAGE\nsubscription:b\nmessage-id:late\n\n\0",
        b"SEND\ndestination:/queue/a\n\ntoo late\0\n",
        b"DISCONNECT\r\n\r\n\0",
    ];
    parts.concat()
}

/// Each set that may be offered with each that a client may ask for.
pub fn openings() -> Vec<Call> {
    let asked = ["1.1", "1.0,1.1", "1.1,1.2", "1.2", "1.2,1.1,1.0", "1.0"];
    let mut calls = Vec::new();
    for offered in OFFERS {
        for versions in asked {
            calls.extend([offers(0, 0, offered), connect(versions, "0,0")]);
        }
    }
    calls
}

/// The record in a session whose version is 1.1.
fn in_1_1(mut record: Record) -> Record {
    (record.state.offered, record.state.shared) = (BOTH, ONLY_1_1);
    record
}

/// ACK or NACK as 1.1 has it.
fn settle(name: &[u8], subscription: &str, label: &str) -> Call {
    let entries = [("subscription", subscription), ("message-id", label)];
    frame(name, &entries)
}

const SUBSCRIPTIONS: [(&str, Mode); 4] = [
    ("a", Mode::Client),
    ("b", Mode::Individual),
    ("c", Mode::Client),
    ("x", Mode::Auto),
];

const DELIVERIES: [(&str, &str); 7] = [
    ("a", "1"),
    ("b", "2"),
    ("a", "3"),
    ("c", "4"),
    ("b", "5"),
    ("a", "6"),
    ("b", "7"),
];

/// Sets a session of 1.1 with seven deliveries of three subscriptions.
fn seven() -> Call {
    set(&in_1_1(holding(&SUBSCRIPTIONS, &DELIVERIES)))
}

/// ACK and NACK in both modes, with and without a transaction, an `id` that is not looked at but counted, and
/// later entries of both names.
pub fn settling() -> Vec<Call> {
    let carrying = [
        ("transaction", "t"),
        ("message-id", "6"),
        ("receipt", "r"),
        ("id", "2"),
        ("subscription", "a"),
        ("id", ""),
    ];
    let repeated = [
        ("subscription", "c"),
        ("subscription", ""),
        ("message-id", "4"),
        ("message-id", "7"),
    ];
    vec![
        seven(),
        settle(b"ACK", "a", "3"),
        pending(0),
        pending(1),
        settle(b"NACK", "b", "5"),
        deliver("b", "3"),
        settle(b"ACK", "b", "7"),
        frame(b"BEGIN", &[("transaction", "t")]),
        frame(b"NACK", &carrying),
        frame(b"ABORT", &[("transaction", "t")]),
        pending(2),
        frame(b"ACK", &repeated),
        pending(0),
        pending(1),
        deliver("x", "4"),
        deliver("c", "4"),
        settle(b"NACK", "c", "4"),
        settle(b"ACK", "b", "3"),
        settle(b"ACK", "b", "2"),
        pending(0),
    ]
}

/// 43: without `subscription`, without `message-id`, with `id` in place of either or both; before 44 and 46.
pub fn lacking() -> Vec<Call> {
    let rows: [&[(&str, &str)]; 6] = [
        &[],
        &[("id", "1")],
        &[("subscription", "a"), ("id", "1")],
        &[("message-id", "1"), ("id", "1")],
        &[("subscription", ""), ("transaction", "")],
        &[
            ("message-id", "1"),
            ("Subscription", "a"),
            ("transaction", "t"),
        ],
    ];
    let calls = rows
        .iter()
        .flat_map(|row| [seven(), frame(b"ACK", row)].to_vec());
    calls.collect()
}

/// 44 and 46 of the subscription and of the transaction: all of 44 before all of 46, and 46 before 60.
pub fn wrong_ids() -> Vec<Call> {
    let long = "a".repeat(MAX_ID + 1);
    let longest = "a".repeat(MAX_ID);
    let rows: [(&str, &str, &str); 12] = [
        ("", "1", "t"),
        (&long, "1", "t"),
        ("a", "1", ""),
        ("a", "1", &long),
        ("d", "1", ""),
        ("", "1", "u"),
        ("", "", "u"),
        (&longest, "1", "t"),
        ("d", "1", "t"),
        ("t", "1", "t"),
        ("a", "1", "u"),
        ("d", "none", "a"),
    ];
    let mut calls = Vec::new();
    for (subscription, label, transaction) in rows {
        let entries = [
            ("message-id", label),
            ("transaction", transaction),
            ("subscription", subscription),
        ];
        calls.push(seven());
        calls.push(frame(b"BEGIN", &[("transaction", "t")]));
        calls.push(frame(b"NACK", &entries));
    }
    calls
}

/// 60: a label of none, empty, too long, of another subscription, of one in auto mode; the `id` of one that is
/// pending changes nothing.
pub fn not_pending() -> Vec<Call> {
    let long = "1".repeat(MAX_ID + 1);
    let rows: [(&str, &str); 9] = [
        ("a", "8"),
        ("a", ""),
        ("a", &long),
        ("a", "1\0"),
        ("a", "2"),
        ("b", "1"),
        ("c", "3"),
        ("x", "1"),
        ("x", "9"),
    ];
    let mut calls = Vec::new();
    for (subscription, label) in rows {
        calls.extend([seven(), settle(b"ACK", subscription, label)]);
    }
    let entries = [("subscription", "a"), ("message-id", "9"), ("id", "1")];
    calls.extend([seven(), frame(b"NACK", &entries)]);
    calls
}

/// A session that offers both versions and chose 1.2: `id` alone is looked at.
pub fn by_id() -> Vec<Call> {
    let mut record = holding(&SUBSCRIPTIONS, &DELIVERIES);
    (record.state.offered, record.state.shared) = (BOTH, BOTH);
    let entries = [("subscription", ""), ("message-id", "none"), ("id", "2")];
    vec![
        set(&record),
        frame(b"ACK", &entries),
        frame(b"NACK", &[("id", "3")]),
        pending(0),
        settle(b"ACK", "c", "4"),
    ]
}
