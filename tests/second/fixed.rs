//! The fixed inputs of the programs `session_calls` and `replay`: document 01's examples of a session,
//! each refusal, and the limits with one more, and deliveries; and those of `encode_calls` and `feed_calls`.

mod deliveries;
pub mod encoding;
pub mod feeding;
pub mod matching;
pub mod planning;
mod records;
pub mod registering;
mod versions;

use self::deliveries::holding;
use self::records::{invalid, making, valid};
use crate::block::{self, Entry};
use crate::client::command;
use crate::session::delivery::Mode;
use crate::session::opening::{Flags, MAX_INTERVAL, ONLY_1_2};
use crate::session::record::{make, Record};
use crate::session::{MAX_ID, SUBSCRIPTIONS, TRANSACTIONS};
use crate::session_calls::{first_record, Call, Reply, Way};
use crate::version::Version;

/// A client's life as a log, in this version.
pub fn stream(version: Version) -> Vec<u8> {
    match version {
        Version::V1_1 => versions::stream(),
        Version::V1_2 => stream_of_1_2(),
    }
}

/// What is accepted up to DISCONNECT, messages that are recorded or not, frames and a heart-beat after it, and
/// octets that are refused.
fn stream_of_1_2() -> Vec<u8> {
    let parts: [&[u8]; 28] = [
        b"\n",
        b"MESSAGE\nsubscription:b\nack:early\n\n\0",
        b"CONNECT\naccept-version:1.0,1.1,1.2\nhost:stomp\\example\nheart-beat:1000,0\nreceipt:no\n\n\0",
        b"\r\n",
        b"SUBSCRIBE\nid:a\\cb\ndestination:/queue/a\nid:later\nack:client\n\n\0",
        b"SUBSCRIBE\r\ndestination:/queue/b\r\nreceipt:r-1\r\nid:b\r\n\r\n\0",
        b"MESSAGE\nsubscription:a\\cb\nmessage-id:1\nack:m\\c1\ndestination:/queue/a\n\none\0",
        b"MESSAGE\nsubscription:b\nack:m\\c1\nmessage-id:2\n\n\0",
        b"MESSAGE\nsubscription:b\nack:m\\c2\nack:m\\c1\n\n\0",
        b"MESSAGE\r\nack:12345\r\nsubscription:a\\cb\r\ncontent-length:3\r\n\r\n\0\0\0\0",
        b"MESSAGE\nsubscription:a\\cb\nmessage-id:3\n\n\0\n",
        b"MESSAGE\nack:m\\c3\nmessage-id:3\n\n\0",
        b"BEGIN\ntransaction:tx1\n\n\0\n",
        b"SEND\ndestination:/queue/a\ntransaction:tx1\nreceipt:r-2\ncontent-length:3\n\na\0b\0",
        b"SEND\ndestination:/a\ntransaction:tx1\nreceipt:\ndestination:/b\ntransaction:\ndestination:/a\n\n\0",
        b"SEND\ndestination:\n\nno transaction\0",
        b"ACK\nid:m\\c1\ntransaction:tx1\n\n\0",
        b"NACK\nid:12345\n\n\0",
        b"COMMIT\ntransaction:tx1\nreceipt:\n\n\0\n\n",
        b"BEGIN\ntransaction:tx1\n\n\0",
        b"ABORT\ntransaction:tx1\n\n\0",
        b"UNSUBSCRIBE\nid:a\\cb\n\n\0",
        b"SUBSCRIBE\nid:a\\\\cb\ndestination:/queue/c\nack:client-individual\n\n\0",
        b"MESSAGE\nsubscription:a\\\\cb\nack:12345\n\n\0",
        b"DISCONNECT\nreceipt:77\n\n\0",
        b"MESSAGE\nsubscription:b\nack:late\n\n\0",
        b"SEND\ndestination:/queue/a\n\ntoo late\0\n",
        b"SENT",
    ];
    parts.concat()
}

/// The octets of the calls.
pub fn calls() -> Vec<u8> {
    all().iter().flat_map(Call::octets).collect()
}

/// The calls: those by value, and from the first record on the same calls again, in place.
pub fn all() -> Vec<Call> {
    let by_value = by_value();
    let in_place = by_value.iter().cloned().map(Call::in_place).collect();
    [by_value, vec![set(&first_record())], in_place].concat()
}

/// The calls by value, in groups; all but the first begin with a session made or set.
fn by_value() -> Vec<Call> {
    [
        clock(),
        last_heard(),
        subscriptions(),
        transactions(),
        openings(),
        refusals(),
        making(),
        invalid(),
        valid(),
        deliveries::recording(),
        deliveries::settling(),
        deliveries::full(),
        deliveries::dropping(),
        deliveries::modes(),
        deliveries::invalid(),
        deliveries::valid(),
        overwritten(),
        versions::openings(),
        versions::settling(),
        versions::lacking(),
        versions::wrong_ids(),
        versions::not_pending(),
        versions::by_id(),
    ]
    .concat()
}

fn frame_at(time: u32, name: &[u8], entries: &[(&str, &str)]) -> Call {
    let entry = |(name, value): &(&str, &str)| Entry::new(name.as_bytes(), value.as_bytes());
    let entries: Vec<Entry> = entries.iter().map(entry).collect();
    Call::Frame {
        way: Way::ByValue,
        command: command(name).0 as u32,
        time,
        block: block::write(&entries),
    }
}

fn frame(name: &[u8], entries: &[(&str, &str)]) -> Call {
    frame_at(7, name, entries)
}

fn offers(sends: u32, wants: u32, offered: Flags) -> Call {
    Call::Make {
        sends,
        wants,
        offered,
    }
}

fn timed_out(time: u32) -> Call {
    Call::TimedOut {
        way: Way::ByValue,
        time,
    }
}

fn heart_beat(time: u32) -> Call {
    Call::HeartBeat {
        way: Way::ByValue,
        time,
    }
}

fn set(record: &Record) -> Call {
    Call::Set(Box::new(record.clone()))
}

/// CONNECT with these versions and heart-beat numbers.
fn connect(versions: &str, numbers: &str) -> Call {
    let entries = [
        ("accept-version", versions),
        ("host", "h"),
        ("heart-beat", numbers),
    ];
    frame_at(100, b"CONNECT", &entries)
}

/// The record of document 01's offers, opened, with these ids, in auto mode, and last-heard 100.
fn open(subscriptions: &[&str], transactions: &[&str]) -> Record {
    let (_, fresh) = make(500, 2_000, ONLY_1_2);
    let opened = Reply::of(&fresh, &connect("1.2", "1000,0")).record;
    let mut session = opened.session().expect("a valid session");
    for (place, id) in subscriptions.iter().enumerate() {
        if !id.is_empty() {
            session.subscriptions[place] = Some(id.as_bytes().to_vec());
            session.modes.insert(id.as_bytes().to_vec(), Mode::Auto);
        }
    }
    for (place, id) in transactions.iter().enumerate() {
        session.transactions[place] = (!id.is_empty()).then(|| id.as_bytes().to_vec());
    }
    Record::of(&session)
}

/// The offers of document 01, and its clock: exactly twice the interval and one more, where the clock
/// rolls over and where not.
fn clock() -> Vec<Call> {
    let mut sixteen = open(&[], &[]);
    sixteen.state.client_to_server = 8;
    sixteen.state.last_heard = 4_294_967_290;
    vec![
        timed_out(u32::MAX),
        heart_beat(50),
        offers(500, 2_000, ONLY_1_2),
        timed_out(u32::MAX),
        connect("1.2", "1000,0"),
        timed_out(100),
        timed_out(4_100),
        timed_out(4_101),
        timed_out(99),
        heart_beat(4_294_967_290),
        timed_out(10),
        timed_out(3_994),
        timed_out(3_995),
        set(&sixteen),
        timed_out(10),
        timed_out(11),
        timed_out(4_294_967_290),
    ]
}

/// Last-heard and receipts: accepted frames and heart-beats set last-heard, refused ones do not.
fn last_heard() -> Vec<Call> {
    let subscriptions = [("s", Mode::Individual)];
    vec![
        set(&holding(&subscriptions, &[("s", "n"), ("s", "a")])),
        heart_beat(200),
        frame_at(300, b"SEND", &[("destination", "/q"), ("receipt", "r")]),
        frame_at(400, b"ACK", &[("receipt", ""), ("id", "a")]),
        frame_at(500, b"NACK", &[("id", "n"), ("receipts", "r")]),
        frame_at(600, b"SEND", &[("receipt", "r")]),
        timed_out(u32::MAX),
        heart_beat(700),
        frame_at(800, b"SEND", &[("destination", "/q")]),
        set(&open(&["s"], &["t"])),
        frame_at(900, b"DISCONNECT", &[("receipt", "77")]),
        frame_at(901, b"DISCONNECT", &[]),
    ]
}

fn subscribe(id: &str) -> Call {
    frame(b"SUBSCRIBE", &[("destination", "/q"), ("id", id)])
}

fn unsubscribe(id: &str) -> Call {
    frame(b"UNSUBSCRIBE", &[("id", id)])
}

/// The 16th and the 17th subscription, a freed place taken again, ids of 32 and 33 octets.
fn subscriptions() -> Vec<Call> {
    let ids: Vec<String> = (1..SUBSCRIPTIONS)
        .map(|number| format!("s{number}"))
        .collect();
    let ids: Vec<&str> = ids.iter().map(String::as_str).collect();
    let longest = "i".repeat(MAX_ID);
    let long = "i".repeat(MAX_ID + 1);
    vec![
        set(&open(&ids, &[])),
        subscribe(&longest),
        unsubscribe("s3"),
        unsubscribe("s9"),
        subscribe("s9"),
        subscribe("s3"),
        subscribe("17th"),
        set(&open(&ids, &[])),
        subscribe(&long),
        set(&open(&ids, &[])),
        subscribe("s15"),
        set(&open(&ids, &[])),
        unsubscribe("s16"),
    ]
}

/// Four transactions and a fifth, COMMIT, ABORT, and SEND, ACK and NACK in a transaction.
fn transactions() -> Vec<Call> {
    let begin = |id: &str| frame(b"BEGIN", &[("transaction", id)]);
    let ids = ["a", "b", "c", "d"];
    let send = [("destination", "/q"), ("transaction", "e")];
    let pending = [("a", "m"), ("a", "n")];
    let mut calls = vec![set(&holding(&[("a", Mode::Client)], &pending))];
    calls.extend(ids.iter().take(TRANSACTIONS).map(|id| begin(id)));
    calls.extend([
        frame(b"COMMIT", &[("transaction", "b")]),
        frame(b"ABORT", &[("transaction", "c")]),
        begin("e"),
        frame(b"SEND", &send),
        frame(b"ACK", &[("id", "m"), ("transaction", "a")]),
        frame(b"NACK", &[("transaction", "d"), ("id", "n")]),
        begin("b"),
        begin("5th"),
        set(&open(&["e"], &["a"])),
        frame(b"SEND", &send),
    ]);
    calls
}

/// CONNECT and STOMP: 31, 32, 33 and 43, and what a fresh session refuses otherwise.
fn openings() -> Vec<Call> {
    let fresh = || offers(MAX_INTERVAL, 0, ONLY_1_2);
    let stomp = [
        ("heart-beat", "0,0003600000"),
        ("host", ""),
        ("accept-version", "2.0,1.2,01.1"),
        ("accept-version", ""),
    ];
    vec![
        fresh(),
        frame(b"STOMP", &stomp),
        connect("1.2", "0,0"),
        fresh(),
        connect("1.2,", "0,0"),
        fresh(),
        connect("01.2,1.1", ","),
        fresh(),
        connect("1.0,1.2", "3600001,0"),
        fresh(),
        frame(b"CONNECT", &[("accept-version", "")]),
        fresh(),
        frame(b"SEND", &[]),
        fresh(),
        frame(b"CONNECTED", &[("version", "1.2")]),
    ]
}

/// The refusals of an open session that stand in no group before this one, and 39.
fn refusals() -> Vec<Call> {
    let opened = || set(&open(&["a"], &["t"]));
    let unknown = |command| Call::Frame {
        way: Way::ByValue,
        command,
        time: 7,
        block: Vec::new(),
    };
    vec![
        opened(),
        unknown(0),
        unknown(16),
        Call::Frame {
            way: Way::ByValue,
            command: command(b"DISCONNECT").0 as u32,
            time: 7,
            block: b"HD\0\x01\0\0".to_vec(),
        },
        frame(b"MESSAGE", &[]),
        unknown(16),
        opened(),
        subscribe(""),
        opened(),
        frame(b"ACK", &[("id", "a"), ("transaction", "")]),
        opened(),
        frame(b"COMMIT", &[("transaction", "a")]),
        opened(),
        frame(b"SUBSCRIBE", &[("destination", "/q"), ("Id", "b")]),
    ]
}

/// Later entries of destination, id and transaction, document 02, C-19: with a receipt and without, in an
/// opening too; a heart-beat and a refusal count none.
fn overwritten() -> Vec<Call> {
    let send = [("destination", "/q"), ("id", "1"), ("id", "2")];
    let owing = [
        ("transaction", "t"),
        ("destination", "/q"),
        ("receipt", "r"),
        ("destination", ""),
        ("transaction", "u"),
        ("destination", "/q"),
    ];
    let ids = [("id", "a"), ("id", "b"), ("id", "a"), ("id", "")];
    let subscribe = [("transaction", ""), ("transaction", ""), send[0]];
    let opening = [
        ("accept-version", "1.2"),
        ("accept-version", "1.2"),
        ("host", "h"),
        send[0],
        send[0],
    ];
    vec![
        set(&open(&[], &["t"])),
        frame(b"SEND", &send),
        frame(b"SEND", &owing),
        heart_beat(8),
        frame(b"SUBSCRIBE", &[&ids[..], &subscribe].concat()),
        frame(b"BEGIN", &[("transaction", ""), ("transaction", "v")]),
        offers(0, 0, ONLY_1_2),
        frame(b"CONNECT", &opening),
    ]
}
