//! Tests of a session: its rules, sentence by sentence.

use crate::block::{self, Entry};
use crate::item::Command;
use crate::session::opening::ONLY_1_2;
use crate::session::record::{make, Record};
use crate::session::{Accepted, Answer};

pub const PLAIN: Answer = accepted(false, [0, 0, 0]);
const RECEIPT: Answer = accepted(true, [0, 0, 0]);

const fn accepted(receipt: bool, later: [usize; 3]) -> Answer {
    Ok(Accepted { receipt, later })
}

const OPENING: &[(&str, &str)] = &[("accept-version", "1.2"), ("host", "h")];

/// Hands a frame to the session at time 7.
pub fn tell(record: &mut Record, name: &str, entries: &[(&str, &str)]) -> Answer {
    let command = Command::named(name.as_bytes()).expect("a command");
    let entry = |(name, value): &(&str, &str)| Entry::new(name.as_bytes(), value.as_bytes());
    let entries: Vec<Entry> = entries.iter().map(entry).collect();
    record.frame(command.0 as u32, &block::write(&entries), 7)
}

pub fn fresh() -> Record {
    make(500, 2_000, ONLY_1_2).1
}

pub fn open() -> Record {
    let mut record = fresh();
    assert_eq!(tell(&mut record, "CONNECT", OPENING), PLAIN);
    record
}

/// What an open session answers to one frame.
fn answer(name: &str, entries: &[(&str, &str)]) -> Answer {
    tell(&mut open(), name, entries)
}

#[test]
fn connect_opens() {
    for name in ["CONNECT", "STOMP"] {
        let mut record = fresh();
        let entries = [OPENING, &[("heart-beat", "1000,0"), ("receipt", "r")]].concat();
        assert_eq!(tell(&mut record, name, &entries), PLAIN);
        let mut expected = fresh();
        expected.phase = 1;
        expected.state.shared = ONLY_1_2;
        expected.state.client_to_server = 2_000;
        expected.state.last_heard = 7;
        assert_eq!(record, expected);
        assert_eq!(record.version(), Some("1.2"));
    }
}

/// Needed headers, left out one at a time; with all of them, and empty values, nothing is missing.
#[test]
fn needed_headers() {
    let needed: [(&str, &[&str]); 8] = [
        ("SEND", &["destination"]),
        ("SUBSCRIBE", &["destination", "id"]),
        ("UNSUBSCRIBE", &["id"]),
        ("ACK", &["id"]),
        ("NACK", &["id"]),
        ("BEGIN", &["transaction"]),
        ("COMMIT", &["transaction"]),
        ("ABORT", &["transaction"]),
    ];
    for (name, headers) in needed {
        let whole: Vec<(&str, &str)> = headers.iter().map(|header| (*header, "")).collect();
        for left_out in 0..headers.len() {
            let mut entries = whole.clone();
            entries.remove(left_out);
            assert_eq!(answer(name, &entries), Err(43), "{name}");
        }
        let empty = match name {
            "SEND" => PLAIN,
            "ACK" | "NACK" => Err(60),
            _ => Err(44),
        };
        assert_eq!(answer(name, &whole), empty, "{name}");
    }
    assert_eq!(answer("DISCONNECT", &[]), PLAIN);
    for name in ["CONNECT", "STOMP"] {
        for left_out in 0..2 {
            let entries = [("accept-version", ""), ("host", "")];
            let alone = [entries[1 - left_out]];
            assert_eq!(tell(&mut fresh(), name, &alone), Err(43));
            assert_eq!(tell(&mut fresh(), name, &entries), Err(31));
        }
    }
}

/// A call with every reason to be refused, mended one reason after another.
#[test]
fn refusals_come_in_order() {
    let mut record = fresh();
    record.phase = 3;
    assert_eq!(record.frame(16, b"x", 7), Err(38));
    record.phase = 2;
    assert_eq!(record.frame(16, b"", 7), Err(39));
    assert_eq!(record.frame(9, b"x", 7), Err(39));
    assert_eq!(tell(&mut record, "MESSAGE", &[]), Err(40));
    record.state.shared = ONLY_1_2;
    for phase in [0, 1] {
        for name in ["MESSAGE", "CONNECTED", "RECEIPT", "ERROR"] {
            record.phase = phase;
            assert_eq!(tell(&mut record, name, &[]), Err(41));
        }
    }
    assert_eq!(tell(&mut fresh(), "SEND", &[]), Err(42));
    assert_eq!(answer("STOMP", &[]), Err(42));
    assert_eq!(answer("SUBSCRIBE", &[("id", "")]), Err(43));

    let opening = [("accept-version", "1"), ("heart-beat", "1")];
    assert_eq!(tell(&mut fresh(), "STOMP", &opening), Err(43));
    let opening = |versions, numbers| {
        let entries = [
            ("host", ""),
            ("accept-version", versions),
            ("heart-beat", numbers),
        ];
        tell(&mut fresh(), "STOMP", &entries)
    };
    assert_eq!(opening("1", "1"), Err(31));
    assert_eq!(opening("1.1", "1"), Err(32));
    assert_eq!(opening("1.1,1.2", "1"), Err(33));
    assert_eq!(opening("1.1,1.2", "1,1"), PLAIN);

    let mut full = open();
    for number in 0..4 {
        let id = number.to_string();
        assert_eq!(tell(&mut full, "BEGIN", &[("transaction", &id)]), PLAIN);
    }
    let begin = |id: &str| tell(&mut full.clone(), "BEGIN", &[("transaction", id)]);
    assert_eq!(begin(""), Err(44));
    assert_eq!(begin("2"), Err(45));
    assert_eq!(begin("4"), Err(47));
}

/// "SEND, ACK and NACK may carry transaction, which must be open."
#[test]
fn transactions_that_are_carried() {
    let long = "t".repeat(33);
    for name in ["SEND", "ACK", "NACK"] {
        let carrying = |id: &str| {
            let mut record = open();
            tell(&mut record, "BEGIN", &[("transaction", "t")]).expect("accepted");
            let subscribe = [("id", "s"), ("destination", ""), ("ack", "client")];
            tell(&mut record, "SUBSCRIBE", &subscribe).expect("accepted");
            assert_eq!(record.deliver(b"s", b"m"), Ok(()));
            tell(
                &mut record,
                name,
                &[("id", "m"), ("destination", ""), ("transaction", id)],
            )
        };
        assert_eq!(carrying("t"), PLAIN);
        assert_eq!(carrying(""), Err(44));
        assert_eq!(carrying(&long), Err(44));
        assert_eq!(carrying("s"), Err(46));
        assert_eq!(carrying("t\0"), Err(46));
    }
    let stray = [("destination", ""), ("id", "s"), ("transaction", "none")];
    assert_eq!(answer("SUBSCRIBE", &stray), PLAIN);
    assert_eq!(answer("DISCONNECT", &stray), PLAIN);
}

/// The first entry of a name decides.
#[test]
fn later_entries_do_not_count() {
    let begin = [("transaction", "t"), ("transaction", "")];
    assert_eq!(answer("BEGIN", &begin), accepted(false, [0, 0, 1]));
    let begin = [("transaction", ""), ("transaction", "t")];
    assert_eq!(answer("BEGIN", &begin), Err(44));
    let again = [
        OPENING,
        &[
            ("accept-version", ""),
            ("heart-beat", "0,0"),
            ("heart-beat", ""),
        ],
    ];
    assert_eq!(tell(&mut fresh(), "CONNECT", &again.concat()), PLAIN);
}

/// Document 02, C-19: "Looking up a name must also say how many later entries of that name follow. Sessions
/// pass this on for destination, id and transaction in each accepted answer". Other names are not counted.
#[test]
fn later_entries_are_counted() {
    let send = [("destination", "/q"), ("id", "1"), ("id", "2")];
    assert_eq!(answer("SEND", &send), accepted(false, [0, 1, 0]));
    let send = [("destination", "a"), ("receipt", ""), ("receipt", "")];
    let send = [&send[..], &[("destination", "b"), ("destination", "a")]].concat();
    assert_eq!(answer("SEND", &send), accepted(true, [2, 0, 0]));
    let opening = [OPENING, &[("id", ""), ("id", ""), ("host", "")]].concat();
    assert_eq!(
        tell(&mut fresh(), "STOMP", &opening),
        accepted(false, [0, 1, 0])
    );
    let stray = [("transaction", "t"), ("Transaction", "t"), ("id", "i")];
    assert_eq!(answer("DISCONNECT", &stray), PLAIN);
    let begin = [("transaction", ""), ("transaction", "t"), ("id", "")];
    assert_eq!(answer("BEGIN", &begin), Err(44));
}

/// "A receipt is owed exactly if the frame is accepted, the header is there and the command is neither
/// CONNECT nor STOMP".
#[test]
fn receipts() {
    assert_eq!(
        answer("SEND", &[("destination", ""), ("receipt", "")]),
        RECEIPT
    );
    assert_eq!(answer("DISCONNECT", &[("receipt", "77")]), RECEIPT);
    assert_eq!(answer("DISCONNECT", &[("Receipt", "77")]), PLAIN);
    assert_eq!(answer("SEND", &[("receipt", "77")]), Err(43));
}

#[test]
fn heart_beats_are_accepted_until_the_end() {
    for (mut record, phase) in [(fresh(), 0), (open(), 1)] {
        assert_eq!(record.heart_beat(9), PLAIN);
        assert_eq!((record.phase, record.state.last_heard), (phase, 9));
    }
    let mut record = open();
    assert_eq!(tell(&mut record, "DISCONNECT", &[]), PLAIN);
    let closed = record.clone();
    assert_eq!(record.heart_beat(9), Err(40));
    assert_eq!(record, closed);
}

/// "exactly if the session is open, the client-to-server interval is not 0 and more than twice that
/// interval has passed"
#[test]
fn sessions_time_out() {
    let mut record = open();
    for (interval, heard) in [
        (1, 0),
        (8, 4_294_967_290),
        (2_000, 100),
        (3_600_000, u32::MAX),
    ] {
        record.state.client_to_server = interval;
        record.state.last_heard = heard;
        let after = |passed: u32| heard.wrapping_add(passed);
        for (passed, expected) in [(0, false), (2 * interval, false), (2 * interval + 1, true)] {
            for phase in 0..3 {
                record.phase = phase;
                let timed_out = record.timed_out(after(passed));
                assert_eq!(timed_out, Ok(expected && phase == 1));
            }
        }
        record.phase = 1;
        assert_eq!(record.timed_out(after(u32::MAX)), Ok(true));
    }
    record.state.client_to_server = 0;
    assert_eq!(record.timed_out(3_600_000), Ok(false));
}
