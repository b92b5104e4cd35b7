//! Tests of document 02's C-18: the readings of both versions, 1.1 told by 1.2, versions that are told between
//! items, and sessions of 1.1.

use super::sessions::{tell, PLAIN};
use crate::block::{self, Entry};
use crate::calls;
use crate::compare_feed::outcome;
use crate::compare_session::of_version;
use crate::encode::{encode, Options, Refusal};
use crate::encode_calls::Call;
use crate::feed::record::{fresh, is_refused, CODE, HELD, PHASE, REFUSED, VERSION};
use crate::feed::StreamParser;
use crate::feed_calls::{self, dues, Due, BUFFER};
use crate::fixed::feeding;
use crate::item::{parse, Answer};
use crate::listing::{self, End};
use crate::random::Random;
use crate::replay::{replay, write};
use crate::rewrite::{complaint, rewrite};
use crate::session::opening::{Flags, BOTH as BOTH_OFFERED, ONLY_1_1, ONLY_1_2};
use crate::session::record::{make, Record};
use crate::session_calls;
use crate::streams;
use crate::version::Version::{self, V1_1, V1_2};
use crate::version::BOTH;
use std::collections::BTreeSet;

/// The first line of a row's listing in this version.
fn listed(version: Version, row: &[u8]) -> String {
    let listing = listing::write(&listing::read(version, row));
    listing.lines().next().unwrap_or_default().to_string()
}

/// "By the 1.1 specification the line end is octet 10 alone, 13 is an ordinary header octet, `\r` is undefined":
/// what 1.1 answers, and what 1.2 does.
#[test]
fn readings_of_13() {
    let cases: [(&[u8], &str, &str); 28] = [
        (b"\n", "0 beat 1", "0 beat 1"),
        (b"\r", "0 refused 1 0", "0 more"),
        (b"\r\n", "0 refused 1 0", "0 beat 2"),
        (b"\rS", "0 refused 1 0", "0 refused 2 1"),
        (b"SEN\r", "0 refused 1 3", "0 refused 1 3"),
        (b"SEND\r", "0 refused 1 4", "0 more"),
        (b"SEND\rx", "0 refused 1 4", "0 refused 2 5"),
        (b"ACK\n\r\n\0", "0 refused 9 5", "0 frame 2 7 0 6 0"),
        (b"ACK\n\r:\n\n\0", "0 frame 2 9 1 8 0", "0 refused 2 5"),
        (b"ACK\nid\r:\n\n\0", "0 frame 2 11 1 10 0", "0 refused 9 6"),
        (b"ACK\nid\r\n", "0 refused 9 7", "0 refused 9 6"),
        (
            b"ACK\nid:a\r\n\n\0",
            "0 frame 2 12 1 11 0",
            "0 frame 2 12 1 11 0",
        ),
        (b"ACK\nid:\ra\n\n\0", "0 frame 2 12 1 11 0", "0 refused 2 8"),
        (
            b"ACK\nid:a\n\r\n\0",
            "0 refused 9 10",
            "0 frame 2 12 1 11 0",
        ),
        (
            b"ACK\nid:a\\r\n\n\0",
            "0 refused 10 9",
            "0 frame 2 13 1 12 0",
        ),
        (b"ACK\nid\\r", "0 refused 10 7", "0 more"),
        (b"ACK\nid:\\\r", "0 refused 10 8", "0 refused 10 8"),
        (
            b"ACK\nid:\\n\\c\\\\\n\n\0",
            "0 frame 2 16 1 15 0",
            "0 frame 2 16 1 15 0",
        ),
        (b"STOMP\nid:\\r", "0 refused 10 10", "0 more"),
        (
            b"CONNECT\na:\\r\r:\n\n\0",
            "0 frame 5 17 1 16 0",
            "0 refused 2 13",
        ),
        (
            b"CONNECTED\n\r:\n\n\0",
            "0 frame 6 15 1 14 0",
            "0 refused 2 11",
        ),
        (b"SEND\ncontent-length:1\r\n", "0 refused 6 21", "0 more"),
        (
            b"SEND\ncontent-length:\r",
            "0 refused 6 20",
            "0 refused 6 20",
        ),
        (
            b"SEND\ncontent-length\r:1\n\n\0",
            "0 frame 12 25 1 24 0",
            "0 refused 9 19",
        ),
        (b"ACK\nid:\xe2\r", "0 refused 11 8", "0 refused 11 8"),
        (b"ACK\n:\r", "0 refused 3 4", "0 refused 3 4"),
        (b"ACK\n\n\r", "0 refused 7 5", "0 refused 7 5"),
        (
            b"SEND\n\n\r\n\0",
            "0 frame 12 9 0 6 2",
            "0 frame 12 9 0 6 2",
        ),
    ];
    for (row, in_1_1, in_1_2) in cases {
        assert_eq!(listed(V1_1, row), in_1_1, "{}", row.escape_ascii());
        assert_eq!(listed(V1_2, row), in_1_2, "{}", row.escape_ascii());
    }
}

/// 13 counts toward the 512, may be the whole name, and begins a 33rd line.
#[test]
fn limits_of_13() {
    let line = |name: usize, value: usize| {
        let line = [
            vec![13; name],
            b":".to_vec(),
            vec![13; value],
            b"\n\n\0".to_vec(),
        ];
        [b"ACK\n".to_vec(), line.concat()].concat()
    };
    for (name, value) in [(1, 510), (511, 0), (255, 256)] {
        assert_eq!(listed(V1_1, &line(name, value)), "0 frame 2 519 1 518 0");
    }
    assert_eq!(listed(V1_1, &line(1, 511)), "0 refused 4 516");
    assert_eq!(listed(V1_1, &line(512, 0)), "0 refused 4 515");
    let lines = [b"ACK\n", &b"a:\n".repeat(32)[..]].concat();
    let after = |octets: &[u8]| listed(V1_1, &[&lines[..], octets].concat());
    assert_eq!(after(b"\r"), "0 refused 5 100");
    assert_eq!(after(b"\r\n\0"), "0 refused 5 100");
    assert_eq!(after(b":"), "0 refused 3 100");
    assert_eq!(after(b"\n\0"), "0 frame 2 102 32 101 0");
}

/// A row as 1.2 has to read it, to read what 1.1 reads: where 13 is an ordinary octet and `r` no letter of an
/// escape, each is like `q`, which no rule speaks of.
fn without_13(row: &[u8]) -> Vec<u8> {
    let like = |&octet: &u8| {
        if octet == 13 || octet == b'r' {
            b'q'
        } else {
            octet
        }
    };
    row.iter().map(like).collect()
}

#[test]
fn version_1_1_is_told_by_1_2() {
    let mut random = Random::new(31);
    let mut codes = BTreeSet::new();
    for round in 0..6_000 {
        let stream = streams::stream(&mut random, BOTH[round % 2]);
        let mut rest = &stream[..];
        while !rest.is_empty() {
            let answer = parse(V1_1, rest);
            assert_eq!(
                answer,
                parse(V1_2, &without_13(rest)),
                "{}",
                rest.escape_ascii()
            );
            rest = match answer {
                Answer::Complete(item) => &rest[item.length()..],
                _ => &[],
            };
            if let Answer::Invalid { code, .. } = answer {
                codes.insert(code);
            }
        }
    }
    // "2 is never given in 1.1"
    assert_eq!(codes, (1..=11).filter(|code| *code != 2).collect());
}

/// Rows that have no 13 and no `\r` are the same in both versions.
#[test]
fn versions_agree_without_13() {
    let mut random = Random::new(32);
    let mut agreed = 0;
    for round in 0..4_000 {
        let stream = streams::stream(&mut random, BOTH[round % 2]);
        if !stream.contains(&13) && !stream.windows(2).any(|pair| pair == b"\\r") {
            assert_eq!(parse(V1_1, &stream), parse(V1_2, &stream));
            agreed += 1;
        }
    }
    assert!(agreed > 500, "{}", agreed);
}

/// What is encoded in 1.1 is what 1.2 encodes of the same block with `q` for each 13 of its texts, but for these
/// octets; and is refused as that is.
#[test]
fn encoding_in_1_1_is_told_by_1_2() {
    let mut random = Random::new(33);
    let mut written = 0;
    for _ in 0..6_000 {
        let call = calls::call(&mut random);
        let Some(entries) = block::read(&call.block) else {
            continue;
        };
        let like = |text: &[u8]| -> Vec<u8> {
            let like = |&octet: &u8| if octet == 13 { b'q' } else { octet };
            text.iter().map(like).collect()
        };
        let entry = |entry: &Entry| Entry::new(&like(&entry.name), &like(&entry.value));
        let other = block::write(&entries.iter().map(entry).collect::<Vec<_>>());
        let with = |version, block: &[u8]| -> Result<Vec<u8>, Refusal> {
            let counted = call.asked_for().counted;
            let options = Options { counted, version };
            encode(options, call.command, block, &call.body, call.room)
        };
        let (ours, theirs) = (with(V1_1, &call.block), with(V1_2, &other));
        let head = |image: &[u8]| like(&image[..image.len() - call.body.len() - 1]);
        assert_eq!(
            ours.as_ref().map(|image| head(image)),
            theirs.as_ref().map(|image| head(image)),
        );
        written += usize::from(ours.is_ok());
    }
    assert!(written > 1_000, "{}", written);
}

/// "The writer in 1.1 leaves 13 raw and counts it once"; "53 no longer concerns 13 in a 1.1 frame".
#[test]
fn encoding_of_13() {
    let image = |version: Version, command: u32, name: &[u8], value: &[u8]| {
        let call = Call {
            options: version.option(),
            command,
            block: block::write(&[Entry::new(name, value)]),
            body: Vec::new(),
            room: 600,
        };
        encode(call.asked_for(), command, &call.block, b"", call.room)
    };
    let refused = Err(Refusal { code: 53, index: 0 });
    let written = image(V1_1, 2, b"\r", b"\r\n:\\\r");
    assert_eq!(written, Ok(b"ACK\n\r:\r\\n\\c\\\\\r\n\n\0".to_vec()));
    let written = image(V1_2, 2, b"\r", b"\r\n:\\\r");
    assert_eq!(written, Ok(b"ACK\n\\r:\\r\\n\\c\\\\\\r\n\n\0".to_vec()));
    for command in [5, 6] {
        assert!(image(V1_1, command, b"\r", b":\r\\").is_ok());
        assert_eq!(image(V1_2, command, b"\r", b""), refused);
        assert_eq!(image(V1_2, command, b"a", b"\r"), refused);
        for version in BOTH {
            assert_eq!(image(version, command, b"a\n", b""), refused);
            assert_eq!(image(version, command, b"a", b"\r\n"), refused);
            assert_eq!(image(version, command, b"a\r:", b""), refused);
        }
    }
    for (returns, in_1_1, in_1_2) in [(255, true, true), (256, true, false), (511, false, false)] {
        let value = vec![13; returns];
        assert_eq!(image(V1_1, 2, b"n", &value).is_ok(), in_1_1);
        assert_eq!(image(V1_2, 2, b"n", &value).is_ok(), in_1_2);
    }
    assert!(image(V1_1, 2, b"n", &[13; 510]).is_ok());
}

#[test]
fn streams_of_1_1_are_rewritten() {
    let stream = b"\nSEND\nid:a\r\n\r:\\c\r\n\nok\0CONNECT\n\ra:\\r\n\n\0\r\n";
    let in_1_1 = |counted| {
        let version = V1_1;
        rewrite(stream, Options { counted, version })
    };
    assert_eq!(in_1_1(false).octets, stream[..stream.len() - 2]);
    assert_eq!(complaint(&in_1_1(false)), "rewrite: 38 refused 1 0\n");
    let counted = b"\nSEND\nid:a\r\n\r:\\c\r\ncontent-length:2\n\nok\0CONNECT\n\ra:\\r\n\n\0";
    assert_eq!(in_1_1(true).octets, counted);
    let in_1_2 = rewrite(stream, Options::default());
    assert_eq!(complaint(&in_1_2), "rewrite: 1 refused 2 12\n");
}

/// "C-13's reader is told it between items; told inside an item, after its refusal or with an unsound record, it
/// changes nothing."
#[test]
fn versions_are_told_between_items() {
    let frame = b"SEND\nid\r:\\c\xe2\x82\xac\ncontent-length:1\n\nx\0";
    let mut buffer = vec![170; BUFFER];
    let mut parser = StreamParser::default();
    assert_eq!(
        (parser.version, fresh(&parser.record())),
        (V1_2, Some(V1_2))
    );
    for version in [V1_2, V1_1, V1_1, V1_2, V1_1] {
        assert!(parser.tell(version));
        assert_eq!(parser.version, version);
        assert_eq!(fresh(&parser.record()), Some(version));
        assert_eq!(parser.record()[VERSION], u8::from(version == V1_1));
    }
    for octet in &frame[..frame.len() - 1] {
        parser.feed(&mut buffer, &[*octet]);
        let before = parser.clone();
        assert!(!parser.tell(V1_2) && !parser.tell(V1_1));
        assert_eq!(parser, before);
        assert_eq!(
            (parser.record()[VERSION], fresh(&parser.record())),
            (1, None)
        );
        assert!(!is_refused(&parser.record()));
    }
    assert!(matches!(
        parser.feed(&mut buffer, b"\0").reply,
        Answer::Complete(_)
    ));
    assert_eq!(fresh(&parser.record()), Some(V1_1));
    assert!(parser.tell(V1_2) && parser.tell(V1_1));
    parser.feed(&mut buffer, b"SENT");
    let refused = parser.clone();
    assert!(!parser.tell(V1_2) && !parser.tell(V1_1));
    assert_eq!(parser, refused);
    let record = parser.record();
    assert_eq!(
        (
            record[PHASE],
            record[CODE],
            record[HELD + 1],
            record[VERSION]
        ),
        (REFUSED, 1, 3, 1)
    );
}

/// "Octet 13 of the 16, counted from 1: 0 is 1.2, 1 is 1.1, another value is 71."
#[test]
fn records_say_their_version() {
    for octet in 0..=255 {
        let mut record = [0; 16];
        record[VERSION] = octet;
        assert_eq!(is_refused(&record), octet > 1);
        let version = [V1_2, V1_1].get(usize::from(octet)).copied();
        assert_eq!(fresh(&record), version);
    }
    for place in (0..16).filter(|place| *place != 12) {
        let mut record = [0; 16];
        (record[12], record[place]) = (1, 1);
        assert_eq!(fresh(&record), None);
    }
}

/// "C-13's agreement judges each item in the edition told": streams one after another, each in its version, in
/// pieces that may reach into the next item but not into the next stream.
#[test]
fn items_are_read_in_the_version_told() {
    let mut random = Random::new(34);
    for _ in 0..1_500 {
        let mut parser = StreamParser::default();
        let mut buffer = vec![170; BUFFER];
        for _ in 0..random.between(1, 4) {
            let version = random.pick(&BOTH);
            assert!(parser.tell(version));
            let stream = streams::items(&mut random, version);
            let listing = listing::read(version, &stream);
            assert!(
                matches!(listing.end, End::Nothing),
                "{}",
                stream.escape_ascii()
            );
            let mut rest = &stream[..];
            let mut items = Vec::new();
            while !rest.is_empty() {
                let length = random.between(0, rest.len());
                let fed = parser.feed(&mut buffer, &rest[..length]);
                if let Answer::Complete(item) = fed.reply {
                    items.push((stream.len() - rest.len() + fed.taken - item.length(), item));
                }
                rest = &rest[fed.taken..];
            }
            assert_eq!(items, listing.items);
        }
    }
}

/// The random calls have every answer in each version, but 2 in 1.1; versions are taken and not.
#[test]
fn calls_of_the_stream_parser_have_every_answer() {
    let mut random = Random::new(35);
    let mut outcomes = BTreeSet::new();
    for step in feed_calls::sequence::sequence(&mut random, 4_000) {
        outcomes.extend(outcome(&step.due));
    }
    let names = (1..=11)
        .chain([70, 71])
        .map(|code| format!("refused {code}"));
    let others = ["beat", "frame", "more", "told, taken", "told, not taken"].map(str::to_string);
    for name in names.chain(others) {
        for version in BOTH {
            let never = name == "refused 2" && version == V1_1;
            let there = outcomes.contains(&(name.clone(), Some(version)));
            assert_eq!(there, !never, "{} {:?}", name, version);
        }
    }
    for name in [
        "refused 71",
        "told, not taken",
        "any answer",
        "told, any answer",
    ] {
        assert!(outcomes.contains(&(name.to_string(), None)), "{}", name);
    }
}

/// What the fixed calls tell is taken or not, as it is meant.
#[test]
fn fixed_calls_tell_versions() {
    let told: Vec<bool> = dues(&feeding::all())
        .iter()
        .filter_map(|due| match due {
            Due::Told(told) => Some(told.taken),
            _ => None,
        })
        .collect();
    let taken = told.iter().filter(|&&taken| taken).count();
    // Fresh parsers, 22 of them in 1.1; between items; before the places inside; around a refusal.
    assert_eq!(taken, 22 + 9 + 16 + 5);
    // Inside items; after a refusal; with other records.
    assert_eq!(told.len() - taken, 33 + 5 + 2 * 9);
}

/// A session that offers these versions, opened by a client that asks for those.
fn opened(offered: Flags, versions: &str) -> Record {
    let (_, mut record) = make(0, 0, offered);
    let entries = [("accept-version", versions), ("host", "h")];
    assert_eq!(tell(&mut record, "CONNECT", &entries), PLAIN);
    record
}

#[test]
fn the_highest_version_is_the_session_s() {
    let version = |offered, asked| opened(offered, asked).session().map(|one| one.version());
    assert_eq!(version(BOTH_OFFERED, "1.1"), Some(V1_1));
    assert_eq!(version(BOTH_OFFERED, "1.0,1.1"), Some(V1_1));
    assert_eq!(version(BOTH_OFFERED, "1.1,1.2"), Some(V1_2));
    assert_eq!(version(ONLY_1_1, "1.2,1.1"), Some(V1_1));
    assert_eq!(version(ONLY_1_2, "1.2,1.1"), Some(V1_2));
}

/// A session of 1.1 with a subscription of each mode, a transaction, and three deliveries.
fn old() -> Record {
    let mut record = opened(BOTH_OFFERED, "1.0,1.1");
    for (id, mode) in [("c", "client"), ("i", "client-individual"), ("a", "auto")] {
        let entries = [("destination", ""), ("id", id), ("ack", mode)];
        assert_eq!(tell(&mut record, "SUBSCRIBE", &entries), PLAIN);
    }
    assert_eq!(tell(&mut record, "BEGIN", &[("transaction", "t")]), PLAIN);
    for (id, label) in [(b"c", b"1"), (b"i", b"2"), (b"c", b"3")] {
        assert_eq!(record.deliver(id, label), Ok(()));
    }
    record
}

/// The number with which the session of 1.1 refuses ACK, and NACK, with these entries.
fn refused(entries: &[(&str, &str)]) -> Option<usize> {
    let ack = tell(&mut old(), "ACK", entries);
    assert_eq!(ack, tell(&mut old(), "NACK", entries));
    ack.err()
}

/// "43 checks subscription, then message-id; 44 and 46 also check that subscription, 46 before 60; 60 also for
/// another subscription's label".
#[test]
fn acks_of_1_1_are_refused_in_order() {
    let long = "c".repeat(33);
    let longest = "c".repeat(32);
    let [s, m, t, i] = ["subscription", "message-id", "transaction", "id"];
    assert_eq!(refused(&[]), Some(43));
    assert_eq!(refused(&[(i, "1")]), Some(43));
    assert_eq!(refused(&[(s, ""), (t, ""), (i, "1")]), Some(43));
    assert_eq!(refused(&[(m, "1"), (t, "u"), (i, "1")]), Some(43));
    for (subscription, transaction) in [("", "t"), (&long, "t"), ("c", ""), ("d", ""), ("", "u")] {
        let entries = [(s, subscription), (m, ""), (t, transaction)];
        assert_eq!(refused(&entries), Some(44), "{subscription} {transaction}");
    }
    for (subscription, transaction) in [
        ("d", "t"),
        ("c", "u"),
        ("d", "u"),
        ("t", "c"),
        (&longest, "t"),
    ] {
        let entries = [(t, transaction), (m, "none"), (s, subscription)];
        assert_eq!(refused(&entries), Some(46), "{subscription} {transaction}");
    }
    for (subscription, label) in [
        ("c", "2"),
        ("i", "1"),
        ("a", "1"),
        ("c", ""),
        ("c", &long),
        ("c", "c"),
    ] {
        assert_eq!(refused(&[(s, subscription), (m, label)]), Some(60));
        assert_eq!(
            refused(&[(s, subscription), (m, label), (i, "1")]),
            Some(60)
        );
    }
    for id in ["", "1", "2", "none", &long] {
        assert_eq!(refused(&[(i, id), (s, "c"), (m, "1")]), None);
        assert_eq!(
            refused(&[(s, "i"), (s, ""), (m, "2"), (m, ""), (t, "t"), (i, id)]),
            None
        );
    }
}

/// "client mode: settles the named and all earlier ones of that subscription, as before"
#[test]
fn acks_of_1_1_settle() {
    let left = |subscription: &str, label: &str| {
        let mut record = old();
        let entries = [("message-id", label), ("subscription", subscription)];
        assert_eq!(tell(&mut record, "NACK", &entries), PLAIN);
        let deliveries = record.session().expect("a valid record").deliveries;
        let labels = deliveries.into_iter().flat_map(|delivery| delivery.label);
        labels.collect::<Vec<u8>>()
    };
    assert_eq!(left("c", "3"), b"2");
    assert_eq!(left("c", "1"), b"23");
    assert_eq!(left("i", "2"), b"13");
}

/// In 1.2 `id` alone names a delivery, though 1.1 is offered too.
#[test]
fn acks_of_1_2_stay() {
    let mut record = old();
    record.state.shared = BOTH_OFFERED;
    let entries = [("id", "3"), ("subscription", ""), ("message-id", "none")];
    assert_eq!(tell(&mut record.clone(), "ACK", &entries), PLAIN);
    assert_eq!(tell(&mut record, "ACK", &entries[1..]), Err(43));
}

fn replayed(stream: &[u8]) -> Vec<String> {
    let written = write(&replay(stream, 0, 0, true).expect("offers that are allowed"));
    written.lines().map(str::to_string).collect()
}

/// "All up to the end of the opening frame is read by 1.2 rules, the rest by the version chosen": a refused
/// opening leaves 1.2, and once chosen the version stays.
#[test]
fn replays_read_in_the_version_chosen() {
    let opening =
        |versions: &str| format!("\r\nCONNECT\r\naccept-version:{versions}\r\nhost:\r\n\r\n\0");
    let lines =
        |versions: &str, rest: &[u8]| replayed(&[opening(versions).as_bytes(), rest].concat());
    let chosen = |version: &str| format!("2 frame 5 accepted version {version} client 0 server 0");
    let old = chosen("1.1");
    assert_eq!(
        lines("1.1", b"\r\n"),
        ["0 beat accepted", &old, "41 refused 1 0"]
    );
    assert_eq!(lines("1.1", b"\n")[2..], ["41 beat accepted", "42 end"]);
    assert_eq!(
        lines("1.1,1.2", b"\r\n")[1..],
        [&chosen("1.2"), "45 beat accepted", "47 end"]
    );
    assert_eq!(
        lines("1.0", b"\r\n")[1..],
        ["2 frame 5 refused 32", "41 beat refused 40", "43 end"]
    );
    let leaving = lines("1.1", b"DISCONNECT\n\r:\n\n\0\n\r\n");
    assert_eq!(
        leaving[2..],
        [
            "41 frame 7 accepted",
            "57 beat refused 40",
            "58 refused 1 0"
        ]
    );
}

/// "A MESSAGE is recorded under its `message-id` where the session's version is 1.1, under its `ack` otherwise."
#[test]
fn messages_are_recorded_by_the_version() {
    let rest = "SUBSCRIBE\nid:s\ndestination:\nack:client\n\n\0\
        MESSAGE\nsubscription:s\nmessage-id:m\nack:a\n\n\0\
        MESSAGE\nsubscription:s\nmessage-id:m\nack:b\n\n\0\
        MESSAGE\nsubscription:s\nmessage-id:n\nack:b\n\n\0";
    let answers = |version: &str| -> Vec<String> {
        let opening = format!("STOMP\naccept-version:{version}\nhost:\n\n\0");
        let lines = replayed(&[opening.as_bytes(), rest.as_bytes()].concat());
        let ends = lines[2..5]
            .iter()
            .map(|line| line.split_once("frame 9 ").expect("a MESSAGE").1);
        ends.map(str::to_string).collect()
    };
    assert_eq!(answers("1.1"), ["delivered", "refused 62", "delivered"]);
    assert_eq!(answers("1.2"), ["delivered", "delivered", "refused 62"]);
}

/// The random calls of a session have each answer in 1.1, each offer, and each version chosen of it.
#[test]
fn calls_of_a_session_have_every_version() {
    let mut random = Random::new(36);
    let mut names = BTreeSet::new();
    for _ in 0..100 {
        let steps = session_calls::sequence::sequence(&mut random, 400);
        names.extend(steps.iter().filter_map(of_version));
    }
    let confirmed = BOTH.map(|version| format!("ACK and NACK in {}: ", version.name()));
    let answers = [
        "accepted",
        "accepted receipt overwritten",
        "refused 43",
        "refused 44",
        "refused 46",
        "refused 60",
    ];
    for front in &confirmed {
        for answer in answers {
            assert!(
                names.contains(&format!("{front}{answer}")),
                "{} {}",
                front,
                answer
            );
        }
    }
    let others = [
        "refused 60 for another subscription's label",
        "made, offering [1.1]",
        "made, offering [1.2]",
        "made, offering [1.1,1.2]",
        "refused 34, offering []",
        "refused 34, offering [1.0,1.1,1.2]",
        "opened in 1.1 of [1.1]",
        "opened in 1.1 of [1.1,1.2]",
        "opened in 1.2 of [1.1,1.2]",
        "refused 38 for the versions shared",
    ];
    for other in others {
        let there = names.iter().any(|name| name.ends_with(other));
        assert!(there, "{}", other);
    }
}
