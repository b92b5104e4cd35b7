//! Tests of replays and of the fixed inputs; their lines and answers were read from document 01.

use crate::compare_replay::{NUMBERS, RECORDING};
use crate::fixed;
use crate::item::COMMANDS;
use crate::lives::life;
use crate::random::Random;
use crate::replay::{replay, write, Said};
use crate::session_calls::{read, replies, Call, NAMES};
use crate::version::Version::{self, V1_1, V1_2};
use std::collections::BTreeSet;

fn lines(stream: &[u8], sends: u32, wants: u32, log: bool) -> String {
    write(&replay(stream, sends, wants, log).expect("offers that are allowed"))
}

#[test]
fn examples_are_replayed() {
    let stream = b"CONNECT\naccept-version:1.2\nhost:h\nheart-beat:1000,0\n\n\0\n\
        SUBSCRIBE\nid:a\ndestination:/q\nreceipt:r\n\n\0\
        SEND\ndestination:/q\nid:1\nid:2\n\n\0MESSAGE\n\n\0\nSEND";
    let expected = "0 frame 5 accepted version 1.2 client 2000 server 0\n\
        54 beat accepted\n\
        55 frame 14 accepted receipt\n\
        97 frame 12 accepted overwritten 0 1 0\n\
        129 frame 9 refused 41\n\
        139 beat refused 40\n\
        140 more\n";
    assert_eq!(lines(stream, 500, 2_000, false), expected);
    assert_eq!(lines(b"", 0, 0, true), "0 end\n");
    let most = 3_600_000;
    assert_eq!(lines(b"\rS", most, most, false), "0 refused 2 1\n");
    assert!(replay(b"", most + 1, 0, true).is_none());
    assert!(replay(b"", 0, most + 1, false).is_none());
}

/// In a log a MESSAGE is recorded for its first `subscription` under its first `ack`; one that is missing is
/// an empty text.
#[test]
fn messages_of_a_log_are_recorded() {
    let stream = b"CONNECT\naccept-version:1.2\nhost:h\n\n\0\
        SUBSCRIBE\nid:a\ndestination:/q\nack:client\n\n\0\
        MESSAGE\nack:m\\c1\nack:x\nsubscription:a\nsubscription:b\n\n\0\
        MESSAGE\nsubscription:a\n\n\0\
        MESSAGE\nack:2\n\n\0\
        ACK\nid:m\\c1\n\n\0\
        MESSAGE\nsubscription:a\nack:m\\c1\n\n\0\
        ACK\nid:1\n\n\0\
        MESSAGE\n\n\0";
    let answers = |log| -> Vec<String> {
        let lines = lines(stream, 0, 0, log);
        let words = lines.lines().map(|line| line.split(' ').skip(1).collect());
        words.map(|words: Vec<&str>| words.join(" ")).collect()
    };
    let opened = "frame 5 accepted version 1.2 client 0 server 0";
    let expected = [
        opened,
        "frame 14 accepted",
        "frame 9 delivered",
        "frame 9 refused 62",
        "frame 9 refused 64",
        "frame 2 accepted",
        "frame 9 delivered",
        "frame 2 refused 60",
        "frame 9 refused 63",
        "end",
    ];
    assert_eq!(answers(true), expected);
    let expected = [
        opened,
        "frame 14 accepted",
        "frame 9 refused 41",
        "frame 9 refused 40",
        "frame 9 refused 40",
        "frame 2 refused 40",
        "frame 9 refused 40",
        "frame 2 refused 40",
        "frame 9 refused 40",
        "end",
    ];
    assert_eq!(answers(false), expected);
}

#[test]
fn the_fixed_stream_is_replayed() {
    let expected = [
        "beat accepted",
        "frame 9 refused 63",
        "frame 5 accepted version 1.2 client 0 server 0",
        "beat accepted",
        "frame 14 accepted overwritten 0 1 0",
        "frame 14 accepted receipt",
        "frame 9 delivered",
        "frame 9 refused 62",
        "frame 9 delivered",
        "frame 9 delivered",
        "frame 9 refused 62",
        "beat accepted",
        "frame 9 refused 64",
        "frame 3 accepted",
        "beat accepted",
        "frame 12 accepted receipt",
        "frame 12 accepted receipt overwritten 2 0 1",
        "frame 12 accepted",
        "frame 2 accepted",
        "frame 10 accepted",
        "frame 4 accepted receipt",
        "beat accepted",
        "beat accepted",
        "frame 3 accepted",
        "frame 1 accepted",
        "frame 15 accepted",
        "frame 14 accepted",
        "frame 9 delivered",
        "frame 7 accepted receipt",
        "frame 9 refused 63",
        "frame 12 refused 40",
        "beat refused 40",
        "refused 1 3",
    ];
    assert_eq!(answers_to_fixed(V1_2), expected);
}

/// What is written of the fixed stream of this version, without the starts.
fn answers_to_fixed(version: Version) -> Vec<String> {
    lines(&fixed::stream(version), 0, 0, true)
        .lines()
        .map(|line| line.split_once(' ').expect("a blank").1.to_string())
        .collect()
}

#[test]
fn the_fixed_stream_of_1_1_is_replayed() {
    let expected = [
        "beat accepted",
        "beat accepted",
        "frame 9 refused 63",
        "frame 5 accepted version 1.1 client 0 server 0",
        "beat accepted",
        "frame 14 accepted overwritten 0 1 0",
        "frame 14 accepted receipt",
        "frame 9 delivered",
        "frame 9 refused 62",
        "frame 9 delivered",
        "frame 9 delivered",
        "frame 9 refused 62",
        "beat accepted",
        "frame 9 refused 64",
        "frame 9 refused 64",
        "frame 3 accepted",
        "beat accepted",
        "frame 12 accepted receipt",
        "frame 12 accepted overwritten 1 0 1",
        "frame 2 accepted overwritten 0 1 0",
        "frame 10 accepted",
        "frame 4 accepted receipt",
        "beat accepted",
        "beat accepted",
        "frame 15 accepted",
        "frame 14 accepted",
        "frame 9 delivered",
        "frame 9 delivered",
        "frame 2 accepted receipt",
        "frame 2 refused 60",
        "frame 9 refused 63",
        "frame 12 refused 40",
        "beat refused 40",
        "refused 1 10",
    ];
    assert_eq!(answers_to_fixed(V1_1), expected);
}

/// The answers to the fixed calls by value, group by group; a comma stands between two.
const ANSWERS: [&str; 23] = [
    "no,accepted,made,no,accepted,no,no,yes,yes,accepted,no,no,yes,set,no,yes,no",
    "set,accepted,accepted receipt,accepted receipt,accepted,refused 43,no,refused 40,refused 40,\
     set,accepted receipt,refused 40",
    "set,accepted,accepted,accepted,accepted,accepted,refused 47,set,refused 44,set,refused 45,set,\
     refused 46",
    "set,accepted,accepted,accepted,accepted,accepted,accepted,accepted,accepted,accepted,accepted,\
     accepted,refused 47,set,refused 46",
    "made,accepted,refused 42,made,refused 31,made,refused 32,made,refused 33,made,refused 43,made,\
     refused 42,made,refused 41",
    "set,refused 39,refused 39,refused 39,refused 41,refused 39,set,refused 44,set,refused 44,set,\
     refused 46,set,refused 43",
    "made,refused 34,refused 34,refused 34,made,made,refused 34,refused 34,refused 34,refused 34,\
     refused 34,refused 34,refused 40,refused 40",
    "set,refused 38,set,refused 38,set,refused 38,set,refused 38,set,refused 38,set,refused 38,set,\
     refused 38,set,refused 38,set,refused 38,set,refused 38,set,refused 38,set,refused 38,set,\
     refused 38,set,refused 38,set,refused 38,set,refused 38,set,refused 38,set,refused 38,set,\
     refused 38,set,refused 38,set,refused 38",
    "set,no,refused 40,set,refused 40,set,accepted,refused 45,set,no,accepted",
    "made,refused 63,set,none,recorded,recorded,recorded,recorded,pending 1 63 6d31,\
     pending 2 69 6d32,pending 1 63 6d33,none,refused 62,refused 62,refused 62,refused 62,\
     refused 62,refused 62,recorded,recorded,recorded,recorded,recorded,recorded,recorded,\
     refused 64,refused 64,refused 64,refused 64,refused 64,\
     pending 1 63 6c6c6c6c6c6c6c6c6c6c6c6c6c6c6c6c6c6c6c6c6c6c6c6c6c6c6c6c6c6c6c6c,none,accepted,\
     no,accepted,none,refused 63,refused 63",
    "set,accepted,pending 2 62 32,pending 1 63 34,accepted,recorded,accepted,accepted,\
     accepted receipt overwritten 0 1 0,accepted,pending 2 62 33,none,accepted,recorded,accepted,\
     refused 60,none,set,refused 60,set,refused 60,set,recorded,refused 60,set,refused 60,set,refused 60,set,\
     refused 46,set,refused 44,set,refused 43",
    "set,recorded,refused 61,refused 61,refused 62,refused 62,refused 64,recorded,refused 62,\
     pending 1 63 6c6162656c2d3633,pending 2 69 6c617374,none,accepted,accepted,recorded,accepted,\
     pending 1 63 6c6162656c2d3633,pending 1 63 6c617374,accepted,none,recorded",
    "set,accepted,pending 2 69 32,pending 2 69 34,accepted,recorded,recorded,accepted,none,set,\
     accepted receipt,none,refused 40,set,refused 41,set,refused 42,set,refused 43,set,refused 46,\
     set,refused 39,pending 2 69 34",
    "set,accepted,accepted,accepted,accepted,accepted,accepted,accepted,accepted,accepted,\
     accepted,accepted,refused 49,set,refused 49,set,refused 49,set,refused 49,set,refused 45,set,\
     refused 44,set,refused 47",
    "set,refused 38,set,refused 38,set,refused 38,set,refused 38,set,refused 38,set,refused 38,\
     set,refused 38,set,refused 38,set,refused 38,set,refused 38,set,refused 38,set,refused 38,\
     set,refused 38,set,refused 38,set,refused 38,set,refused 38,set,refused 38,set,refused 38,\
     set,refused 38,set,refused 38,set,refused 38,set,refused 38,set,refused 38,set,refused 38,\
     set,refused 38,set,refused 38,set,refused 38,set,refused 38",
    "set,refused 63,accepted,recorded,recorded,pending 1 79 31,pending 2 78 32,set,none,\
     refused 63,refused 40",
    "set,accepted overwritten 0 1 0,accepted receipt overwritten 2 0 1,accepted,\
     accepted overwritten 0 3 1,refused 44,made,accepted overwritten 1 0 0",
    "made,accepted,made,accepted,made,accepted,made,refused 32,made,accepted,made,refused 32,\
     made,refused 32,made,refused 32,made,accepted,made,accepted,made,accepted,made,refused 32,\
     made,accepted,made,accepted,made,accepted,made,accepted,made,accepted,made,refused 32",
    "set,accepted,pending 2 62 32,pending 1 63 34,accepted,recorded,accepted,accepted,\
     accepted receipt overwritten 0 1 0,accepted,pending 2 62 33,accepted,pending 2 62 32,\
     pending 2 62 33,recorded,recorded,accepted,accepted,accepted,none",
    "set,refused 43,set,refused 43,set,refused 43,set,refused 43,set,refused 43,set,refused 43",
    "set,accepted,refused 44,set,accepted,refused 44,set,accepted,refused 44,set,accepted,refused 44,\
     set,accepted,refused 44,set,accepted,refused 44,set,accepted,refused 44,set,accepted,refused 46,\
     set,accepted,refused 46,set,accepted,refused 46,set,accepted,refused 46,set,accepted,refused 46",
    "set,refused 60,set,refused 60,set,refused 60,set,refused 60,set,refused 60,set,refused 60,\
     set,refused 60,set,refused 60,set,refused 60,set,refused 60",
    "set,accepted,accepted,pending 1 63 34,refused 43",
];

/// The version after each opening of the fixed calls, in their order.
#[test]
fn the_fixed_openings_choose_versions() {
    let calls = fixed::all();
    let replies = replies(&calls);
    let group: usize = ANSWERS[..17]
        .iter()
        .map(|answers| answers.split(',').count())
        .sum();
    let versions = replies[group..group + 36]
        .iter()
        .map(|reply| reply.record.version());
    let opened: Vec<&str> = versions
        .skip(1)
        .step_by(2)
        .map(|name| name.unwrap_or("-"))
        .collect();
    let [one, two, none] = ["1.1", "1.2", "-"];
    let expected = [
        [one, one, one, none, one, none],
        [none, none, two, two, two, none],
        [one, one, two, two, two, none],
    ];
    assert_eq!(opened, expected.concat());
}

#[test]
fn the_fixed_calls_are_answered() {
    let calls = read(&fixed::calls()).expect("whole calls");
    assert_eq!(calls, fixed::all());
    let answers: Vec<String> = replies(&calls)
        .into_iter()
        .map(|reply| reply.answer)
        .collect();
    let once = ANSWERS.join(",");
    let expected = [&once, "set", &once].join(",");
    assert_eq!(answers, expected.split(',').collect::<Vec<_>>());
}

/// The calls in place have the replies of those by value.
#[test]
fn the_fixed_calls_in_place_have_the_same_replies() {
    let calls = fixed::all();
    let half = calls.len() / 2;
    let replies = replies(&calls);
    assert_eq!(replies[..half], replies[half + 1..]);
    let names: BTreeSet<&str> = calls.iter().map(Call::name).collect();
    assert_eq!(names, BTreeSet::from(NAMES));
}

/// Where the fixed calls put ids and what they leave of last-heard and intervals.
#[test]
fn the_fixed_calls_leave_records() {
    let calls = fixed::all();
    let replies = replies(&calls);
    let opened = &replies[4].record.state;
    assert_eq!(
        (opened.client_to_server, opened.server_to_client),
        (2_000, 0)
    );
    let heard: Vec<u32> = replies[17..29]
        .iter()
        .map(|reply| reply.record.state.last_heard)
        .collect();
    let expected = [100, 200, 300, 400, 500, 500, 500, 500, 500, 100, 900, 900];
    assert_eq!(heard, expected);
    let full = replies[35].record.subscriptions.clone();
    assert_eq!(full.octets[2 * 32..2 * 32 + 2], *b"s9");
    assert_eq!(full.octets[8 * 32..8 * 32 + 2], *b"s3");
    assert_eq!(
        full.lengths,
        [2, 2, 2, 2, 2, 2, 2, 2, 2, 3, 3, 3, 3, 3, 3, 32]
    );
    let transactions = replies[54]
        .record
        .session()
        .expect("a valid record")
        .transactions;
    let ids: Vec<u8> = transactions.into_iter().flatten().flatten().collect();
    assert_eq!(ids, b"aebd");
}

/// In the lives every command meets every phase, and every refusal comes up.
#[test]
fn lives_have_every_refusal() {
    let mut random = Random::new(13);
    let (mut met, mut numbers) = (BTreeSet::new(), BTreeSet::new());
    let mut recordings = BTreeSet::new();
    for _ in 0..3_000 {
        let life = life(&mut random);
        let (sends, wants) = life.offers.unwrap_or((0, 0));
        let replay = replay(&life.stream, sends, wants, life.log);
        let mut phase = "fresh";
        for step in &replay.expect("offers that are allowed").steps {
            let answer = match step.said {
                Said::Answer(answer) => answer,
                Said::Recorded(recorded) => {
                    recordings.insert((phase, recorded.err()));
                    continue;
                }
            };
            met.insert((phase, step.command.map(|command| command.0)));
            numbers.extend(answer.err());
            phase = match answer {
                Err(_) => "closed",
                Ok(_) if step.opened.is_some() => "open",
                Ok(_) if step.command.is_some_and(|command| command.0 == 7) => "closed",
                Ok(_) => phase,
            };
        }
    }
    assert_eq!(met.len(), 3 * (COMMANDS.len() + 1));
    assert_eq!(numbers.into_iter().collect::<Vec<usize>>(), NUMBERS);
    let unopened = ["closed", "fresh"].map(|phase| (phase, Some(63)));
    let mut expected = BTreeSet::from(unopened);
    expected.extend([None, Some(61), Some(62), Some(64)].map(|number| ("open", number)));
    assert_eq!(recordings, expected);
    assert_eq!(RECORDING, [61, 62, 63, 64]);
}
