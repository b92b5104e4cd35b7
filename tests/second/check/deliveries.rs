//! Tests of deliveries, document 02, C-15, sentence by sentence.

use super::sessions::{fresh, open, tell, PLAIN};
use crate::block::{self, Entry};
use crate::client::command;
use crate::random::Random;
use crate::session::delivery::{Delivery, Mode};
use crate::session::opening::ONLY_1_2;
use crate::session::record::Record;
use crate::session::Phase;
use crate::session_calls::accounts::{self, Totals};
use crate::session_calls::records;
use crate::session_calls::sequence::Step;
use crate::session_calls::{first_record, Call, Reply, Way};

fn subscribe(record: &mut Record, id: &str, mode: &str) {
    let entries = [("destination", "/q"), ("id", id), ("ack", mode)];
    assert_eq!(tell(record, "SUBSCRIBE", &entries), PLAIN);
}

/// An open session with a subscription of each mode: `c`, `i` and `a`.
fn three() -> Record {
    let mut record = open();
    subscribe(&mut record, "c", "client");
    subscribe(&mut record, "i", "client-individual");
    subscribe(&mut record, "a", "auto");
    record
}

/// Records a delivery for each of these pairs.
fn deliver_all(record: &mut Record, pairs: &[(&str, &str)]) {
    for (id, label) in pairs {
        let recorded = record.deliver(id.as_bytes(), label.as_bytes());
        assert_eq!(recorded, Ok(()), "{id} {label}");
    }
}

/// The labels that are pending, oldest first.
fn labels(record: &Record) -> String {
    let session = record.session().expect("a valid record");
    let labels = session.deliveries.iter().map(|delivery| &delivery.label);
    let labels: Vec<_> = labels.map(|label| String::from_utf8_lossy(label)).collect();
    labels.join(" ")
}

/// "auto, client, client-individual; absent means auto"
#[test]
fn modes_are_those_of_the_ack_header() {
    let asked = |entries: &[(&str, &str)]| {
        let mut record = open();
        let needed = [("destination", "/q"), ("id", "s")];
        let answer = tell(&mut record, "SUBSCRIBE", &[&needed, entries].concat());
        answer.map(|_| record.modes[0])
    };
    assert_eq!(asked(&[]), Ok(0));
    assert_eq!(asked(&[("ack", "auto")]), Ok(0));
    assert_eq!(asked(&[("ack", "client")]), Ok(1));
    assert_eq!(asked(&[("ack", "client-individual")]), Ok(2));
    assert_eq!(asked(&[("ack", "client"), ("ack", "none")]), Ok(1));
    assert_eq!(asked(&[("ack", "none"), ("ack", "client")]), Err(49));
    assert_eq!(asked(&[("Ack", "client")]), Ok(0));
    for mode in [
        "", "Auto", "clients", "clien", "client ", "client\0", "client-", "0",
    ] {
        assert_eq!(asked(&[("ack", mode)]), Err(49), "{mode}");
    }
}

/// "49 unknown mode, after 47"
#[test]
fn an_unknown_mode_comes_last() {
    let mut record = open();
    let answer = |record: &Record, id: &str| {
        let entries = [("destination", ""), ("id", id), ("ack", "none")];
        tell(&mut record.clone(), "SUBSCRIBE", &entries)
    };
    for number in 0..15 {
        subscribe(&mut record, &format!("s{number}"), "client");
    }
    assert_eq!(answer(&record, ""), Err(44));
    assert_eq!(answer(&record, "s3"), Err(45));
    assert_eq!(answer(&record, "s15"), Err(49));
    subscribe(&mut record, "s15", "auto");
    assert_eq!(answer(&record, "s16"), Err(47));
}

/// "Recording a delivery, in order: 38; 63 session not open; 64 subscription not live; 62 label empty, too
/// long or equal to an outstanding one; 61 all 64 outstanding, never in auto"
#[test]
fn recording_is_refused_in_order() {
    let mut full = three();
    for number in 0..64 {
        let id: &[u8] = [&b"c"[..], b"i"][number % 2];
        assert_eq!(full.deliver(id, format!("m{number}").as_bytes()), Ok(()));
    }
    let deliver = |phase: u8, id: &[u8], label: &[u8]| {
        let mut record = if phase == 1 { full.clone() } else { three() };
        record.phase = phase;
        let before = record.clone();
        let recorded = record.deliver(id, label);
        assert_eq!(record, before);
        recorded
    };
    let long = [b'l'; 33];
    assert_eq!(deliver(3, b"x", b""), Err(38));
    assert_eq!(deliver(0, b"x", b""), Err(63));
    assert_eq!(deliver(2, b"c", b"new"), Err(63));
    for id in [&b""[..], b"x", b"c\0", &long] {
        assert_eq!(deliver(1, id, b""), Err(64));
    }
    for id in [b"c", b"i", b"a"] {
        for label in [&b""[..], &long, b"m0", b"m63"] {
            assert_eq!(deliver(1, id, label), Err(62));
        }
    }
    assert_eq!(deliver(1, b"c", b"new"), Err(61));
    assert_eq!(deliver(1, b"i", &long[..32]), Err(61));
    assert_eq!(deliver(1, b"a", b"new"), Ok(()));
    assert_eq!(fresh().deliver(b"c", b"m"), Err(63));
}

/// "Auto counts as acknowledged at once and takes no place."
#[test]
fn auto_takes_no_place() {
    let mut record = three();
    let before = record.clone();
    deliver_all(&mut record, &[("a", "m"), ("a", "m"), ("a", "n")]);
    assert_eq!(record, before);
    deliver_all(&mut record, &[("i", "m")]);
    assert_eq!(record.deliver(b"a", b"m"), Err(62));
    assert_eq!(tell(&mut record, "ACK", &[("id", "n")]), Err(60));
}

/// The deliveries that stay when this one is settled, looked at one by one.
fn left(all: &[Delivery], named: usize) -> Vec<Delivery> {
    let settled = |index: usize| {
        let same = all[index].subscription == all[named].subscription;
        let earlier = same && index < named && all[named].mode == Mode::Client;
        index == named || earlier
    };
    let kept = (0..all.len()).filter(|&index| !settled(index));
    kept.map(|index| all[index].clone()).collect()
}

/// "In client mode ACK or NACK settles the named delivery and all earlier outstanding ones of that
/// subscription; in client-individual only the named one."
#[test]
fn deliveries_are_settled() {
    let mut random = Random::new(16);
    let mut counts = [0; 3];
    for _ in 0..3_000 {
        let session = records::session(&mut random, Phase::Open);
        let Some(last) = session.deliveries.len().checked_sub(1) else {
            continue;
        };
        let named = random.between(0, last);
        let Delivery {
            subscription,
            label,
            ..
        } = &session.deliveries[named];
        let mut record = Record::of(&session);
        let entries = match session.state.shared {
            [_, _, true] => vec![Entry::new(b"id", label)],
            _ => vec![
                Entry::new(b"subscription", subscription),
                Entry::new(b"message-id", label),
            ],
        };
        let block = block::write(&entries);
        let name: &[u8] = random.pick(&[&b"ACK"[..], b"NACK"]);
        assert_eq!(record.frame(command(name).0 as u32, &block, 7), PLAIN);
        let after = record.session().expect("a valid record");
        assert_eq!(after.deliveries, left(&session.deliveries, named));
        counts[session.deliveries[named].mode as usize] += 1;
    }
    assert!(counts[1] > 300 && counts[2] > 300, "{:?}", counts);
}

#[test]
fn acks_and_nacks() {
    let pairs = [("c", "1"), ("i", "2"), ("c", "3"), ("i", "4"), ("c", "5")];
    let mut all = three();
    deliver_all(&mut all, &pairs);
    assert_eq!(labels(&all), "1 2 3 4 5");
    for name in ["ACK", "NACK"] {
        let after = |label| {
            let mut record = all.clone();
            assert_eq!(tell(&mut record, name, &[("id", label)]), PLAIN);
            labels(&record)
        };
        assert_eq!(after("1"), "2 3 4 5");
        assert_eq!(after("3"), "2 4 5");
        assert_eq!(after("5"), "2 4");
        assert_eq!(after("2"), "1 3 4 5");
        assert_eq!(after("4"), "1 2 3 5");
    }
}

/// "60 the id of ACK or NACK is no outstanding label, after 46"; a settled label can be used again.
#[test]
fn labels_that_are_not_pending() {
    let mut record = three();
    deliver_all(&mut record, &[("c", "1"), ("c", "2"), ("i", "3")]);
    assert_eq!(tell(&mut record, "ACK", &[("id", "2")]), PLAIN);
    let long = "1".repeat(33);
    for label in ["1", "2", "", &long, "3\0", "c", "4"] {
        let mut closed = record.clone();
        assert_eq!(tell(&mut closed, "NACK", &[("id", label)]), Err(60));
        assert_eq!((closed.phase, closed.count), (2, 0));
        assert_eq!(closed.modes, record.modes);
        let carrying = [("id", label), ("transaction", "t")];
        assert_eq!(tell(&mut record.clone(), "ACK", &carrying), Err(46));
        let carrying = [("id", label), ("transaction", "")];
        assert_eq!(tell(&mut record.clone(), "ACK", &carrying), Err(44));
    }
    deliver_all(&mut record, &[("i", "1")]);
    assert_eq!(labels(&record), "3 1");
}

/// "ACK and NACK count when they come, whatever ABORT does later."
#[test]
fn an_aborted_ack_counts() {
    let mut record = three();
    deliver_all(&mut record, &[("c", "1"), ("c", "2")]);
    let tx = ("transaction", "t");
    assert_eq!(tell(&mut record, "BEGIN", &[tx]), PLAIN);
    assert_eq!(tell(&mut record, "ACK", &[("id", "1"), tx]), PLAIN);
    assert_eq!(tell(&mut record, "ABORT", &[tx]), PLAIN);
    assert_eq!(labels(&record), "2");
}

/// "dropped at UNSUBSCRIBE or close"; "Any close now empties these places."
#[test]
fn deliveries_are_dropped() {
    let mut all = three();
    deliver_all(&mut all, &[("c", "1"), ("i", "2"), ("c", "3"), ("i", "4")]);
    let mut record = all.clone();
    assert_eq!(tell(&mut record, "UNSUBSCRIBE", &[("id", "c")]), PLAIN);
    assert_eq!(labels(&record), "2 4");
    assert_eq!(record.modes[..3], [0, 2, 0]);
    subscribe(&mut record, "d", "client-individual");
    assert_eq!(labels(&record), "2 4");
    assert_eq!(record.pending(1).map(|found| found.is_some()), Ok(true));
    assert_eq!(record.pending(2), Ok(None));

    for (name, answer) in [
        ("DISCONNECT", PLAIN),
        ("MESSAGE", Err(41)),
        ("SEND", Err(43)),
    ] {
        let mut record = all.clone();
        assert_eq!(tell(&mut record, name, &[]), answer);
        let mut expected = three();
        expected.phase = 2;
        assert_eq!(record, expected, "{name}");
    }
}

/// A call in one way; it does not matter here.
fn frame(name: &[u8], entries: &[(&str, &str)]) -> Call {
    let entry = |(name, value): &(&str, &str)| Entry::new(name.as_bytes(), value.as_bytes());
    let entries: Vec<Entry> = entries.iter().map(entry).collect();
    Call::Frame {
        way: Way::InPlace,
        command: command(name).0 as u32,
        time: 7,
        block: block::write(&entries),
    }
}

fn deliver(id: &str, label: &str) -> Call {
    Call::Deliver {
        way: Way::ByValue,
        subscription: id.as_bytes().to_vec(),
        label: label.as_bytes().to_vec(),
    }
}

/// The calls with their replies.
fn steps(calls: Vec<Call>) -> Vec<Step> {
    let mut before = first_record();
    let mut steps = Vec::new();
    for call in calls {
        let reply = Reply::of(&before, &call);
        let next = reply.record.clone();
        steps.push(Step {
            call,
            before,
            reply,
        });
        before = next;
    }
    steps
}

/// Two sessions; what is pending is asked for where the next call would hide what the one before did.
fn life() -> Vec<Step> {
    let subscribe = |id, mode| {
        frame(
            b"SUBSCRIBE",
            &[("destination", ""), ("id", id), ("ack", mode)],
        )
    };
    let asked = || Call::Pending { index: 0 };
    steps(vec![
        Call::Make {
            sends: 0,
            wants: 0,
            offered: ONLY_1_2,
        },
        frame(b"CONNECT", &[("accept-version", "1.2"), ("host", "")]),
        subscribe("c", "client"),
        subscribe("i", "client-individual"),
        subscribe("a", "auto"),
        deliver("a", "0"),
        deliver("c", "1"),
        deliver("i", "2"),
        deliver("c", "3"),
        deliver("c", "3"),
        deliver("i", "4"),
        frame(b"ACK", &[("id", "3")]),
        frame(b"NACK", &[("id", "2")]),
        asked(),
        frame(b"UNSUBSCRIBE", &[("id", "i")]),
        deliver("c", "2"),
        deliver("c", "5"),
        frame(b"NACK", &[("id", "2")]),
        asked(),
        frame(b"SEND", &[]),
        asked(),
        Call::Make {
            sends: 0,
            wants: 0,
            offered: ONLY_1_2,
        },
        frame(b"CONNECT", &[("accept-version", "1.2"), ("host", "")]),
        subscribe("c", "client"),
        deliver("c", "1"),
        asked(),
    ])
}

/// "deliveries made equal those acknowledged, refused by NACK, dropped at UNSUBSCRIBE or close, and
/// outstanding, each counted from the history of calls"
#[test]
fn a_life_has_its_accounts() {
    let totals = Totals {
        lives: 3,
        made: 8,
        acknowledged: 3,
        refused: 2,
        dropped: 2,
        pending: 1,
    };
    assert_eq!(accounts::of(&life()), totals);
}

/// A history that lacks a step which changes what is pending tells of other deliveries than the session
/// holds.
#[test]
fn accounts_need_every_step() {
    let all = life();
    let changes = |step: &Step| step.before.count != step.reply.record.count;
    let changing: Vec<usize> = (0..all.len())
        .filter(|&index| changes(&all[index]))
        .collect();
    assert_eq!(changing.len(), 12);
    for index in changing {
        let lacking = std::panic::catch_unwind(|| {
            let mut steps = life();
            steps.remove(index);
            accounts::of(&steps)
        });
        assert!(lacking.is_err(), "{}", index);
    }
}
