//! Tests of session records: the rule of 38 is read from the octets, and a valid record is the one of
//! its session.

use crate::random::Random;
use crate::reader::Reader;
use crate::session::opening::{BOTH, OFFERS, ONLY_1_1, ONLY_1_2};
use crate::session::record::{make, Record, LENGTH};
use crate::session_calls::records::{put, record, valid};
use std::collections::BTreeSet;

/// The number of four octets.
fn number(octets: &[u8]) -> u64 {
    octets
        .iter()
        .fold(0, |sum, &octet| sum * 256 + u64::from(octet))
}

/// Whether the octets of a record break a rule of 38, each octet looked at in its place.
fn is_invalid(octets: &[u8]) -> bool {
    let numbers = [1, 5, 15, 19].map(|start| number(&octets[start..start + 4]));
    octets[0] > 2
        || numbers.iter().any(|&number| number > 3_600_000)
        || (octets[0] != 2 && (octets[9] != 0 || octets[10] + octets[11] == 0))
        || (octets[0] == 1 && flags_are_invalid(&octets[9..12], &octets[12..15]))
        || store_is_invalid(&octets[27..539], &octets[539..555])
        || store_is_invalid(&octets[555..683], &octets[683..687])
        || store_is_invalid(&octets[687..2735], &octets[2735..2799])
        || deliveries_are_invalid(octets)
}

/// C-18's rule for an open session: "shared marks are none, or not all among those it offers".
fn flags_are_invalid(offered: &[u8], shared: &[u8]) -> bool {
    let mut both = offered.iter().zip(shared);
    shared == [0, 0, 0] || both.any(|(offered, shared)| offered < shared)
}

/// C-15's rule, besides what is asked of any store: each delivery is looked at by its number.
fn deliveries_are_invalid(octets: &[u8]) -> bool {
    let (lengths, modes, count) = (&octets[539..555], &octets[2863..2879], octets[2879]);
    let is_live =
        |place: usize| place < 16 && lengths[place] != 0 && [1, 2].contains(&modes[place]);
    let delivery = |number: usize| (octets[2735 + number], usize::from(octets[2799 + number]));
    let fits = |number: usize| match delivery(number) {
        (length, place) if number < usize::from(count) => length != 0 && is_live(place),
        pair => pair == (0, 0),
    };
    let mode_fits = |place: usize| modes[place] == 0 || (modes[place] < 3 && lengths[place] != 0);
    let most = if octets[0] == 1 { 64 } else { 0 };
    count > most || !(0..64).all(fits) || !(0..16).all(mode_fits)
}

fn store_is_invalid(octets: &[u8], lengths: &[u8]) -> bool {
    let unused = |at: usize| at % 32 >= usize::from(lengths[at / 32]);
    let equal = |a: usize, b: usize| {
        lengths[a] != 0
            && lengths[a] == lengths[b]
            && octets[a * 32..a * 32 + 32] == octets[b * 32..b * 32 + 32]
    };
    lengths.iter().any(|&length| length > 32)
        || (0..octets.len()).any(|at| unused(at) && octets[at] != 0)
        || (0..lengths.len()).any(|a| (0..a).any(|b| equal(a, b)))
}

#[test]
fn invalid_records_are_those_of_38() {
    let mut random = Random::new(7);
    let mut counts = [0; 2];
    for _ in 0..20_000 {
        let record = record(&mut random);
        let invalid = record.session().is_none();
        assert_eq!(invalid, is_invalid(&record.octets()), "{record:?}");
        counts[usize::from(invalid)] += 1;
        let mut changed = record.clone();
        if invalid {
            assert_eq!(changed.frame(0, b"", 7), Err(38));
            assert_eq!(changed.frame(12, b"", 7), Err(38));
            assert_eq!(changed.heart_beat(7), Err(38));
            assert_eq!(changed.timed_out(7), Err(38));
            assert_eq!(changed.deliver(b"", b""), Err(38));
            assert_eq!(changed.pending(0), Err(38));
            assert_eq!(changed, record);
        }
    }
    assert!(counts[0] > 5_000 && counts[1] > 3_000, "{:?}", counts);
}

#[test]
fn records_are_read_as_written() {
    let mut random = Random::new(8);
    for _ in 0..3_000 {
        let record = record(&mut random);
        let octets = record.octets();
        assert_eq!(octets.len(), 2_880);
        assert_eq!(LENGTH, 2_880);
        assert_eq!(Record::read(&mut Reader(&octets)), Some(record));
    }
}

#[test]
fn a_valid_record_is_that_of_its_session() {
    let mut random = Random::new(9);
    for _ in 0..3_000 {
        let record = valid(&mut random);
        let session = record.session().expect("a valid record");
        assert_eq!(Record::of(&session), record);
        assert_eq!(session.subscriptions.len(), 16);
        assert_eq!(session.transactions.len(), 4);
        assert_eq!(session.deliveries.len(), usize::from(record.count));
        assert_eq!(
            session.modes.keys().collect::<BTreeSet<_>>(),
            session.subscriptions.iter().flatten().collect()
        );
    }
}

/// The parts of a record, each with octets of its own.
#[test]
fn a_record_has_its_parts_in_order() {
    let (_, mut record) = make(0, 0, ONLY_1_2);
    put(&mut record.subscriptions, 15, b"s");
    put(&mut record.labels, 0, &[b'l'; 32]);
    put(&mut record.labels, 63, b"m");
    (record.owners[0], record.owners[63]) = (15, 14);
    (record.modes[0], record.modes[15]) = (2, 1);
    record.count = 64;
    let octets = record.octets();
    assert_eq!(octets[27 + 15 * 32], b's');
    assert_eq!(octets[539 + 15], 1);
    assert_eq!(octets[687..687 + 32], [b'l'; 32]);
    assert_eq!(octets[687 + 63 * 32], b'm');
    assert_eq!((octets[2735], octets[2735 + 63]), (32, 1));
    assert_eq!((octets[2799], octets[2799 + 63]), (15, 14));
    assert_eq!((octets[2863], octets[2863 + 15]), (2, 1));
    assert_eq!(octets[2879], 64);
}

/// "a fresh one holds 512 zero octets for the former, and 0 for its intervals and last-heard"
#[test]
fn a_fresh_session() {
    let (made, record) = make(0x0001_0203, 3_600_000, ONLY_1_2);
    assert_eq!(made, Ok(()));
    let octets = record.octets();
    assert_eq!(octets[..12], [0, 0, 1, 2, 3, 0, 54, 238, 128, 0, 0, 1]);
    assert!(octets[12..].iter().all(|&octet| octet == 0));
    assert_eq!(record.subscriptions.octets, [0; 512]);
}

/// "refused with 34 and gives a closed session whose other fields are 0"; "34 where 1.0 is marked, or neither 1.1
/// nor 1.2".
#[test]
fn making_is_refused() {
    let all: Vec<[bool; 3]> = (0..8)
        .map(|bits| [0, 1, 2].map(|place| bits >> place & 1 == 1))
        .collect();
    let refused = |flags: &&[bool; 3]| flags[0] || !(flags[1] || flags[2]);
    let other: Vec<[bool; 3]> = all.iter().filter(refused).copied().collect();
    assert_eq!(other.len(), 5);
    let mut calls: Vec<_> = other.iter().map(|flags| (0, 0, *flags)).collect();
    for flags in [ONLY_1_1, ONLY_1_2, BOTH] {
        assert!(OFFERS.contains(&flags) && !other.contains(&flags));
        assert_eq!(make(3_600_000, 3_600_000, flags).0, Ok(()));
        calls.push((3_600_001, 0, flags));
        calls.push((0, 3_600_001, flags));
    }
    calls.push((u32::MAX, u32::MAX, [true; 3]));
    for (sends, wants, offered) in calls {
        let (made, mut record) = make(sends, wants, offered);
        assert_eq!(made, Err(34));
        let octets = record.octets();
        assert_eq!(octets[0], 2);
        assert!(octets[1..].iter().all(|&octet| octet == 0));
        assert_eq!(record.frame(16, b"", 7), Err(39));
        assert_eq!(record.frame(12, b"", 7), Err(40));
        assert_eq!(record.timed_out(7), Ok(false));
    }
}

/// All flags offered and shared, in each phase.
#[test]
fn flags_of_38() {
    let all: Vec<[bool; 3]> = (0..8)
        .map(|bits| [0, 1, 2].map(|place| bits >> place & 1 == 1))
        .collect();
    let mut valid = [0; 3];
    for phase in 0..3 {
        for &offered in &all {
            for &shared in &all {
                let (_, mut record) = make(0, 0, ONLY_1_2);
                record.phase = phase;
                (record.state.offered, record.state.shared) = (offered, shared);
                let sound = record.session().is_some();
                assert_eq!(sound, !is_invalid(&record.octets()));
                valid[usize::from(phase)] += usize::from(sound);
            }
        }
    }
    // Fresh: three offers with any shared; open: of one version itself, of two any of both; closed: all.
    assert_eq!(valid, [3 * 8, 1 + 1 + 3, 8 * 8]);
}
