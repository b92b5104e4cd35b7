//! Tests of versions, heart-beat numbers, intervals and the clock: values are put together instead of
//! taken apart.

use super::product;
use crate::random::Random;
use crate::session::opening::{
    accept_version, heart_beat, highest, interval, passed, shared, Flags, NO_VERSION, ONLY_1_2,
    VERSIONS,
};
use std::collections::HashSet;

/// All rows of so many of these octets.
fn rows(octets: &[u8], length: usize) -> Vec<Vec<u8>> {
    let single: Vec<Vec<u8>> = octets.iter().map(|&octet| vec![octet]).collect();
    (0..length).fold(vec![Vec::new()], |rows, _| product(&rows, &single))
}

/// All values of so many octets: items, each of digits, a point and digits, joined by commas.
fn versions(length: usize) -> Vec<Vec<u8>> {
    let mut all = items(length);
    for first in 3..length {
        let fronts = product(&items(first), &[b",".to_vec()]);
        all.extend(product(&fronts, &versions(length - first - 1)));
    }
    all
}

fn items(length: usize) -> Vec<Vec<u8>> {
    let mut all = Vec::new();
    for front in 1..length.saturating_sub(1) {
        let fronts = product(&rows(b"012", front), &[b".".to_vec()]);
        all.extend(product(&fronts, &rows(b"012", length - front - 1)));
    }
    all
}

#[test]
fn versions_are_items_joined_by_commas() {
    for length in 0..=7 {
        let made: HashSet<Vec<u8>> = versions(length).into_iter().collect();
        for row in rows(b"012.,", length) {
            let flags = accept_version(&row);
            assert_eq!(flags.is_some(), made.contains(&row), "{row:?}");
            if let Some(flags) = flags {
                let text = format!(",{},", String::from_utf8_lossy(&row));
                let named = VERSIONS.map(|version| text.contains(&format!(",{version},")));
                assert_eq!(flags, named, "{text}");
            }
        }
    }
}

#[test]
fn versions_of_the_readings() {
    for value in [
        "", "1.2,", "1.", ".2", "1.2.3", " 1.2", "1.2 ", "1.2, 1.1", "1.x", "1.2\n",
    ] {
        assert_eq!(accept_version(value.as_bytes()), None, "{value}");
    }
    for value in ["01.2", "1.20", "2.1", "10.0"] {
        assert_eq!(
            accept_version(value.as_bytes()),
            Some(NO_VERSION),
            "{value}"
        );
    }
    let all = "1.1,".repeat(10_000) + "1.2,1.0";
    assert_eq!(accept_version(all.as_bytes()), Some([true; 3]));
    let digits = "7".repeat(30_000);
    let value = format!("{digits}.{digits},1.2");
    assert_eq!(accept_version(value.as_bytes()), Some(ONLY_1_2));
}

#[test]
fn the_highest_version_shared_is_chosen() {
    let all: Vec<Flags> = (0..8)
        .map(|bits| [0, 1, 2].map(|place| bits >> place & 1 == 1))
        .collect();
    for &offered in &all {
        for &accepted in &all {
            let both = shared(offered, accepted);
            let has = |place: &usize| offered[*place] && accepted[*place];
            assert_eq!(
                (0..3).filter(|place| both[*place]).count(),
                (0..3).filter(has).count()
            );
            let last = (0..3).filter(has).last();
            assert_eq!(highest(both), last.map(|place| VERSIONS[place]));
        }
    }
    assert_eq!(highest(NO_VERSION), None);
}

#[test]
fn heart_beats_are_two_numbers_with_a_comma() {
    for length in 0..=6 {
        let mut made = HashSet::new();
        for first in 1..length.max(1) {
            let fronts = product(&rows(b"05", first), &[b",".to_vec()]);
            if first + 1 < length {
                made.extend(product(&fronts, &rows(b"05", length - first - 1)));
            }
        }
        for row in rows(b"05,+ ", length) {
            assert_eq!(heart_beat(&row).is_some(), made.contains(&row), "{row:?}");
        }
    }
    for value in ["", ",", "5", "5,", ",5", "1,2,3", "-1,0", "1,2\0", "1.0,2"] {
        assert_eq!(heart_beat(value.as_bytes()), None, "{value}");
    }
}

#[test]
fn heart_beat_numbers_have_a_limit() {
    let numbers: [u128; 10] = [
        0,
        1,
        3_599_999,
        3_600_000,
        3_600_001,
        10_000_000,
        1 << 32,
        (1 << 32) + 1,
        1 << 64,
        (1 << 64) + 3_600_000,
    ];
    for number in numbers {
        for zeros in [0, 1, 3, 40, 60_000] {
            let digits = format!("{}{number}", "0".repeat(zeros));
            let right = (number <= 3_600_000).then_some(number as u32);
            let first = heart_beat(format!("{digits},7").as_bytes());
            assert_eq!(first, right.map(|number| (number, 7)));
            let second = heart_beat(format!("0007,{digits}").as_bytes());
            assert_eq!(second, right.map(|number| (7, number)));
        }
    }
    let long = "9".repeat(30_000) + ",0";
    assert_eq!(heart_beat(long.as_bytes()), None);
}

/// "Offers 1000,0 and 500,2000 give 2000 and 0."
#[test]
fn intervals() {
    assert_eq!((interval(1_000, 2_000), interval(500, 0)), (2_000, 0));
    let numbers = [0, 1, 2, 1_000, 3_600_000];
    for sends in numbers {
        for wants in numbers {
            let larger = numbers
                .iter()
                .filter(|&&number| number >= sends && number >= wants);
            let expected = match sends * wants.min(1) {
                0 => 0,
                _ => *larger.min().expect("one of both"),
            };
            assert_eq!(interval(sends, wants), expected);
        }
    }
}

/// "Then 4,294,967,290, now 10: 16 passed."
#[test]
fn the_clock_rolls_over() {
    assert_eq!(passed(4_294_967_290, 10), 16);
    let mut random = Random::new(6);
    for _ in 0..10_000 {
        let then = random.below(1 << 32) as u32;
        let later = random.below(1 << 32);
        let now = (u64::from(then) + later as u64) as u32;
        assert_eq!(passed(then, now), later as u64);
    }
}
