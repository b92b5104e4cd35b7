//! Document 01, "Opening a connection": versions, heart-beat numbers, intervals and the clock.

use crate::item::decimal;

/// A yes or no for each of the versions 1.0, 1.1 and 1.2.
pub type Flags = [bool; 3];

pub const VERSIONS: [&str; 3] = ["1.0", "1.1", "1.2"];

pub const NO_VERSION: Flags = [false; 3];
pub const ONLY_1_1: Flags = [false, true, false];
pub const ONLY_1_2: Flags = [false, false, true];
pub const BOTH: Flags = [false, true, true];

/// All that may be offered.
pub const OFFERS: [Flags; 3] = [ONLY_1_1, ONLY_1_2, BOTH];

/// The largest number of an offer, in milliseconds, and so the largest interval.
pub const MAX_INTERVAL: u32 = 3_600_000;

/// What the clock counts up to before it rolls over.
const ROLL_OVER: u64 = 1 << 32;

/// The versions that an accept-version value names, if it is well formed: "items of digits, a point,
/// digits (no part empty), joined by commas. An item counts only if it is exactly 1.0, 1.1 or 1.2".
pub fn accept_version(value: &[u8]) -> Option<Flags> {
    let items: Vec<&[u8]> = value.split(|&octet| octet == b',').collect();
    let well_formed = items.iter().all(|item| is_version(item));
    well_formed.then(|| VERSIONS.map(|version| items.contains(&version.as_bytes())))
}

fn is_version(item: &[u8]) -> bool {
    let parts: Vec<&[u8]> = item.split(|&octet| octet == b'.').collect();
    let is_number = |part: &&[u8]| !part.is_empty() && part.iter().all(u8::is_ascii_digit);
    parts.len() == 2 && parts.iter().all(is_number)
}

/// What making a session refuses, document 02, C-18: "34 where 1.0 is marked, or neither 1.1 nor 1.2".
pub fn is_offer(flags: Flags) -> bool {
    let [first, second, third] = flags;
    !first && (second || third)
}

/// Whether all versions of the one are among those of the other.
pub fn are_among(flags: Flags, others: Flags) -> bool {
    shared(flags, others) == flags
}

/// "The versions both sides have".
pub fn shared(offered: Flags, accepted: Flags) -> Flags {
    [0, 1, 2].map(|index| offered[index] && accepted[index])
}

/// The highest of the versions.
pub fn highest(flags: Flags) -> Option<&'static str> {
    let index = flags.iter().rposition(|&flag| flag)?;
    Some(VERSIONS[index])
}

/// A heart-beat value: "two numbers, digits only, a comma between, each at most 3,600,000".
pub fn heart_beat(value: &[u8]) -> Option<(u32, u32)> {
    let parts: Vec<&[u8]> = value.split(|&octet| octet == b',').collect();
    match parts[..] {
        [first, second] => Some((number(first)?, number(second)?)),
        _ => None,
    }
}

fn number(digits: &[u8]) -> Option<u32> {
    let number = decimal(digits, MAX_INTERVAL as usize)?;
    Some(number as u32)
}

/// The interval of one direction, of the number of the side that sends and of the side that receives:
/// "0 if the client's first or the server's second is 0, else the larger".
pub fn interval(sends: u32, wants: u32) -> u32 {
    if sends == 0 || wants == 0 {
        0
    } else {
        sends.max(wants)
    }
}

/// "Time passed is now minus then, modulo 2^32."
pub fn passed(then: u32, now: u32) -> u64 {
    (ROLL_OVER + u64::from(now) - u64::from(then)) % ROLL_OVER
}
