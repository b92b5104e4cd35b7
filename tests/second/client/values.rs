//! Random values of headers.

use crate::random::Random;
use crate::session::opening::{accept_version, shared, Flags, NO_VERSION};
use crate::session::MAX_ID;
use crate::streams::characters::any_character;

/// Octets that a rule speaks of, and some that none does.
const OCTETS: &[u8] = b"\0\n\r:\\\\ac019 ,.\xffAB";

/// Octets that have no escape.
const PLAIN: &[u8] = b"abcn019 ,.\0\xff";

/// Octets of versions and heart-beat numbers, and one that is next to them.
const DIGITS: &[u8] = b"0112..,,/";

/// Lengths over the limit of an id; some have the last octet of a length within it.
const LONG: [usize; 8] = [33, 33, 34, 64, 255, 256, 257, 288];

pub fn octets(random: &mut Random, choices: &[u8], length: usize) -> Vec<u8> {
    (0..length).map(|_| random.pick(choices)).collect()
}

/// A short text, perhaps empty.
pub fn text(random: &mut Random) -> Vec<u8> {
    let length = random.between(0, 6);
    with_character(random, length)
}

/// Octets of any kind, at times with a character of several octets among them.
fn with_character(random: &mut Random, length: usize) -> Vec<u8> {
    let mut text = octets(random, OCTETS, length);
    if length > 1 && random.once_in(4) {
        let character = any_character(random, length);
        let place = random.between(0, length - character.len());
        text[place..place + character.len()].copy_from_slice(&character);
    }
    text
}

/// An id of a length that is allowed.
pub fn id(random: &mut Random) -> Vec<u8> {
    let any = random.between(1, MAX_ID);
    let length = random.pick(&[1, 1, 2, 2, any, MAX_ID - 1, MAX_ID, MAX_ID]);
    with_character(random, length)
}

/// An id that is almost this one: an octet more or less, another, one of other case, or a 0 behind.
pub fn near_id(random: &mut Random, id: &[u8]) -> Vec<u8> {
    let mut near = id.to_vec();
    let place = random.below(near.len());
    let last = near.len() - 1;
    match random.below(6) {
        0 if last > 0 => drop(near.pop()),
        1 if last > 0 => drop(near.remove(0)),
        2 if near.len() < MAX_ID => near.push(0),
        3 if near.len() < MAX_ID => near.push(random.pick(OCTETS)),
        4 => near[place] ^= random.pick(&[1, 32, 128]),
        _ => near[last] = near[last].wrapping_add(1),
    }
    near
}

/// An id that is empty or too long.
pub fn wrong_id(random: &mut Random) -> Vec<u8> {
    if random.once_in(3) {
        return Vec::new();
    }
    let length = random.pick(&LONG);
    octets(random, PLAIN, length)
}

/// A known ack mode.
pub fn mode(random: &mut Random) -> &'static [u8] {
    random.pick(&[
        &b"auto"[..],
        b"client",
        b"client",
        b"client-individual",
        b"client-individual",
    ])
}

/// A value that is no ack mode.
pub fn unknown_mode(random: &mut Random) -> Vec<u8> {
    let values = [
        "",
        "Auto",
        "aut",
        "auto ",
        "autoo",
        "auto\0",
        "CLIENT",
        "clien",
        " client",
        "client\0",
        "client-",
        "client_individual",
        "client-individua",
        "client-individual ",
        "client-individually",
        "client-Individual",
        "individual",
        "none",
        "0",
    ];
    match random.below(8) {
        0 => octets(random, b"auoclient-", 4),
        1 => octets(random, b"client-", 6),
        _ => listed(random, &values),
    }
}

/// A label that comes again and again, so that settled ones do.
pub fn common_label(random: &mut Random) -> Vec<u8> {
    let number = random.below(80);
    match random.below(3) {
        0 => format!("m-{number}"),
        1 => format!("{number:032}"),
        _ => format!("ack:{number}"),
    }
    .into_bytes()
}

/// A value for a header of that name, right or wrong.
pub fn any_value(random: &mut Random, name: &[u8]) -> Vec<u8> {
    match name {
        b"accept-version" => any_versions(random),
        b"heart-beat" => any_heart_beat(random),
        b"ack" if random.once_in(2) => mode(random).to_vec(),
        b"ack" => unknown_mode(random),
        b"id" | b"transaction" | b"receipt" | b"subscription" | b"message-id"
            if random.once_in(3) =>
        {
            wrong_id(random)
        }
        b"id" | b"transaction" | b"subscription" | b"message-id" => id(random),
        _ => text(random),
    }
}

fn listed(random: &mut Random, values: &[&str]) -> Vec<u8> {
    random.pick(values).as_bytes().to_vec()
}

/// Versions with one of those offered among them; where none is, any.
pub fn versions(random: &mut Random, offered: Flags) -> Vec<u8> {
    loop {
        let value = well_formed_versions(random);
        if offered == NO_VERSION || shares(&value, offered) {
            return value;
        }
    }
}

/// Versions that are well formed, without one of those offered among them.
pub fn other_versions(random: &mut Random, offered: Flags) -> Vec<u8> {
    loop {
        let value = well_formed_versions(random);
        if !shares(&value, offered) {
            return value;
        }
    }
}

/// Whether the value names a version that is offered.
fn shares(value: &[u8], offered: Flags) -> bool {
    let named = accept_version(value).unwrap_or(NO_VERSION);
    shared(offered, named) != NO_VERSION
}

/// Versions that are well formed: with 1.1, with 1.2, with both and with none.
fn well_formed_versions(random: &mut Random) -> Vec<u8> {
    let values = [
        "1.2",
        "1.1",
        "1.0,1.1",
        "1.1,1.2",
        "1.0,1.1,1.2",
        "1.2,1.1,1.0",
        "1.2,1.2",
        "1.1,1.1,2.0",
        "01.2,1.2",
        "1.2,1.20,2.0",
        "1.1,1.2,1.1",
        "123456789012345678901234567890.0,1.2",
        "1.1,123456789012345678901234567890.0",
        "1.0",
        "1.0,2.0",
        "01.2",
        "01.1",
        "1.01",
        "1.20",
        "1.02",
        "11.2",
        "11.1",
        "1.22",
        "1.11",
        "2.1",
        "0.0",
        "1.3,1.1,001.2",
        "1.3,001.1,001.2",
        "4294967297.2",
        "4294967297.1",
    ];
    let item = random.pick(&["1.2", "1.1", "1.02", "1.10"]);
    match random.below(5) {
        0 => many_versions(random, item),
        _ => listed(random, &values),
    }
}

/// Many items, few or none of which are 1.1, none 1.2, and this one among them; a line can hold them.
fn many_versions(random: &mut Random, item: &str) -> Vec<u8> {
    let others = random.pick(&[
        ["1.0", "1.1", "2.0", "01.2"],
        ["1.0", "01.1", "2.0", "01.2"],
    ]);
    let mut items: Vec<&str> = Vec::new();
    for _ in 0..random.between(1, 95) {
        items.push(random.pick(&others));
    }
    let place = random.between(0, items.len());
    items.insert(place, item);
    items.join(",").into_bytes()
}

/// Versions that are malformed.
pub fn malformed_versions(random: &mut Random) -> Vec<u8> {
    let values = [
        "",
        "1.2,",
        ",1.2",
        "1.",
        ".2",
        ".",
        ",",
        "1",
        "12",
        "1.2.3",
        "1..2",
        "1.2,,1.1",
        "1,2",
        "1.2 ",
        " 1.2",
        "1.2, 1.1",
        "1.2;1.1",
        "+1.2",
        "1.-2",
        "1.x",
        "1.2\0",
        "1.2\n",
        "1.2,1:2",
        "/.0",
        "v1.2",
        "1.2,1.1,.",
    ];
    listed(random, &values)
}

/// Versions of any kind.
pub fn any_versions(random: &mut Random) -> Vec<u8> {
    match random.below(4) {
        0 | 1 => well_formed_versions(random),
        2 => malformed_versions(random),
        _ => {
            let length = random.between(1, 9);
            octets(random, DIGITS, length)
        }
    }
}

/// A number of a heart-beat value, perhaps with leading zeros.
fn beat_number(random: &mut Random) -> String {
    let any = random.below(3_600_001);
    let numbers = [0, 0, 1, 500, 999, 1_000, 1_001, 2_000, 3_600_000, any];
    let zeros = random.pick(&[0, 0, 0, 0, 1, 5, 200]);
    "0".repeat(zeros) + &random.pick(&numbers).to_string()
}

/// A heart-beat value that is right.
pub fn heart_beat(random: &mut Random) -> Vec<u8> {
    let (first, second) = (beat_number(random), beat_number(random));
    format!("{first},{second}").into_bytes()
}

/// A heart-beat value that is wrong: no two numbers, or one that is too large, at times in a way that
/// it is small where it is summed up in so many bits.
pub fn wrong_heart_beat(random: &mut Random) -> Vec<u8> {
    let values = [
        "",
        ",",
        "5",
        "5,",
        ",5",
        "1,2,3",
        "1,2,",
        ",1,2",
        "+1,2",
        "1,-2",
        " 1,2",
        "1, 2",
        "1,2 ",
        "1;2",
        "1.5,2",
        "0x1,2",
        "/,9",
        "9,:",
        "1,2\0",
        "a,b",
        "3600001,0",
        "0,3600001",
        "03600001,0",
        "36000000,0",
        "9999999,1",
        "0,10000000",
    ];
    let bits = random.pick(&[8, 16, 32, 64]);
    let large = match random.below(8) {
        0 => (3_600_000 + (1_u128 << bits)).to_string(),
        1 => ((1_u128 << bits) * 3_600_000).to_string(),
        2 => "9".repeat(random.between(8, 280)),
        _ => return listed(random, &values),
    };
    let small = beat_number(random);
    let pair = random.pick(&[[&large, &small], [&small, &large]]);
    pair.map(String::as_str).join(",").into_bytes()
}

fn any_heart_beat(random: &mut Random) -> Vec<u8> {
    match random.below(5) {
        0 | 1 => heart_beat(random),
        2 | 3 => wrong_heart_beat(random),
        _ => {
            let length = random.between(1, 7);
            octets(random, DIGITS, length)
        }
    }
}
