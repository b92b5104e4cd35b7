//! Characters of more than one octet, and what is none: cut ones, such as are longer than they have to be,
//! surrogates, numbers that are too large, tails without a first octet.

use super::{Stream, TELLING};
use crate::characters::octets_of;
use crate::random::Random;

/// The octets of a character, at most.
pub const MOST: usize = 4;

/// A character of so many octets, from 2 on; often one beside those that have fewer or more octets, or are no
/// characters. U+FEFF, U+FFFE and U+FFFF are characters too.
pub fn character(random: &mut Random, octets: usize) -> Vec<u8> {
    let (first, last, telling): (u32, u32, &[u32]) = match octets {
        2 => (0x80, 0x7ff, &[0xe9, 0x85]),
        3 => (
            0x800,
            0xffff,
            &[0xfff, 0x1000, 0xd7ff, 0xe000, 0xfeff, 0xfffe],
        ),
        _ => (
            0x1_0000,
            0x10_ffff,
            &[0x1_f600, 0x3_ffff, 0x4_0000, 0xf_ffff, 0x10_0000],
        ),
    };
    let any = random.between(first as usize, last as usize) as u32;
    let number = match random.below(6) {
        0 => first,
        1 => last,
        2 => random.pick(telling),
        _ => any,
    };
    octets_of(number).unwrap_or_else(|| character(random, octets))
}

/// A character of 2 octets up to so many.
pub fn any_character(random: &mut Random, most: usize) -> Vec<u8> {
    let octets = random.between(2, most.min(MOST));
    character(random, octets)
}

/// What no text has: the last ones only where no tail follows them.
const BROKEN: [&[u8]; 34] = [
    b"\x80",
    b"\xbf",
    b"\xc0\x80",
    b"\xc1\xbf",
    b"\xc0\xaf",
    b"\xe0\x80\x80",
    b"\xe0\x9f\xbf",
    b"\xf0\x80\x80\x80",
    b"\xf0\x8f\xbf\xbf",
    b"\xed\xa0\x80",
    b"\xed\xad\xbf\xed\xb0\x80",
    b"\xed\xbf\xbf",
    b"\xf4\x90\x80\x80",
    b"\xf4\xbf\xbf\xbf",
    b"\xf5\x80\x80\x80",
    b"\xf7\xbf\xbf\xbf",
    b"\xf8\x88\x80\x80\x80",
    b"\xfc\x84\x80\x80\x80\x80",
    b"\xfe",
    b"\xff",
    b"\xff\xfe",
    b"\xc3\xc3\xa9",
    b"\xe2\x82\xe2\x82\xac",
    b"\xc2\xc0",
    b"\xe1\x7f\x80",
    b"\xe1\x80\xc0",
    b"\xf1\x80\x80\x7f",
    b"\xc3\xa9\xa9",
    b"\xc3",
    b"\xe2",
    b"\xe2\x82",
    b"\xf0",
    b"\xf0\x90",
    b"\xf0\x90\x8d",
];

/// One of those, or a character that is cut, or has one octet altered: to a tail, a first octet, a colon, a
/// backslash, a line end.
pub fn broken(random: &mut Random) -> Vec<u8> {
    let mut octets = any_character(random, MOST);
    match random.below(4) {
        0 => {
            let length = random.between(1, octets.len() - 1);
            octets.truncate(length);
        }
        1 => {
            let place = random.below(octets.len());
            octets[place] = random.pick(TELLING);
        }
        _ => octets = random.pick(&BROKEN).to_vec(),
    }
    octets
}

/// A character, or what is none.
pub fn of_either_kind(random: &mut Random) -> Vec<u8> {
    if random.once_in(2) {
        any_character(random, MOST)
    } else {
        broken(random)
    }
}

/// An octet that matters, or a character, or what is none.
pub fn put_telling(random: &mut Random, stream: &mut Stream) {
    if random.once_in(6) {
        stream.extend(of_either_kind(random));
    } else {
        stream.push(random.pick(TELLING));
    }
}
