//! Random calls of the matcher: names that a pattern matches, nearly matches and does not match, and
//! malformed names and patterns.

use crate::random::Random;
use crate::reader::Reader;
use crate::topic::{answer, MAX_OCTETS, MAX_WORDS};

/// No slice of a call is longer.
const MAX_SLICE: usize = 65_536;

#[derive(Clone, PartialEq, Eq, Debug)]
pub struct Call {
    pub name: Vec<u8>,
    pub pattern: Vec<u8>,
}

impl Call {
    /// As the program reads it: both lengths in four octets, high first, then both.
    pub fn octets(&self) -> Vec<u8> {
        let length = |row: &[u8]| (row.len() as u32).to_be_bytes();
        [
            &length(&self.name)[..],
            &length(&self.pattern),
            &self.name,
            &self.pattern,
        ]
        .concat()
    }

    /// As the program writes it: the answer in decimal, and LF.
    pub fn reply(&self) -> Vec<u8> {
        let answer = answer(&self.name, &self.pattern).packed();
        format!("{answer}\n").into_bytes()
    }
}

/// All calls of the octets. None where the last is cut off.
pub fn read(octets: &[u8]) -> Option<Vec<Call>> {
    let mut reader = Reader(octets);
    let mut calls = Vec::new();
    while !reader.0.is_empty() {
        let name = reader.number()? as usize;
        let pattern = reader.number()? as usize;
        calls.push(Call {
            name: reader.octets(name.min(MAX_SLICE))?.to_vec(),
            pattern: reader.octets(pattern.min(MAX_SLICE))?.to_vec(),
        });
    }
    Some(calls)
}

/// One random call.
pub fn call(random: &mut Random) -> Call {
    let pattern = pattern(random);
    let mut name = name_for(random, &pattern);
    if random.once_in(3) {
        change(random, &mut name);
    }
    let mut pattern = pattern;
    if random.once_in(8) {
        change(random, &mut pattern);
    }
    Call {
        name: text(random, name),
        pattern: text(random, pattern),
    }
}

/// Words of a pattern: few or as many as may be, and one more or less.
pub fn pattern(random: &mut Random) -> Vec<Vec<u8>> {
    let count = match random.below(10) {
        0 => random.between(MAX_WORDS - 1, MAX_WORDS + 1),
        1 => random.between(6, 20),
        _ => random.between(1, 5),
    };
    let with_hash = random.once_in(2);
    (0..count)
        .map(|_| match random.below(8) {
            0 | 1 => b"*".to_vec(),
            2 | 3 if with_hash => b"#".to_vec(),
            _ => word(random),
        })
        .collect()
}

/// A name that the pattern matches, if it is not too long.
pub fn name_for(random: &mut Random, pattern: &[Vec<u8>]) -> Vec<Vec<u8>> {
    let mut name = Vec::new();
    for own in pattern {
        match &own[..] {
            b"#" => {
                let more = if random.once_in(10) { 12 } else { 2 };
                for _ in 0..random.between(0, more) {
                    name.push(word(random));
                }
            }
            b"*" => name.push(word(random)),
            _ => name.push(own.clone()),
        }
    }
    name
}

/// A word: short ones of few letters, so that they are often alike, ones with `*` and `#` inside, ones of
/// any octets but the point, and long ones.
fn word(random: &mut Random) -> Vec<u8> {
    match random.below(12) {
        0 => random
            .pick(&[&b"a*"[..], b"*a", b"**", b"##", b"a#", b"#*", b"*", b"#"])
            .to_vec(),
        1 => {
            let any = |random: &mut Random| loop {
                let octet = random.below(256) as u8;
                if octet != b'.' {
                    return octet;
                }
            };
            (0..random.between(1, 4)).map(|_| any(random)).collect()
        }
        2 if random.once_in(6) => vec![b'a'; random.between(60, MAX_OCTETS)],
        _ => (0..random.between(1, 2))
            .map(|_| random.pick(b"ab"))
            .collect(),
    }
}

/// A word more, less or other, or an empty one.
fn change(random: &mut Random, words: &mut Vec<Vec<u8>>) {
    let place = random.below(words.len() + 1);
    match random.below(8) {
        0 => words.insert(place, Vec::new()),
        1 | 2 => {
            let more = word(random);
            words.insert(place, more);
        }
        3 | 4 if place < words.len() => {
            words.remove(place);
        }
        5 if words.len() > 1 => {
            let last = words.len() - 1;
            words.swap(place.min(last), 0);
        }
        _ if place < words.len() => words[place] = word(random),
        _ => words.push(b"*".to_vec()),
    }
}

/// The words, joined; at times with a last word that makes it about as long as may be.
fn text(random: &mut Random, words: Vec<Vec<u8>>) -> Vec<u8> {
    let mut text = words.join(&b'.');
    if random.once_in(20) {
        let length = random.pick(&[MAX_OCTETS - 1, MAX_OCTETS, MAX_OCTETS + 1, 1_000]);
        while text.len() < length {
            text.push(b'b');
        }
    }
    text
}
