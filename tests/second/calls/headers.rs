//! The entries of random calls: counts and lines about as many and as long as may be, entries that no
//! line can hold, those that are not UTF-8 among them, and what content-length says.

use crate::block::Entry;
use crate::item::{Command, BACKSLASH, COLON, CONTENT_LENGTH, CR, LF, MAX_LINE, MAX_LINES};
use crate::random::Random;
use crate::streams::characters::{any_character, broken, MOST};
use crate::streams::colons;
use crate::version::Version;

/// Octets that no command escapes.
const PLAIN: &[u8] = b"abcnr019- /;.\0\t";

/// The entries of a call whose body has this length.
pub fn entries(random: &mut Random, version: Version, command: Command, body: usize) -> Vec<Entry> {
    let few = [0, 1, 1, 2, 3, 4];
    let many = [MAX_LINES - 1, MAX_LINES, MAX_LINES, MAX_LINES + 1, 40];
    let count = if random.once_in(4) {
        random.pick(&many)
    } else {
        random.pick(&few)
    };
    let mut entries: Vec<Entry> = (0..count)
        .map(|_| entry(random, version, command))
        .collect();
    lengths(random, body, &mut entries);
    if random.once_in(6) && !entries.is_empty() {
        let index = random.below(entries.len());
        entries[index] = whole_line(random, version, command);
    }
    while random.once_in(5) && !entries.is_empty() {
        let index = random.below(entries.len());
        spoil(random, version, command, &mut entries[index]);
    }
    entries
}

/// An entry that a line can hold.
fn entry(random: &mut Random, version: Version, command: Command) -> Entry {
    let (name, value) = (random.between(1, 6), random.between(0, 8));
    let mut entry = Entry {
        name: text(random, version, command, name),
        value: text(random, version, command, value),
    };
    colons(random, command, &mut entry.value);
    entry
}

/// Text of that many octets, of any characters where the command escapes, else without 10, colon, and without
/// 13 where it ends lines.
fn text(random: &mut Random, version: Version, command: Command, length: usize) -> Vec<u8> {
    let mut text = Vec::new();
    while text.len() < length {
        let room = length - text.len();
        match random.below(8) {
            0 | 1 if command.escapes() && !random.once_in(4) => text.push(escaped(random, version)),
            0 | 1 => text.push(special(random, version, command)),
            2 if room > 1 => text.extend(any_character(random, room)),
            _ => text.push(random.pick(PLAIN)),
        }
    }
    text
}

/// An octet that has an escape.
fn escaped(random: &mut Random, version: Version) -> u8 {
    random.pick(version.escapes()).1
}

/// An octet that a rule speaks of, and that takes one raw octet: a backslash where there are no escapes, and 13
/// in 1.1; if there is none, a plain one.
fn special(random: &mut Random, version: Version, command: Command) -> u8 {
    let mut octets = Vec::new();
    octets.extend((!command.escapes()).then_some(BACKSLASH));
    octets.extend((!version.ends_line(CR)).then_some(CR));
    if octets.is_empty() {
        return random.pick(PLAIN);
    }
    random.pick(&octets)
}

/// An entry whose raw line has exactly 512 octets, or one less, or one more.
fn whole_line(random: &mut Random, version: Version, command: Command) -> Entry {
    let length = random.pick(&[MAX_LINE - 1, MAX_LINE, MAX_LINE, MAX_LINE + 1]);
    long_line(random, version, command, length)
}

/// An entry whose raw line has exactly that many octets, with few escapes or with many; where there
/// are none, with raw backslashes; in 1.1 with octets 13.
pub fn long_line(random: &mut Random, version: Version, command: Command, length: usize) -> Entry {
    let name = random.pick(&[1, 2, length / 2, length - 2, length - 1]);
    let plain = random.pick(&[1, 2, 100, 1_000]);
    let mut entry = Entry {
        name: raw_text(random, version, command, name, plain),
        value: raw_text(random, version, command, length - 1 - name, plain),
    };
    colons(random, command, &mut entry.value);
    entry
}

/// Text that takes exactly that many raw octets: an octet that has an escape takes two of them.
fn raw_text(
    random: &mut Random,
    version: Version,
    command: Command,
    length: usize,
    plain: usize,
) -> Vec<u8> {
    let mut text = Vec::new();
    let mut room = length;
    while room > 0 {
        let wanted = random.once_in(plain);
        if room > 1 && random.once_in(10) {
            let character = any_character(random, room);
            room -= character.len();
            text.extend(character);
        } else if wanted && command.escapes() && room > 1 && !random.once_in(4) {
            text.push(escaped(random, version));
            room -= 2;
        } else if wanted {
            text.push(special(random, version, command));
            room -= 1;
        } else {
            text.push(random.pick(PLAIN));
            room -= 1;
        }
    }
    text
}

/// Makes an entry one that no line can hold; or, with an octet that has an escape, one that the lines of
/// some commands can.
fn spoil(random: &mut Random, version: Version, command: Command, entry: &mut Entry) {
    match random.below(30) {
        0..=5 => entry.name.clear(),
        24..=28 => {
            let text = random.once_in(2);
            let text = if text {
                &mut entry.name
            } else {
                &mut entry.value
            };
            let place = random.between(0, text.len());
            let octets = broken(random);
            text.splice(place..place, octets);
        }
        29 => divide(random, entry),
        6..=17 => {
            let special = random.pick(&[LF, CR, COLON, COLON, BACKSLASH]);
            let text = random.once_in(2);
            let text = if text {
                &mut entry.name
            } else {
                &mut entry.value
            };
            let place = random.between(0, text.len());
            text.insert(place, special);
        }
        18..=21 => {
            let length = random.between(MAX_LINE + 1, MAX_LINE + 3);
            *entry = long_line(random, version, command, length);
        }
        22 => {
            let length = random.pick(&[600, 1_024, 4_095]);
            entry.value = vec![b'v'; length];
        }
        _ => *entry = longest(random),
    }
}

/// Puts a character half at the name's end and half at the value's start: each is asked by itself.
fn divide(random: &mut Random, entry: &mut Entry) {
    let character = any_character(random, MOST);
    let place = random.between(1, character.len() - 1);
    entry.name.extend(&character[..place]);
    let value = [&character[place..], &entry.value].concat();
    entry.value = value;
}

/// An entry of the lengths that only a block can hold; the longest are cut off with the slice.
fn longest(random: &mut Random) -> Entry {
    let long = random.pick(&[32_767, 32_768, 65_279, 65_530, 65_535]);
    let (name, value) = random.pick(&[(long, 0), (1, long), (0, long), (1, long - 1)]);
    Entry {
        name: vec![b'n'; name],
        value: vec![b':'; value],
    }
}

/// Puts entries named content-length, or almost so, in place of others, so that the count stays: none,
/// a right one, a wrong one, and two of them.
fn lengths(random: &mut Random, body: usize, entries: &mut Vec<Entry>) {
    let mut places: Vec<usize> = (0..2).map(|_| random.below(entries.len() + 1)).collect();
    places.sort_unstable();
    let (right, other) = (right(random, body), wrong(random, body));
    let kind = random.below(20);
    let chosen = match kind {
        0..=6 => vec![right],
        7..=9 => vec![right, other],
        10 => vec![other, right],
        11 | 12 => vec![other],
        13 => vec![Entry::new(almost(random), &other.value)],
        _ => Vec::new(),
    };
    for (place, entry) in places.into_iter().zip(chosen) {
        let taken = entries
            .get(place)
            .is_none_or(|there| there.name == CONTENT_LENGTH);
        if taken {
            entries.push(entry);
        } else {
            entries[place] = entry;
        }
    }
}

/// Names that are not content-length.
fn almost(random: &mut Random) -> &'static [u8] {
    let names: [&[u8]; 6] = [
        b"content-lengt",
        b"content-length ",
        b"content-length\0",
        b"ontent-length",
        b"Content-Length",
        b"content-lengtg",
    ];
    random.pick(&names)
}

/// The body's length, perhaps with leading zeros, up to a line of 512 octets and one more.
fn right(random: &mut Random, body: usize) -> Entry {
    let digits = body.to_string();
    let most = MAX_LINE - CONTENT_LENGTH.len() - 1 - digits.len();
    let zeros = match random.below(24) {
        0..=5 => random.between(1, 30),
        6 => most,
        7 => most + 1,
        _ => 0,
    };
    Entry::new(
        CONTENT_LENGTH,
        &[&vec![b'0'; zeros], digits.as_bytes()].concat(),
    )
}

/// Anything but the body's length: other numbers, such that agree with it in their lowest bits, and
/// what is no number.
fn wrong(random: &mut Random, body: usize) -> Entry {
    let number = body as u128;
    let bits = random.pick(&[8, 16, 32, 64]);
    let value = match random.below(14) {
        0 => (number + 1).to_string(),
        1 => (number * 10).to_string() + "1",
        2 => (number + (1 << bits)).to_string(),
        3 => String::new(),
        4 => format!(" {number}"),
        5 => format!("{number} "),
        6 => format!("+{number}"),
        7 => format!("-{number}"),
        8 => format!("{number}\0"),
        9 => format!("{number}:"),
        10 => format!("/{number}"),
        11 => format!("{number}.0"),
        12 => "9".repeat(497),
        // The last octet stands 10 above a digit: summed up all the same, the value is right.
        _ => {
            let tens = (number / 10).saturating_sub(1).to_string();
            tens + &char::from(58 + (number % 10) as u8).to_string()
        }
    };
    Entry::new(CONTENT_LENGTH, value.as_bytes())
}
