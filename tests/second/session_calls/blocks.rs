//! Header blocks that no frame gives: with longer names and values than a line has, more entries than
//! a frame has, empty names, and malformed ones.

use super::MAX_BLOCK;
use crate::block::{self, Entry};
use crate::calls::damage::damage;
use crate::client::values::{self, octets};
use crate::random::Random;
use crate::session::frame::{namings, opens, Frame};
use crate::version::BOTH;

/// The longest text that a record can hold.
const MAX_TEXT: usize = 65_535;

/// The octets before a record's text.
const FRONT: usize = 6;

/// The header block of a frame, at times one that no frame gives.
pub fn block(random: &mut Random, mut frame: Frame) -> Vec<u8> {
    let wide = if opens(frame.command) { 4 } else { 12 };
    if random.once_in(wide) {
        widen(random, &mut frame);
    }
    let mut block = block::write(&frame.entries);
    if random.once_in(12) {
        damage(random, &frame.entries, &mut block);
    }
    block.truncate(MAX_BLOCK);
    block
}

/// Gives the frame what no line of a frame holds. What does not fit in is cut off with the block.
fn widen(random: &mut Random, frame: &mut Frame) {
    let room = MAX_BLOCK - block::write(&frame.entries).len().min(MAX_BLOCK);
    match random.below(8) {
        0 => insert(random, frame, Entry::new(b"", b"v")),
        1 => many_entries(random, frame),
        2 => {
            let length = long(random, room);
            insert(random, frame, Entry::new(&vec![b'i'; length], b"id"));
        }
        3 => {
            let length = long(random, room.saturating_sub(7));
            insert(random, frame, Entry::new(b"receipt", &vec![b'r'; length]));
        }
        _ => widen_deciding(random, frame, room),
    }
}

/// Makes a value that decides long: of accept-version, heart-beat, or an id, in either version.
fn widen_deciding(random: &mut Random, frame: &mut Frame, room: usize) {
    let namings = namings(random.pick(&BOTH), frame.command);
    let name: &[u8] = match namings.is_empty() {
        false => random.pick(&namings).header,
        true if opens(frame.command) => random.pick(&[&b"accept-version"[..], b"heart-beat"]),
        true => b"destination",
    };
    let length = long(random, room.saturating_sub(name.len()));
    let value = match name {
        b"accept-version" => long_versions(random, length),
        b"heart-beat" => long_heart_beat(random, length),
        _ => octets(random, b"abc\0", length),
    };
    let first = frame.entries.iter_mut().find(|entry| entry.name == name);
    match first {
        Some(entry) => entry.value = value,
        None => insert(
            random,
            frame,
            Entry {
                name: name.to_vec(),
                value,
            },
        ),
    }
}

fn insert(random: &mut Random, frame: &mut Frame, entry: Entry) {
    let place = random.between(0, frame.entries.len());
    frame.entries.insert(place, entry);
}

/// A length over 32, up to what a block of that room can hold; at times more.
fn long(random: &mut Random, room: usize) -> usize {
    let most = room.saturating_sub(FRONT).clamp(33, MAX_TEXT);
    let any = random.between(33, most);
    let low = random.between(33, 600);
    random.pick(&[low, low, 4_096, 32_768, 65_000, 65_280, any, most, most])
}

/// More entries than a frame may have, most of them before those of the frame.
fn many_entries(random: &mut Random, frame: &mut Frame) {
    let count = random.pick(&[32, 33, 40, 300, 8_000]);
    let entry = random.pick(&[
        (&b""[..], &b""[..]),
        (b"n", b""),
        (b"i", b"d"),
        (b"", b"id"),
        (b"id", b"i"),
        (b"destination", b""),
        (b"transaction", b""),
    ]);
    let place = random.pick(&[0, 0, frame.entries.len()]);
    let entries = vec![Entry::new(entry.0, entry.1); count];
    frame.entries.splice(place..place, entries);
}

/// An accept-version value of about that length: very many items, or one with very many digits, and
/// others behind.
fn long_versions(random: &mut Random, length: usize) -> Vec<u8> {
    let last = values::any_versions(random);
    let room = length.saturating_sub(last.len() + 2);
    let item: &[u8] = random.pick(&[&b"1.0,"[..], b"2.1,", b"01.2,", b"1.1,", b"1.2,", b"1.2 "]);
    let front = if random.once_in(3) {
        let digits = vec![b'7'; room / 2];
        [&digits[..], b".", &digits, b","].concat()
    } else {
        item.repeat(room / item.len())
    };
    [front, last].concat()
}

/// A heart-beat value of about that length: very many zeros, perhaps a number behind them, perhaps one
/// that is too large, as first or second number.
fn long_heart_beat(random: &mut Random, length: usize) -> Vec<u8> {
    let digit = random.pick(b"0009");
    let number: &[u8] = random.pick(&[&b"1000"[..], b"3600000", b"3600001", b"4294967297", b""]);
    let mut wide = vec![digit; length.saturating_sub(16)];
    wide.extend(number);
    let small = random.pick(&[&b"0"[..], b"500", b"3600000", b""]).to_vec();
    let (first, second) = random.pick(&[(&wide, &small), (&small, &wide)]);
    [&first[..], b",", second].concat()
}
