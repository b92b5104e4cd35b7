//! Damage to header blocks.

use crate::block::{self, Entry};
use crate::random::Random;

/// The octets before a record's text: the tag and both lengths.
const FRONT: usize = 6;

/// Damages the block of these entries; at times it stays well formed, with other entries.
pub fn damage(random: &mut Random, entries: &[Entry], block: &mut Vec<u8>) {
    let start = record_start(random, entries);
    match random.below(8) {
        0 => cut(random, block),
        1 => append(random, block),
        2 => block.extend(vec![0; random.between(1, 8)]),
        3 => any_octet(random, block),
        4 | 5 => tag(random, start, block),
        _ => lengths(random, start, block),
    }
}

/// Where some record starts, perhaps behind the last one, where none does.
fn record_start(random: &mut Random, entries: &[Entry]) -> usize {
    let count = random.between(0, entries.len());
    block::write(&entries[..count]).len()
}

/// Cuts one octet off, or several.
fn cut(random: &mut Random, block: &mut Vec<u8>) {
    let any = random.below(block.len() + 1);
    let octets = random.pick(&[1, 1, 2, FRONT, any]);
    block.truncate(block.len().saturating_sub(octets));
}

/// Puts a beginning of a record behind the last one; the longest ones are whole records.
fn append(random: &mut Random, block: &mut Vec<u8>) {
    let named = [72, 68, 0, 1, 0, 1, b'n', b'v'];
    let empty = [72, 68, 0, 0, 0, 0];
    let swapped = [68, 72, 0, 0, 0, 0];
    match random.below(4) {
        0 => block.extend(empty),
        1 => block.extend(swapped),
        _ => block.extend(&named[..random.between(1, named.len())]),
    }
}

/// Alters, puts in or takes out one octet.
fn any_octet(random: &mut Random, block: &mut Vec<u8>) {
    let place = random.between(0, block.len());
    let octet = random.pick(b"\0\x01HD\xff");
    match block.get_mut(place) {
        Some(there) if random.once_in(2) => *there ^= 1 << random.below(8),
        Some(_) if random.once_in(2) => drop(block.remove(place)),
        _ => block.insert(place, octet),
    }
}

/// Spoils one octet of a tag, or both.
fn tag(random: &mut Random, start: usize, block: &mut [u8]) {
    if let Some([first, second, ..]) = block.get_mut(start..) {
        match random.below(4) {
            0 => *first = random.pick(&[0, 71, 73, 104]),
            1 => *second = random.pick(&[0, 67, 69, 100]),
            2 => (*first, *second) = (68, 72),
            _ => (*first, *second) = (0, 0),
        }
    }
}

/// Makes a length another: one more, one less, as long as can be, its octets exchanged.
fn lengths(random: &mut Random, start: usize, block: &mut [u8]) {
    let place = start + random.pick(&[2, 4]);
    if let Some([high, low, ..]) = block.get_mut(place..) {
        match random.below(5) {
            0 => *low = low.wrapping_add(1),
            1 => *low = low.wrapping_sub(1),
            2 => *high = high.wrapping_add(1),
            3 => (*high, *low) = (255, 255),
            _ => (*high, *low) = (*low, *high),
        }
    }
}
