//! Characters by RFC 3629, which document 02's C-17 asks of names and values: the table of its section 3,
//! asked of whole text.
//!
//! A text is divided before each octet that is not `10xxxxxx`. Each part says a character number, and it is
//! a character exactly if the table gives that number these octets.

use std::ops::RangeInclusive;

/// The table's rows: the character numbers, and the bits that the first of their octets begins with. A row
/// has one octet more than the row before it.
const TABLE: [(RangeInclusive<u32>, u8); 4] = [
    (0..=0x7f, 0b0000_0000),
    (0x80..=0x7ff, 0b1100_0000),
    (0x800..=0xffff, 0b1110_0000),
    (0x1_0000..=0x10_ffff, 0b1111_0000),
];

/// "The definition of UTF-8 prohibits encoding character numbers between U+D800 and U+DFFF".
const SURROGATES: RangeInclusive<u32> = 0xd800..=0xdfff;

/// What can finish a cut character, the shortest first. Only after E0 and F0, whose shorter numbers belong
/// to the row before, the lowest octet does not do.
pub const RESTS: [&[u8]; 6] = [
    b"",
    b"\x80",
    b"\x80\x80",
    b"\xa0\x80",
    b"\x80\x80\x80",
    b"\x90\x80\x80",
];

/// The octets of a character number, if it has any: six bits in each octet but the first.
pub fn octets_of(number: u32) -> Option<Vec<u8>> {
    if SURROGATES.contains(&number) {
        return None;
    }
    let row = TABLE.iter().position(|(row, _)| row.contains(&number))?;
    let six_bits = |index: usize| (number >> (6 * (row - index)) & 0b11_1111) as u8;
    let mut octets = vec![TABLE[row].1 | (number >> (6 * row)) as u8];
    octets.extend((1..=row).map(|index| 0b1000_0000 | six_bits(index)));
    Some(octets)
}

/// The character number that so many octets say, whether or not they have their row's first bits.
fn number_of(part: &[u8]) -> Option<u32> {
    let bits = *[7, 5, 4, 3].get(part.len() - 1)?;
    let first = u32::from(part[0]) & ((1 << bits) - 1);
    let joined = part[1..].iter().fold(first, |number, &octet| {
        number << 6 | u32::from(octet & 0b11_1111)
    });
    Some(joined)
}

fn is_character(part: &[u8]) -> bool {
    let octets = number_of(part).and_then(octets_of);
    octets.as_deref() == Some(part)
}

/// `10xxxxxx`, which begins no character.
fn is_tail(octet: u8) -> bool {
    octet >> 6 == 0b10
}

/// Where the last part of a text begins.
fn last_part(text: &[u8]) -> usize {
    text.iter().rposition(|&octet| !is_tail(octet)).unwrap_or(0)
}

/// Whether the text is UTF-8.
pub fn is_utf8(text: &[u8]) -> bool {
    let mut rest = text;
    while !rest.is_empty() {
        let (before, part) = rest.split_at(last_part(rest));
        if !is_character(part) {
            return false;
        }
        rest = before;
    }
    true
}

/// How many octets the text lacks to be UTF-8, 0 where it is; nothing where no octets after it make it so.
pub fn missing(text: &[u8]) -> Option<usize> {
    let makes_utf8 = |rest: &&&[u8]| is_utf8(&[text, *rest].concat());
    RESTS.iter().find(makes_utf8).map(|rest| rest.len())
}

/// The octets of the character that a text stops in, which is none where it stops in none.
pub fn unfinished(text: &[u8]) -> &[u8] {
    match missing(text) {
        Some(0) | None => &[],
        Some(_) => &text[last_part(text)..],
    }
}
