//! The kinds of place in an item, with each octet that matters at each of them.

use super::characters::{any_character, put_telling, MOST};
use super::{
    any_command, body, items, later_lines, length_line, line_end, lines, opened, text, value,
    with_body, Stream,
};
use crate::item::{BACKSLASH, CR};
use crate::random::Random;
use crate::version::Version;

/// Makes the octets of one item up to such a place.
type Place = fn(&mut Random, Version) -> Stream;

/// The kinds of place.
const PLACES: [Place; 15] = [
    in_command,
    after_command,
    after_13,
    at_line_start,
    in_name,
    in_value,
    in_character,
    in_character,
    in_line,
    in_content_length,
    in_large_content_length,
    in_later_content_length,
    at_body_start,
    in_body,
    after_body,
];

/// Perhaps some items, then the octets before a place, then an octet that matters, then a tail.
pub fn at_a_place(random: &mut Random, version: Version) -> Stream {
    let mut stream = if random.once_in(3) {
        items(random, version)
    } else {
        Stream::new()
    };
    let up_to_place = random.pick(&PLACES);
    stream.extend(up_to_place(random, version));
    put_telling(random, &mut stream);
    match random.below(4) {
        0 => {}
        1 => stream.extend_from_slice(b"\n\n\0"),
        2 => stream.extend_from_slice(b"c:0\n\n\0"),
        _ => stream.extend(items(random, version)),
    }
    stream
}

/// At an item's start, or after some of a command's letters.
fn in_command(random: &mut Random, _: Version) -> Stream {
    let name = any_command(random).name();
    name[..random.below(name.len())].to_vec()
}

fn after_command(random: &mut Random, _: Version) -> Stream {
    any_command(random).name().to_vec()
}

/// After a 13: alone, after a command, after a header line, in place of the empty line, in a name, in a first
/// content-length.
fn after_13(random: &mut Random, version: Version) -> Stream {
    let places: [Place; 6] = [
        |_, _| Stream::new(),
        after_command,
        at_line_start,
        in_value,
        in_name,
        in_content_length,
    ];
    let mut stream = random.pick(&places)(random, version);
    stream.push(CR);
    stream
}

fn at_line_start(random: &mut Random, version: Version) -> Stream {
    let command = any_command(random);
    let mut stream = opened(random, version, command);
    lines(random, version, command, &mut stream, 2);
    stream
}

fn in_name(random: &mut Random, version: Version) -> Stream {
    let command = any_command(random);
    let mut stream = opened(random, version, command);
    lines(random, version, command, &mut stream, 1);
    let length = random.between(1, 8);
    text(random, version, command, length, &mut stream);
    backslash(random, &mut stream);
    stream
}

fn in_value(random: &mut Random, version: Version) -> Stream {
    let command = any_command(random);
    let mut stream = opened(random, version, command);
    lines(random, version, command, &mut stream, 1);
    stream.extend_from_slice(b"id:");
    let length = random.between(0, 8);
    value(random, version, command, length, &mut stream);
    backslash(random, &mut stream);
    stream
}

/// At times a backslash, so that what follows stands after one.
fn backslash(random: &mut Random, stream: &mut Stream) {
    if random.once_in(3) {
        stream.push(BACKSLASH);
    }
}

/// In a character of a name or a value: after its first octet, its second or its third.
fn in_character(random: &mut Random, version: Version) -> Stream {
    let mut stream = if random.once_in(2) {
        in_name(random, version)
    } else {
        in_value(random, version)
    };
    let character = any_character(random, MOST);
    stream.extend(&character[..random.between(1, character.len() - 1)]);
    stream
}

/// In the middle of a header line whose octets are any at all, most often spoiled.
fn in_line(random: &mut Random, version: Version) -> Stream {
    let command = any_command(random);
    let mut stream = opened(random, version, command);
    for _ in 0..random.between(1, 6) {
        stream.push(random.pick(b"a:\\c\\:a\r\n0\xc3\xe2\x82"));
    }
    stream
}

/// In a first content-length, after some digits or none.
fn in_content_length(random: &mut Random, version: Version) -> Stream {
    let command = any_command(random);
    let mut stream = opened(random, version, command);
    lines(random, version, command, &mut stream, 1);
    stream.extend_from_slice(b"content-length:");
    for _ in 0..random.between(0, 3) {
        stream.push(random.pick(b"0001"));
    }
    stream
}

/// In a first content-length, close to its greatest value.
fn in_large_content_length(random: &mut Random, _: Version) -> Stream {
    let numbers: [&[u8]; 8] = [
        b"3276", b"32768", b"0003276", b"32767", b"3277", b"9999", b"10000", b"0032768",
    ];
    let mut stream = with_body(random).name().to_vec();
    stream.extend_from_slice(b"\ncontent-length:");
    stream.extend_from_slice(random.pick(&numbers));
    stream
}

/// In a later entry of that name, which is not examined.
fn in_later_content_length(random: &mut Random, version: Version) -> Stream {
    let command = any_command(random);
    let mut stream = opened(random, version, command);
    stream.extend_from_slice(b"content-length:0\ncontent-length:");
    let length = random.between(0, 3);
    value(random, version, command, length, &mut stream);
    stream
}

fn at_body_start(random: &mut Random, version: Version) -> Stream {
    let mut stream = at_line_start(random, version);
    line_end(random, version, &mut stream);
    stream
}

/// In a body that goes on, with and without a length.
fn in_body(random: &mut Random, version: Version) -> Stream {
    let command = with_body(random);
    let mut stream = opened(random, version, command);
    let declared = random.once_in(2);
    if declared {
        length_line(random, version, 9, &mut stream);
    }
    line_end(random, version, &mut stream);
    let length = random.between(0, 8);
    body(random, length, declared, &mut stream);
    stream
}

/// Where a declared length is used up.
fn after_body(random: &mut Random, version: Version) -> Stream {
    let command = with_body(random);
    let mut stream = opened(random, version, command);
    let length = random.between(0, 8);
    length_line(random, version, length, &mut stream);
    later_lines(random, version, command, &mut stream);
    line_end(random, version, &mut stream);
    body(random, length, true, &mut stream);
    stream
}
