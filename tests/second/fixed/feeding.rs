//! The fixed calls of the stream parser: items in pieces, refusals and what comes after them, short
//! buffers, records that no call leaves, and versions that are told.

use crate::feed::record::{
    Record, CHARACTER, CODE, COMMAND, HELD, IN_CHARACTER_OF_NAME, IN_CHARACTER_OF_VALUE, LENGTH,
    PHASE, REFUSED, VERSION, ZEROS,
};
use crate::feed::LEAST_BUFFER;
use crate::feed_calls::{Call, BUFFER};
use crate::item::{MAX_LINE, MAX_LINES};
use crate::version::Version::{self, V1_1, V1_2};

/// The octets of the calls.
pub fn calls() -> Vec<u8> {
    all().iter().flat_map(Call::octets).collect()
}

/// The calls, in groups; each begins with a fresh parser.
pub fn all() -> Vec<Call> {
    [
        one_by_one(),
        item_and_a_half(),
        heart_beats(),
        refusals(),
        short_buffers(),
        longest(),
        other_records(),
        characters(),
        broken_characters(),
        other_characters(),
        one_by_one_in_1_1(),
        refusals_of_1_1(),
        limits_of_1_1(),
        told_between_items(),
        told_inside_items(),
        told_after_a_refusal(),
        told_with_other_records(),
    ]
    .concat()
}

fn fresh(room: usize) -> Call {
    Call::Fresh { room }
}

fn feed(piece: &[u8]) -> Call {
    Call::Feed {
        piece: piece.to_vec(),
    }
}

/// A fresh parser, and the pieces as they stand.
fn fed(pieces: &[&[u8]]) -> Vec<Call> {
    let mut calls = vec![fresh(LEAST_BUFFER)];
    calls.extend(pieces.iter().map(|piece| feed(piece)));
    calls
}

/// A frame with an escape, line ends of both kinds, a content-length, and octet 0 in its body, one octet
/// at a time; and one that has none of that.
fn one_by_one() -> Vec<Call> {
    let frames: [&[u8]; 2] = [
        b"SEND\r\nid:a\\cb\r\ncontent-length:03\n\n\0\r\n\0",
        b"CONNECT\na::\\\nb:\n\r\n\0",
    ];
    let pieces: Vec<&[u8]> = frames.iter().flat_map(|frame| frame.chunks(1)).collect();
    fed(&pieces)
}

/// An item and a half, the rest handed in again, then the other half; pieces of no octets between.
fn item_and_a_half() -> Vec<Call> {
    let pieces: [&[u8]; 10] = [
        b"",
        b"SEND\ndestination:/p\n\nok\0MESSAGE\nrun:",
        b"MESSAGE\nrun:",
        b"",
        b"",
        b"b\nrun:a\n\n",
        b"",
        b"\0\n",
        b"\n",
        b"",
    ];
    fed(&pieces)
}

/// Heart-beats, the longer one cut between its octets, and 13 that is none.
fn heart_beats() -> Vec<Call> {
    let pieces: [&[u8]; 6] = [b"\n", b"\r", b"\n", b"\r\n\r", b"\r", b"S"];
    fed(&pieces)
}

/// A refusal in each kind of place, the octet refused in a piece of its own and not; after it a stopped
/// parser, which a record of 0 makes fresh, with the buffer as it is.
fn refusals() -> Vec<Call> {
    let rows: [&[&[u8]]; 8] = [
        &[b"SENT", b"T"],
        &[b"SEN", b"T"],
        &[b"\nACK\nid:a\\", b"ACK\nid:a\\", b"tb"],
        &[b"SEND\n:"],
        &[b"SEND\ncontent-length:3276", b"9\n"],
        &[b"ACK\ncontent-length:", b"1"],
        &[b"ACK\n\n", b"x"],
        &[b"SEND\na", b"\r", b"\n"],
    ];
    let mut calls: Vec<Call> = rows.iter().flat_map(|row| fed(row)).collect();
    calls.extend([
        feed(b""),
        feed(b"\n"),
        feed(b"ACK\n\n\0"),
        Call::Record([0; LENGTH]),
        feed(b"ACK\n\n\0"),
        feed(b""),
    ]);
    calls
}

/// A buffer with an octet too few, of none, and with enough, before an item, inside and after a refusal.
fn short_buffers() -> Vec<Call> {
    let room = |room: usize| Call::Room { room };
    vec![
        fresh(LEAST_BUFFER - 1),
        feed(b"\n"),
        feed(b""),
        room(LEAST_BUFFER),
        feed(b"ACK\nid"),
        room(0),
        feed(b":a\n"),
        room(BUFFER),
        feed(b":a\n"),
        feed(b"\n\0"),
        feed(b"x"),
        room(LEAST_BUFFER - 1),
        feed(b"x"),
        room(LEAST_BUFFER),
        feed(b"x"),
    ]
}

/// As many lines as may be, about as long as may be, in three pieces, and one line too many.
fn longest() -> Vec<Call> {
    let line = [b"name:", &[b'v'; 40][..], b"\n"].concat();
    let head = [b"SEND\n", &line.repeat(32)[..]].concat();
    fed(&[&head[..700], &head[700..], b"x"])
}

/// What 71 is at least: each record with a piece, twice; 70 comes before it.
fn other_records() -> Vec<Call> {
    let counted = |count: u16| {
        let mut record: Record = [0; LENGTH];
        record[PHASE] = 12;
        record[1] = 12;
        record[2] = 32;
        record[8..10].copy_from_slice(&32_700u16.to_be_bytes());
        record[HELD..HELD + 2].copy_from_slice(&count.to_be_bytes());
        record
    };
    let refused = |code: u8| {
        let mut record: Record = [0; LENGTH];
        record[PHASE] = REFUSED;
        record[CODE] = code;
        record[HELD + 1] = 3;
        record
    };
    let marked = |place: usize| {
        let mut record: Record = [0; LENGTH];
        record[place] = 1;
        record
    };
    let numbers = [0, 12, 70, 71, 255].map(refused);
    let marks = [ZEROS[0], CHARACTER, ZEROS[1]].map(marked);
    let counts = [counted(49_228), counted(65_535)];
    let mut calls = vec![fresh(LEAST_BUFFER), feed(b"ACK\nid:a\n\n\0")];
    for record in [&counts[..], &numbers, &marks].concat() {
        calls.extend([Call::Record(record), feed(b"\n"), feed(b"")]);
    }
    calls.extend([
        Call::Room {
            room: LEAST_BUFFER - 1,
        },
        feed(b"\n"),
        Call::Room { room: LEAST_BUFFER },
        Call::Record([0; LENGTH]),
        feed(b"\n"),
    ]);
    calls
}

/// Characters of two, three and four octets in name and value, one octet at a time, with a piece of no octets
/// inside one; and cut between pieces.
fn characters() -> Vec<Call> {
    let frame = b"ACK\n\xc3\xa9\\c\xe2\x82\xac:\xf0\x9f\x98\x80\\\\\n\n\0";
    let mut pieces: Vec<&[u8]> = frame.chunks(1).collect();
    pieces.insert(10, b"");
    pieces.extend([
        &b"CONNECT\na\\\xc3"[..],
        b"\xa9:\xe2",
        b"",
        b"\x82\xac\xf0\x9f",
        b"\x98\x80\n\n\0",
    ]);
    fed(&pieces)
}

/// Octets that no character has there: in the piece of the first octet and in one of their own; after a
/// backslash; a colon and line ends in a character; then again, and a parser made fresh.
fn broken_characters() -> Vec<Call> {
    let rows: [&[&[u8]]; 9] = [
        &[b"ACK\nid:\xff"],
        &[b"ACK\nid:\xe2\x82", b"", b"a"],
        &[b"ACK\nid:\xed", b"\xa0\x80"],
        &[b"ACK\nid:\\", b"\x80"],
        &[b"ACK\nid:\\", b"\xc3"],
        &[b"ACK\ni\xc3", b":"],
        &[b"ACK\nid:\xf0\x9f\x98", b"\r\n"],
        &[b"SEND\ncontent-length:", b"\xff"],
        &[b"SEND\nid:\xf0\x90", b"\x80", b"\n", b"\x80", b""],
    ];
    let mut calls: Vec<Call> = rows.iter().flat_map(|row| fed(row)).collect();
    calls.extend([Call::Record([0; LENGTH]), feed(b"ACK\n\n\0")]);
    calls
}

/// 71 for an unfinished character that no call leaves: in the phases inside a character, and outside.
fn other_characters() -> Vec<Call> {
    let inside = |phase: u8, command: u8, character: u8| {
        let mut record: Record = [0; LENGTH];
        record[PHASE] = phase;
        record[COMMAND] = command;
        record[3] = if phase == IN_CHARACTER_OF_NAME { 15 } else { 0 };
        record[9] = 4;
        record[HELD + 1] = 12;
        record[CHARACTER] = character;
        record
    };
    let (name, value) = (IN_CHARACTER_OF_NAME, IN_CHARACTER_OF_VALUE);
    let records = [
        inside(name, 12, 0),
        inside(value, 12, 0),
        inside(name, 12, 3),
        inside(value, 12, 91),
        inside(name, 5, 92),
        inside(value, 6, 92),
        inside(name, 12, 193),
        inside(value, 12, 245),
        inside(value, 12, 128),
        inside(name - 1, 12, 92),
        inside(value - 1, 12, 1),
        inside(4, 12, 195),
        inside(12, 12, 2),
    ];
    let mut calls = vec![fresh(LEAST_BUFFER)];
    for record in records {
        calls.extend([Call::Record(record), feed(b"\xa9")]);
    }
    calls
}

fn tell(version: Version) -> Call {
    Call::Tell {
        options: version.option(),
    }
}

/// A fresh parser that is told 1.1, and the pieces as they stand.
fn fed_in_1_1(pieces: &[&[u8]]) -> Vec<Call> {
    let mut calls = vec![fresh(LEAST_BUFFER), tell(V1_1)];
    calls.extend(pieces.iter().map(|piece| feed(piece)));
    calls
}

/// Frames of 1.1 one octet at a time: with 13 in names and values, alone, at their ends and before a colon, with
/// the escapes that are left, and in a body; without escapes; and heart-beats.
fn one_by_one_in_1_1() -> Vec<Call> {
    let frames: [&[u8]; 4] = [
        b"SEND\n\r:\r\n\r\ra\r:b\\n\\c\\\\\r\ncontent-length:02\n\n\r\n\0",
        b"CONNECTED\n\ra\\r:\\\r:\r\n\n\0",
        b"\n\nACK\nid\r:\n\n\0",
        b"MESSAGE\n\xc3\xa9\r:\r\xe2\x82\xac\n\n\r\0",
    ];
    let pieces: Vec<&[u8]> = frames.iter().flat_map(|frame| frame.chunks(1)).collect();
    fed_in_1_1(&pieces)
}

/// What 13 is where it is no header octet, and `\\r`: the octet refused in a piece of its own and not.
fn refusals_of_1_1() -> Vec<Call> {
    let rows: [&[&[u8]]; 15] = [
        &[b"\r\n"],
        &[b"\n", b"\r", b"\n"],
        &[b"SEND\r\n"],
        &[b"SEN", b"\r"],
        &[b"SEND\n\r\n"],
        &[b"SEND\nid:a\n\r", b"\n\0"],
        &[b"SEND\nid\r", b"\n"],
        &[b"SEND\nid:a\\r"],
        &[b"SEND\nid\\", b"r"],
        &[b"SEND\nid:\\", b"\r"],
        &[b"SEND\ncontent-length:1\r\n"],
        &[b"SEND\ncontent-length:", b"\r"],
        &[b"ACK\n\n", b"\r"],
        &[b"ACK\nid:\xe2\x82", b"\r"],
        &[b"STOMP\n:\r"],
    ];
    rows.iter().flat_map(|row| fed_in_1_1(row)).collect()
}

/// A line of 512 octets that ends in 13, and one more; a name of 511 that does; 13 as 33rd line.
fn limits_of_1_1() -> Vec<Call> {
    let value = [b"SEND\na:", &[b'v'; MAX_LINE - 3][..], b"\r"].concat();
    let name = [b"SEND\n", &[b'n'; MAX_LINE - 2][..], b"\r"].concat();
    let lines = [b"SEND\n", &b"a:\r\n".repeat(MAX_LINES)[..]].concat();
    [
        fed_in_1_1(&[&value, b"\n\n\0"]),
        fed_in_1_1(&[&value, b"\r"]),
        fed_in_1_1(&[&name, b":\n\n\0"]),
        fed_in_1_1(&[&name, b"\r"]),
        fed_in_1_1(&[&lines, b"\n\0"]),
        fed_in_1_1(&[&lines, b"\r"]),
    ]
    .concat()
}

/// Versions told before the first item, between items and after the last, the same one too, with bits that are
/// not looked at, and with a buffer that is too short; each item is read in the version told.
fn told_between_items() -> Vec<Call> {
    let options = |options: u32| Call::Tell { options };
    let room = |room: usize| Call::Room { room };
    vec![
        fresh(LEAST_BUFFER),
        tell(V1_2),
        feed(b"ACK\r\nid:\\r\r\n\r\n\0\r\n"),
        tell(V1_1),
        tell(V1_1),
        feed(b"\n"),
        feed(b"ACK\nid:\r\n\n\0"),
        options(0xffff_fffd),
        feed(b"\r\n"),
        options(0xffff_ffff),
        feed(b""),
        feed(b"ACK\n\r:\n\n\0"),
        options(1),
        feed(b"\r\n"),
        options(3),
        room(0),
        tell(V1_2),
        feed(b"\r\n"),
        room(LEAST_BUFFER),
        feed(b"\r"),
        feed(b"\n"),
        tell(V1_1),
        fresh(LEAST_BUFFER),
        feed(b"\r\n"),
    ]
}

/// Versions told inside an item, at each kind of place, which change nothing.
fn told_inside_items() -> Vec<Call> {
    let mut calls = Vec::new();
    for version in [V1_2, V1_1] {
        let places: [&[u8]; 8] = [
            b"S",
            b"SEND",
            b"SEND\n",
            b"SEND\nid",
            b"SEND\nid:a\\",
            b"SEND\nid:\xe2",
            b"SEND\ncontent-length:1",
            b"SEND\n\nx",
        ];
        for place in places {
            calls.extend([fresh(LEAST_BUFFER), tell(version), feed(place)]);
            calls.extend([tell(version.other()), tell(version), feed(b"")]);
        }
    }
    calls.extend([fresh(LEAST_BUFFER), feed(b"\r"), tell(V1_1), feed(b"\n")]);
    calls
}

/// Versions told after a refusal, which is repeated with its version; then a fresh record of each.
fn told_after_a_refusal() -> Vec<Call> {
    let mut calls = Vec::new();
    for version in [V1_2, V1_1] {
        let mut record: Record = [0; LENGTH];
        record[VERSION] = version.option() as u8 / 2;
        calls.extend([fresh(LEAST_BUFFER), tell(version), feed(b"SENT")]);
        calls.extend([tell(version.other()), feed(b"SEND"), tell(version)]);
        calls.extend([Call::Record(record), feed(b"\r\n"), tell(version.other())]);
        calls.extend([Call::Record(record), tell(version.other()), feed(b"\n")]);
    }
    calls
}

/// Versions told with records that are invalid, or that of an item or a refusal: a version that there is not, an
/// octet kept for later, a number that there is not, a count that is too large.
fn told_with_other_records() -> Vec<Call> {
    let with = |octets: &[(usize, u8)]| {
        let mut record: Record = [0; LENGTH];
        octets
            .iter()
            .for_each(|(place, octet)| record[*place] = *octet);
        Call::Record(record)
    };
    let records = [
        with(&[(VERSION, 2)]),
        with(&[(VERSION, 255)]),
        with(&[(VERSION, 1), (ZEROS[0], 1)]),
        with(&[(VERSION, 1), (ZEROS[1], 1)]),
        with(&[(VERSION, 1), (CHARACTER, 92)]),
        with(&[(VERSION, 1), (HELD, 255)]),
        with(&[(VERSION, 1), (PHASE, REFUSED), (CODE, 12)]),
        with(&[(VERSION, 2), (PHASE, REFUSED), (CODE, 1), (HELD + 1, 3)]),
        with(&[(VERSION, 2), (PHASE, 2), (COMMAND, 12), (HELD + 1, 1)]),
    ];
    let mut calls = vec![fresh(LEAST_BUFFER)];
    for record in records {
        calls.extend([record, tell(V1_1), feed(b"\n"), tell(V1_2)]);
    }
    calls
}
