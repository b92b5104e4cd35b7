//! Random streams: whole items, damaged ones, cut ones, each octet that matters at each kind of
//! place, and the limits with one octet more and less. Most are short; a few are as long as can be.
//! Some that are for one version are written by the rules of the other.

pub mod characters;
mod limits;
mod places;

use self::characters::{any_character, of_either_kind};
use self::limits::{
    around_added_line, around_all_lines, around_longest, around_whole_body, around_whole_line,
};
use self::places::at_a_place;
use crate::item::{Command, BACKSLASH, COLON, COMMANDS, CONTENT_LENGTH, CR, LF, MAX_BODY, NUL};
use crate::random::Random;
use crate::version::Version;

type Stream = Vec<u8>;

/// Octets that a rule speaks of, and some that none does.
const TELLING: &[u8] = b"\0\n\r:\\crntax 019-\xff\x80\xbf\xc3\xe2\xf0";

/// Octets of header text that is sound in every command.
const PLAIN: &[u8] = b"abcnr019- /.,\0\t\x7f";

/// One random stream to be read in this version.
pub fn stream(random: &mut Random, version: Version) -> Stream {
    let version = or_the_other(random, version);
    match random.below(200) {
        0..=34 => items(random, version),
        35..=74 => damaged(random, version),
        75..=92 => cut(random, version),
        93..=154 => at_a_place(random, version),
        155..=172 => pieces(random),
        173..=184 => around_all_lines(random, version),
        185..=197 => around_whole_line(random, version),
        198 => around_whole_body(random, version),
        _ => around_longest(random, version),
    }
}

/// This version, and at times the other one.
pub fn or_the_other(random: &mut Random, version: Version) -> Version {
    if random.once_in(8) {
        version.other()
    } else {
        version
    }
}

/// One random stream to be written again: as above, and often with as many header lines as may be,
/// where a line to be added is one too many.
pub fn stream_to_rewrite(random: &mut Random, version: Version) -> Stream {
    if random.once_in(5) {
        around_added_line(random, version)
    } else {
        stream(random, version)
    }
}

/// Some items one after another, written by the rules of the version.
pub fn items(random: &mut Random, version: Version) -> Stream {
    let mut stream = Stream::new();
    for _ in 0..random.between(0, 4) {
        if random.once_in(3) {
            beats(random, version, &mut stream);
        } else {
            stream.extend(frame(random, version));
        }
    }
    stream
}

fn beats(random: &mut Random, version: Version, stream: &mut Stream) {
    for _ in 0..random.between(1, 4) {
        line_end(random, version, stream);
    }
}

pub fn line_end(random: &mut Random, version: Version, stream: &mut Stream) {
    let shortest: &[u8] = &[LF];
    let any = random.pick(version.line_ends());
    stream.extend_from_slice(random.pick(&[shortest, any, any]));
}

/// Any command, a little more often CONNECT, CONNECTED or STOMP, whose rules for escapes and colons differ.
pub fn any_command(random: &mut Random) -> Command {
    if random.once_in(6) {
        let opening: [&[u8]; 3] = [b"CONNECT", b"CONNECTED", b"STOMP"];
        return Command::named(random.pick(&opening)).expect("a command");
    }
    Command(random.between(1, COMMANDS.len()))
}

/// A command that may have a body.
pub fn with_body(random: &mut Random) -> Command {
    loop {
        let command = any_command(random);
        if command.has_body() {
            return command;
        }
    }
}

/// The command's line, with its line end.
fn opened(random: &mut Random, version: Version, command: Command) -> Stream {
    let mut stream = command.name().to_vec();
    line_end(random, version, &mut stream);
    stream
}

/// A whole frame.
fn frame(random: &mut Random, version: Version) -> Stream {
    let command = any_command(random);
    let mut stream = opened(random, version, command);
    lines(random, version, command, &mut stream, 3);
    let most = if command.has_body() { 20 } else { 0 };
    let length = random.between(0, most);
    let declared = random.once_in(2);
    if declared {
        length_line(random, version, length, &mut stream);
        later_lines(random, version, command, &mut stream);
    }
    line_end(random, version, &mut stream);
    body(random, length, declared, &mut stream);
    stream.push(NUL);
    stream
}

/// The length of a body: its decimal has each number of digits, and at times it is about as long as
/// may be.
pub fn body_length(random: &mut Random) -> usize {
    let short = [0, 1, 2, 9, 10, 11, 99, 100, 101, 999, 1_000];
    let long = [9_999, 10_000, MAX_BODY - 1, MAX_BODY];
    if random.once_in(20) {
        random.pick(&long)
    } else {
        random.pick(&short)
    }
}

/// A body of that many octets; octet 0 stands in it only where its length is declared.
pub fn body(random: &mut Random, length: usize, declared: bool, stream: &mut Stream) {
    for _ in 0..length {
        let octet = random.pick(TELLING);
        stream.push(if octet == NUL && !declared {
            b'z'
        } else {
            octet
        });
    }
}

/// Up to that many header lines, none of them named content-length.
fn lines(
    random: &mut Random,
    version: Version,
    command: Command,
    stream: &mut Stream,
    most: usize,
) {
    for _ in 0..random.between(0, most) {
        line(random, version, command, stream);
    }
}

/// A header line with its line end.
fn line(random: &mut Random, version: Version, command: Command, stream: &mut Stream) {
    let near: [&[u8]; 5] = [
        b"id",
        b"content-lengt",
        b"content-lengthy",
        b"Content-Length",
        b"x",
    ];
    if random.once_in(4) {
        stream.extend_from_slice(random.pick(&near));
    } else {
        let length = random.between(1, 6);
        text(random, version, command, length, stream);
    }
    stream.push(COLON);
    let length = random.between(0, 8);
    value(random, version, command, length, stream);
    line_end(random, version, stream);
}

/// A sound raw value of exactly that many octets, with colons where the command has them.
fn value(
    random: &mut Random,
    version: Version,
    command: Command,
    length: usize,
    stream: &mut Stream,
) {
    let start = stream.len();
    text(random, version, command, length, stream);
    colons(random, command, &mut stream[start..]);
}

/// Puts colons in place of some octets of a value, at times of all but those of characters that have several,
/// where the command has colons there.
pub fn colons(random: &mut Random, command: Command, value: &mut [u8]) {
    if command.has_colons() && random.once_in(2) {
        let often = random.pick(&[1, 2, 6]);
        for octet in value.iter_mut().filter(|octet| octet.is_ascii()) {
            if random.once_in(often) {
                *octet = COLON;
            }
        }
    }
}

/// Sound raw text of exactly that many octets, with escapes, or raw backslashes where the command
/// has no escapes, with characters of several octets, in 1.1 with octets 13, and without colons.
fn text(
    random: &mut Random,
    version: Version,
    command: Command,
    length: usize,
    stream: &mut Stream,
) {
    let has_13 = !version.ends_line(CR);
    let end = stream.len() + length;
    while stream.len() < end {
        let left = end - stream.len();
        let room = left > 1;
        if room && random.once_in(8) {
            stream.extend(any_character(random, left));
        } else if has_13 && random.once_in(8) {
            stream.push(CR);
        } else if command.escapes() && room && random.once_in(6) {
            let (letter, _) = random.pick(version.escapes());
            stream.extend([BACKSLASH, letter]);
        } else if !command.escapes() && random.once_in(6) {
            stream.push(BACKSLASH);
        } else {
            stream.push(random.pick(PLAIN));
        }
    }
}

/// A content-length line with its line end, perhaps with leading zeros.
pub fn length_line(random: &mut Random, version: Version, length: usize, stream: &mut Stream) {
    let zeros = if random.once_in(3) {
        random.between(1, 12)
    } else {
        0
    };
    stream.extend_from_slice(CONTENT_LENGTH);
    stream.push(COLON);
    stream.extend(std::iter::repeat(b'0').take(zeros));
    stream.extend_from_slice(length.to_string().as_bytes());
    line_end(random, version, stream);
}

/// Lines after the first content-length: other ones, and later entries of that name, which are not
/// examined.
fn later_lines(random: &mut Random, version: Version, command: Command, stream: &mut Stream) {
    for _ in 0..random.between(0, 2) {
        later_line(random, version, command, stream);
    }
}

fn later_line(random: &mut Random, version: Version, command: Command, stream: &mut Stream) {
    if random.once_in(2) {
        stream.extend_from_slice(CONTENT_LENGTH);
        stream.push(COLON);
        let length = random.between(0, 4);
        value(random, version, command, length, stream);
        line_end(random, version, stream);
    } else {
        line(random, version, command, stream);
    }
}

/// Items with some octets altered, put in, taken out or doubled.
fn damaged(random: &mut Random, version: Version) -> Stream {
    let mut stream = items(random, version);
    stream.extend(frame(random, version));
    for _ in 0..random.between(1, 3) {
        damage(random, &mut stream);
    }
    stream
}

pub fn damage(random: &mut Random, stream: &mut Stream) {
    if stream.is_empty() {
        return;
    }
    let place = random.below(stream.len());
    let end = (place + random.between(1, 6)).min(stream.len());
    match random.below(8) {
        0 => stream[place] ^= 1 << random.below(8),
        1 => stream[place] = random.pick(TELLING),
        7 => drop(stream.splice(place..place, of_either_kind(random))),
        2 | 3 => stream.insert(place, random.pick(TELLING)),
        4 => drop(stream.remove(place)),
        5 => drop(stream.drain(place..end)),
        _ => {
            let doubled = stream[place..end].to_vec();
            stream.splice(place..place, doubled);
        }
    }
}

/// Items cut off somewhere.
fn cut(random: &mut Random, version: Version) -> Stream {
    let mut stream = items(random, version);
    stream.extend(frame(random, version));
    let length = random.between(0, stream.len());
    stream.truncate(length);
    stream
}

/// Pieces of frames and single octets in any order.
fn pieces(random: &mut Random) -> Stream {
    let pieces: [&[u8]; 18] = [
        b"ACK\n",
        b"a\r",
        b"\r",
        b"\\r",
        b"SEND\r\n",
        b"CONNECT\n",
        b"\n\n\0",
        b"content-length:",
        b"id:",
        b"\n",
        b"\r\n",
        b"a",
        b"0",
        b"\0",
        b":",
        b"\xc3\xa9",
        b"\xe2\x82",
        b"\xac",
    ];
    let mut stream = Stream::new();
    for _ in 0..random.between(1, 12) {
        if random.once_in(4) {
            stream.push(random.pick(TELLING));
        } else {
            stream.extend_from_slice(random.pick(&pieces));
        }
    }
    stream
}
