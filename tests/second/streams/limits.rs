//! About as many lines, as long lines and as long bodies as may be.

use super::characters::{of_either_kind, put_telling};
use super::{
    any_command, body, body_length, damage, items, later_line, length_line, line, line_end, opened,
    text, value, with_body, Stream, PLAIN,
};
use crate::item::{Command, COLON, CR, MAX_BODY, MAX_LINE, MAX_LINES, NUL};
use crate::random::Random;
use crate::version::Version;

/// A frame with about as many header lines as may be, then an octet that matters.
pub fn around_all_lines(random: &mut Random, version: Version) -> Stream {
    let command = any_command(random);
    let mut stream = opened(random, version, command);
    for _ in 0..random.pick(&[MAX_LINES - 1, MAX_LINES, MAX_LINES, MAX_LINES + 1]) {
        stream.push(random.pick(PLAIN));
        stream.push(COLON);
        line_end(random, version, &mut stream);
    }
    match random.below(3) {
        0 => put_telling(random, &mut stream),
        1 => {
            stream.push(CR);
            put_telling(random, &mut stream);
        }
        _ => line_end(random, version, &mut stream),
    }
    stream.push(NUL);
    stream
}

/// Items around a frame that has as many header lines as may be, or one less, or few, at times as long
/// as may be, with and without a content-length among them and a body behind them: a line is added or
/// not, and there is room for it or not.
pub fn around_added_line(random: &mut Random, version: Version) -> Stream {
    let command = if random.once_in(5) {
        any_command(random)
    } else {
        with_body(random)
    };
    let mut stream = items(random, version);
    stream.extend(opened(random, version, command));
    let kind = random.below(16);
    let longest = kind < 2 && random.once_in(3);
    let any = body_length(random);
    let length = if longest { MAX_BODY } else { any }.min(command.max_body());
    let count = random.pick(&[2, MAX_LINES - 1, MAX_LINES - 1, MAX_LINES, MAX_LINES]);
    let any = random.below(count);
    let place = random.pick(&[None, Some(any)]);
    for index in 0..count {
        match place {
            Some(place) if index == place => length_line(random, version, length, &mut stream),
            Some(place) if index > place => later_line(random, version, command, &mut stream),
            _ if kind == 0 => whole_line(random, version, command, &mut stream),
            _ if kind == 1 => plain_line(random, version, &mut stream),
            _ => line(random, version, command, &mut stream),
        }
    }
    line_end(random, version, &mut stream);
    body(random, length, place.is_some(), &mut stream);
    stream.push(NUL);
    stream.extend(items(random, version));
    stream
}

/// A header line as long as may be.
fn whole_line(random: &mut Random, version: Version, command: Command, stream: &mut Stream) {
    let name = random.between(1, MAX_LINE - 1);
    text(random, version, command, name, stream);
    stream.push(COLON);
    value(random, version, command, MAX_LINE - name - 1, stream);
    line_end(random, version, stream);
}

/// A header line as long as may be that is as long when it is decoded.
fn plain_line(random: &mut Random, version: Version, stream: &mut Stream) {
    let end = stream.len() + MAX_LINE;
    stream.extend_from_slice(b"plain:");
    stream.resize(end, b'v');
    line_end(random, version, stream);
}

/// A header line about as long as may be, with or without its colon, perhaps a content-length, then
/// up to three octets or characters that matter.
pub fn around_whole_line(random: &mut Random, version: Version) -> Stream {
    let command = any_command(random);
    let mut stream = opened(random, version, command);
    let length = random.between(MAX_LINE - 4, MAX_LINE);
    match random.below(5) {
        0 => text(random, version, command, length, &mut stream),
        1 | 2 => stream.extend(long_content_length(random, command, length)),
        _ => {
            let name = random.between(1, length - 1);
            text(random, version, command, name, &mut stream);
            stream.push(COLON);
            value(random, version, command, length - name - 1, &mut stream);
        }
    }
    for _ in 0..random.between(0, 3) {
        if random.once_in(4) {
            stream.extend(of_either_kind(random));
        } else {
            stream.push(random.pick(b"\\\\\\ccr::\r\r\n\0a09"));
        }
    }
    if random.once_in(2) {
        line_end(random, version, &mut stream);
    }
    stream.extend_from_slice(b"\n\0");
    stream
}

/// A content-length line of so many octets: zeros, perhaps with a number at their end.
fn long_content_length(random: &mut Random, command: Command, length: usize) -> Stream {
    let numbers: [&[u8]; 5] = [b"", b"3", b"3276", b"32768", b"32769"];
    let number = if command.has_body() {
        random.pick(&numbers)
    } else {
        b""
    };
    let mut line = b"content-length:".to_vec();
    line.resize(length - number.len(), b'0');
    line.extend_from_slice(number);
    line
}

/// A body about as long as may be, with and without a length.
pub fn around_whole_body(random: &mut Random, version: Version) -> Stream {
    let command = with_body(random);
    let mut stream = opened(random, version, command);
    let length = random.between(MAX_BODY - 1, MAX_BODY + 1);
    let declared = random.once_in(2);
    if declared {
        length_line(random, version, length.min(MAX_BODY), &mut stream);
    }
    line_end(random, version, &mut stream);
    body(random, length, declared, &mut stream);
    stream.push(random.pick(b"\0\0\0\r\na"));
    stream.extend(items(random, version));
    stream
}

/// The longest header block and perhaps the longest body, at times with one octet put in or taken
/// out, at times cut.
pub fn around_longest(random: &mut Random, version: Version) -> Stream {
    let command = with_body(random);
    let mut stream = opened(random, version, command);
    for _ in 0..MAX_LINES {
        whole_line(random, version, command, &mut stream);
    }
    line_end(random, version, &mut stream);
    let length = random.pick(&[3, MAX_BODY]);
    body(random, length, false, &mut stream);
    stream.push(NUL);
    if random.once_in(2) {
        damage(random, &mut stream);
    }
    if random.once_in(3) {
        let length = random.below(stream.len());
        stream.truncate(length);
    }
    stream
}
