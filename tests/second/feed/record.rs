//! The record of a stream parser, 16 octets, read from the octets held: where the next octet stands, and
//! what of the item is known there. README.md has the table.

use super::StreamParser;
use crate::characters;
use crate::item::{
    command_line, decimal, header_block, Command, BACKSLASH, COLON, COMMANDS, CONTENT_LENGTH, CR,
    MAX_BODY,
};
use crate::table::{in_escape, part_after, Part, NUMBERS};
use crate::version::Version;
use std::convert::TryInto;

pub const LENGTH: usize = 16;

pub type Record = [u8; LENGTH];

/// The most octets that an unfinished item has.
pub const MOST_HELD: usize = 49_227;

/// Where the next octet is. In 1.1 it is never after a 13 of a line end.
pub const START: u8 = 0;
const AFTER_13_OF_BEAT: u8 = 1;
const IN_COMMAND: u8 = 2;
const AFTER_13_OF_COMMAND: u8 = 3;
const AT_LINE_START: u8 = 4;
const IN_NAME: u8 = 5;
pub const IN_CHARACTER_OF_NAME: u8 = 6;
const IN_VALUE: u8 = 7;
pub const IN_CHARACTER_OF_VALUE: u8 = 8;
const IN_CONTENT_LENGTH: u8 = 9;
const AFTER_13_OF_LINE: u8 = 10;
const AFTER_13_OF_EMPTY_LINE: u8 = 11;
const IN_BODY: u8 = 12;
const IN_COUNTED_BODY: u8 = 13;
pub const REFUSED: u8 = 16;

/// The name is not the beginning of content-length.
const ANOTHER_NAME: usize = 15;

/// The octets of a record: the phase, the command, the number of a refusal, the count held (two octets),
/// the version, the unfinished character, and those that are 0.
pub const PHASE: usize = 0;
pub const COMMAND: usize = 1;
pub const CODE: usize = 5;
pub const HELD: usize = 10;
pub const VERSION: usize = 12;
pub const CHARACTER: usize = 14;
pub const ZEROS: [usize; 2] = [13, 15];

/// The versions in the order of their numbers, from 0.
const VERSIONS: [Version; 2] = [Version::V1_2, Version::V1_1];

/// The octet that says a version.
pub fn number_of(version: Version) -> u8 {
    let number = VERSIONS.iter().position(|known| *known == version);
    number.expect("a version") as u8
}

/// The version that a record says, if there is such a one.
pub fn version_of(record: &Record) -> Option<Version> {
    VERSIONS.get(usize::from(record[VERSION])).copied()
}

/// What a record says. The size is that of content-length, the length that of the line or body, the
/// character the unfinished one.
#[derive(Default)]
struct Fields {
    phase: u8,
    command: usize,
    lines: usize,
    matched: usize,
    declared: bool,
    code: usize,
    size: usize,
    length: usize,
    held: usize,
    version: Version,
    character: u8,
}

impl Fields {
    fn octets(&self) -> Record {
        let [size, length, held] =
            [self.size, self.length, self.held].map(|number| (number as u16).to_be_bytes());
        let singles = [self.command, self.lines, self.matched];
        let [command, lines, matched] = singles.map(|number| number as u8);
        let front = [self.phase, command, lines, matched];
        let mark = [u8::from(self.declared), self.code as u8];
        let last = [number_of(self.version), 0, self.character, 0];
        let all = [&front[..], &mark, &size, &length, &held, &last].concat();
        all.try_into().expect("a record's octets")
    }
}

/// The record of a stream parser.
pub fn of(parser: &StreamParser) -> Record {
    let held = &parser.held[..];
    let mut fields = match parser.refused {
        Some(code) => Fields {
            phase: REFUSED,
            code,
            ..Fields::default()
        },
        None => unfinished(parser.version, held),
    };
    fields.held = held.len();
    fields.version = parser.version;
    fields.octets()
}

fn unfinished(version: Version, held: &[u8]) -> Fields {
    match part_after(version, held) {
        Part::Command => in_command(held),
        Part::Line {
            command,
            earlier,
            line,
        } => in_line(version, command, &earlier, line),
        Part::Body {
            command,
            declared,
            read,
        } => Fields {
            phase: if declared.is_some() {
                IN_COUNTED_BODY
            } else {
                IN_BODY
            },
            command: command.0,
            lines: lines_of(version, command, held),
            declared: declared.is_some(),
            size: declared.unwrap_or(0),
            length: read,
            ..Fields::default()
        },
    }
}

/// While its letters are read the command is the first that begins with them.
fn in_command(held: &[u8]) -> Fields {
    let named = |name: &[u8]| Command::named(name).expect("a command").0;
    let (phase, command) = match held {
        [] => (START, 0),
        [CR] => (AFTER_13_OF_BEAT, 0),
        [name @ .., CR] => (AFTER_13_OF_COMMAND, named(name)),
        letters => {
            let first = COMMANDS.iter().position(|name| name.starts_with(letters));
            (IN_COMMAND, first.expect("a command begins so") + 1)
        }
    };
    Fields {
        phase,
        command,
        ..Fields::default()
    }
}

/// The header lines of a frame whose empty line is read.
fn lines_of(version: Version, command: Command, held: &[u8]) -> usize {
    let (_, start) = command_line(version, held).expect("a command's line");
    let block = header_block(version, command, &held[start..]);
    block.expect("a header block").lines.len()
}

/// What the first content-length among these lines says.
fn declared_in(lines: &[&[u8]]) -> Option<usize> {
    let value = lines.iter().find_map(|line| value_of_length(line))?;
    decimal(value, MAX_BODY)
}

fn value_of_length(line: &[u8]) -> Option<&[u8]> {
    line.strip_prefix(CONTENT_LENGTH)?.strip_prefix(&[COLON])
}

/// In a header line, at its start, or in its line end. In 1.2 a 13 ends the line: it counts as read.
fn in_line(version: Version, command: Command, earlier: &[&[u8]], line: &[u8]) -> Fields {
    let ended = version.ends_line(CR);
    let mut read = earlier.to_vec();
    let mut fields = Fields {
        command: command.0,
        ..Fields::default()
    };
    match line {
        [] => fields.phase = AT_LINE_START,
        [CR] if ended => fields.phase = AFTER_13_OF_EMPTY_LINE,
        [text @ .., CR] if ended => {
            fields.phase = AFTER_13_OF_LINE;
            read.push(text);
        }
        _ => fields.length = line.len(),
    }
    fields.lines = read.len();
    let declared = declared_in(&read);
    fields.declared = declared.is_some();
    fields.size = declared.unwrap_or(0);
    if fields.length == 0 {
        return fields;
    }
    fields.character = unfinished_character(command, line);
    let unfinished = fields.character != 0;
    match value_of_length(line) {
        _ if !line.contains(&COLON) => {
            fields.phase = if unfinished {
                IN_CHARACTER_OF_NAME
            } else {
                IN_NAME
            };
            fields.matched = if CONTENT_LENGTH.starts_with(line) {
                line.len()
            } else {
                ANOTHER_NAME
            };
        }
        Some(digits) if declared.is_none() => {
            fields.phase = IN_CONTENT_LENGTH;
            fields.size = decimal(digits, MAX_BODY).unwrap_or(0);
        }
        _ => {
            fields.phase = if unfinished {
                IN_CHARACTER_OF_VALUE
            } else {
                IN_VALUE
            };
        }
    }
    fields
}

/// What the line stops in: 92 in an escape, the first octet of a character where only that is there, else
/// how many octets of it are still to come; 0 where it stops in none.
fn unfinished_character(command: Command, line: &[u8]) -> u8 {
    match characters::unfinished(line) {
        _ if in_escape(command, line) => BACKSLASH,
        [] => 0,
        [first] => *first,
        _ => characters::missing(line).expect("a character can be finished") as u8,
    }
}

pub fn count_held(record: &Record) -> usize {
    usize::from(record[HELD]) << 8 | usize::from(record[HELD + 1])
}

/// What is 71 by document 02: "at least a count held over 49,227 and a refusal number the judge lacks"; an
/// octet that is kept for later requests and is not 0; a version that there is not; and an unfinished character
/// where there can be none, or one that reading does not leave.
pub fn is_refused(record: &Record) -> bool {
    let code = usize::from(record[CODE]);
    let is_number = (1..=NUMBERS).contains(&code);
    count_held(record) > MOST_HELD
        || (record[PHASE] == REFUSED && !is_number)
        || ZEROS.iter().any(|&index| record[index] != 0)
        || version_of(record).is_none()
        || !is_left_character(record)
}

/// The version of a fresh parser's record, if it is one: all but the version is 0.
pub fn fresh(record: &Record) -> Option<Version> {
    let version = version_of(record)?;
    let record_of_fresh = of(&StreamParser::told(version));
    (record_of_fresh == *record).then_some(version)
}

/// Whether calls leave such an octet for the unfinished character: outside of one 0; inside one 92 where the
/// command has escapes, 1 or 2 octets to come, or an octet that begins a longer character.
fn is_left_character(record: &Record) -> bool {
    let character = record[CHARACTER];
    let inside = [IN_CHARACTER_OF_NAME, IN_CHARACTER_OF_VALUE].contains(&record[PHASE]);
    let escapes = Command::numbered(u32::from(record[COMMAND])).is_none_or(Command::escapes);
    match character {
        0 => !inside,
        1 | 2 => inside,
        BACKSLASH => inside && escapes,
        first => inside && characters::missing(&[first]).is_some_and(|missing| missing > 0),
    }
}
