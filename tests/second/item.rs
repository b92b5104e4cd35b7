//! The rules of document 01, "Items on the wire", with those of document 02's C-12 for colons, C-17 for
//! characters and C-18 for both versions, read over whole items and whole lines.
//!
//! `first_item` is the only place that knows the format; what differs in a version is asked of it. Whether
//! octets can still be finished is asked as the document asks it: is there a row of octets after them that
//! makes the whole an item?

use crate::characters::{self, is_utf8};
use crate::table;
use crate::version::{Escape, Version};

/// The sizes.
pub const MAX_LINES: usize = 32;
pub const MAX_LINE: usize = 512;
pub const MAX_BODY: usize = 32_768;

pub const NUL: u8 = 0;
pub const LF: u8 = 10;
pub const CR: u8 = 13;
pub const COLON: u8 = 58;
pub const BACKSLASH: u8 = 92;

pub const CONTENT_LENGTH: &[u8] = b"content-length";

/// The commands, in the order of their numbers; the first one is number 1.
pub const COMMANDS: [&[u8]; 15] = [
    b"ABORT",
    b"ACK",
    b"BEGIN",
    b"COMMIT",
    b"CONNECT",
    b"CONNECTED",
    b"DISCONNECT",
    b"ERROR",
    b"MESSAGE",
    b"NACK",
    b"RECEIPT",
    b"SEND",
    b"STOMP",
    b"SUBSCRIBE",
    b"UNSUBSCRIBE",
];

/// A command, held as its number, from 1.
#[derive(Clone, Copy, PartialEq, Eq, Debug)]
pub struct Command(pub usize);

impl Command {
    /// The command of a number, if there is one.
    pub fn numbered(number: u32) -> Option<Command> {
        let numbers = 1..=COMMANDS.len() as u32;
        numbers
            .contains(&number)
            .then_some(Command(number as usize))
    }

    /// The command whose name the row is.
    pub fn named(row: &[u8]) -> Option<Command> {
        let index = COMMANDS.iter().position(|name| *name == row)?;
        Some(Command(index + 1))
    }

    pub fn name(self) -> &'static [u8] {
        COMMANDS[self.0 - 1]
    }

    /// "In CONNECT and CONNECTED there are no escapes." STOMP has them.
    pub fn escapes(self) -> bool {
        self.name() != b"CONNECT" && self.name() != b"CONNECTED"
    }

    /// The escapes of the command's header text.
    pub fn escapes_in(self, version: Version) -> &'static [Escape] {
        if self.escapes() {
            version.escapes()
        } else {
            &[]
        }
    }

    /// Document 02, C-12: "For CONNECT and CONNECTED the first colon now divides, and later ones belong to
    /// the value. STOMP frames keep the old rule."
    pub fn has_colons(self) -> bool {
        [&b"CONNECT"[..], b"CONNECTED"].contains(&self.name())
    }

    /// "Only SEND, MESSAGE and ERROR may have a body."
    pub fn has_body(self) -> bool {
        [&b"SEND"[..], b"MESSAGE", b"ERROR"].contains(&self.name())
    }

    /// The longest body that the command may have.
    pub fn max_body(self) -> usize {
        if self.has_body() {
            MAX_BODY
        } else {
            0
        }
    }
}

/// A frame's numbers: `length` is octets used, places count from the frame's start.
#[derive(Clone, Copy, PartialEq, Eq, Debug)]
pub struct Frame {
    pub command: Command,
    pub length: usize,
    pub headers: usize,
    pub body_start: usize,
    pub body_length: usize,
}

/// An item. A heart-beat is the document's beat.
#[derive(Clone, Copy, PartialEq, Eq, Debug)]
pub enum Item {
    HeartBeat { length: usize },
    Frame(Frame),
}

impl Item {
    pub fn length(self) -> usize {
        match self {
            Item::HeartBeat { length } => length,
            Item::Frame(frame) => frame.length,
        }
    }
}

/// What parsing (the document's judging) answers: found, more, or refused with number and place.
#[derive(Clone, Copy, PartialEq, Eq, Debug)]
pub enum Answer {
    Complete(Item),
    Incomplete,
    Invalid { code: usize, offset: usize },
}

/// Parses the first item of a row in a version. The offset is the length of the longest viable beginning: that
/// many octets can be had by an item, and with the octet that follows them they cannot.
pub fn parse(version: Version, row: &[u8]) -> Answer {
    if let Some(item) = first_item(version, row) {
        return Answer::Complete(item);
    }
    if can_be_finished(version, row) {
        return Answer::Incomplete;
    }
    let offset = longest_viable(version, row);
    let code = table::code(version, &row[..offset], row[offset]);
    Answer::Invalid { code, offset }
}

/// The item that a beginning of the row is, if there is one. There is at most one, because no item
/// is the beginning of a longer item.
pub fn first_item(version: Version, row: &[u8]) -> Option<Item> {
    let mut ends = version.line_ends().iter();
    match ends.find(|end| row.starts_with(end)) {
        Some(end) => Some(Item::HeartBeat { length: end.len() }),
        None => first_frame(version, row).map(Item::Frame),
    }
}

/// "command, line end, header lines each with a line end, an empty line, body, octet 0"
fn first_frame(version: Version, row: &[u8]) -> Option<Frame> {
    let (command, block_start) = command_line(version, row)?;
    let block = header_block(version, command, &row[block_start..])?;
    let body_start = block_start + block.length;
    let body_length = body(command, block.content_length, &row[body_start..])?;
    Some(Frame {
        command,
        length: body_start + body_length + 1,
        headers: block.lines.len(),
        body_start,
        body_length,
    })
}

/// The command that the row begins with, and the length of its line with the line end.
pub fn command_line(version: Version, row: &[u8]) -> Option<(Command, usize)> {
    let (line, length) = first_line(version, row)?;
    Some((Command::named(line)?, length))
}

/// The row's first line without its line end, and its length with the line end. Every line end has the one
/// 10 of its line, so the line reaches up to the first 10, and the longest line end that it has is taken from
/// it: in 1.2 no line holds a raw 13. A line longer than the limit is not looked at further than the limit.
pub fn first_line(version: Version, row: &[u8]) -> Option<(&[u8], usize)> {
    let reach = row.len().min(MAX_LINE + 2);
    let length = 1 + row[..reach].iter().position(|&octet| octet == LF)?;
    let mut ends = version.line_ends().iter();
    let line = ends.find_map(|end| row[..length].strip_suffix(*end))?;
    Some((line, length))
}

/// A frame's header lines and the empty line: name and value of each line, both raw, what the first
/// content-length says, and the length of it all.
pub struct HeaderBlock<'a> {
    pub lines: Vec<(&'a [u8], &'a [u8])>,
    pub content_length: Option<usize>,
    pub length: usize,
}

/// The header lines and the empty line that the row begins with.
pub fn header_block(version: Version, command: Command, row: &[u8]) -> Option<HeaderBlock<'_>> {
    let mut block = HeaderBlock {
        lines: Vec::new(),
        content_length: None,
        length: 0,
    };
    loop {
        let (line, length) = first_line(version, &row[block.length..])?;
        block.length += length;
        if line.is_empty() {
            return Some(block);
        }
        if block.lines.len() == MAX_LINES {
            return None;
        }
        let (name, value) = header_line(version, command, line)?;
        block.lines.push((name, value));
        // "The first entry named content-length decides ... Later entries are not examined."
        if name == CONTENT_LENGTH && block.content_length.is_none() {
            block.content_length = Some(content_length(command, value)?);
        }
    }
}

/// "A header line is a name of at least one octet, a colon, a value that may be empty." Gives name
/// and value, both raw. The first colon divides; whether the value may have more, the command says.
/// Document 02, C-17: "Names and values must be UTF-8 as RFC 3629 defines it."
pub fn header_line(version: Version, command: Command, line: &[u8]) -> Option<(&[u8], &[u8])> {
    let colon = line.iter().position(|&octet| octet == COLON)?;
    let (name, value) = (&line[..colon], &line[colon + 1..]);
    let sound = line.len() <= MAX_LINE
        && !name.is_empty()
        && is_text(version, command, name)
        && is_text(version, command, value)
        && is_utf8(name)
        && is_utf8(value)
        && (command.has_colons() || !value.contains(&COLON));
    sound.then_some((name, value))
}

/// Raw header text, its colons apart: no octet that begins a line end; where the command escapes, whole
/// escapes only, and a colon is no escape's letter.
fn is_text(version: Version, command: Command, text: &[u8]) -> bool {
    match text {
        [] => true,
        [octet, ..] if version.ends_line(*octet) => false,
        [BACKSLASH, rest @ ..] if command.escapes() => match rest {
            [letter, rest @ ..] => is_letter(version, *letter) && is_text(version, command, rest),
            [] => false,
        },
        [_, rest @ ..] => is_text(version, command, rest),
    }
}

/// Whether the octet may follow a backslash, where there are escapes.
pub fn is_letter(version: Version, octet: u8) -> bool {
    let mut escapes = version.escapes().iter();
    escapes.any(|(letter, _)| *letter == octet)
}

/// "one or more digits, leading zeros allowed, at most 32,768, and 0 where no body is allowed"
pub fn content_length(command: Command, value: &[u8]) -> Option<usize> {
    decimal(value, command.max_body())
}

/// The number of one or more digits, leading zeros allowed, if it is at most the limit.
pub fn decimal(value: &[u8], limit: usize) -> Option<usize> {
    if value.is_empty() || !value.iter().all(u8::is_ascii_digit) {
        return None;
    }
    // Without its leading zeros a number of more digits than the limit has is above it, and one of
    // as many digits fits any integer.
    let zeros = value.iter().take_while(|&&digit| digit == b'0').count();
    let digits = &value[zeros..];
    if digits.len() > limit.to_string().len() {
        return None;
    }
    let number = digits
        .iter()
        .fold(0, |sum, &digit| sum * 10 + usize::from(digit - b'0'));
    (number <= limit).then_some(number)
}

/// The length of the body that the row begins with, if octet 0 follows it. "The body is that many
/// octets, whatever they are, then octet 0. Without the entry the body ends before the first octet 0."
fn body(command: Command, declared: Option<usize>, row: &[u8]) -> Option<usize> {
    let length = match declared {
        Some(length) => length,
        None => row
            .iter()
            .take(command.max_body() + 1)
            .position(|&octet| octet == NUL)?,
    };
    (row.get(length) == Some(&NUL)).then_some(length)
}

/// What may be missing from an unfinished item behind its command's letters, up to its body: nothing,
/// the empty line, a line end and the empty line; before those, in a header line, a colon, an escape's
/// letter, a digit of a content-length. All of it is the same in both versions, which have octet 10 as line
/// end and `\c` as escape. The rest of a character may be missing too, before the colon or the
/// line end: `AFTER_CHARACTER`.
const ENDINGS: [&[u8]; 8] = [
    b"", b"\n", b"\n\n", b":\n\n", b"c\n\n", b"c:\n\n", b"0\n\n", b":0\n\n",
];

/// What may be missing behind the rest of a character.
const AFTER_CHARACTER: [&[u8]; 2] = [b"\n\n", b":\n\n"];

/// "Octets are an unfinished beginning, and can still be finished, exactly if one or more octets
/// after them make the whole an item." The endings tried are the shortest ones for each case; where
/// a longer ending makes an item, one of these does too.
pub fn can_be_finished(version: Version, row: &[u8]) -> bool {
    let finishes_here = |ending: &&[u8]| finishes(version, row, ending);
    let finishes_command = |name: &&[u8]| match name.strip_prefix(row) {
        Some(letters) => finishes(version, row, &[letters, b"\n\n"].concat()),
        None => false,
    };
    let finishes_character = |rest: &&[u8]| {
        let with = |ending: &&[u8]| finishes(version, row, &[*rest, *ending].concat());
        AFTER_CHARACTER.iter().any(with)
    };
    // A cut character ends in an octet above those that are characters by themselves.
    let may_be_cut = row.last().is_some_and(|&octet| octet >= 128);
    ENDINGS.iter().any(finishes_here)
        || COMMANDS.iter().any(finishes_command)
        || (may_be_cut && characters::RESTS.iter().any(finishes_character))
}

/// Whether the row, the ending and then some octets 0 make an item that is longer than the row. The
/// octets 0 fill up the longest body and end the frame; those that are not needed stay behind it.
fn finishes(version: Version, row: &[u8], ending: &[u8]) -> bool {
    let mut whole = Vec::with_capacity(row.len() + ending.len() + MAX_BODY + 1);
    whole.extend_from_slice(row);
    whole.extend_from_slice(ending);
    whole.resize(whole.len() + MAX_BODY + 1, NUL);
    first_item(version, &whole).is_some_and(|item| item.length() > row.len())
}

/// The length of the longest beginning that can still be finished, of a row that holds no item and
/// cannot be finished itself. Every beginning of an unfinished beginning can be finished too, so the
/// search may halve: `low` octets always can be finished, `high` octets never.
fn longest_viable(version: Version, row: &[u8]) -> usize {
    let (mut low, mut high) = (0, row.len());
    while high - low > 1 {
        let middle = (low + high) / 2;
        if can_be_finished(version, &row[..middle]) {
            low = middle;
        } else {
            high = middle;
        }
    }
    low
}
