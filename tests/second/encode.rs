//! Encoding, document 01, "Writing", and document 02, C-16, C-17 and C-18: the image of a command, a header block
//! and a body, or the first of the refusals in the document's order.

use crate::block::{self, Entry};
use crate::characters::is_utf8;
use crate::decode::Content;
use crate::item::{Command, BACKSLASH, COLON, CONTENT_LENGTH, LF, MAX_LINE, MAX_LINES, NUL};
use crate::version::Version;

/// How a frame is written: with C-16's mark or without, and in which version.
#[derive(Clone, Copy, PartialEq, Eq, Default, Debug)]
pub struct Options {
    pub counted: bool,
    pub version: Version,
}

/// A refusal: its number, and the index of the entry that 53 names (0 in the others).
#[derive(Clone, Copy, PartialEq, Eq, Debug)]
pub struct Refusal {
    pub code: usize,
    pub index: usize,
}

fn refused(code: usize) -> Refusal {
    Refusal { code, index: 0 }
}

/// The image, for a target of `room` octets.
pub fn encode(
    options: Options,
    command: u32,
    block: &[u8],
    body: &[u8],
    room: usize,
) -> Result<Vec<u8>, Refusal> {
    // 50 unknown command; 51 malformed header block
    let command = Command::numbered(command).ok_or(refused(50))?;
    let entries = block::read(block).ok_or(refused(51))?;
    let body = body.to_vec();
    let content = Content {
        command,
        entries,
        body,
    };
    // "52 more than 32 lines, the added one counted"; "52 counts the line only where it is added"
    if written(&content, options.counted).len() > MAX_LINES {
        return Err(refused(52));
    }
    if let Some(refusal) = ROWS.iter().find_map(|row| row(options.version, &content)) {
        return Err(refusal);
    }
    // "56 the target is shorter than the image"
    let image = image(&content, options);
    if room < image.len() {
        return Err(refused(56));
    }
    Ok(image)
}

type Row = fn(Version, &Content) -> Option<Refusal>;

/// The refusals 53 to 55, in their order.
const ROWS: [Row; 3] = [spoiled_entry, wrong_body, wrong_length];

/// The entries that lines are written of. "If the body is not empty and no entry is named content-length,
/// a line `content-length:` with the shortest decimal follows the entries": so with the mark. Without it
/// "the writer now adds the line only if the body holds octet 0".
pub fn written(content: &Content, counted: bool) -> Vec<Entry> {
    let needed = content.body.contains(&NUL);
    let asked_for = counted && !content.body.is_empty();
    let mut entries = content.entries.clone();
    if first_length(content).is_none() && (needed || asked_for) {
        let digits = content.body.len().to_string();
        entries.push(Entry::new(CONTENT_LENGTH, digits.as_bytes()));
    }
    entries
}

/// The first entry named content-length.
fn first_length(content: &Content) -> Option<&Entry> {
    let named = |entry: &&Entry| entry.name == CONTENT_LENGTH;
    content.entries.iter().find(named)
}

/// "53 an entry has an empty name, a raw line over 512, or in CONNECT/CONNECTED holds 10, 13 or a
/// colon (the first such entry is named, from 0)"; by document 02, C-12, "a colon gets 53 there only in
/// the name"; by C-17 "53 also where a name or value is not UTF-8"; by C-18 it "no longer concerns 13 in a 1.1
/// frame".
fn spoiled_entry(version: Version, content: &Content) -> Option<Refusal> {
    let command = content.command;
    let spoiled = |entry: &Entry| {
        let ends_line = |octet: &u8| version.ends_line(*octet);
        let ends = entry.name.iter().any(ends_line) || entry.value.iter().any(ends_line);
        let unwritable = ends || entry.name.contains(&COLON);
        entry.name.is_empty()
            || line(version, command, entry).len() > MAX_LINE
            || !is_utf8(&entry.name)
            || !is_utf8(&entry.value)
            || (!command.escapes() && unwritable)
    };
    let index = content.entries.iter().position(spoiled)?;
    Some(Refusal { code: 53, index })
}

/// "54 body not allowed or too long"
fn wrong_body(_: Version, content: &Content) -> Option<Refusal> {
    let most = content.command.max_body();
    (content.body.len() > most).then_some(refused(54))
}

/// "55 the first content-length entry is not digits with the body's length as value"
fn wrong_length(_: Version, content: &Content) -> Option<Refusal> {
    let entry = first_length(content)?;
    let right = says(&entry.value, content.body.len());
    (!right).then_some(refused(55))
}

/// Whether the value is digits with that number as value: its shortest decimal, perhaps with zeros
/// before it.
fn says(value: &[u8], number: usize) -> bool {
    let shortest = number.to_string();
    let before = value.strip_suffix(shortest.as_bytes());
    before.is_some_and(|zeros| zeros.iter().all(|&digit| digit == b'0'))
}

/// "Output: line ends are octet 10; entries in order, escaped where the command escapes."
pub fn image(content: &Content, options: Options) -> Vec<u8> {
    let mut image = content.command.name().to_vec();
    image.push(LF);
    for entry in written(content, options.counted) {
        image.extend(line(options.version, content.command, &entry));
        image.push(LF);
    }
    image.push(LF);
    image.extend_from_slice(&content.body);
    image.push(NUL);
    image
}

/// The raw line of an entry, without its line end.
pub fn line(version: Version, command: Command, entry: &Entry) -> Vec<u8> {
    let mut line = raw(version, command, &entry.name);
    line.push(COLON);
    line.extend(raw(version, command, &entry.value));
    line
}

/// Text as it is in a line: escaped where the command escapes. In 1.1 a 13 has no escape, and stays.
fn raw(version: Version, command: Command, text: &[u8]) -> Vec<u8> {
    let escapes = command.escapes_in(version);
    let mut raw = Vec::new();
    for &octet in text {
        match escapes.iter().find(|(_, escaped)| *escaped == octet) {
            Some((letter, _)) => raw.extend([BACKSLASH, *letter]),
            None => raw.push(octet),
        }
    }
    raw
}
