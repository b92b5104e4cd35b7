//! Decoding: what a frame holds, read from its whole lines.

use crate::block::Entry;
use crate::item::{command_line, first_item, header_block, Command, Item, BACKSLASH};
use crate::version::{Escape, Version};

/// What a frame holds: its entries are decoded.
#[derive(Clone, PartialEq, Eq, Debug)]
pub struct Content {
    pub command: Command,
    pub entries: Vec<Entry>,
    pub body: Vec<u8>,
}

/// The content of a row "that is exactly one frame" of the version, and nothing for any other row.
pub fn decode(version: Version, row: &[u8]) -> Option<Content> {
    let frame = match first_item(version, row)? {
        Item::Frame(frame) if frame.length == row.len() => frame,
        _ => return None,
    };
    let (command, start) = command_line(version, row)?;
    let block = header_block(version, command, &row[start..])?;
    let entry = |&(name, value): &(&[u8], &[u8])| Entry {
        name: decoded(version, command, name),
        value: decoded(version, command, value),
    };
    let body_end = frame.body_start + frame.body_length;
    Some(Content {
        command,
        entries: block.lines.iter().map(entry).collect(),
        body: row[frame.body_start..body_end].to_vec(),
    })
}

/// Sound raw text decoded. Escapes are taken from the left, one at a time, and what an escape stands
/// for is not looked at again.
pub fn decoded(version: Version, command: Command, raw: &[u8]) -> Vec<u8> {
    let escapes = command.escapes_in(version);
    let mut text = Vec::new();
    let mut octets = raw.iter();
    while let Some(&octet) = octets.next() {
        text.push(if octet == BACKSLASH && !escapes.is_empty() {
            stands_for(escapes, octets.next())
        } else {
            octet
        });
    }
    text
}

/// The octet that the escape with this letter stands for.
fn stands_for(escapes: &[Escape], letter: Option<&u8>) -> u8 {
    let escape = escapes.iter().find(|(known, _)| Some(known) == letter);
    escape.expect("a whole escape").1
}
