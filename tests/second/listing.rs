//! The listing of a stream: its items one after another, and how it ends.

use crate::item::{parse, Answer, Item};
use crate::version::Version;
use std::fmt::Write;

/// How a stream ends, behind its last item.
pub enum End {
    Refused { code: usize, offset: usize },
    More,
    Nothing,
}

/// A stream taken apart: each item with its start, then the start reached and what is there. Starts
/// count from the stream's beginning.
pub struct Listing {
    pub items: Vec<(usize, Item)>,
    pub reached: usize,
    pub end: End,
}

/// Takes a stream apart, item by item, in one version.
pub fn read(version: Version, stream: &[u8]) -> Listing {
    read_told(version, stream, |_, _| version)
}

/// Takes a stream apart, item by item. Each item is told, with its start, and what is told back is the version
/// of what comes after it.
pub fn read_told(
    mut version: Version,
    stream: &[u8],
    mut tell: impl FnMut(usize, Item) -> Version,
) -> Listing {
    let mut items = Vec::new();
    let mut reached = 0;
    let end = loop {
        if reached == stream.len() {
            break End::Nothing;
        }
        match parse(version, &stream[reached..]) {
            Answer::Complete(item) => {
                version = tell(reached, item);
                items.push((reached, item));
                reached += item.length();
            }
            Answer::Incomplete => break End::More,
            Answer::Invalid { code, offset } => break End::Refused { code, offset },
        }
    };
    Listing {
        items,
        reached,
        end,
    }
}

/// Writes a listing: each line ends in LF.
pub fn write(listing: &Listing) -> String {
    let mut text = String::new();
    for (start, item) in &listing.items {
        write_item(&mut text, *start, item);
    }
    text + &last_line(listing)
}

/// The start reached, and what is there.
pub fn last_line(listing: &Listing) -> String {
    let start = listing.reached;
    match listing.end {
        End::Refused { code, offset } => format!("{start} refused {code} {offset}\n"),
        End::More => format!("{start} more\n"),
        End::Nothing => format!("{start} end\n"),
    }
}

/// The item's start, then its octets for a beat, or command, octets, headers, body start and body
/// length.
fn write_item(text: &mut String, start: usize, item: &Item) {
    let written = match item {
        Item::HeartBeat { length } => writeln!(text, "{start} beat {length}"),
        Item::Frame(frame) => writeln!(
            text,
            "{start} frame {} {} {} {} {}",
            frame.command.0, frame.length, frame.headers, frame.body_start, frame.body_length
        ),
    };
    written.expect("writing into a string");
}

/// The listing of a stream, written; "the listing stays with 1.2".
pub fn of(stream: &[u8]) -> String {
    write(&read(Version::V1_2, stream))
}
