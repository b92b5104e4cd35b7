//! What the program `rewrite` writes: each frame of a stream decoded and encoded again, and LF for
//! each heart-beat, up to where the stream ends or cannot be read or written.

use crate::block;
use crate::decode::decode;
use crate::encode::{encode, written, Options, Refusal};
use crate::item::{Command, Item, LF};
use crate::listing::{self, End};

/// An item that was written; in a frame perhaps with the line that is added.
#[derive(Clone, Copy, PartialEq, Eq, Debug)]
pub enum Written {
    HeartBeat,
    Frame { command: Command, added: bool },
}

/// Why writing stopped.
#[derive(Clone, Copy, PartialEq, Eq, Debug)]
pub enum Stop {
    Refused { code: usize, offset: usize },
    More,
    Unwritten { code: usize },
    End,
}

/// A stream written again: its items, their octets, and where and why writing stopped. The start
/// reached counts from the stream's beginning.
pub struct Rewritten {
    pub items: Vec<Written>,
    pub octets: Vec<u8>,
    pub reached: usize,
    pub stop: Stop,
}

/// Reads a stream in a version, and writes it again in that version, with C-16's mark or without.
pub fn rewrite(stream: &[u8], options: Options) -> Rewritten {
    let listing = listing::read(options.version, stream);
    let (mut items, mut octets) = (Vec::new(), Vec::new());
    for (start, item) in listing.items {
        match rewritten(&stream[start..start + item.length()], item, options) {
            Ok((item, image)) => {
                items.push(item);
                octets.extend(image);
            }
            Err(Refusal { code, .. }) => {
                return Rewritten {
                    items,
                    octets,
                    reached: start,
                    stop: Stop::Unwritten { code },
                }
            }
        }
    }
    let stop = match listing.end {
        End::Refused { code, offset } => Stop::Refused { code, offset },
        End::More => Stop::More,
        End::Nothing => Stop::End,
    };
    Rewritten {
        items,
        octets,
        reached: listing.reached,
        stop,
    }
}

/// One item written again, from its row of octets; a frame by way of its header block, with as much
/// room as it takes.
fn rewritten(row: &[u8], item: Item, options: Options) -> Result<(Written, Vec<u8>), Refusal> {
    let Item::Frame(frame) = item else {
        return Ok((Written::HeartBeat, vec![LF]));
    };
    let command = frame.command;
    let content = decode(options.version, row).expect("the row is a frame");
    let block = block::write(&content.entries);
    let number = command.0 as u32;
    let image = encode(options, number, &block, &content.body, usize::MAX)?;
    let added = written(&content, options.counted).len() > content.entries.len();
    Ok((Written::Frame { command, added }, image))
}

/// The line on standard error: nothing at the end of a whole stream.
pub fn complaint(rewritten: &Rewritten) -> String {
    let start = rewritten.reached;
    match rewritten.stop {
        Stop::Refused { code, offset } => format!("rewrite: {start} refused {code} {offset}\n"),
        Stop::More => format!("rewrite: {start} more\n"),
        Stop::Unwritten { code } => format!("rewrite: {start} unwritten {code}\n"),
        Stop::End => String::new(),
    }
}
