//! Reading a stream as it arrives, document 02, C-13: the octets of the unfinished item are kept, and
//! with each piece all of them are parsed again, in the version that was told (C-18).

pub mod record;

use self::record::Record;
use crate::item::{parse, Answer, Item};
use crate::version::Version;

/// "70 hold shorter than 49,228", "71 unsound reader record"
pub const SHORT_BUFFER: usize = 70;
pub const INVALID_RECORD: usize = 71;

/// The octets that a buffer (the document's hold) needs.
pub const LEAST_BUFFER: usize = 49_228;

/// A stream parser (the document's reader): the octets of the unfinished item; after a refusal those
/// before the octet refused, and the number; and the version, which is 1.2 in a fresh one.
#[derive(Clone, Default, PartialEq, Eq, Debug)]
pub struct StreamParser {
    pub held: Vec<u8>,
    pub refused: Option<usize>,
    pub version: Version,
}

/// What a call answers: the reply to the item's octets so far, and how many octets of the piece are
/// taken.
#[derive(Clone, Copy, PartialEq, Eq, Debug)]
pub struct Fed {
    pub reply: Answer,
    pub taken: usize,
}

impl Fed {
    /// A refusal of the call itself.
    pub fn refused(code: usize) -> Fed {
        Fed {
            reply: Answer::Invalid { code, offset: 0 },
            taken: 0,
        }
    }

    /// The answer in one number, as include/stomp.h says.
    pub fn packed(self) -> u64 {
        let (kind, rest) = match self.reply {
            Answer::Incomplete => (0, 0),
            Answer::Complete(Item::HeartBeat { length }) => (1, length),
            Answer::Complete(Item::Frame(frame)) => {
                let body = frame.body_start + (frame.body_length << 16);
                (2, frame.command.0 + (frame.headers << 4) + (body << 10))
            }
            Answer::Invalid { code, offset } => (3, code + (offset << 8)),
        };
        kind + 4 * (self.taken as u64 + ((rest as u64) << 16))
    }

    /// How many octets at the buffer's front the answer speaks of, where so many are held after it: the
    /// item's, or those before the octet refused.
    pub fn front(self, held: usize) -> usize {
        match self.reply {
            Answer::Incomplete => held,
            Answer::Complete(item) => item.length(),
            Answer::Invalid { offset, .. } => offset,
        }
    }
}

impl StreamParser {
    /// A fresh one that was told the version.
    pub fn told(version: Version) -> StreamParser {
        StreamParser {
            version,
            ..StreamParser::default()
        }
    }

    /// Tells the version of what comes, and whether it was taken: "C-13's reader is told it between items; told
    /// inside an item, after its refusal or with an unsound record, it changes nothing".
    pub fn tell(&mut self, version: Version) -> bool {
        let between_items = self.held.is_empty() && self.refused.is_none();
        if between_items {
            self.version = version;
        }
        between_items
    }

    /// One piece. The buffer is long enough.
    pub fn feed(&mut self, buffer: &mut [u8], piece: &[u8]) -> Fed {
        let before = self.held.len();
        if let Some(code) = self.refused {
            let reply = Answer::Invalid {
                code,
                offset: before,
            };
            return Fed { reply, taken: 0 };
        }
        self.held.extend_from_slice(piece);
        let reply = parse(self.version, &self.held);
        let reached = match reply {
            Answer::Complete(item) => item.length(),
            Answer::Incomplete => self.held.len(),
            Answer::Invalid { offset, .. } => offset,
        };
        buffer[before..reached].copy_from_slice(&self.held[before..reached]);
        match reply {
            Answer::Complete(_) => self.held.clear(),
            Answer::Incomplete => {}
            Answer::Invalid { code, .. } => {
                self.held.truncate(reached);
                self.refused = Some(code);
            }
        }
        let taken = reached - before;
        Fed { reply, taken }
    }

    /// The record that the call leaves.
    pub fn record(&self) -> Record {
        record::of(self)
    }
}
