//! The calls that the program `feed_calls` reads, and what it writes: of each piece the answer, the sum of
//! the buffer's octets, the record, and the buffer's front; of each version told whether it was taken, and the
//! record.

pub mod sequence;

use crate::feed::record::{self, Record};
use crate::feed::{Fed, StreamParser, INVALID_RECORD, LEAST_BUFFER, SHORT_BUFFER};
use crate::reader::Reader;
use crate::version::Version;
use std::convert::TryInto;

/// The octets of the buffer, of which calls are given the first ones; no piece is longer.
pub const BUFFER: usize = 65_536;

/// The octet that a fresh buffer is filled with.
pub const FILLED: u8 = 170;

/// A call. A room is how many octets of the buffer the calls are given from then on; options say a version.
#[derive(Clone, PartialEq, Eq, Debug)]
pub enum Call {
    Fresh { room: usize },
    Feed { piece: Vec<u8> },
    Record(Record),
    Room { room: usize },
    Tell { options: u32 },
}

impl Call {
    /// The call as the program reads it.
    pub fn octets(&self) -> Vec<u8> {
        let number = |length: usize| (length as u32).to_be_bytes();
        match self {
            Call::Fresh { room } => [&[0], &number(*room)[..]].concat(),
            Call::Feed { piece } => [&[1], &number(piece.len())[..], piece].concat(),
            Call::Record(record) => [&[2], &record[..]].concat(),
            Call::Room { room } => [&[3], &number(*room)[..]].concat(),
            Call::Tell { options } => [&[4], &options.to_be_bytes()[..]].concat(),
        }
    }

    /// The next call, if it is whole.
    fn read(reader: &mut Reader) -> Option<Call> {
        Some(match reader.octet()? {
            0 => Call::Fresh {
                room: reader.number()? as usize,
            },
            1 => {
                let length = reader.number()? as usize;
                Call::Feed {
                    piece: reader.octets(length)?.to_vec(),
                }
            }
            2 => Call::Record(reader.octets(record::LENGTH)?.try_into().ok()?),
            3 => Call::Room {
                room: reader.number()? as usize,
            },
            4 => Call::Tell {
                options: reader.number()?,
            },
            _ => return None,
        })
    }
}

/// The calls of an input, if all of them are whole.
pub fn read(input: &[u8]) -> Option<Vec<Call>> {
    let mut reader = Reader(input);
    let mut calls = Vec::new();
    while !reader.0.is_empty() {
        calls.push(Call::read(&mut reader)?);
    }
    Some(calls)
}

/// What the program writes of a piece.
#[derive(Clone, PartialEq, Eq, Debug)]
pub struct Reply {
    pub answer: u64,
    pub sum: usize,
    pub record: Record,
    pub front: Vec<u8>,
}

impl Reply {
    pub fn octets(&self) -> Vec<u8> {
        let line = format!("{} {}\n", self.answer, self.sum);
        [line.as_bytes(), &self.record, &self.front, b"\n"].concat()
    }

    /// The reply that an output begins with, and its length, whatever it says.
    pub fn read(output: &[u8]) -> Option<(Reply, usize)> {
        let mut reader = Reader(output);
        let length = output.iter().position(|&octet| octet == b'\n')?;
        let line = std::str::from_utf8(reader.octets(length + 1)?).ok()?;
        let (answer, sum) = line.trim_end().split_once(' ')?;
        let answer = answer.parse().ok()?;
        let sum = sum.parse().ok()?;
        let record: Record = reader.octets(record::LENGTH)?.try_into().ok()?;
        let front = reader.octets(front(answer, &record).min(BUFFER))?.to_vec();
        let reply = Reply {
            answer,
            sum,
            record,
            front,
        };
        (reader.octet()? == b'\n').then_some((reply, output.len() - reader.0.len()))
    }
}

/// How many octets of the buffer the program writes with an answer.
fn front(answer: u64, record: &Record) -> usize {
    let rest = answer >> 18;
    let length = match answer & 3 {
        0 => record::count_held(record) as u64,
        1 => rest,
        2 => (rest >> 10 & 0xffff) + (rest >> 26) + 1,
        _ => rest >> 8,
    };
    length as usize
}

/// What the program writes where a version is told.
#[derive(Clone, Copy, PartialEq, Eq, Debug)]
pub struct Told {
    pub taken: bool,
    pub record: Record,
}

impl Told {
    pub fn octets(&self) -> Vec<u8> {
        let line: &[u8] = if self.taken { b"1\n" } else { b"0\n" };
        [line, &self.record, b"\n"].concat()
    }

    /// The reply that an output begins with, and its length, whatever it says.
    pub fn read(output: &[u8]) -> Option<(Told, usize)> {
        let mut reader = Reader(output);
        let taken = match reader.octets(2)? {
            b"0\n" => false,
            b"1\n" => true,
            _ => return None,
        };
        let record = reader.octets(record::LENGTH)?.try_into().ok()?;
        let told = Told { taken, record };
        (reader.octet()? == b'\n').then_some((told, output.len() - reader.0.len()))
    }
}

/// What is due to a call: nothing, this reply, or any reply within what is said of such a record.
#[derive(Clone, PartialEq, Eq, Debug)]
pub enum Due {
    Nothing,
    Exactly { fed: Fed, reply: Reply },
    Told(Told),
    Any(Bounds),
    AnyTold(ToldBounds),
}

/// What a reply to a piece of so many octets keeps to where nothing else is said: where the call itself is
/// refused, record and sum are as they were, if they are known; a record that calls leave is not refused.
#[derive(Clone, PartialEq, Eq, Debug)]
pub struct Bounds {
    piece: usize,
    record: Option<Record>,
    sum: Option<usize>,
    is_left: bool,
}

impl Bounds {
    pub fn allow(&self, reply: &Reply) -> bool {
        let kind = reply.answer & 3;
        let taken = if kind == 0 {
            reply.answer >> 2
        } else {
            reply.answer >> 2 & 0xffff
        };
        let code = (reply.answer >> 18 & 0xff) as usize;
        let refuses = kind == 3 && (code == SHORT_BUFFER || code == INVALID_RECORD);
        let kept = self.record.is_none_or(|record| record == reply.record)
            && self.sum.is_none_or(|sum| sum == reply.sum);
        taken <= self.piece as u64 && !(refuses && (!kept || self.is_left))
    }
}

/// What a reply to a version told keeps to where nothing else is said: it was taken, and is in the record, or
/// it was not; nothing else of the record changes, if that is known.
#[derive(Clone, PartialEq, Eq, Debug)]
pub struct ToldBounds {
    version: Version,
    record: Option<Record>,
}

impl ToldBounds {
    pub fn allow(&self, told: &Told) -> bool {
        let mut due = self.record.unwrap_or(told.record);
        if told.taken {
            due[record::VERSION] = record::number_of(self.version);
        }
        due == told.record
    }
}

/// The record: what calls left; one that was set, and calls need not leave; or one that no one knows,
/// after a call with such a record, with a buffer that no one knows either.
#[derive(Clone)]
enum Known {
    Left(StreamParser),
    Set { record: Record, is_left: bool },
    Nothing,
}

/// The record and the buffer, and how much of it calls are given.
pub struct Calls {
    known: Known,
    buffer: Vec<u8>,
    room: usize,
}

impl Calls {
    /// Before the first call.
    pub fn new() -> Calls {
        Calls {
            known: Known::Left(StreamParser::default()),
            buffer: vec![FILLED; BUFFER],
            room: BUFFER,
        }
    }

    fn sum(&self) -> usize {
        self.buffer.iter().map(|&octet| usize::from(octet)).sum()
    }

    /// The call, and what is due to it.
    pub fn call(&mut self, call: &Call) -> Due {
        match call {
            Call::Fresh { room } => {
                self.known = Known::Left(StreamParser::default());
                self.buffer.fill(FILLED);
                self.room = *room;
            }
            Call::Feed { piece } => return self.feed(piece),
            Call::Record(record) => self.set(*record, false),
            Call::Room { room } => self.room = *room,
            Call::Tell { options } => return self.tell(Version::asked_for(*options)),
        }
        Due::Nothing
    }

    /// A record that is set. That of a fresh parser is known in either version; of any other, the buffer need not
    /// be as it was left.
    fn set(&mut self, record: Record, is_left: bool) {
        if matches!(self.known, Known::Nothing) {
            return;
        }
        self.known = match record::fresh(&record) {
            Some(version) => Known::Left(StreamParser::told(version)),
            None => Known::Set { record, is_left },
        };
    }

    /// Says of the record just set that calls leave it.
    pub fn is_left(&mut self) {
        if let Known::Set { record, .. } = self.known {
            self.set(record, true);
        }
    }

    /// Tells the version, whatever the buffer. A record that was set and is not that of a fresh parser is invalid,
    /// or is that of an item under way or of a refusal; but of one that is at the start and has other octets that are
    /// not 0, it is not known whether it is refused.
    fn tell(&mut self, version: Version) -> Due {
        match &mut self.known {
            Known::Left(parser) => Due::Told(Told {
                taken: parser.tell(version),
                record: parser.record(),
            }),
            Known::Set { record, .. }
                if record::is_refused(record) || record[record::PHASE] != record::START =>
            {
                Due::Told(Told {
                    taken: false,
                    record: *record,
                })
            }
            Known::Set { record, .. } => {
                let record = Some(*record);
                self.known = Known::Nothing;
                Due::AnyTold(ToldBounds { version, record })
            }
            Known::Nothing => Due::AnyTold(ToldBounds {
                version,
                record: None,
            }),
        }
    }

    fn feed(&mut self, piece: &[u8]) -> Due {
        let short = self.room < LEAST_BUFFER;
        match &mut self.known {
            Known::Left(parser) => {
                let fed = if short {
                    Fed::refused(SHORT_BUFFER)
                } else {
                    parser.feed(&mut self.buffer, piece)
                };
                let (record, held) = (parser.record(), parser.held.len());
                self.exactly(fed, record, held)
            }
            Known::Set { record, .. } if short => {
                let record = *record;
                self.exactly(Fed::refused(SHORT_BUFFER), record, 0)
            }
            Known::Set { record, .. } if record::is_refused(record) => {
                let record = *record;
                self.exactly(Fed::refused(INVALID_RECORD), record, 0)
            }
            Known::Set { record, is_left } => {
                let bounds = Bounds {
                    piece: piece.len(),
                    record: Some(*record),
                    sum: None,
                    is_left: *is_left,
                };
                let sum = Some(self.sum());
                self.known = Known::Nothing;
                Due::Any(Bounds { sum, ..bounds })
            }
            Known::Nothing => Due::Any(Bounds {
                piece: piece.len(),
                record: None,
                sum: None,
                is_left: false,
            }),
        }
    }

    fn exactly(&self, fed: Fed, record: Record, held: usize) -> Due {
        let reply = Reply {
            answer: fed.packed(),
            sum: self.sum(),
            record,
            front: self.buffer[..fed.front(held)].to_vec(),
        };
        Due::Exactly { fed, reply }
    }
}

/// What is due to these calls, made one after another.
pub fn dues(calls: &[Call]) -> Vec<Due> {
    let mut state = Calls::new();
    calls.iter().map(|call| state.call(call)).collect()
}
