//! The calls that the program `registry_calls` reads, and what it writes of each: the answer, and the record
//! after it where it is another one.

pub mod damage;
pub mod sequence;

use crate::reader::Reader;
use crate::registry::record::{self, port_at, TEXT_AT};
use crate::registry::{Registry, UNSOUND};

/// No text of a call is longer.
pub const MAX_SLICE: usize = 65_536;

/// The names of the calls, by their kind.
pub const NAMES: [&str; 6] = ["open", "close", "publish", "ask", "end", "set"];

/// A call: the record is the one that the call before it left.
#[derive(Clone, PartialEq, Eq, Debug)]
pub enum Call {
    Open {
        run: Vec<u8>,
    },
    Close {
        run: Vec<u8>,
    },
    Publish {
        run: Vec<u8>,
        destination: Vec<u8>,
        text: Vec<u8>,
        session: u64,
    },
    Ask {
        run: Vec<u8>,
        destination: Vec<u8>,
    },
    End {
        session: u64,
    },
    Set(Vec<u8>),
}

impl Call {
    pub fn name(&self) -> &'static str {
        NAMES[usize::from(self.kind())]
    }

    fn kind(&self) -> u8 {
        match self {
            Call::Open { .. } => 0,
            Call::Close { .. } => 1,
            Call::Publish { .. } => 2,
            Call::Ask { .. } => 3,
            Call::End { .. } => 4,
            Call::Set(_) => 5,
        }
    }

    /// The session, 0 where there is none, and the three texts, empty where there are fewer.
    fn parts(&self) -> (u64, [&[u8]; 3]) {
        match self {
            Call::Open { run } | Call::Close { run } => (0, [run, b"", b""]),
            Call::Publish {
                run,
                destination,
                text,
                session,
            } => (*session, [run, destination, text]),
            Call::Ask { run, destination } => (0, [run, destination, b""]),
            Call::End { session } => (*session, [b"", b"", b""]),
            Call::Set(record) => (0, [record, b"", b""]),
        }
    }

    /// The call as the program reads it.
    pub fn octets(&self) -> Vec<u8> {
        let (session, texts) = self.parts();
        let lengths = texts.map(|text| (text.len() as u32).to_be_bytes());
        [
            &[self.kind()][..],
            &session.to_be_bytes(),
            &lengths.concat(),
            &texts.concat(),
        ]
        .concat()
    }

    /// The next call, if it is whole.
    fn read(reader: &mut Reader) -> Option<Call> {
        let kind = reader.octet()?;
        let session = u64::from(reader.number()?) << 32 | u64::from(reader.number()?);
        let mut length = || Some((reader.number()? as usize).min(MAX_SLICE));
        let lengths = [length()?, length()?, length()?];
        let mut text = |index: usize| Some(reader.octets(lengths[index])?.to_vec());
        let (run, destination, text) = (text(0)?, text(1)?, text(2)?);
        Some(match kind {
            0 => Call::Open { run },
            1 => Call::Close { run },
            2 => Call::Publish {
                run,
                destination,
                text,
                session,
            },
            3 => Call::Ask { run, destination },
            4 => Call::End { session },
            5 => Call::Set(run),
            _ => return None,
        })
    }
}

/// The record before the first call.
pub fn first_record() -> Vec<u8> {
    record::write(&Registry::default())
}

/// The answer to a call, the record after it, and whether it is another one than before, or than was set.
#[derive(Clone, PartialEq, Eq, Debug)]
pub struct Reply {
    pub answer: u64,
    pub record: Vec<u8>,
    pub changed: bool,
}

impl Reply {
    /// The reply to a call on this record.
    pub fn of(before: &[u8], call: &Call) -> Reply {
        let before = match call {
            Call::Set(record) => record,
            _ => before,
        };
        let unsound = Reply {
            answer: UNSOUND,
            record: before.to_vec(),
            changed: false,
        };
        let Some(mut registry) = record::read(before) else {
            return unsound;
        };
        let answer = answer(&mut registry, call);
        let record = record::write(&registry);
        let changed = record != before;
        Reply {
            answer,
            record,
            changed,
        }
    }

    /// As the program writes it.
    pub fn octets(&self) -> Vec<u8> {
        let Reply { answer, record, .. } = self;
        if self.changed {
            let line = format!("{answer} changed\n");
            return [line.as_bytes(), record, b"\n"].concat();
        }
        format!("{answer} same\n").into_bytes()
    }
}

/// The answer of a registry, as the call for C packs it.
fn answer(registry: &mut Registry, call: &Call) -> u64 {
    let done = match call {
        Call::Open { run } => registry.open(run),
        Call::Close { run } => registry.close(run),
        Call::Publish {
            run,
            destination,
            text,
            session,
        } => registry.publish(run, destination, text, *session),
        Call::Ask { run, destination } => return asked(registry, run, destination),
        Call::End { session } => {
            registry.end(*session);
            Ok(())
        }
        Call::Set(_) => Ok(()),
    };
    done.err().unwrap_or(0)
}

/// The length of the port's text and where it begins in the record, after its length; 0 where there is none.
fn asked(registry: &Registry, run: &[u8], destination: &[u8]) -> u64 {
    match registry.ask(run, destination) {
        Err(number) => number,
        Ok(None) => 0,
        Ok(Some((place, port))) => {
            let start = port_at(place, port.place) + TEXT_AT + 1;
            (port.text.len() << 16 | start) as u64
        }
    }
}

/// All calls of the octets. None where the last is cut off.
pub fn read(octets: &[u8]) -> Option<Vec<Call>> {
    let mut reader = Reader(octets);
    let mut calls = Vec::new();
    while !reader.0.is_empty() {
        calls.push(Call::read(&mut reader)?);
    }
    Some(calls)
}

/// The replies to calls, one after another.
pub fn replies(calls: &[Call]) -> Vec<Reply> {
    let mut record = first_record();
    let mut replies = Vec::new();
    for call in calls {
        let reply = Reply::of(&record, call);
        record.clone_from(&reply.record);
        replies.push(reply);
    }
    replies
}
