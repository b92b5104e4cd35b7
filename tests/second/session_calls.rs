//! The calls that the program `session_calls` reads, and what it writes of each: the answer, and the
//! session record after the call.

pub mod accounts;
pub mod blocks;
pub mod records;
pub mod sequence;

use crate::reader::Reader;
use crate::replay::written;
use crate::session::delivery::Delivery;
use crate::session::opening::{Flags, ONLY_1_2};
use crate::session::record::{make, Record};

/// No header block, subscription id or label of a call is longer.
pub const MAX_BLOCK: usize = 65_536;

/// The names of the calls, by their kind.
pub const NAMES: [&str; 11] = [
    "make",
    "frame",
    "heart-beat",
    "timed out",
    "set",
    "frame in place",
    "heart-beat in place",
    "timed out in place",
    "deliver",
    "deliver in place",
    "pending",
];

/// How the session is given to a call: as a value, or lent and altered where it lies. The reply is the
/// same.
#[derive(Clone, Copy, PartialEq, Eq, Debug)]
pub enum Way {
    ByValue,
    InPlace,
}

/// A call: the session record is the one that the call before it left.
#[derive(Clone, PartialEq, Eq, Debug)]
pub enum Call {
    Make {
        sends: u32,
        wants: u32,
        offered: Flags,
    },
    Frame {
        way: Way,
        command: u32,
        time: u32,
        block: Vec<u8>,
    },
    HeartBeat {
        way: Way,
        time: u32,
    },
    TimedOut {
        way: Way,
        time: u32,
    },
    Set(Box<Record>),
    Deliver {
        way: Way,
        subscription: Vec<u8>,
        label: Vec<u8>,
    },
    Pending {
        index: u32,
    },
}

impl Call {
    pub fn name(&self) -> &'static str {
        NAMES[usize::from(self.kind())]
    }

    /// The octet that a call begins with.
    fn kind(&self) -> u8 {
        let in_place = |way: &Way| if *way == Way::InPlace { 4 } else { 0 };
        match self {
            Call::Deliver { way, .. } if *way == Way::InPlace => 9,
            Call::Deliver { .. } => 8,
            Call::Pending { .. } => 10,
            Call::Make { .. } => 0,
            Call::Frame { way, .. } => 1 + in_place(way),
            Call::HeartBeat { way, .. } => 2 + in_place(way),
            Call::TimedOut { way, .. } => 3 + in_place(way),
            Call::Set(_) => 4,
        }
    }

    /// The call in place, if it is one of those that can be.
    pub fn in_place(mut self) -> Call {
        if let Call::Frame { way, .. }
        | Call::HeartBeat { way, .. }
        | Call::TimedOut { way, .. }
        | Call::Deliver { way, .. } = &mut self
        {
            *way = Way::InPlace;
        }
        self
    }

    /// The call as the program reads it.
    pub fn octets(&self) -> Vec<u8> {
        let kind = [self.kind()];
        match self {
            Call::Make {
                sends,
                wants,
                offered,
            } => {
                let numbers = [sends.to_be_bytes(), wants.to_be_bytes()].concat();
                [&kind, &numbers[..], &offered.map(u8::from)].concat()
            }
            Call::Frame {
                command,
                time,
                block,
                ..
            } => {
                let numbers = [*command, *time, block.len() as u32].map(u32::to_be_bytes);
                [&kind, &numbers.concat()[..], block].concat()
            }
            Call::HeartBeat { time, .. } | Call::TimedOut { time, .. } => {
                [&kind, &time.to_be_bytes()[..]].concat()
            }
            Call::Set(record) => [&kind, &record.octets()[..]].concat(),
            Call::Deliver {
                subscription,
                label,
                ..
            } => {
                let lengths = [subscription, label].map(|text| (text.len() as u32).to_be_bytes());
                [&kind, &lengths.concat()[..], subscription, label].concat()
            }
            Call::Pending { index } => [&kind, &index.to_be_bytes()[..]].concat(),
        }
    }

    /// The next call, if it is whole.
    fn read(reader: &mut Reader) -> Option<Call> {
        let kind = reader.octet()?;
        let in_place = [5, 6, 7, 9].contains(&kind);
        let way = if in_place { Way::InPlace } else { Way::ByValue };
        Some(match kind {
            0 => Call::Make {
                sends: reader.number()?,
                wants: reader.number()?,
                offered: reader.flags()?,
            },
            1 | 5 => Call::Frame {
                way,
                command: reader.number()?,
                time: reader.number()?,
                block: {
                    let length = reader.number()? as usize;
                    reader.octets(length)?.to_vec()
                },
            },
            2 | 6 => Call::HeartBeat {
                way,
                time: reader.number()?,
            },
            3 | 7 => Call::TimedOut {
                way,
                time: reader.number()?,
            },
            4 => Call::Set(Box::new(Record::read(reader)?)),
            8 | 9 => {
                let lengths = [reader.number()? as usize, reader.number()? as usize];
                Call::Deliver {
                    way,
                    subscription: reader.octets(lengths[0])?.to_vec(),
                    label: reader.octets(lengths[1])?.to_vec(),
                }
            }
            10 => Call::Pending {
                index: reader.number()?,
            },
            _ => return None,
        })
    }
}

/// The record before the first call.
pub fn first_record() -> Record {
    make(0, 0, ONLY_1_2).1
}

/// The answer to a call, and the record after it.
#[derive(Clone, PartialEq, Eq, Debug)]
pub struct Reply {
    pub answer: String,
    pub record: Record,
}

impl Reply {
    /// The reply to a call of a session with this record.
    pub fn of(before: &Record, call: &Call) -> Reply {
        let mut record = before.clone();
        let answer = answer(&mut record, call);
        Reply { answer, record }
    }

    /// The answer's line, without its LF: the answer, and the highest version shared.
    pub fn line(&self) -> String {
        let version = self.record.version().unwrap_or("none");
        format!("{} version {version}", self.answer)
    }

    /// As the program writes it.
    pub fn octets(&self) -> Vec<u8> {
        let line = self.line();
        [line.as_bytes(), b"\n", &self.record.octets(), b"\n"].concat()
    }
}

fn answer(record: &mut Record, call: &Call) -> String {
    match call {
        Call::Make {
            sends,
            wants,
            offered,
        } => {
            let made = make(*sends, *wants, *offered);
            *record = made.1;
            match made.0 {
                Ok(()) => "made".to_string(),
                Err(number) => format!("refused {number}"),
            }
        }
        Call::Frame {
            command,
            time,
            block,
            ..
        } => written(record.frame(*command, block, *time)),
        Call::HeartBeat { time, .. } => written(record.heart_beat(*time)),
        Call::TimedOut { time, .. } => match record.timed_out(*time) {
            Ok(true) => "yes".to_string(),
            Ok(false) => "no".to_string(),
            Err(number) => format!("refused {number}"),
        },
        Call::Set(other) => {
            record.clone_from(other);
            "set".to_string()
        }
        Call::Deliver {
            subscription,
            label,
            ..
        } => match record.deliver(subscription, label) {
            Ok(()) => "recorded".to_string(),
            Err(number) => format!("refused {number}"),
        },
        Call::Pending { index } => match record.pending(*index) {
            Ok(Some(delivery)) => pending(&delivery),
            Ok(None) => "none".to_string(),
            Err(number) => format!("refused {number}"),
        },
    }
}

/// A pending delivery in words, its texts in hexadecimal.
fn pending(delivery: &Delivery) -> String {
    let hexadecimal = |text: &[u8]| -> String {
        let digits = text.iter().map(|octet| format!("{octet:02x}"));
        digits.collect()
    };
    let texts = [&delivery.subscription, &delivery.label].map(|text| hexadecimal(text));
    format!(
        "pending {} {} {}",
        delivery.mode.number(),
        texts[0],
        texts[1]
    )
}

/// The calls of an input, if all of them are whole.
pub fn read(input: &[u8]) -> Option<Vec<Call>> {
    let mut reader = Reader(input);
    let mut calls = Vec::new();
    while !reader.0.is_empty() {
        calls.push(Call::read(&mut reader)?);
    }
    Some(calls)
}

/// The replies to these calls, made one after another.
pub fn replies(calls: &[Call]) -> Vec<Reply> {
    let mut record = first_record();
    let mut replies = Vec::new();
    for call in calls {
        let reply = Reply::of(&record, call);
        record.clone_from(&reply.record);
        replies.push(reply);
    }
    replies
}
