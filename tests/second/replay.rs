//! What the program `replay` writes: each item of a client's stream, and what one session answers to
//! it. The session offers versions 1.1 and 1.2; what comes after the opening frame is read in the one chosen.

use crate::block;
use crate::decode::decode;
use crate::item::{Command, Item};
use crate::listing::{self, Listing};
use crate::session::delivery::Recorded;
use crate::session::frame::{opens, Frame};
use crate::session::opening::BOTH;
use crate::session::record::{make, Record};
use crate::session::{Answer, COUNTED};
use crate::version::Version;

/// The time of every call.
const TIME: u32 = 0;

/// What a session says of an item: its answer to one that the client sent, or to a MESSAGE that was sent to
/// the client and is recorded.
#[derive(Clone, Copy)]
pub enum Said {
    Answer(Answer),
    Recorded(Recorded),
}

/// An item with its start and the version in which it is read, what the session says of it, and what an accepted
/// CONNECT or STOMP is told: the version and the two intervals, client to server first.
pub struct Step {
    pub start: usize,
    pub version: Version,
    pub command: Option<Command>,
    pub said: Said,
    pub opened: Option<(Version, u32, u32)>,
}

/// A stream replayed: its items, and its listing, of which the last line is written.
pub struct Replay {
    pub steps: Vec<Step>,
    pub listing: Listing,
}

/// Replays a stream to a session of a server with these heart-beat numbers; none where making the
/// session is refused. In a log the server's MESSAGE frames are deliveries.
pub fn replay(stream: &[u8], sends: u32, wants: u32, log: bool) -> Option<Replay> {
    let (Ok(()), record) = make(sends, wants, BOTH) else {
        return None;
    };
    let mut reading = Reading {
        record,
        version: Version::V1_2,
        log,
    };
    let mut steps = Vec::new();
    let listing = listing::read_told(Version::V1_2, stream, |start, item| {
        let row = &stream[start..start + item.length()];
        steps.push(reading.step(start, item, row));
        reading.version
    });
    Some(Replay { steps, listing })
}

/// The session, the version in which the next item is read, and whether the stream is a log.
struct Reading {
    record: Record,
    version: Version,
    log: bool,
}

impl Reading {
    /// Hands the item of a row to the session. "All up to the end of the opening frame is read by 1.2 rules, the
    /// rest by the version chosen", which stays.
    fn step(&mut self, start: usize, item: Item, row: &[u8]) -> Step {
        let version = self.version;
        let (command, said) = match item {
            Item::HeartBeat { .. } => (None, Said::Answer(self.record.heart_beat(TIME))),
            Item::Frame(frame) => (Some(frame.command), self.frame(row)),
        };
        let accepted = matches!(said, Said::Answer(Ok(_)));
        let opened = accepted && command.is_some_and(opens);
        let opened = opened.then(|| told(&self.record));
        if let Some((chosen, ..)) = opened {
            self.version = chosen;
        }
        Step {
            start,
            version,
            command,
            said,
            opened,
        }
    }

    /// Hands the frame of a row to the session by way of its header block; a MESSAGE of a log is recorded.
    fn frame(&mut self, row: &[u8]) -> Said {
        let content = decode(self.version, row).expect("the row is a frame");
        let frame = Frame {
            command: content.command,
            entries: content.entries,
        };
        if self.log && frame.command.name() == b"MESSAGE" {
            let (subscription, label) = delivery(self.version, &frame);
            return Said::Recorded(self.record.deliver(subscription, label));
        }
        let block = block::write(&frame.entries);
        Said::Answer(self.record.frame(frame.command.0 as u32, &block, TIME))
    }
}

/// What is recorded of a MESSAGE frame in a session of this version: its `subscription`, and the label, its
/// `message-id` in 1.1 and else its `ack`. One that is not there is an empty text.
pub fn delivery(version: Version, frame: &Frame) -> (&[u8], &[u8]) {
    let label: &[u8] = match version {
        Version::V1_1 => b"message-id",
        Version::V1_2 => b"ack",
    };
    let text = |name: &[u8]| frame.first(name).unwrap_or_default();
    (text(b"subscription"), text(label))
}

fn told(record: &Record) -> (Version, u32, u32) {
    let version = record.version().and_then(Version::named);
    let state = &record.state;
    (
        version.expect("a version that is offered"),
        state.client_to_server,
        state.server_to_client,
    )
}

/// Writes a replay: each line ends in LF.
pub fn write(replay: &Replay) -> String {
    let lines: String = replay.steps.iter().map(line).collect();
    lines + &listing::last_line(&replay.listing)
}

fn line(step: &Step) -> String {
    let mut line = match step.command {
        None => format!("{} beat", step.start),
        Some(command) => format!("{} frame {}", step.start, command.0),
    };
    line += &match step.said {
        Said::Answer(answer) => format!(" {}", written(answer)),
        Said::Recorded(Ok(())) => " delivered".to_string(),
        Said::Recorded(Err(number)) => format!(" refused {number}"),
    };
    if let Some((version, client, server)) = step.opened {
        let version = version.name();
        line += &format!(" version {version} client {client} server {server}");
    }
    line + "\n"
}

/// An answer in words.
pub fn written(answer: Answer) -> String {
    match answer {
        Ok(accepted) => {
            let receipt = if accepted.receipt { " receipt" } else { "" };
            format!("accepted{receipt}{}", overwritten(accepted.later))
        }
        Err(number) => format!("refused {number}"),
    }
}

/// How many later entries there are of each name, if there is one.
fn overwritten(later: [usize; COUNTED.len()]) -> String {
    if later.iter().all(|&count| count == 0) {
        return String::new();
    }
    let counts = later.map(|count| count.to_string());
    format!(" overwritten {}", counts.join(" "))
}
