//! Frames that a session accepts.

use super::messages::pending;
use super::{command, dressed, frame, live_id, naming, new_id, set, values};
use crate::block::Entry;
use crate::item::Command;
use crate::random::Random;
use crate::session::frame::{label_header, Frame, Kind};
use crate::session::{Phase, Session};
use crate::version::Version;

/// CONNECT or STOMP for a fresh session, else a frame that keeps the session open.
pub fn right(random: &mut Random, session: &Session) -> Frame {
    let frame = match session.phase {
        Phase::Fresh => opening(random, session),
        _ => in_session(random, session),
    };
    dressed(random, session, frame)
}

/// DISCONNECT.
pub fn leaving(random: &mut Random, session: &Session) -> Frame {
    let frame = frame(random, session, command(b"DISCONNECT"));
    dressed(random, session, frame)
}

/// A frame that takes a free place of the kind, if there is one.
pub fn taking(random: &mut Random, session: &Session, kind: Kind) -> Option<Frame> {
    let frame = taken(random, session, kind)?;
    Some(dressed(random, session, frame))
}

/// CONNECT or STOMP, with a version that the session offers, with or without heart-beat numbers.
pub fn opening(random: &mut Random, session: &Session) -> Frame {
    let name: &[u8] = random.pick(&[b"CONNECT", b"STOMP"]);
    let mut frame = frame(random, session, command(name));
    if !random.once_in(4) {
        let value = values::heart_beat(random);
        frame.entries.push(Entry::new(b"heart-beat", &value));
    }
    frame
}

/// A frame for an open session.
pub fn in_session(random: &mut Random, session: &Session) -> Frame {
    loop {
        let kind = random.pick(&[Kind::Subscription, Kind::Subscription, Kind::Transaction]);
        let made = match random.below(10) {
            0..=2 => taken(random, session, kind),
            3 | 4 => freed(random, session, kind),
            5..=7 => settling(random, session),
            _ => Some(sending(random, session)),
        };
        if let Some(frame) = made {
            return frame;
        }
    }
}

/// SUBSCRIBE or BEGIN with a new id.
fn taken(random: &mut Random, session: &Session, kind: Kind) -> Option<Frame> {
    if session.places(kind).iter().all(Option::is_some) {
        return None;
    }
    let id = new_id(random, session, kind);
    Some(naming(random, session, taker(kind), &id))
}

/// The command that takes a place of the kind.
pub fn taker(kind: Kind) -> Command {
    match kind {
        Kind::Subscription => command(b"SUBSCRIBE"),
        Kind::Transaction => command(b"BEGIN"),
    }
}

/// UNSUBSCRIBE, COMMIT or ABORT of a live id.
fn freed(random: &mut Random, session: &Session, kind: Kind) -> Option<Frame> {
    let id = live_id(random, session.places(kind))?;
    let name: &[u8] = match kind {
        Kind::Subscription => b"UNSUBSCRIBE",
        Kind::Transaction => random.pick(&[&b"COMMIT"[..], b"ABORT"]),
    };
    Some(naming(random, session, command(name), &id))
}

/// ACK or NACK of a pending delivery, if there is one.
pub fn settling(random: &mut Random, session: &Session) -> Option<Frame> {
    let (subscription, label) = pending(random, session)?;
    let name: &[u8] = random.pick(&[&b"ACK"[..], b"ACK", b"NACK"]);
    let mut frame = confirming(session.version(), name, &subscription, &label);
    mention(random, session, &mut frame);
    Some(frame)
}

/// ACK or NACK of this delivery, as the version names it.
pub fn confirming(version: Version, name: &[u8], subscription: &[u8], label: &[u8]) -> Frame {
    let mut entries = vec![Entry::new(label_header(version), label)];
    if version == Version::V1_1 {
        entries.push(Entry::new(b"subscription", subscription));
    }
    Frame {
        command: command(name),
        entries,
    }
}

/// SEND, in an open transaction or in none.
fn sending(random: &mut Random, session: &Session) -> Frame {
    let mut frame = frame(random, session, command(b"SEND"));
    mention(random, session, &mut frame);
    frame
}

/// Puts the frame into an open transaction, if there is one, or into none.
pub fn mention(random: &mut Random, session: &Session, frame: &mut Frame) {
    let id = live_id(random, &session.transactions);
    if let Some(id) = id.filter(|_| !random.once_in(3)) {
        set(frame, b"transaction", &id);
    }
}
