//! Frames that a session refuses.

use super::messages::{label_not_pending, pending, subscription, Texts};
use super::right::{confirming, in_session, mention, opening, taker};
use super::{command_that, dressed, frame, live_id, naming, new_id, set, values, ALMOST};
use crate::block::Entry;
use crate::item::Command;
use crate::random::Random;
use crate::session::frame::{
    is_servers, namings, needed, opens, settles, Frame, Kind, Naming, Use,
};
use crate::session::{Phase, Places, Session};
use crate::version::Version;

/// The refusals of a fresh session, and of an open one.
pub const FRESH: [usize; 6] = [31, 32, 33, 41, 42, 43];
pub const OPEN: [usize; 9] = [41, 42, 43, 44, 45, 46, 47, 49, 60];

/// A frame that the session refuses with this number; none where no place is live, for 45, where one is
/// free, for 47, where none is, for 49, or in 1.1 where no subscription is live, for 60. At times it has faults
/// that are looked at later too.
pub fn wrong(random: &mut Random, session: &Session, number: usize) -> Option<Frame> {
    let frame = match number {
        31..=33 => badly_opening(random, session, number),
        41 => servers(random, session),
        42 => out_of_phase(random, session),
        43 => lacking(random, session),
        44 => with_wrong_id(random, session),
        45 => live_again(random, session)?,
        46 => not_live(random, session),
        47 => one_more(random, session)?,
        49 => with_unknown_mode(random, session)?,
        _ => not_pending(random, session)?,
    };
    Some(dressed(random, session, frame))
}

/// Gives SUBSCRIBE at times a mode that is unknown.
fn with_any_mode(random: &mut Random, mut frame: Frame) -> Frame {
    if frame.command.name() == b"SUBSCRIBE" && random.once_in(3) {
        set(&mut frame, b"ack", &values::unknown_mode(random));
    }
    frame
}

/// SUBSCRIBE with a new id and an unknown mode, where a place is free.
fn with_unknown_mode(random: &mut Random, session: &Session) -> Option<Frame> {
    if session.subscriptions.iter().all(Option::is_some) {
        return None;
    }
    let id = new_id(random, session, Kind::Subscription);
    let mut frame = naming(random, session, taker(Kind::Subscription), &id);
    set(&mut frame, b"ack", &values::unknown_mode(random));
    Some(frame)
}

/// ACK or NACK of a label that is not pending, in an open transaction or in none; in 1.1 for a live subscription.
fn not_pending(random: &mut Random, session: &Session) -> Option<Frame> {
    let name: &[u8] = random.pick(&[&b"ACK"[..], b"NACK"]);
    let version = session.version();
    let (id, label) = match version {
        Version::V1_1 => texts_not_pending(random, session)?,
        Version::V1_2 => (Vec::new(), label_not_pending(random, session)),
    };
    let mut frame = confirming(version, name, &id, &label);
    mention(random, session, &mut frame);
    Some(frame)
}

/// A live subscription and a label that is not pending, or that of another subscription.
fn texts_not_pending(random: &mut Random, session: &Session) -> Option<Texts> {
    let others = others_label(random, session).filter(|_| !random.once_in(3));
    if others.is_some() {
        return others;
    }
    let id = subscription(random, session)?;
    Some((id, label_not_pending(random, session)))
}

/// A live subscription and the label of a pending delivery of another one, if there are such.
fn others_label(random: &mut Random, session: &Session) -> Option<Texts> {
    let (of, label) = pending(random, session)?;
    let live = session.subscriptions.iter().flatten();
    let others: Vec<&Vec<u8>> = live.filter(|id| **id != of).collect();
    (!others.is_empty()).then(|| (random.pick(&others).clone(), label))
}

/// CONNECT or STOMP with 31, 32 or 33.
fn badly_opening(random: &mut Random, session: &Session, number: usize) -> Frame {
    let mut frame = opening(random, session);
    let offered = session.state.offered;
    let versions = match number {
        31 => values::malformed_versions(random),
        32 => values::other_versions(random, offered),
        _ => values::versions(random, offered),
    };
    set(&mut frame, b"accept-version", &versions);
    if number == 33 || random.once_in(3) {
        set(&mut frame, b"heart-beat", &values::wrong_heart_beat(random));
    }
    frame
}

fn servers(random: &mut Random, session: &Session) -> Frame {
    let mut frame = opening(random, session);
    frame.command = command_that(random, is_servers);
    without_entries_at_times(random, frame)
}

/// A fresh session gets another command than CONNECT and STOMP; an open one gets these again.
fn out_of_phase(random: &mut Random, session: &Session) -> Frame {
    let made = if session.phase != Phase::Open {
        let known = command_that(random, |command| !opens(command) && !is_servers(command));
        let id = values::id(random);
        naming(random, session, known, &id)
    } else if random.once_in(3) {
        let number = random.pick(&[31, 32, 33]);
        badly_opening(random, session, number)
    } else {
        opening(random, session)
    };
    without_entries_at_times(random, made)
}

fn without_entries_at_times(random: &mut Random, mut frame: Frame) -> Frame {
    if random.once_in(6) {
        frame.entries.clear();
    }
    frame
}

/// A frame, right but for that or not, without one of the headers that it needs; perhaps one of almost
/// that name is there.
fn lacking(random: &mut Random, session: &Session) -> Frame {
    let version = session.version();
    let mut frame = loop {
        let frame = lacking_nothing(random, session);
        if !needed(version, frame.command).is_empty() {
            break frame;
        }
    };
    let name = random.pick(needed(version, frame.command));
    frame.entries.retain(|entry| entry.name != name);
    if random.once_in(2) {
        let almost = random.pick(&ALMOST);
        let value = values::any_value(random, name);
        frame.entries.push(Entry::new(almost, &value));
    }
    frame
}

fn lacking_nothing(random: &mut Random, session: &Session) -> Frame {
    match (session.phase, random.below(3)) {
        (Phase::Fresh, 0) => badly_opening(random, session, 31),
        (Phase::Fresh, _) => opening(random, session),
        (_, 0) => with_wrong_id(random, session),
        (_, 1) => not_live(random, session),
        _ => in_session(random, session),
    }
}

/// A command that names an id, with one that is empty or too long. Where it names two, the other is any.
fn with_wrong_id(random: &mut Random, session: &Session) -> Frame {
    let version = session.version();
    let command = user(random, session, |command| {
        !namings(version, command).is_empty()
    });
    let mut frame = frame(random, session, command);
    mention_any(random, session, &mut frame);
    let wrong = random.pick(&namings(version, command));
    set(&mut frame, wrong.header, &values::wrong_id(random));
    with_any_mode(random, frame)
}

/// Some command that the test holds for; in 1.1, where ACK and NACK name two ids, more often one of these.
fn user(random: &mut Random, session: &Session, test: impl Fn(Command) -> bool) -> Command {
    if session.version() == Version::V1_1 && random.once_in(2) {
        return command_that(random, settles);
    }
    command_that(random, test)
}

/// Gives the frame most often ids that it mentions, live or not.
fn mention_any(random: &mut Random, session: &Session, frame: &mut Frame) {
    for naming in namings(session.version(), frame.command) {
        if naming.used == Use::Mentions && !random.once_in(4) {
            let id = any_id(random, session, naming.kind);
            set(frame, naming.header, &id);
        }
    }
}

/// An id of that kind, live or not.
fn any_id(random: &mut Random, session: &Session, kind: Kind) -> Vec<u8> {
    let live = live_id(random, session.places(kind)).filter(|_| random.once_in(2));
    live.unwrap_or_else(|| new_id(random, session, kind))
}

/// Some kind of which the test holds for the places.
fn kind_that(random: &mut Random, session: &Session, test: fn(&Places) -> bool) -> Option<Kind> {
    let mut kinds = vec![Kind::Subscription, Kind::Transaction];
    kinds.retain(|&kind| test(session.places(kind)));
    (!kinds.is_empty()).then(|| random.pick(&kinds))
}

/// SUBSCRIBE or BEGIN with a live id; all places may be live.
fn live_again(random: &mut Random, session: &Session) -> Option<Frame> {
    let some = |places: &Places| places.iter().any(Option::is_some);
    let kind = kind_that(random, session, some)?;
    let id = live_id(random, session.places(kind))?;
    let frame = naming(random, session, taker(kind), &id);
    Some(with_any_mode(random, frame))
}

/// A command that frees or mentions an id, with one that is not live. Where it names two, the other is of a right
/// length, live or not.
fn not_live(random: &mut Random, session: &Session) -> Frame {
    let used = |command: Command| -> Vec<Naming> {
        let mut namings = namings(session.version(), command);
        namings.retain(|naming| naming.used != Use::Takes);
        namings
    };
    let command = user(random, session, |command| !used(command).is_empty());
    let mut frame = frame(random, session, command);
    for naming in used(command) {
        let needed = frame.first(naming.header).is_some();
        if needed || random.once_in(2) {
            let id = any_id(random, session, naming.kind);
            set(&mut frame, naming.header, &id);
        }
    }
    let wrong = random.pick(&used(command));
    let id = new_id(random, session, wrong.kind);
    set(&mut frame, wrong.header, &id);
    frame
}

/// SUBSCRIBE or BEGIN with a new id where all places are live.
fn one_more(random: &mut Random, session: &Session) -> Option<Frame> {
    let full = |places: &Places| places.iter().all(Option::is_some);
    let kind = kind_that(random, session, full)?;
    let id = new_id(random, session, kind);
    let frame = naming(random, session, taker(kind), &id);
    Some(with_any_mode(random, frame))
}
