//! Random frames of a client, for a session as it stands: such as the session accepts, and such as it
//! refuses with a number that is asked for.

pub mod messages;
pub mod right;
pub mod values;
pub mod wrong;

use self::values::{any_value, id, near_id, text};
use crate::block::Entry;
use crate::item::{Command, COMMANDS};
use crate::random::Random;
use crate::session::frame::{label_header, namings, needed, opens, settles, Frame, Kind};
use crate::session::{Places, Session};
use crate::version::Version;

/// The headers that a session looks at in some command.
const KNOWN: [&[u8]; 10] = [
    b"accept-version",
    b"host",
    b"heart-beat",
    b"destination",
    b"id",
    b"transaction",
    b"receipt",
    b"ack",
    b"subscription",
    b"message-id",
];

/// Names that are almost those.
const ALMOST: [&[u8]; 19] = [
    b"i",
    b"ID",
    b"id ",
    b"idd",
    b"receipt-id",
    b"receip",
    b"Transaction",
    b"transaction\0",
    b"destinatio",
    b"hos",
    b"heart_beat",
    b"version",
    b"ac",
    b"Ack",
    b"ack\0",
    b"message-i",
    b"message_id",
    b"Subscription",
    b"subscription\0",
];

/// The command of a name.
pub fn command(name: &[u8]) -> Command {
    Command::named(name).expect("a command")
}

/// Some command that the test holds for.
fn command_that(random: &mut Random, test: impl Fn(Command) -> bool) -> Command {
    loop {
        let command = Command(random.between(1, COMMANDS.len()));
        if test(command) {
            return command;
        }
    }
}

/// The headers that decide what a session does with the command, the receipt apart.
fn deciding(version: Version, command: Command) -> Vec<&'static [u8]> {
    let mut names = needed(version, command).to_vec();
    let namings = namings(version, command).into_iter();
    names.extend(namings.map(|naming| naming.header));
    if opens(command) {
        names.push(b"heart-beat");
    }
    match command.name() {
        b"SUBSCRIBE" => names.push(b"ack"),
        b"MESSAGE" => names.extend([&b"subscription"[..], b"ack", b"message-id"]),
        _ => {}
    }
    names
}

/// Gives the frame one entry of this name.
pub fn set(frame: &mut Frame, name: &[u8], value: &[u8]) {
    frame.entries.retain(|entry| entry.name != name);
    frame.entries.push(Entry::new(name, value));
}

/// A frame with the headers that its command needs in the session's version, each with a value that is accepted,
/// but for ids and labels: those are the caller's to set. SUBSCRIBE has a known mode.
fn frame(random: &mut Random, session: &Session, command: Command) -> Frame {
    let value = |name: &&'static [u8]| match *name {
        b"accept-version" => Entry::new(name, &values::versions(random, session.state.offered)),
        _ => Entry::new(name, &any_value(random, name)),
    };
    let needed = needed(session.version(), command);
    let mut entries: Vec<Entry> = needed.iter().map(value).collect();
    if command.name() == b"SUBSCRIBE" && !random.once_in(5) {
        entries.push(Entry::new(b"ack", values::mode(random)));
    }
    Frame { command, entries }
}

/// A frame of a command that names one id, this one.
fn naming(random: &mut Random, session: &Session, command: Command, id: &[u8]) -> Frame {
    let mut frame = frame(random, session, command);
    for naming in namings(session.version(), command) {
        set(&mut frame, naming.header, id);
    }
    frame
}

/// Gives ACK and NACK at times the headers by which the other version names a delivery, which are not looked at.
fn with_other_names(random: &mut Random, session: &Session, frame: &mut Frame) {
    if !settles(frame.command) || !random.once_in(3) {
        return;
    }
    let other = session.version().other();
    let mut names = vec![label_header(other)];
    names.extend((other == Version::V1_1).then_some(&b"subscription"[..]));
    for name in names {
        let pending = messages::pending(random, session).map(|(_, label)| label);
        let any = any_value(random, name);
        let value = pending.filter(|_| random.once_in(2)).unwrap_or(any);
        frame.entries.push(Entry::new(name, &value));
    }
}

/// The frame with a receipt and entries that do not matter, all in any order, and with later entries
/// of names that it has.
fn dressed(random: &mut Random, session: &Session, mut frame: Frame) -> Frame {
    with_other_names(random, session, &mut frame);
    if random.once_in(3) {
        let value = any_value(random, b"receipt");
        frame.entries.push(Entry::new(b"receipt", &value));
    }
    for _ in 0..random.pick(&[0, 0, 0, 1, 2]) {
        let stray = stray(random, session.version(), frame.command);
        frame.entries.push(stray);
    }
    shuffle(random, &mut frame.entries);
    for index in (0..frame.entries.len()).rev() {
        if random.once_in(8) {
            let count = random.pick(&[1, 1, 1, 2, 3]);
            repeat(random, &mut frame.entries, index, count);
        }
    }
    frame
}

/// Puts later entries of the name of this one after it.
fn repeat(random: &mut Random, entries: &mut Vec<Entry>, index: usize, count: usize) {
    for _ in 0..count {
        let name = entries[index].name.clone();
        let value = any_value(random, &name);
        let place = random.between(index + 1, entries.len());
        entries.insert(place, Entry { name, value });
    }
}

/// An entry that does not matter for the command: of a name that matters for others, or almost so, or
/// any.
fn stray(random: &mut Random, version: Version, command: Command) -> Entry {
    let name = match random.below(3) {
        0 => random.pick(&KNOWN).to_vec(),
        1 => random.pick(&ALMOST).to_vec(),
        _ => [b"x", &text(random)[..]].concat(),
    };
    if deciding(version, command).contains(&&name[..]) {
        return Entry::new(b"stray", b"");
    }
    let value = any_value(random, &name);
    Entry { name, value }
}

fn shuffle(random: &mut Random, entries: &mut [Entry]) {
    for index in (1..entries.len()).rev() {
        entries.swap(index, random.between(0, index));
    }
}

fn is_live(places: &Places, id: &[u8]) -> bool {
    places.iter().flatten().any(|live| live == id)
}

/// Some live id of a kind.
fn live_id(random: &mut Random, places: &Places) -> Option<Vec<u8>> {
    let live: Vec<&Vec<u8>> = places.iter().flatten().collect();
    (!live.is_empty()).then(|| random.pick(&live).clone())
}

/// An id that is not live: any, or almost a live one, or a live one of the other kind.
pub fn new_id(random: &mut Random, session: &Session, kind: Kind) -> Vec<u8> {
    let places = session.places(kind);
    let other = match kind {
        Kind::Subscription => &session.transactions,
        Kind::Transaction => &session.subscriptions,
    };
    loop {
        let candidate = match random.below(4) {
            0 => live_id(random, places).map(|live| near_id(random, &live)),
            1 => live_id(random, other),
            _ => Some(id(random)),
        };
        match candidate {
            Some(id) if !is_live(places, &id) => return id,
            _ => {}
        }
    }
}
