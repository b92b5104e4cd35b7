//! A client's frames: the headers that each command needs, and what each names.

use super::delivery::Mode;
use super::opening::{accept_version, heart_beat, Flags};
use crate::block::Entry;
use crate::item::Command;
use crate::version::Version;

/// A frame as a session gets it: its entries are decoded.
#[derive(Clone, PartialEq, Eq, Debug)]
pub struct Frame {
    pub command: Command,
    pub entries: Vec<Entry>,
}

impl Frame {
    /// The first value of a name.
    pub fn first(&self, name: &[u8]) -> Option<&[u8]> {
        let entry = self.entries.iter().find(|entry| entry.name == name)?;
        Some(&entry.value)
    }

    /// How many later entries of a name follow its first one; 0 where the name is missing.
    pub fn later(&self, name: &[u8]) -> usize {
        let named = |entry: &Entry| entry.name == name;
        let Some(first) = self.entries.iter().position(named) else {
            return 0;
        };
        let after = &self.entries[first + 1..];
        after.iter().filter(|entry| named(entry)).count()
    }

    /// The ids of subscriptions and transactions that the frame names, each with how.
    pub fn named(&self, version: Version) -> Vec<(Naming, &[u8])> {
        let namings = namings(version, self.command).into_iter();
        namings
            .filter_map(|naming| Some((naming, self.first(naming.header)?)))
            .collect()
    }

    pub fn opens(&self) -> bool {
        opens(self.command)
    }

    /// The ack mode that SUBSCRIBE asks for, if it is a known one; "absent means auto". Any other command
    /// asks for none, which is auto too.
    pub fn mode(&self) -> Option<Mode> {
        let subscribes = self.command.name() == b"SUBSCRIBE";
        match self.first(b"ack") {
            Some(value) if subscribes => Mode::named(value),
            _ => Some(Mode::Auto),
        }
    }

    /// The delivery that ACK or NACK names: its label, and in 1.1 its subscription. "ACK and NACK name a message
    /// by `subscription` and `message-id`", and "a 1.1 delivery's label is its message-id".
    pub fn settled(&self, version: Version) -> Option<Settled<'_>> {
        if !settles(self.command) {
            return None;
        }
        let subscription = self.first(b"subscription");
        Some(Settled {
            label: self.first(label_header(version))?,
            subscription: subscription.filter(|_| version == Version::V1_1),
        })
    }

    /// What the accept-version says, where it is there and well formed.
    pub fn versions(&self) -> Option<Flags> {
        accept_version(self.first(b"accept-version")?)
    }

    /// The client's two heart-beat numbers, if the value is well formed; "absent means 0,0".
    pub fn heart_beat(&self) -> Option<(u32, u32)> {
        heart_beat(self.first(b"heart-beat").unwrap_or(b"0,0"))
    }
}

/// A delivery as ACK or NACK names it. In 1.2 no subscription is named.
#[derive(Clone, Copy, PartialEq, Eq, Debug)]
pub struct Settled<'a> {
    pub label: &'a [u8],
    pub subscription: Option<&'a [u8]>,
}

/// Whether the command settles deliveries.
pub fn settles(command: Command) -> bool {
    [&b"ACK"[..], b"NACK"].contains(&command.name())
}

/// The header by which ACK and NACK name a label.
pub fn label_header(version: Version) -> &'static [u8] {
    match version {
        Version::V1_1 => b"message-id",
        Version::V1_2 => b"id",
    }
}

pub fn opens(command: Command) -> bool {
    [&b"CONNECT"[..], b"STOMP"].contains(&command.name())
}

/// Whether only a server sends the command.
pub fn is_servers(command: Command) -> bool {
    [&b"CONNECTED"[..], b"ERROR", b"MESSAGE", b"RECEIPT"].contains(&command.name())
}

/// "Needed headers, checked in this order"; of ACK and NACK in 1.1, document 02, C-18: "43 checks subscription,
/// then message-id".
pub fn needed(version: Version, command: Command) -> &'static [&'static [u8]] {
    match command.name() {
        b"ACK" | b"NACK" if version == Version::V1_1 => &[b"subscription", b"message-id"],
        b"CONNECT" | b"STOMP" => &[b"accept-version", b"host"],
        b"SEND" => &[b"destination"],
        b"SUBSCRIBE" => &[b"destination", b"id"],
        b"UNSUBSCRIBE" | b"ACK" | b"NACK" => &[b"id"],
        b"BEGIN" | b"COMMIT" | b"ABORT" => &[b"transaction"],
        _ => &[],
    }
}

/// The two kinds of ids that a session keeps.
#[derive(Clone, Copy, PartialEq, Eq, Debug)]
pub enum Kind {
    Subscription,
    Transaction,
}

/// What a frame does with the id that it names.
#[derive(Clone, Copy, PartialEq, Eq, Debug)]
pub enum Use {
    Takes,
    Frees,
    Mentions,
}

/// How a command names a subscription or transaction: in which header, and what for.
#[derive(Clone, Copy, PartialEq, Eq, Debug)]
pub struct Naming {
    pub kind: Kind,
    pub header: &'static [u8],
    pub used: Use,
}

/// How the command names any. The label of ACK and NACK names neither, but a delivery; in 1.1 they also name its
/// subscription.
pub fn namings(version: Version, command: Command) -> Vec<Naming> {
    let naming = |kind, header: &'static [u8], used| Naming { kind, header, used };
    let subscription = |header, used| naming(Kind::Subscription, header, used);
    let transaction = |used| naming(Kind::Transaction, b"transaction", used);
    match command.name() {
        b"SUBSCRIBE" => vec![subscription(b"id", Use::Takes)],
        b"UNSUBSCRIBE" => vec![subscription(b"id", Use::Frees)],
        b"BEGIN" => vec![transaction(Use::Takes)],
        b"COMMIT" | b"ABORT" => vec![transaction(Use::Frees)],
        b"ACK" | b"NACK" if version == Version::V1_1 => vec![
            subscription(b"subscription", Use::Mentions),
            transaction(Use::Mentions),
        ],
        b"SEND" | b"ACK" | b"NACK" => vec![transaction(Use::Mentions)],
        _ => Vec::new(),
    }
}
