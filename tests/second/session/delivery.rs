//! Document 02, C-15: ack modes, and the deliveries that a client has not settled yet. A delivery is held
//! whole: its subscription's id, that one's mode, and its label.

use super::{Phase, Session, MAX_ID};

/// How many deliveries can be pending, the document's outstanding.
pub const DELIVERIES: usize = 64;

/// How a subscription's deliveries are settled.
#[derive(Clone, Copy, PartialEq, Eq, PartialOrd, Ord, Debug)]
pub enum Mode {
    Auto,
    Client,
    Individual,
}

/// The modes in the order of their numbers, from 0.
pub const MODES: [Mode; 3] = [Mode::Auto, Mode::Client, Mode::Individual];

impl Mode {
    /// The mode that an `ack` value names: "auto, client, client-individual".
    pub fn named(value: &[u8]) -> Option<Mode> {
        match value {
            b"auto" => Some(Mode::Auto),
            b"client" => Some(Mode::Client),
            b"client-individual" => Some(Mode::Individual),
            _ => None,
        }
    }

    pub fn number(self) -> u8 {
        self as u8
    }
}

/// A pending delivery.
#[derive(Clone, PartialEq, Eq, Debug)]
pub struct Delivery {
    pub subscription: Vec<u8>,
    pub mode: Mode,
    pub label: Vec<u8>,
}

/// The answer to a delivery that is recorded: a refusal is its number.
pub type Recorded = Result<(), usize>;

type Check = fn(&Session, &[u8], &[u8]) -> bool;

/// The refusals of recording a delivery after 38, in the document's order, asked of the subscription's id
/// and the label.
const CHECKS: [(usize, Check); 4] = [
    (63, |session, _, _| session.phase != Phase::Open),
    (64, |session, id, _| session.mode(id).is_none()),
    (62, |session, _, label| {
        label.is_empty() || label.len() > MAX_ID || session.pending(label).is_some()
    }),
    (61, |session, id, _| {
        session.deliveries.len() == DELIVERIES && session.mode(id) != Some(Mode::Auto)
    }),
];

impl Session {
    /// The mode of the live subscription of this id.
    pub fn mode(&self, id: &[u8]) -> Option<Mode> {
        self.modes.get(id).copied()
    }

    /// The place of the pending delivery of this label, from the oldest on.
    pub fn pending(&self, label: &[u8]) -> Option<usize> {
        let named = |delivery: &Delivery| delivery.label == label;
        self.deliveries.iter().position(named)
    }

    /// Records a delivery. A refusal leaves the session as it was; "Auto counts as acknowledged at once and
    /// takes no place".
    pub fn deliver(&mut self, id: &[u8], label: &[u8]) -> Recorded {
        if let Some((number, _)) = CHECKS.iter().find(|(_, fits)| fits(self, id, label)) {
            return Err(*number);
        }
        let mode = self.mode(id).expect("a live subscription");
        if mode != Mode::Auto {
            self.deliveries.push(Delivery {
                subscription: id.to_vec(),
                mode,
                label: label.to_vec(),
            });
        }
        Ok(())
    }

    /// "In client mode ACK or NACK settles the named delivery and all earlier outstanding ones of that
    /// subscription; in client-individual only the named one."
    pub fn settle(&mut self, label: &[u8]) {
        let place = self.pending(label).expect("a pending delivery");
        let named = self.deliveries[place].clone();
        let later = self.deliveries.split_off(place + 1);
        match named.mode {
            Mode::Client => self.drop_deliveries(&named.subscription),
            _ => drop(self.deliveries.pop()),
        }
        self.deliveries.extend(later);
    }

    /// Drops the deliveries of a subscription.
    pub fn drop_deliveries(&mut self, id: &[u8]) {
        self.deliveries
            .retain(|delivery| delivery.subscription != id);
    }

    /// "Any close now empties these places"; ids and modes stay.
    pub fn close(&mut self) {
        self.phase = Phase::Closed;
        self.deliveries.clear();
    }
}
