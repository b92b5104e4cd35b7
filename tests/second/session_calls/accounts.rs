//! Document 02, C-15: the accounts of deliveries, told from the calls and their answers alone. "After any
//! calls from a fresh session, deliveries made equal those acknowledged, refused by NACK, dropped at
//! UNSUBSCRIBE or close, and outstanding". No session is kept here: each subscription has a row of the labels
//! that wait, each with the number of its recording.

use super::sequence::Step;
use super::{Call, Reply};
use crate::block;
use crate::item::Command;
use crate::session::delivery::{Delivery, Mode};
use crate::session::frame::Frame;
use std::collections::{BTreeMap, VecDeque};

/// How many deliveries there were of each kind.
#[derive(Clone, Copy, PartialEq, Eq, Default, Debug)]
pub struct Totals {
    pub lives: usize,
    pub made: usize,
    pub acknowledged: usize,
    pub refused: usize,
    pub dropped: usize,
    pub pending: usize,
}

impl Totals {
    /// "deliveries made equal those acknowledged, refused by NACK, dropped at UNSUBSCRIBE or close, and
    /// outstanding"
    fn are_even(&self) -> bool {
        self.made == self.acknowledged + self.refused + self.dropped + self.pending
    }

    pub fn add(&mut self, other: &Totals) {
        self.lives += other.lives;
        self.made += other.made;
        self.acknowledged += other.acknowledged;
        self.refused += other.refused;
        self.dropped += other.dropped;
        self.pending += other.pending;
    }
}

/// A subscription as the history tells it.
struct Row {
    mode: Mode,
    waiting: VecDeque<(usize, Vec<u8>)>,
}

/// The accounts of one session, from its making on.
struct Accounts {
    totals: Totals,
    rows: BTreeMap<Vec<u8>, Row>,
}

impl Accounts {
    fn new() -> Accounts {
        Accounts {
            totals: Totals {
                lives: 1,
                ..Totals::default()
            },
            rows: BTreeMap::new(),
        }
    }

    /// Enters a call with its answer, which says the version too.
    fn enter(&mut self, call: &Call, reply: &Reply) {
        let answer = &reply.answer[..];
        match call {
            Call::Deliver {
                subscription,
                label,
                ..
            } if answer == "recorded" => self.made(subscription, label),
            Call::Frame { command, block, .. } if answer.starts_with("accepted") => {
                let frame = Frame {
                    command: Command::numbered(*command).expect("a command"),
                    entries: block::read(block).expect("a header block"),
                };
                self.accepted(&frame, reply.record.version());
            }
            Call::Frame { .. } if !["refused 38", "refused 39"].contains(&answer) => self.close(),
            _ => {}
        }
    }

    fn made(&mut self, subscription: &[u8], label: &[u8]) {
        let number = self.totals.made;
        let row = self.rows.get_mut(subscription).expect("a subscription");
        self.totals.made += 1;
        match row.mode {
            Mode::Auto => self.totals.acknowledged += 1,
            _ => {
                row.waiting.push_back((number, label.to_vec()));
                self.totals.pending += 1;
            }
        }
    }

    /// Enters a frame that was accepted in this version. In 1.1 a label is told by `message-id`, and waits for
    /// the subscription that is told too.
    fn accepted(&mut self, frame: &Frame, version: Option<&str>) {
        let id = frame.first(b"id").unwrap_or_default();
        let (label, of) = match version {
            Some("1.1") => (
                frame.first(b"message-id").unwrap_or_default(),
                frame.first(b"subscription"),
            ),
            _ => (id, None),
        };
        match frame.command.name() {
            b"SUBSCRIBE" => {
                let mode = Mode::named(frame.first(b"ack").unwrap_or(b"auto"));
                let row = Row {
                    mode: mode.expect("a mode"),
                    waiting: VecDeque::new(),
                };
                assert!(self.rows.insert(id.to_vec(), row).is_none());
            }
            b"UNSUBSCRIBE" => {
                let row = self.rows.remove(id).expect("a subscription");
                self.totals.pending -= row.waiting.len();
                self.totals.dropped += row.waiting.len();
            }
            b"ACK" => self.totals.acknowledged += self.settled(label, of),
            b"NACK" => self.totals.refused += self.settled(label, of),
            b"DISCONNECT" => self.close(),
            _ => {}
        }
    }

    /// Takes what is settled with this label from the front of its row: in client mode all up to it, in
    /// client-individual it alone. Gives how many these are. Where a subscription is told it is the row's.
    fn settled(&mut self, label: &[u8], of: Option<&[u8]>) -> usize {
        let has = |(_, row): &(&Vec<u8>, &mut Row)| {
            row.waiting.iter().any(|(_, waiting)| waiting == label)
        };
        let (id, row) = self.rows.iter_mut().find(has).expect("a label that waits");
        assert!(of.is_none_or(|of| of == id), "{:?} {:?}", of, id);
        let mut passed = VecDeque::new();
        let mut count = 0;
        while let Some((number, waiting)) = row.waiting.pop_front() {
            let named = waiting == label;
            if named || row.mode == Mode::Client {
                count += 1;
            } else {
                passed.push_back((number, waiting));
            }
            if named {
                break;
            }
        }
        passed.append(&mut row.waiting);
        row.waiting = passed;
        self.totals.pending -= count;
        count
    }

    /// The session was closed.
    fn close(&mut self) {
        self.totals.dropped += self.totals.pending;
        self.totals.pending = 0;
        self.rows.values_mut().for_each(|row| row.waiting.clear());
    }

    /// The pending deliveries, in the order of their recording.
    fn pending(&self) -> Vec<Delivery> {
        let mut all = BTreeMap::new();
        for (id, row) in &self.rows {
            for (number, label) in &row.waiting {
                let delivery = Delivery {
                    subscription: id.clone(),
                    mode: row.mode,
                    label: label.clone(),
                };
                assert!(all.insert(*number, delivery).is_none());
            }
        }
        all.into_values().collect()
    }
}

/// Keeps the accounts of these calls, of which the first is of a session that was made. A record that is set
/// ends them, a session that is made begins them anew. After each call they are even, and what is pending is
/// what the session holds.
pub fn of(steps: &[Step]) -> Totals {
    let mut totals = Totals::default();
    let mut accounts = Some(Accounts::new());
    for Step { call, reply, .. } in steps {
        if matches!(call, Call::Make { .. } | Call::Set(_)) {
            let ended = match call {
                Call::Make { .. } => accounts.replace(Accounts::new()),
                _ => accounts.take(),
            };
            totals.add(&ended.map_or(Totals::default(), |ended| ended.totals));
        }
        let Some(accounts) = &mut accounts else {
            continue;
        };
        accounts.enter(call, reply);
        let session = reply.record.session().expect("a record that calls leave");
        let pending = accounts.pending();
        assert!(accounts.totals.are_even(), "{:?}", accounts.totals);
        assert_eq!(pending.len(), accounts.totals.pending);
        assert_eq!(pending, session.deliveries, "{call:?}");
    }
    totals.add(&accounts.map_or(Totals::default(), |last| last.totals));
    totals
}
