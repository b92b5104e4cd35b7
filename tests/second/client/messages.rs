//! Deliveries to a client: subscription ids and labels, and MESSAGE frames with them.

use super::values::{common_label, id, near_id, wrong_id};
use super::{command, dressed, live_id, new_id};
use crate::block::Entry;
use crate::random::Random;
use crate::session::delivery::{Delivery, Mode};
use crate::session::frame::{Frame, Kind};
use crate::session::{Session, MAX_ID};
use crate::version::Version;

/// A subscription's id and a label.
pub type Texts = (Vec<u8>, Vec<u8>);

/// The texts of some pending delivery: often the oldest or the newest, or one of a subscription that has
/// others.
pub fn pending(random: &mut Random, session: &Session) -> Option<Texts> {
    let last = session.deliveries.len().checked_sub(1)?;
    let any = random.between(0, last);
    let low = any.min(3);
    let index = random.pick(&[any, any, low, low, 0, last]);
    let delivery = session.deliveries[index].clone();
    Some((delivery.subscription, delivery.label))
}

/// Its label.
fn pending_label(random: &mut Random, session: &Session) -> Option<Vec<u8>> {
    pending(random, session).map(|(_, label)| label)
}

/// A label that none pending has: any, or one that comes again and again, or almost a pending one, or the
/// id of a subscription.
pub fn new_label(random: &mut Random, session: &Session) -> Vec<u8> {
    loop {
        let candidate = match random.below(8) {
            0 => pending_label(random, session).map(|label| near_id(random, &label)),
            1 => live_id(random, &session.subscriptions),
            2 => Some(id(random)),
            3 => Some(vec![random.pick(b"ab\0\xff"); random.pick(&[1, MAX_ID])]),
            _ => Some(common_label(random)),
        };
        match candidate {
            Some(label) if session.pending(&label).is_none() => return label,
            _ => {}
        }
    }
}

/// A label that none pending has, or one that none can have: empty or too long.
pub fn label_not_pending(random: &mut Random, session: &Session) -> Vec<u8> {
    if random.once_in(4) {
        return wrong_id(random);
    }
    new_label(random, session)
}

/// A live subscription's id, seldom one in auto mode.
pub fn subscription(random: &mut Random, session: &Session) -> Option<Vec<u8>> {
    let kept = |mode: Mode| mode != Mode::Auto;
    let ids: Vec<&Vec<u8>> = session
        .modes
        .iter()
        .filter(|(_, &mode)| kept(mode))
        .map(|(id, _)| id)
        .collect();
    if ids.is_empty() || random.once_in(6) {
        return live_id(random, &session.subscriptions);
    }
    // The first of them gets many deliveries.
    let any = random.below(ids.len());
    let index = random.pick(&[any, any, 0]);
    Some(ids[index].clone())
}

/// A delivery that an open session records, as long as a place is free; none where no subscription is live.
fn right_texts(random: &mut Random, session: &Session) -> Option<Texts> {
    let id = subscription(random, session)?;
    Some((id, new_label(random, session)))
}

/// A delivery that an open session refuses: with 62, if a subscription is live, or with 64.
fn wrong_texts(random: &mut Random, session: &Session) -> Texts {
    let equal = pending_label(random, session).filter(|_| !random.once_in(3));
    let label = equal.unwrap_or_else(|| wrong_id(random));
    let live = subscription(random, session).filter(|_| !random.once_in(4));
    let id = live.unwrap_or_else(|| match random.below(4) {
        0 => wrong_id(random),
        _ => new_id(random, session, Kind::Subscription),
    });
    if session.mode(&id).is_some() || random.once_in(4) {
        (id, label)
    } else {
        (id, new_label(random, session))
    }
}

/// A delivery that is meant to be recorded, or at times to be refused.
pub fn texts(random: &mut Random, session: &Session) -> Texts {
    let right = right_texts(random, session).filter(|_| !random.once_in(8));
    right.unwrap_or_else(|| wrong_texts(random, session))
}

/// The MESSAGE frame of a delivery; at times without one of its headers, which is then an empty text. The header
/// that is the other version's label is there too, with another value or the same.
pub fn message(random: &mut Random, session: &Session) -> Frame {
    let (id, label) = texts(random, session);
    let (name, other): (&[u8], &[u8]) = match session.version() {
        Version::V1_1 => (b"message-id", b"ack"),
        Version::V1_2 => (b"ack", b"message-id"),
    };
    let common = common_label(random);
    let value = random.pick(&[&b"m"[..], &common, &label]).to_vec();
    let mut entries = vec![
        Entry::new(b"subscription", &id),
        Entry::new(name, &label),
        Entry::new(other, &value),
    ];
    if random.once_in(24) {
        entries.remove(random.below(2));
    }
    let command = command(b"MESSAGE");
    dressed(random, session, Frame { command, entries })
}

/// So many pending deliveries for a session, of its subscriptions that are not in auto mode.
pub fn deliveries(random: &mut Random, session: &mut Session, count: usize) {
    let modes = session.modes.clone().into_iter();
    let kept: Vec<(Vec<u8>, Mode)> = modes.filter(|(_, mode)| *mode != Mode::Auto).collect();
    if kept.is_empty() {
        return;
    }
    for _ in 0..count {
        let (subscription, mode) = kept[random.below(kept.len())].clone();
        let label = new_label(random, session);
        session.deliveries.push(Delivery {
            subscription,
            mode,
            label,
        });
    }
}
