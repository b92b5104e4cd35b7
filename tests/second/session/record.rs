//! The session record: a session as numbers and octets, which need not be valid. Ids and labels are in stores,
//! 32 octets to a place.

use super::delivery::{Delivery, Recorded, DELIVERIES, MODES};
use super::frame::Frame;
use super::opening::{are_among, highest, is_offer, Flags, MAX_INTERVAL, NO_VERSION};
use super::{Answer, Phase, Places, Session, State};
use super::{MAX_ID, SUBSCRIPTIONS, TRANSACTIONS};
use crate::block;
use crate::item::Command;
use crate::reader::Reader;

/// The octets of a record: of its state, its ids, its pending deliveries with their labels and places, its
/// modes and their count.
pub const LENGTH: usize = 27
    + (MAX_ID + 1) * (SUBSCRIPTIONS + TRANSACTIONS)
    + (MAX_ID + 2) * DELIVERIES
    + SUBSCRIPTIONS
    + 1;

/// The store of one kind of ids: the octets of its places, and how many of them each id has.
#[derive(Clone, PartialEq, Eq, Debug)]
pub struct Store {
    pub octets: Vec<u8>,
    pub lengths: Vec<u8>,
}

impl Store {
    fn empty(places: usize) -> Store {
        Store {
            octets: vec![0; places * MAX_ID],
            lengths: vec![0; places],
        }
    }

    fn of(places: &Places) -> Store {
        let mut store = Store::empty(places.len());
        for (index, place) in places.iter().enumerate() {
            let id = place.as_deref().unwrap_or_default();
            let start = index * MAX_ID;
            store.octets[start..start + id.len()].copy_from_slice(id);
            store.lengths[index] = id.len() as u8;
        }
        store
    }

    fn read(reader: &mut Reader, places: usize) -> Option<Store> {
        Some(Store {
            octets: reader.octets(places * MAX_ID)?.to_vec(),
            lengths: reader.octets(places)?.to_vec(),
        })
    }

    /// Each place divided into its id and its unused octets.
    fn divided(&self) -> Vec<(&[u8], &[u8])> {
        let places = self.octets.chunks(MAX_ID).zip(&self.lengths);
        places
            .map(|(place, &length)| place.split_at(MAX_ID.min(length.into())))
            .collect()
    }

    /// The ids, each in its place.
    fn ids(&self) -> Places {
        let id = |(id, _): (&[u8], &[u8])| (!id.is_empty()).then(|| id.to_vec());
        self.divided().into_iter().map(id).collect()
    }

    fn has_long_id(&self) -> bool {
        self.lengths
            .iter()
            .any(|&length| usize::from(length) > MAX_ID)
    }

    fn has_equal_ids(&self) -> bool {
        let ids: Vec<Vec<u8>> = self.ids().into_iter().flatten().collect();
        let again = |(index, id): (usize, &Vec<u8>)| ids[..index].contains(id);
        ids.iter().enumerate().any(again)
    }

    fn has_unused_octet(&self) -> bool {
        let unused = |(_, rest): &(&[u8], &[u8])| rest.iter().any(|&octet| octet != 0);
        self.divided().iter().any(unused)
    }
}

/// A session record. The first `count` places of `labels` and `owners` are the pending deliveries, oldest
/// first: a label, and the place of its subscription. `modes` has a number for each subscription place.
#[derive(Clone, PartialEq, Eq, Debug)]
pub struct Record {
    pub phase: u8,
    pub state: State,
    pub subscriptions: Store,
    pub transactions: Store,
    pub labels: Store,
    pub owners: Vec<u8>,
    pub modes: Vec<u8>,
    pub count: u8,
}

/// The phases in the order of their numbers.
const PHASES: [Phase; 3] = [Phase::Fresh, Phase::Open, Phase::Closed];

type Fault = fn(&Record) -> bool;

/// What makes a record invalid, 38: this list is complete. The last seven are C-15's rule, and before them is
/// C-18's: "38 also where an open session's shared marks are none, or not all among those it offers".
const FAULTS: [Fault; 15] = [
    |record| usize::from(record.phase) >= PHASES.len(),
    |record| record.stores().iter().any(|store| store.has_long_id()),
    |record| record.stores().iter().any(|store| store.has_equal_ids()),
    |record| record.stores().iter().any(|store| store.has_unused_octet()),
    |record| record.limited().iter().any(|&number| number > MAX_INTERVAL),
    |record| !is_offer(record.state.offered) && record.phase != PHASE_CLOSED,
    |record| record.state.shared == NO_VERSION && record.phase == PHASE_OPEN,
    |record| {
        let state = &record.state;
        !are_among(state.shared, state.offered) && record.phase == PHASE_OPEN
    },
    has_unknown_mode,
    has_mode_without_subscription,
    |record| usize::from(record.count) > DELIVERIES,
    |record| record.count != 0 && record.phase != PHASE_OPEN,
    has_empty_label,
    has_delivery_of_none,
    has_more_than_counted,
];

const PHASE_FRESH: u8 = 0;
const PHASE_OPEN: u8 = 1;
const PHASE_CLOSED: u8 = 2;

/// A mode that is over 2.
fn has_unknown_mode(record: &Record) -> bool {
    record
        .modes
        .iter()
        .any(|&mode| usize::from(mode) >= MODES.len())
}

/// A free subscription place whose mode is not 0.
fn has_mode_without_subscription(record: &Record) -> bool {
    let mut places = record.subscriptions.lengths.iter().zip(&record.modes);
    places.any(|(&length, &mode)| length == 0 && mode != 0)
}

/// A delivery below the count without a label. That labels are too long, equal, or have octets after them
/// other than 0 is asked of the store.
fn has_empty_label(record: &Record) -> bool {
    record.labels.lengths[..record.counted()].contains(&0)
}

/// A delivery of no live subscription, or of one in auto mode.
fn has_delivery_of_none(record: &Record) -> bool {
    let of_none = |&owner: &u8| {
        let owner = usize::from(owner);
        owner >= SUBSCRIPTIONS
            || record.subscriptions.lengths[owner] == 0
            || record.modes[owner] == 0
    };
    record.owners[..record.counted()].iter().any(of_none)
}

/// A length or a subscription's place from the count on. Octets there are asked of the store.
fn has_more_than_counted(record: &Record) -> bool {
    let counted = record.counted();
    let mut rest = record.labels.lengths[counted..]
        .iter()
        .chain(&record.owners[counted..]);
    rest.any(|&octet| octet != 0)
}

/// Makes a session; a refusal "gives a closed session whose other fields are 0".
pub fn make(sends: u32, wants: u32, offered: Flags) -> (Result<(), usize>, Record) {
    let mut record = Record {
        phase: PHASE_CLOSED,
        state: State::default(),
        subscriptions: Store::empty(SUBSCRIPTIONS),
        transactions: Store::empty(TRANSACTIONS),
        labels: Store::empty(DELIVERIES),
        owners: vec![0; DELIVERIES],
        modes: vec![0; SUBSCRIPTIONS],
        count: 0,
    };
    if sends > MAX_INTERVAL || wants > MAX_INTERVAL || !is_offer(offered) {
        return (Err(34), record);
    }
    record.phase = PHASE_FRESH;
    record.state.sends = sends;
    record.state.wants = wants;
    record.state.offered = offered;
    (Ok(()), record)
}

impl Record {
    fn stores(&self) -> [&Store; 3] {
        [&self.subscriptions, &self.transactions, &self.labels]
    }

    /// The count, where it is not too large.
    fn counted(&self) -> usize {
        DELIVERIES.min(self.count.into())
    }

    /// The numbers that have the limit: offers and intervals.
    fn limited(&self) -> [u32; 4] {
        let state = &self.state;
        let intervals = [state.client_to_server, state.server_to_client];
        [state.sends, state.wants, intervals[0], intervals[1]]
    }

    /// The session, if the record is valid.
    pub fn session(&self) -> Option<Session> {
        if FAULTS.iter().any(|fault| fault(self)) {
            return None;
        }
        let subscriptions = self.subscriptions.ids();
        let modes = subscriptions.iter().zip(&self.modes);
        let modes = modes.filter_map(|(id, &mode)| Some((id.clone()?, MODES[usize::from(mode)])));
        let labels = self.labels.ids().into_iter().flatten().zip(&self.owners);
        let delivery = |(label, &owner): (Vec<u8>, &u8)| Delivery {
            subscription: subscriptions[usize::from(owner)].clone().expect("an id"),
            mode: MODES[usize::from(self.modes[usize::from(owner)])],
            label,
        };
        Some(Session {
            phase: PHASES[usize::from(self.phase)],
            state: self.state,
            modes: modes.collect(),
            deliveries: labels.map(delivery).collect(),
            subscriptions: subscriptions.clone(),
            transactions: self.transactions.ids(),
        })
    }

    /// The record of a session: unused octets are 0.
    pub fn of(session: &Session) -> Record {
        let phase = PHASES.iter().position(|phase| *phase == session.phase);
        let mut labels: Places = vec![None; DELIVERIES];
        let mut owners = vec![0; DELIVERIES];
        for (index, delivery) in session.deliveries.iter().enumerate() {
            let owns = |id: &Option<Vec<u8>>| id.as_ref() == Some(&delivery.subscription);
            let owner = session.subscriptions.iter().position(owns);
            labels[index] = Some(delivery.label.clone());
            owners[index] = owner.expect("a live subscription") as u8;
        }
        let mode = |id: &Option<Vec<u8>>| {
            let mode = id.as_ref().map(|id| session.modes[id]);
            mode.map_or(0, |mode| mode.number())
        };
        Record {
            phase: phase.expect("a phase") as u8,
            state: session.state,
            subscriptions: Store::of(&session.subscriptions),
            transactions: Store::of(&session.transactions),
            labels: Store::of(&labels),
            owners,
            modes: session.subscriptions.iter().map(mode).collect(),
            count: session.deliveries.len() as u8,
        }
    }

    /// Answers a frame: 38 and 39 first, which leave the record as it was.
    pub fn frame(&mut self, command: u32, block: &[u8], time: u32) -> Answer {
        let mut session = self.session().ok_or(38_usize)?;
        let frame = Frame {
            command: Command::numbered(command).ok_or(39_usize)?,
            entries: block::read(block).ok_or(39_usize)?,
        };
        let answer = session.frame(&frame, time);
        *self = Record::of(&session);
        answer
    }

    /// Answers a heart-beat.
    pub fn heart_beat(&mut self, time: u32) -> Answer {
        let mut session = self.session().ok_or(38_usize)?;
        let answer = session.heart_beat(time);
        *self = Record::of(&session);
        answer
    }

    /// Records a delivery.
    pub fn deliver(&mut self, id: &[u8], label: &[u8]) -> Recorded {
        let mut session = self.session().ok_or(38_usize)?;
        let recorded = session.deliver(id, label);
        *self = Record::of(&session);
        recorded
    }

    /// The pending delivery of this index, from the oldest on, if there is one; or 38.
    pub fn pending(&self, index: u32) -> Result<Option<Delivery>, usize> {
        let session = self.session().ok_or(38_usize)?;
        Ok(session.deliveries.into_iter().nth(index as usize))
    }

    /// Whether the client has timed out, or 38.
    pub fn timed_out(&self, now: u32) -> Result<bool, usize> {
        let session = self.session().ok_or(38_usize)?;
        Ok(session.timed_out(now))
    }

    /// The highest version that both sides have, of any record.
    pub fn version(&self) -> Option<&'static str> {
        highest(self.state.shared)
    }

    /// The record as octets, numbers high first.
    pub fn octets(&self) -> Vec<u8> {
        let state = &self.state;
        let mut octets = vec![self.phase];
        octets.extend(state.sends.to_be_bytes());
        octets.extend(state.wants.to_be_bytes());
        octets.extend(state.offered.map(u8::from));
        octets.extend(state.shared.map(u8::from));
        octets.extend(state.client_to_server.to_be_bytes());
        octets.extend(state.server_to_client.to_be_bytes());
        octets.extend(state.last_heard.to_be_bytes());
        for store in self.stores() {
            octets.extend(&store.octets);
            octets.extend(&store.lengths);
        }
        octets.extend(&self.owners);
        octets.extend(&self.modes);
        octets.push(self.count);
        octets
    }

    /// The record of the next octets.
    pub fn read(reader: &mut Reader) -> Option<Record> {
        Some(Record {
            phase: reader.octet()?,
            state: State {
                sends: reader.number()?,
                wants: reader.number()?,
                offered: reader.flags()?,
                shared: reader.flags()?,
                client_to_server: reader.number()?,
                server_to_client: reader.number()?,
                last_heard: reader.number()?,
            },
            subscriptions: Store::read(reader, SUBSCRIPTIONS)?,
            transactions: Store::read(reader, TRANSACTIONS)?,
            labels: Store::read(reader, DELIVERIES)?,
            owners: reader.octets(DELIVERIES)?.to_vec(),
            modes: reader.octets(SUBSCRIPTIONS)?.to_vec(),
            count: reader.octet()?,
        })
    }
}
