//! Random session records: valid ones, also such as no call leaves, and invalid ones for each reason.

use crate::client::messages::deliveries;
use crate::client::{new_id, values};
use crate::random::Random;
use crate::session::delivery::{Mode, DELIVERIES, MODES};
use crate::session::frame::Kind;
use crate::session::opening::{are_among, is_offer, Flags, MAX_INTERVAL, NO_VERSION, OFFERS};
use crate::session::record::{Record, Store};
use crate::session::{Phase, Session, State, MAX_ID, SUBSCRIPTIONS, TRANSACTIONS};
use std::collections::BTreeMap;

/// A record: most often a valid one.
pub fn record(random: &mut Random) -> Record {
    let mut record = valid(random);
    if random.once_in(4) {
        spoil(random, &mut record);
        while random.once_in(4) {
            spoil(random, &mut record);
        }
    }
    record
}

/// A valid record in any phase.
pub fn valid(random: &mut Random) -> Record {
    let phase = random.pick(&[
        Phase::Open,
        Phase::Open,
        Phase::Open,
        Phase::Open,
        Phase::Fresh,
        Phase::Fresh,
        Phase::Closed,
    ]);
    Record::of(&session(random, phase))
}

/// A session in this phase, with any state, ids and modes, and if it is open with pending deliveries.
pub fn session(random: &mut Random, phase: Phase) -> Session {
    let any = flags(random);
    let offered = match phase {
        Phase::Closed => any,
        _ => random.pick(&OFFERS),
    };
    let shared = match phase {
        Phase::Open => shared_with(random, offered),
        _ => flags(random),
    };
    let state = State {
        sends: interval(random),
        wants: interval(random),
        offered,
        shared,
        client_to_server: interval(random),
        server_to_client: interval(random),
        last_heard: time(random),
    };
    let mut session = Session {
        phase,
        state,
        subscriptions: vec![None; SUBSCRIPTIONS],
        transactions: vec![None; TRANSACTIONS],
        modes: BTreeMap::new(),
        deliveries: Vec::new(),
    };
    let usual = random.pick(&MODES);
    for index in chosen(random, SUBSCRIPTIONS) {
        let id = new_id(random, &session, Kind::Subscription);
        let any = random.pick(&MODES);
        let mode = random.pick(&[usual, usual, any, Mode::Client]);
        session.modes.insert(id.clone(), mode);
        session.subscriptions[index] = Some(id);
    }
    for index in chosen(random, TRANSACTIONS) {
        session.transactions[index] = Some(new_id(random, &session, Kind::Transaction));
    }
    if phase == Phase::Open {
        let any = random.between(0, DELIVERIES);
        let few = random.between(0, 8);
        let count = random.pick(&[0, 1, few, few, any, DELIVERIES - 1, DELIVERIES]);
        deliveries(random, &mut session, count);
    }
    session
}

/// Some of the versions offered, one at least.
fn shared_with(random: &mut Random, offered: Flags) -> Flags {
    flags_that(random, |flags| {
        flags != NO_VERSION && are_among(flags, offered)
    })
}

/// Flags that the test holds for.
fn flags_that(random: &mut Random, test: impl Fn(Flags) -> bool) -> Flags {
    loop {
        let flags = flags(random);
        if test(flags) {
            return flags;
        }
    }
}

/// Which places are live: none, all, all but one, one, the first ones, or any.
fn chosen(random: &mut Random, places: usize) -> Vec<usize> {
    let one = random.below(places);
    let style = random.below(8);
    let live = |index: &usize| match style {
        0 => false,
        1 | 2 => true,
        3 | 4 => *index != one,
        5 => *index == one,
        6 => *index < one,
        _ => random.once_in(2),
    };
    (0..places).filter(live).collect()
}

pub fn flags(random: &mut Random) -> Flags {
    [0, 1, 2].map(|_| random.once_in(2))
}

/// An offer or an interval.
pub fn interval(random: &mut Random) -> u32 {
    let any = random.below(MAX_INTERVAL as usize + 1) as u32;
    random.pick(&[
        0,
        0,
        1,
        2,
        1_000,
        2_000,
        any,
        MAX_INTERVAL - 1,
        MAX_INTERVAL,
    ])
}

/// A number over the limit of offers and intervals.
pub fn over_limit(random: &mut Random) -> u32 {
    let over = MAX_INTERVAL + 1;
    random.pick(&[over, over, over + 1, 1 << 22, 1 << 24, 1 << 31, u32::MAX])
}

/// Any time; often one about where the clock rolls over.
pub fn time(random: &mut Random) -> u32 {
    let any = random.below(1 << 32) as u32;
    random.pick(&[0, 1, 10, any, any, 4_294_967_290, u32::MAX, 1 << 31])
}

/// Gives the record a reason to be invalid; flags are none in a closed session, and those shared only in an open
/// one.
fn spoil(random: &mut Random, record: &mut Record) {
    if random.once_in(2) {
        return spoil_deliveries(random, record);
    }
    let subscriptions = random.once_in(2);
    let store = if subscriptions {
        &mut record.subscriptions
    } else {
        &mut record.transactions
    };
    match random.below(18) {
        12 | 13 => record.state.shared = NO_VERSION,
        14..=17 => {
            let offered = record.state.offered;
            record.state.shared = match offered {
                [true, true, true] => NO_VERSION,
                _ => flags_that(random, |flags| !are_among(flags, offered)),
            };
        }
        0 => record.phase = random.pick(&[3, 3, 4, 127, 128, 129, 254, 255]),
        1 | 2 => long(random, store),
        3 | 4 => equal(random, store),
        5..=8 => unused(random, store),
        9 | 10 => over(random, &mut record.state),
        _ => record.state.offered = other_flags(random),
    }
}

/// Gives the record a reason to be invalid that is of C-15's rule; at times none, where there is no delivery
/// to spoil.
fn spoil_deliveries(random: &mut Random, record: &mut Record) {
    let last = usize::from(record.count).min(DELIVERIES).saturating_sub(1);
    let some = random.between(0, last);
    let place = random.below(SUBSCRIPTIONS);
    match random.below(16) {
        0 => record.modes[place] = random.pick(&[3, 3, 4, 127, 128, 254, 255]),
        1 => mode_of_free(random, record),
        2 => over_count(random, record),
        3 => record.count = record.count.wrapping_add(random.pick(&[1, 255])),
        4 => record.phase = random.pick(&[0, 2]),
        5 => record.labels.lengths[some] = 0,
        6 => put(&mut record.labels, some, b""),
        7 => long(random, &mut record.labels),
        8 => equal(random, &mut record.labels),
        9 | 10 => unused(random, &mut record.labels),
        11 => {
            let owner = record.owners[some] % SUBSCRIPTIONS as u8;
            record.owners[some] = random.pick(&[16, 16 + owner, 16 + owner, 128 + owner, 255]);
        }
        12 => free_owner(record, some),
        13 => auto_owner(record, some),
        14 => after_count(random, record),
        _ => record.owners[some] = place as u8,
    }
}

/// Makes the count too large; most often all places have a delivery.
fn over_count(random: &mut Random, record: &mut Record) {
    let session = record.session().filter(|_| !random.once_in(3));
    if let Some(mut session) = session.filter(|session| session.phase == Phase::Open) {
        let free = DELIVERIES - session.deliveries.len();
        deliveries(random, &mut session, free);
        *record = Record::of(&session);
    }
    record.count = random.pick(&[65, 65, 66, 127, 128, 129, 255]);
}

/// Gives a free subscription place a mode.
fn mode_of_free(random: &mut Random, record: &mut Record) {
    let lengths = record.subscriptions.lengths.iter();
    let free = lengths.enumerate().filter(|(_, &length)| length == 0);
    let free: Vec<usize> = free.map(|(place, _)| place).collect();
    if !free.is_empty() {
        record.modes[random.pick(&free)] = random.pick(&[1, 1, 2, 3, 255]);
    }
}

/// Frees the place of a delivery's subscription.
fn free_owner(record: &mut Record, delivery: usize) {
    let owner = usize::from(record.owners[delivery]).min(SUBSCRIPTIONS - 1);
    put(&mut record.subscriptions, owner, b"");
    record.modes[owner] = 0;
}

/// Puts a delivery's subscription into auto mode.
fn auto_owner(record: &mut Record, delivery: usize) {
    let owner = usize::from(record.owners[delivery]).min(SUBSCRIPTIONS - 1);
    record.modes[owner] = 0;
}

/// Makes an octet from the count on other than 0: a whole label, a length, an octet or a place.
fn after_count(random: &mut Random, record: &mut Record) {
    let count = usize::from(record.count).min(DELIVERIES - 1);
    let any = random.between(count, DELIVERIES - 1);
    let place = random.pick(&[count, count, any, DELIVERIES - 1]);
    match random.below(4) {
        0 => put(&mut record.labels, place, b"after"),
        1 => record.labels.lengths[place] = 1,
        2 => record.labels.octets[place * MAX_ID] = 1,
        _ => record.owners[place] = random.pick(&[1, 15, 255]),
    }
}

/// Makes a length too large.
fn long(random: &mut Random, store: &mut Store) {
    let index = random.below(store.lengths.len());
    store.lengths[index] = random.pick(&[33, 33, 34, 64, 65, 127, 128, 255, 255]);
}

/// Puts the id of one place into another place too; if there is none, a new one into both.
fn equal(random: &mut Random, store: &mut Store) {
    let places = store.lengths.len();
    let from = random.below(places);
    let to = (from + random.between(1, places - 1)) % places;
    if store.lengths[from] == 0 {
        put(store, from, &values::id(random));
    }
    let length = MAX_ID.min(store.lengths[from].into());
    let id = store.octets[from * MAX_ID..][..length].to_vec();
    put(store, to, &id);
}

/// Puts an id into a place.
pub fn put(store: &mut Store, place: usize, id: &[u8]) {
    let octets = &mut store.octets[place * MAX_ID..][..MAX_ID];
    octets.fill(0);
    octets[..id.len()].copy_from_slice(id);
    store.lengths[place] = id.len() as u8;
}

/// Makes an unused octet other than 0: right behind an id, the last of a place or of the store, or any.
/// An id that takes its whole place gets shorter.
fn unused(random: &mut Random, store: &mut Store) {
    let places = store.lengths.len();
    let any = random.below(places);
    let place = random.pick(&[any, any, places - 1]);
    let last = MAX_ID - 1;
    let length = last.min(store.lengths[place].into());
    store.lengths[place] = length as u8;
    let between = random.between(length, last);
    let octet = random.pick(&[length, length, last, between]);
    store.octets[place * MAX_ID + octet] = random.pick(&[1, 1, b'a', 128, 255]);
}

/// Makes an offer or an interval too large.
fn over(random: &mut Random, state: &mut State) {
    let number = over_limit(random);
    match random.below(4) {
        0 => state.sends = number,
        1 => state.wants = number,
        2 => state.client_to_server = number,
        _ => state.server_to_client = number,
    }
}

/// Flags that making a session refuses.
pub fn other_flags(random: &mut Random) -> Flags {
    flags_that(random, |flags| !is_offer(flags))
}
