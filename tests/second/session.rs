//! One client's session, document 01, with the deliveries of document 02's C-15 and the versions of its C-18: ids
//! are held whole, each in its place, and each refusal is one question, asked in the document's order.

pub mod delivery;
pub mod frame;
pub mod opening;
pub mod record;

use self::delivery::{Delivery, Mode};
use self::frame::{is_servers, needed, Frame, Kind, Naming, Settled, Use};
use self::opening::{highest, interval, passed, shared, Flags, NO_VERSION};
use crate::version::Version;
use std::collections::BTreeMap;

/// The sizes.
pub const SUBSCRIPTIONS: usize = 16;
pub const TRANSACTIONS: usize = 4;
pub const MAX_ID: usize = 32;

#[derive(Clone, Copy, PartialEq, Eq, Debug)]
pub enum Phase {
    Fresh,
    Open,
    Closed,
}

/// The places of one kind of ids. A free place holds none.
pub type Places = Vec<Option<Vec<u8>>>;

/// What a session keeps besides its phase and ids. `sends` and `wants` are the server's first and
/// second heart-beat number.
#[derive(Clone, Copy, PartialEq, Eq, Default, Debug)]
pub struct State {
    pub sends: u32,
    pub wants: u32,
    pub offered: Flags,
    pub shared: Flags,
    pub client_to_server: u32,
    pub server_to_client: u32,
    pub last_heard: u32,
}

/// A valid session: `modes` has the mode of each live subscription by its id, `deliveries` the pending ones,
/// oldest first.
#[derive(Clone, PartialEq, Eq, Debug)]
pub struct Session {
    pub phase: Phase,
    pub state: State,
    pub subscriptions: Places,
    pub transactions: Places,
    pub modes: BTreeMap<Vec<u8>, Mode>,
    pub deliveries: Vec<Delivery>,
}

/// What an accepted answer says: whether a receipt is owed and, document 02, C-19, "how many later entries of
/// that name follow", of each of these names.
#[derive(Clone, Copy, PartialEq, Eq, Debug)]
pub struct Accepted {
    pub receipt: bool,
    pub later: [usize; COUNTED.len()],
}

/// The names whose later entries are counted, in the order of an answer.
pub const COUNTED: [&[u8]; 3] = [b"destination", b"id", b"transaction"];

/// A refusal is its number.
pub type Answer = Result<Accepted, usize>;

type Check = fn(&Session, &Frame) -> bool;

/// The refusals from 40 on, in their order; "at CONNECT/STOMP 31, 32, 33 after 43", and in C-15 "49 unknown
/// mode, after 47; 60 the id of ACK or NACK is no outstanding label, after 46".
const CHECKS: [(usize, Check); 13] = [
    (40, |session, _| session.phase == Phase::Closed),
    (41, |_, frame| is_servers(frame.command)),
    (42, out_of_phase),
    (43, header_missing),
    (31, |_, frame| frame.opens() && frame.versions().is_none()),
    (32, no_version_shared),
    (33, |_, frame| frame.opens() && frame.heart_beat().is_none()),
    (44, wrong_length),
    (45, already_live),
    (46, not_live),
    (60, not_pending),
    (47, all_places_live),
    (49, |_, frame| frame.mode().is_none()),
];

/// "42 not open, or a second CONNECT/STOMP"
fn out_of_phase(session: &Session, frame: &Frame) -> bool {
    if frame.opens() {
        session.phase == Phase::Open
    } else {
        session.phase != Phase::Open
    }
}

/// "43 header missing"
fn header_missing(session: &Session, frame: &Frame) -> bool {
    let missing = |name: &&[u8]| frame.first(name).is_none();
    needed(session.version(), frame.command).iter().any(missing)
}

/// "32 none shared"
fn no_version_shared(session: &Session, frame: &Frame) -> bool {
    let versions = frame.versions().unwrap_or(NO_VERSION);
    frame.opens() && shared(session.state.offered, versions) == NO_VERSION
}

/// "44 the id that names a subscription or transaction is empty or over 32"; C-18: "44 and 46 also check that
/// subscription".
fn wrong_length(session: &Session, frame: &Frame) -> bool {
    let named = frame.named(session.version());
    named
        .iter()
        .any(|(_, id)| id.is_empty() || id.len() > MAX_ID)
}

/// "45 id already live"
fn already_live(session: &Session, frame: &Frame) -> bool {
    let mut taken = session.named(frame, &[Use::Takes]).into_iter();
    taken.any(|(naming, id)| session.is_live(naming.kind, id))
}

/// "46 not live"
fn not_live(session: &Session, frame: &Frame) -> bool {
    let mut used = session
        .named(frame, &[Use::Frees, Use::Mentions])
        .into_iter();
    used.any(|(naming, id)| !session.is_live(naming.kind, id))
}

/// "60 the id of ACK or NACK is no outstanding label", and "60 also for another subscription's label".
fn not_pending(session: &Session, frame: &Frame) -> bool {
    let of_it = |settled: &Settled, delivery: &Delivery| {
        let named = settled.subscription;
        delivery.label == settled.label && named.is_none_or(|named| named == delivery.subscription)
    };
    let pending = |settled: &Settled| session.deliveries.iter().any(|one| of_it(settled, one));
    frame
        .settled(session.version())
        .is_some_and(|settled| !pending(&settled))
}

/// "47 all places live"
fn all_places_live(session: &Session, frame: &Frame) -> bool {
    let full = |naming: Naming| session.places(naming.kind).iter().all(Option::is_some);
    let mut taken = session.named(frame, &[Use::Takes]).into_iter();
    taken.any(|(naming, _)| full(naming))
}

impl Session {
    pub fn places(&self, kind: Kind) -> &Places {
        match kind {
            Kind::Subscription => &self.subscriptions,
            Kind::Transaction => &self.transactions,
        }
    }

    fn places_mut(&mut self, kind: Kind) -> &mut Places {
        match kind {
            Kind::Subscription => &mut self.subscriptions,
            Kind::Transaction => &mut self.transactions,
        }
    }

    /// The version of an open session, which is "the highest" shared. In another one none is chosen, and no rule
    /// asks for it: 1.2.
    pub fn version(&self) -> Version {
        let chosen = highest(self.state.shared).and_then(Version::named);
        chosen
            .filter(|_| self.phase == Phase::Open)
            .unwrap_or_default()
    }

    /// The ids that the frame names for one of these uses.
    fn named<'a>(&self, frame: &'a Frame, uses: &[Use]) -> Vec<(Naming, &'a [u8])> {
        let mut named = frame.named(self.version());
        named.retain(|(naming, _)| uses.contains(&naming.used));
        named
    }

    /// Whether the id is live.
    fn is_live(&self, kind: Kind, id: &[u8]) -> bool {
        let mut ids = self.places(kind).iter().flatten();
        ids.any(|live| live == id)
    }

    /// Answers a frame of a known command with a well-formed header block. A refusal "closes it and
    /// changes nothing else"; a close empties the places of deliveries.
    pub fn frame(&mut self, frame: &Frame, time: u32) -> Answer {
        if let Some((number, _)) = CHECKS.iter().find(|(_, fits)| fits(self, frame)) {
            self.close();
            return Err(*number);
        }
        self.open(frame);
        self.take_or_free(frame);
        self.account(frame);
        if frame.command.name() == b"DISCONNECT" {
            self.close();
        }
        self.state.last_heard = time;
        let receipt = frame.first(b"receipt").is_some() && !frame.opens();
        let later = COUNTED.map(|name| frame.later(name));
        Ok(Accepted { receipt, later })
    }

    /// What an accepted CONNECT or STOMP changes, and nothing for any other frame.
    fn open(&mut self, frame: &Frame) {
        if !frame.opens() {
            return;
        }
        let versions = frame.versions().expect("a well-formed accept-version");
        let (first, second) = frame.heart_beat().expect("a well-formed heart-beat");
        let state = &mut self.state;
        state.shared = shared(state.offered, versions);
        state.client_to_server = interval(first, state.wants);
        state.server_to_client = interval(state.sends, second);
        self.phase = Phase::Open;
    }

    /// "A new id takes the first free place"; UNSUBSCRIBE, COMMIT and ABORT free one.
    fn take_or_free(&mut self, frame: &Frame) {
        for (Naming { kind, used, .. }, id) in self.named(frame, &[Use::Takes, Use::Frees]) {
            let id = Some(id.to_vec());
            let (there, left) = match used {
                Use::Takes => (None, id),
                _ => (id, None),
            };
            let place = self.places(kind).iter().position(|place| *place == there);
            self.places_mut(kind)[place.expect("a place")] = left;
        }
    }

    /// What the frame changes of modes and deliveries: SUBSCRIBE sets a mode, UNSUBSCRIBE drops it with the
    /// deliveries, ACK and NACK settle, "whatever ABORT does later".
    fn account(&mut self, frame: &Frame) {
        let id = frame.first(b"id").unwrap_or_default();
        match frame.command.name() {
            b"SUBSCRIBE" => {
                let mode = frame.mode().expect("a known mode");
                self.modes.insert(id.to_vec(), mode);
            }
            b"UNSUBSCRIBE" => {
                self.modes.remove(id);
                self.drop_deliveries(id);
            }
            _ => {}
        }
        if let Some(settled) = frame.settled(self.version()) {
            self.settle(settled.label);
        }
    }

    /// Answers a heart-beat, the document's beat.
    pub fn heart_beat(&mut self, time: u32) -> Answer {
        if self.phase == Phase::Closed {
            return Err(40);
        }
        self.state.last_heard = time;
        Ok(Accepted {
            receipt: false,
            later: [0; COUNTED.len()],
        })
    }

    /// Whether the client has timed out: "the session is open, the client-to-server interval is not 0
    /// and more than twice that interval has passed since last-heard".
    pub fn timed_out(&self, now: u32) -> bool {
        let twice = 2 * u64::from(self.state.client_to_server);
        let since = passed(self.state.last_heard, now);
        self.phase == Phase::Open && twice != 0 && since > twice
    }
}
