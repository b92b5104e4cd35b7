//! The fixed calls that make sessions, and those of records that no call leaves.

use super::{connect, frame, heart_beat, offers, open, set, subscribe, timed_out};
use crate::session::opening::{BOTH, MAX_INTERVAL, NO_VERSION, ONLY_1_1, ONLY_1_2};
use crate::session::record::Record;
use crate::session::{MAX_ID, TRANSACTIONS};
use crate::session_calls::records::put;
use crate::session_calls::Call;

/// 34 for each reason; all versions that may be offered.
pub fn making() -> Vec<Call> {
    let most = MAX_INTERVAL;
    vec![
        offers(most, most, ONLY_1_2),
        offers(most + 1, 0, ONLY_1_2),
        offers(0, most + 1, ONLY_1_2),
        offers(0, 0, [false, false, false]),
        offers(0, 0, BOTH),
        offers(most, most, ONLY_1_1),
        offers(0, most + 1, ONLY_1_1),
        offers(most + 1, 0, BOTH),
        offers(0, 0, [true, true, true]),
        offers(0, 0, [true, true, false]),
        offers(0, 0, [true, false, false]),
        offers(0, 0, [true, false, true]),
        heart_beat(7),
        frame(b"SEND", &[("destination", "/q")]),
    ]
}

/// Each rule of 38 broken alone, and then a frame, a heart-beat or the question of time.
pub fn invalid() -> Vec<Call> {
    let spoiled = |spoil: &dyn Fn(&mut Record)| {
        let mut record = open(&["a", "", "b"], &["c"]);
        spoil(&mut record);
        set(&record)
    };
    let send = frame(b"SEND", &[("destination", "/q")]);
    vec![
        spoiled(&|record| record.phase = 3),
        send.clone(),
        spoiled(&|record| record.subscriptions.lengths[15] = 33),
        heart_beat(7),
        spoiled(&|record| record.transactions.lengths[3] = 255),
        timed_out(7),
        spoiled(&|record| record.subscriptions.octets[2 * MAX_ID] = b'a'),
        send.clone(),
        spoiled(&|record| put(&mut record.transactions, 1, b"c")),
        send.clone(),
        spoiled(&|record| record.subscriptions.octets[1] = 1),
        heart_beat(7),
        spoiled(&|record| record.subscriptions.octets[MAX_ID] = 1),
        timed_out(7),
        spoiled(&|record| record.transactions.octets[TRANSACTIONS * MAX_ID - 1] = 1),
        send.clone(),
        spoiled(&|record| record.state.sends = MAX_INTERVAL + 1),
        send.clone(),
        spoiled(&|record| record.state.wants = MAX_INTERVAL + 1),
        heart_beat(7),
        spoiled(&|record| record.state.client_to_server = MAX_INTERVAL + 1),
        timed_out(7),
        spoiled(&|record| record.state.server_to_client = MAX_INTERVAL + 1),
        send.clone(),
        spoiled(&|record| record.state.offered = [true, false, true]),
        send.clone(),
        spoiled(&|record| (record.phase, record.state.offered) = (0, [false; 3])),
        heart_beat(7),
        spoiled(&|record| record.state.shared = NO_VERSION),
        send.clone(),
        spoiled(&|record| record.state.shared = ONLY_1_1),
        heart_beat(7),
        spoiled(&|record| record.state.shared = [true, false, true]),
        timed_out(7),
        spoiled(&|record| (record.state.offered, record.state.shared) = (ONLY_1_1, BOTH)),
        send.clone(),
        spoiled(&|record| (record.state.offered, record.state.shared) = (BOTH, [true; 3])),
        send.clone(),
        spoiled(&|record| (record.state.offered, record.state.shared) = ([true; 3], ONLY_1_1)),
        heart_beat(7),
        spoiled(&|record| (record.phase, record.state.offered) = (0, [true, true, false])),
        connect("1.1", "0,0"),
    ]
}

/// Records that are valid though no call leaves them.
pub fn valid() -> Vec<Call> {
    let mut closed = open(&["", "a"], &["a"]);
    closed.phase = 2;
    closed.state.offered = [true, true, false];
    let mut both_shared = open(&["", "", "a"], &["", "a"]);
    (both_shared.state.offered, both_shared.state.shared) = (BOTH, BOTH);
    let mut none = closed.clone();
    (none.state.offered, none.state.shared) = (NO_VERSION, [true; 3]);
    let mut fresh = open(&["a"], &["a"]);
    fresh.phase = 0;
    fresh.state.shared = [true, true, false];
    vec![
        set(&closed),
        timed_out(u32::MAX),
        heart_beat(7),
        set(&none),
        heart_beat(7),
        set(&both_shared),
        subscribe("a\0"),
        subscribe("a"),
        set(&fresh),
        timed_out(u32::MAX),
        connect("1.2,1.1", "0,2000"),
    ]
}
