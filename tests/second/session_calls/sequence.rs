//! Random calls, each for the session record that the call before it left.

use super::blocks;
use super::records::{self, interval, other_flags, over_limit, time};
use super::{first_record, Call, Reply, Way, MAX_BLOCK};
use crate::block;
use crate::calls::unknown_command;
use crate::client::messages::{texts, Texts};
use crate::client::right::{confirming, leaving, right};
use crate::client::wrong::{wrong, FRESH, OPEN};
use crate::random::Random;
use crate::session::frame::Frame;
use crate::session::opening::OFFERS;
use crate::session::record::Record;
use crate::session::{Phase, Session};

/// A call, the record before it, and the reply.
pub struct Step {
    pub call: Call,
    pub before: Record,
    pub reply: Reply,
}

/// How the calls are chosen for a while.
enum Course {
    /// Any calls, with other records every now and then.
    Any { left: usize },
    /// A session's life from its making on, with few faults. Of 16 calls that many record deliveries.
    Life { left: usize, delivers: usize },
}

impl Course {
    fn new(random: &mut Random) -> Course {
        let left = random.pick(&[10, 40, 100, 200]);
        let delivers = random.pick(&[2, 6, 10, 15]);
        if random.once_in(2) {
            Course::Any { left }
        } else {
            Course::Life { left, delivers }
        }
    }

    /// Whether a call is left, which is then used up.
    fn goes_on(&mut self) -> bool {
        let (Course::Any { left } | Course::Life { left, .. }) = self;
        let goes_on = *left > 0;
        *left = left.saturating_sub(1);
        goes_on
    }

    /// The next call, where these labels were recorded. A life begins with a session that is made.
    fn call(&self, random: &mut Random, record: &Record, begins: bool, labels: &[Texts]) -> Call {
        match *self {
            Course::Any { .. } => call(random, record),
            Course::Life { .. } if begins => made(random),
            Course::Life { .. } if !labels.is_empty() && random.once_in(60) => {
                let call = settling_again(random, record, labels);
                some_way(random, call)
            }
            Course::Life { delivers, .. } => in_life(random, record, delivers),
        }
    }
}

/// So many calls, from the first record on.
pub fn sequence(random: &mut Random, count: usize) -> Vec<Step> {
    let mut before = first_record();
    let mut steps = Vec::new();
    let mut course = Course::new(random);
    let mut labels = Vec::new();
    for _ in 0..count {
        let begins = !course.goes_on();
        if begins {
            course = Course::new(random);
        }
        let call = course.call(random, &before, begins, &labels);
        let reply = Reply::of(&before, &call);
        match &call {
            Call::Make { .. } | Call::Set(_) => labels.clear(),
            Call::Deliver {
                subscription,
                label,
                ..
            } if reply.answer == "recorded" => labels.push((subscription.clone(), label.clone())),
            _ => {}
        }
        let next = reply.record.clone();
        steps.push(Step {
            call,
            before,
            reply,
        });
        before = next;
    }
    steps
}

/// One call. Where only refusals can follow, another record is set more often.
fn call(random: &mut Random, record: &Record) -> Call {
    let session = record.session();
    let ended = session
        .as_ref()
        .is_none_or(|session| session.phase == Phase::Closed);
    if random.once_in(if ended { 2 } else { 12 }) {
        return another(random);
    }
    let call = match random.below(12) {
        0..=3 => plain(random, record),
        4..=6 => delivery(random, session),
        _ => frame(random, session),
    };
    some_way(random, call)
}

/// A call that leaves the phase and the deliveries as they are.
fn plain(random: &mut Random, record: &Record) -> Call {
    match random.below(if record.count > 0 { 6 } else { 4 }) {
        0 => Call::HeartBeat {
            way: Way::ByValue,
            time: time(random),
        },
        1 | 2 => Call::TimedOut {
            way: Way::ByValue,
            time: time_to_ask(random, record),
        },
        _ => Call::Pending {
            index: index(random, record),
        },
    }
}

fn some_way(random: &mut Random, call: Call) -> Call {
    if random.once_in(2) {
        call.in_place()
    } else {
        call
    }
}

/// The index of a pending delivery, or one about their number.
fn index(random: &mut Random, record: &Record) -> u32 {
    let count = u32::from(record.count);
    let any = random.between(0, usize::from(record.count).max(1) - 1) as u32;
    random.pick(&[
        0,
        any,
        any,
        any,
        count,
        count + 1,
        63,
        64,
        65,
        256,
        u32::MAX,
    ])
}

/// A call in the life of a session that was made: deliveries as asked for, right frames, few wrong ones.
fn in_life(random: &mut Random, record: &Record, delivers: usize) -> Call {
    let session = record.session().expect("a record that calls leave");
    let opened = session.phase == Phase::Open && !session.modes.is_empty();
    let call = if random.once_in(20) {
        plain(random, record)
    } else if session.phase == Phase::Closed && random.once_in(4) {
        made(random)
    } else if opened && random.below(16) < delivers {
        delivery(random, Some(session))
    } else if session.phase == Phase::Closed || random.once_in(100) {
        frame(random, Some(session))
    } else {
        let frame = right(random, &session);
        Call::Frame {
            way: Way::ByValue,
            command: frame.command.0 as u32,
            time: time(random),
            block: block::write(&frame.entries),
        }
    };
    some_way(random, call)
}

/// ACK or NACK of one of the labels, which may be settled by now.
fn settling_again(random: &mut Random, record: &Record, labels: &[Texts]) -> Call {
    let session = record.session().expect("a record that calls leave");
    let (subscription, label) = &labels[random.below(labels.len())];
    let name: &[u8] = random.pick(&[&b"ACK"[..], b"NACK"]);
    let frame = confirming(session.version(), name, subscription, label);
    Call::Frame {
        way: Way::ByValue,
        command: frame.command.0 as u32,
        time: time(random),
        block: block::write(&frame.entries),
    }
}

/// A session that is made.
fn made(random: &mut Random) -> Call {
    Call::Make {
        sends: interval(random),
        wants: interval(random),
        offered: random.pick(&OFFERS),
    }
}

/// A delivery for the session; for one that is not open or invalid, at times as if it were.
fn delivery(random: &mut Random, session: Option<Session>) -> Call {
    let session = session.unwrap_or_else(|| records::session(random, Phase::Open));
    let (mut subscription, mut label) = texts(random, &session);
    let wide = random.pick(&[33, 288, 4_096, 65_535, MAX_BLOCK]);
    match random.below(400) {
        0 => subscription.resize(wide, 0),
        1 => label.resize(wide, 0),
        _ => {}
    }
    Call::Deliver {
        way: Way::ByValue,
        subscription,
        label,
    }
}

/// A record that is set, or a session that is made or refused.
fn another(random: &mut Random) -> Call {
    if !random.once_in(5) {
        return Call::Set(Box::new(records::record(random)));
    }
    let offer = |random: &mut Random| match random.below(6) {
        0 => over_limit(random),
        _ => interval(random),
    };
    let (sends, wants) = (offer(random), offer(random));
    let [first, second, third] = OFFERS;
    let other = other_flags(random);
    Call::Make {
        sends,
        wants,
        offered: random.pick(&[first, second, third, other]),
    }
}

/// Any time, or one about twice the interval after last-heard, or about last-heard.
fn time_to_ask(random: &mut Random, record: &Record) -> u32 {
    let state = &record.state;
    let once = state.client_to_server;
    let twice = once.wrapping_mul(2);
    let passed = random.pick(&[twice, twice, twice, once, state.server_to_client, 0]);
    let about = random.pick(&[0, 0, 1, 1, 2, u32::MAX]);
    match random.below(6) {
        0 => time(random),
        _ => state.last_heard.wrapping_add(passed).wrapping_add(about),
    }
}

/// A frame for the session; for one that is ended or invalid, as if it were open.
fn frame(random: &mut Random, session: Option<Session>) -> Call {
    let mut session = session.unwrap_or_else(|| records::session(random, Phase::Open));
    if session.phase == Phase::Closed {
        session.phase = random.pick(&[Phase::Fresh, Phase::Open]);
    }
    let frame = meant(random, &session);
    let known = frame.command.0 as u32;
    let unknown = random.once_in(24);
    Call::Frame {
        way: Way::ByValue,
        command: if unknown {
            unknown_command(random)
        } else {
            known
        },
        time: time(random),
        block: blocks::block(random, frame),
    }
}

/// A frame that is meant to be accepted, or to be refused for a certain reason.
fn meant(random: &mut Random, session: &Session) -> Frame {
    if random.once_in(2) {
        return right(random, session);
    }
    let numbers: &[usize] = match session.phase {
        Phase::Fresh => &FRESH,
        _ => &OPEN,
    };
    let number = random.pick(numbers);
    match wrong(random, session, number) {
        Some(frame) if !random.once_in(12) => frame,
        _ => leaving(random, session),
    }
}
