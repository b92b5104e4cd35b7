//! Random calls, each on the record that the call before it left.

use super::damage::damaged;
use super::{first_record, Call, Reply};
use crate::random::Random;
use crate::registry::{record, MAX_DESTINATION, MAX_LABEL, MAX_TEXT};

/// A call, the record before it, or that it sets, the reply, and whether that record was damaged.
pub struct Step {
    pub call: Call,
    pub before: Vec<u8>,
    pub reply: Reply,
    pub damaged: bool,
}

/// How the calls are chosen for a while.
enum Course {
    /// Calls on what calls leave; crowded where most of them publish in one run, so that it gets full.
    Life { left: usize, crowded: bool },
    /// Records set that are this one, damaged, and calls on each.
    Damage { left: usize, sound: Vec<u8> },
}

impl Course {
    /// After a life comes damage of what it left; then the record is as before, or empty, and is set.
    fn next(&self, random: &mut Random, record: &[u8]) -> (Course, Option<Vec<u8>>) {
        let left = random.pick(&[10, 30, 60, 100]);
        match self {
            Course::Life { .. } => {
                let sound = record.to_vec();
                (Course::Damage { left, sound }, None)
            }
            Course::Damage { sound, .. } => {
                let other = random.once_in(3);
                let record = if other { first_record() } else { sound.clone() };
                let crowded = random.once_in(3);
                (Course::Life { left, crowded }, Some(record))
            }
        }
    }
}

/// What chooses the calls: the course, and whether the record was damaged in it.
struct Chooser {
    course: Course,
    damaged: bool,
}

impl Chooser {
    /// Whether a call of the course is left, which is then used up.
    fn goes_on(&mut self) -> bool {
        let (Course::Life { left, .. } | Course::Damage { left, .. }) = &mut self.course;
        let goes_on = *left > 0;
        *left = left.saturating_sub(1);
        goes_on
    }

    /// The next call, on this record.
    fn call(&mut self, random: &mut Random, record: &[u8]) -> Call {
        if !self.goes_on() {
            let (course, set) = self.course.next(random, record);
            self.course = course;
            self.damaged = false;
            if let Some(record) = set {
                return Call::Set(record);
            }
        }
        match &self.course {
            Course::Damage { sound, .. } if random.once_in(4) || !self.damaged => {
                self.damaged = true;
                Call::Set(damaged(random, sound))
            }
            Course::Life { crowded: true, .. } => crowd(random, record),
            _ => any_call(random, record),
        }
    }
}

/// So many calls, from the first record on.
pub fn sequence(random: &mut Random, count: usize) -> Vec<Step> {
    let mut record = first_record();
    let mut steps: Vec<Step> = Vec::new();
    let mut chooser = Chooser {
        course: Course::Life {
            left: 30,
            crowded: false,
        },
        damaged: false,
    };
    while steps.len() < count {
        let call = chooser.call(random, &record);
        let reply = Reply::of(&record, &call);
        let after = reply.record.clone();
        let before = match &call {
            Call::Set(record) => record.clone(),
            _ => record,
        };
        record = after;
        steps.push(Step {
            call,
            before,
            reply,
            damaged: chooser.damaged,
        });
    }
    steps
}

/// One call. Half of those that name a run name one that is open.
pub fn any_call(random: &mut Random, octets: &[u8]) -> Call {
    let run = run(random, octets);
    match random.below(24) {
        0..=4 => Call::Open {
            run: label(random, MAX_LABEL),
        },
        5 => Call::Close { run },
        6..=14 => Call::Publish {
            run,
            destination: destination(random),
            text: text(random),
            session: session(random),
        },
        15..=21 => Call::Ask {
            run,
            destination: destination(random),
        },
        _ => Call::End {
            session: session(random),
        },
    }
}

/// One of two sessions publishes in the run that is first by its label, most often.
fn crowd(random: &mut Random, octets: &[u8]) -> Call {
    let registry = record::read(octets).unwrap_or_default();
    match registry.runs.keys().next() {
        Some(run) if !random.once_in(6) => Call::Publish {
            run: run.clone(),
            destination: destination(random),
            text: text(random),
            session: random.pick(&[1, 1, 1, 2]),
        },
        _ => any_call(random, octets),
    }
}

/// The label of an open run, or any.
fn run(random: &mut Random, octets: &[u8]) -> Vec<u8> {
    let registry = record::read(octets).unwrap_or_default();
    let open: Vec<&Vec<u8>> = registry.runs.keys().collect();
    if open.is_empty() || random.once_in(4) {
        return label(random, MAX_LABEL);
    }
    random.pick(&open).clone()
}

/// Few labels, so that they meet: one a beginning of another, some with octet 0, the longest that differ in
/// their last octet; and some of a bad size.
fn label(random: &mut Random, most: usize) -> Vec<u8> {
    if random.once_in(16) {
        let length = random.pick(&[0, most + 1, 255, 256, 256 + most]);
        return vec![b'a'; length];
    }
    match random.below(8) {
        0 => b"ocean-0611".to_vec(),
        1 => b"ocean-0612".to_vec(),
        2 => b"ocean-061".to_vec(),
        3 => b"a".to_vec(),
        4 => b"a\0".to_vec(),
        5 => vec![0],
        last => [vec![b'a'; most - 1], vec![last as u8]].concat(),
    }
}

/// The same texts as labels have, and single letters, so that a run gets full.
fn destination(random: &mut Random) -> Vec<u8> {
    if random.once_in(3) {
        return label(random, MAX_DESTINATION);
    }
    vec![b'a' + random.below(7) as u8]
}

fn text(random: &mut Random) -> Vec<u8> {
    let length = match random.below(16) {
        0 => random.pick(&[0, MAX_TEXT + 1, 256, 300]),
        1 | 2 => random.pick(&[1, MAX_TEXT]),
        _ => random.between(1, MAX_TEXT),
    };
    (0..length).map(|_| random.below(256) as u8).collect()
}

/// Few sessions, so that they meet; some differ in one octet only.
fn session(random: &mut Random) -> u64 {
    random.pick(&[
        0,
        1,
        1,
        2,
        256,
        1 << 32,
        1 << 56,
        u64::MAX,
        u64::MAX,
        u64::MAX - 1,
    ])
}
