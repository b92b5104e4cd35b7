//! What is answered to a plan, by document 02 (C-24), with sets: for each number the set of the pairs that
//! it fits; the first bad pair is the lowest of all these sets, and its number the lowest whose set has it.

use crate::reader::Reader;
use crate::topic;
use std::collections::{BTreeMap, BTreeSet};

pub const MAX_PAIRS: usize = 64;
/// The octets of a pair.
pub const PAIR: usize = 8;

/// What checking a plan answers.
#[derive(Clone, Copy, PartialEq, Eq, Debug)]
pub enum Answer {
    Accepted,
    /// 96 to 99, and the pair's index.
    BadPair(u64, usize),
    /// 100, and the message's number.
    LeftOut(u32),
    TooManyPairs,
    Malformed,
}

impl Answer {
    /// The number of a refusal, or 0.
    pub fn number(self) -> u64 {
        match self {
            Answer::Accepted => 0,
            Answer::BadPair(number, _) => number,
            Answer::LeftOut(_) => 100,
            Answer::TooManyPairs => 101,
            Answer::Malformed => 102,
        }
    }

    /// The answer in one number: "0, or 2^32 times the number plus the pair's index or the message's
    /// number".
    pub fn packed(self) -> u64 {
        let named = match self {
            Answer::BadPair(_, index) => index as u64,
            Answer::LeftOut(message) => u64::from(message),
            _ => 0,
        };
        (self.number() << 32) + named
    }
}

/// A waiting message, whose room is none, or a live subscription.
#[derive(Clone, PartialEq, Eq, Debug)]
pub struct Entry {
    pub number: u32,
    pub text: Vec<u8>,
    pub room: Option<u32>,
}

#[derive(Clone, Copy, PartialEq, Eq, Debug)]
pub struct Pair {
    pub message: u32,
    pub subscription: u32,
}

/// "101 more than 64 whole pairs, then 102 [...], both before any pair"
pub fn answer(messages: &[u8], subscriptions: &[u8], plan: &[u8]) -> Answer {
    if plan.chunks_exact(PAIR).len() > MAX_PAIRS {
        return Answer::TooManyPairs;
    }
    let lists = (
        entries(messages, false),
        entries(subscriptions, true),
        pairs(plan),
    );
    let (Some(messages), Some(subscriptions), Some(pairs)) = lists else {
        return Answer::Malformed;
    };
    if !is_sound(&messages) || !is_sound(&subscriptions) {
        return Answer::Malformed;
    }
    of_records(&messages, &subscriptions, &pairs)
}

/// "for the first bad pair, the lowest that fits"; "100 a message left out (the first listed is named, by
/// number), only if no pair is bad"
pub fn of_records(messages: &[Entry], subscriptions: &[Entry], pairs: &[Pair]) -> Answer {
    let fitting = fitting(messages, subscriptions, pairs);
    let first = fitting.values().filter_map(BTreeSet::first).min();
    if let Some(&index) = first {
        let lowest = fitting.iter().find(|(_, set)| set.contains(&index));
        let (&number, _) = lowest.expect("a set has the index");
        return Answer::BadPair(number, index);
    }
    let handed: BTreeSet<u32> = pairs.iter().map(|pair| pair.message).collect();
    let left = messages
        .iter()
        .find(|message| !handed.contains(&message.number));
    left.map_or(Answer::Accepted, |message| Answer::LeftOut(message.number))
}

/// For each of 96 to 99 the pairs that it fits.
fn fitting(
    messages: &[Entry],
    subscriptions: &[Entry],
    pairs: &[Pair],
) -> BTreeMap<u64, BTreeSet<usize>> {
    let message = |pair: &Pair| messages.iter().find(|entry| entry.number == pair.message);
    let live = |pair: &Pair| {
        subscriptions
            .iter()
            .find(|entry| entry.number == pair.subscription)
    };
    let unknown = indices(pairs, |pair| message(pair).is_none());
    let unfit = indices(pairs, |pair| match (message(pair), live(pair)) {
        (Some(message), Some(live)) => !matches(live, message),
        _ => true,
    });
    let mut again = BTreeSet::new();
    for (_, group) in groups(pairs, |pair| pair.message) {
        again.extend(&group[1..]);
    }
    let mut over = BTreeSet::new();
    for (number, group) in groups(pairs, |pair| pair.subscription) {
        let live = subscriptions.iter().find(|entry| entry.number == number);
        let room = live.and_then(|live| live.room).unwrap_or(0);
        over.extend(group.iter().skip(room as usize));
    }
    BTreeMap::from([(96, unknown), (97, again), (98, unfit), (99, over)])
}

/// The indices of the pairs that pass a test.
fn indices(pairs: &[Pair], test: impl Fn(&Pair) -> bool) -> BTreeSet<usize> {
    (0..pairs.len())
        .filter(|&index| test(&pairs[index]))
        .collect()
}

/// The indices of the pairs with one number, in order, for each number.
fn groups(pairs: &[Pair], number: impl Fn(&Pair) -> u32) -> BTreeMap<u32, Vec<usize>> {
    let mut groups: BTreeMap<u32, Vec<usize>> = BTreeMap::new();
    for (index, pair) in pairs.iter().enumerate() {
        groups.entry(number(pair)).or_default().push(index);
    }
    groups
}

/// "matches the message's destination by C-20"
fn matches(live: &Entry, message: &Entry) -> bool {
    topic::answer(&message.text, &live.text) == topic::Answer::Yes
}

/// No number twice, and every text well formed.
fn is_sound(entries: &[Entry]) -> bool {
    let numbers: BTreeSet<u32> = entries.iter().map(|entry| entry.number).collect();
    numbers.len() == entries.len()
        && entries
            .iter()
            .all(|entry| topic::words(&entry.text).is_some())
}

/// "numbers in four octets, high first, texts after a two-octet length". None where the octets are not
/// whole records.
fn entries(octets: &[u8], with_room: bool) -> Option<Vec<Entry>> {
    let mut reader = Reader(octets);
    let mut entries = Vec::new();
    while !reader.0.is_empty() {
        let number = reader.number()?;
        let length = reader.octets(2)?;
        let length = u16::from_be_bytes([length[0], length[1]]);
        let text = reader.octets(usize::from(length))?.to_vec();
        let room = if with_room {
            Some(reader.number()?)
        } else {
            None
        };
        entries.push(Entry { number, text, room });
    }
    Some(entries)
}

fn pairs(octets: &[u8]) -> Option<Vec<Pair>> {
    let mut reader = Reader(octets);
    let mut pairs = Vec::new();
    while !reader.0.is_empty() {
        pairs.push(Pair {
            message: reader.number()?,
            subscription: reader.number()?,
        });
    }
    Some(pairs)
}
