//! Random calls that check a plan: plans that are accepted, some of them then changed at a pair or two, and
//! lists that are cut or have a number twice.

use crate::plan::{answer, Entry, Pair, MAX_PAIRS};
use crate::random::Random;
use crate::reader::Reader;
use crate::topic_calls;

/// No slice of a call is longer.
const MAX_SLICE: usize = 65_536;

#[derive(Clone, PartialEq, Eq, Debug)]
pub struct Call {
    pub messages: Vec<u8>,
    pub subscriptions: Vec<u8>,
    pub plan: Vec<u8>,
}

impl Call {
    /// The call with these records.
    pub fn of(messages: &[Entry], subscriptions: &[Entry], pairs: &[Pair]) -> Call {
        Call {
            messages: messages.iter().flat_map(entry).collect(),
            subscriptions: subscriptions.iter().flat_map(entry).collect(),
            plan: pairs.iter().flat_map(pair).collect(),
        }
    }

    /// As the program reads it: the three lengths in four octets, high first, then the three.
    pub fn octets(&self) -> Vec<u8> {
        let length = |row: &[u8]| (row.len() as u32).to_be_bytes();
        [
            &length(&self.messages)[..],
            &length(&self.subscriptions),
            &length(&self.plan),
            &self.messages,
            &self.subscriptions,
            &self.plan,
        ]
        .concat()
    }

    /// As the program writes it: the answer in decimal, and LF.
    pub fn reply(&self) -> Vec<u8> {
        let answer = answer(&self.messages, &self.subscriptions, &self.plan).packed();
        format!("{answer}\n").into_bytes()
    }
}

/// The octets of a message or a subscription.
fn entry(entry: &Entry) -> Vec<u8> {
    let room = entry.room.map(u32::to_be_bytes);
    [
        &entry.number.to_be_bytes()[..],
        &(entry.text.len() as u16).to_be_bytes(),
        &entry.text,
        room.as_ref().map_or(&[], |room| &room[..]),
    ]
    .concat()
}

/// The octets of a pair.
fn pair(pair: &Pair) -> Vec<u8> {
    [pair.message.to_be_bytes(), pair.subscription.to_be_bytes()].concat()
}

/// All calls of the octets. None where the last is cut off.
pub fn read(octets: &[u8]) -> Option<Vec<Call>> {
    let mut reader = Reader(octets);
    let mut calls = Vec::new();
    while !reader.0.is_empty() {
        let mut length = || Some((reader.number()? as usize).min(MAX_SLICE));
        let (messages, subscriptions, plan) = (length()?, length()?, length()?);
        calls.push(Call {
            messages: reader.octets(messages)?.to_vec(),
            subscriptions: reader.octets(subscriptions)?.to_vec(),
            plan: reader.octets(plan)?.to_vec(),
        });
    }
    Some(calls)
}

/// One random call.
pub fn call(random: &mut Random) -> Call {
    let mut world = World::new(random);
    for _ in 0..random.pick(&[0, 0, 1, 1, 1, 2, 3]) {
        world.change(random);
    }
    let mut call = Call::of(&world.messages, &world.subscriptions, &world.pairs);
    if random.once_in(12) {
        let list = match random.below(3) {
            0 => &mut call.messages,
            1 => &mut call.subscriptions,
            _ => &mut call.plan,
        };
        spoil(random, list);
    }
    call
}

/// A list cut, with octets more, or with another octet.
fn spoil(random: &mut Random, list: &mut Vec<u8>) {
    let place = random.below(list.len() + 1);
    match random.below(4) {
        0 | 1 => list.truncate(place),
        2 => list.extend(vec![0; random.between(1, 8)]),
        _ if place < list.len() => list[place] = random.below(256) as u8,
        _ => list.push(0),
    }
}

/// Messages, subscriptions, and a plan that hands out each message once, to a subscription that matches it
/// and has room.
struct World {
    messages: Vec<Entry>,
    subscriptions: Vec<Entry>,
    pairs: Vec<Pair>,
}

impl World {
    fn new(random: &mut Random) -> World {
        let count = match random.below(12) {
            0 => random.between(MAX_PAIRS - 2, MAX_PAIRS + 2),
            1 => random.between(9, 40),
            _ => random.between(0, 8),
        };
        let live = random.between(1, 4);
        let names = numbers(random, count);
        let lives = numbers(random, live);
        let patterns: Vec<Vec<Vec<u8>>> = (0..live).map(|_| few_words(random)).collect();
        let mut messages = Vec::new();
        let mut pairs = Vec::new();
        let mut given = vec![0; live];
        for number in names {
            let place = random.below(live);
            let text = topic_calls::name_for(random, &patterns[place]);
            let text = if text.is_empty() {
                vec![b"a".to_vec()]
            } else {
                text
            };
            given[place] += 1;
            pairs.push(Pair {
                message: number,
                subscription: lives[place],
            });
            messages.push(Entry {
                number,
                text: text.join(&b'.'),
                room: None,
            });
        }
        let subscriptions = (0..live).map(|place| Entry {
            number: lives[place],
            text: patterns[place].join(&b'.'),
            room: Some(given[place] + random.pick(&[0, 0, 1, 1_000])),
        });
        let subscriptions = subscriptions.collect();
        if random.once_in(2) {
            shuffle(random, &mut pairs);
        }
        if random.once_in(2) {
            shuffle(random, &mut messages);
        }
        World {
            messages,
            subscriptions,
            pairs,
        }
    }

    /// One thing other: a pair's message or subscription, a pair more or less, a room, a number, a text.
    fn change(&mut self, random: &mut Random) {
        let other = random.pick(&[0, 1, 2, 3, 0x8000_0000, u32::MAX]);
        let place = random.below(self.pairs.len() + 1);
        match random.below(12) {
            0 if place < self.pairs.len() => self.pairs[place].message = other,
            1 if place < self.pairs.len() => self.pairs[place].subscription = other,
            2 if place < self.pairs.len() => {
                self.pairs.remove(place);
            }
            3 | 4 if !self.pairs.is_empty() => {
                let again = random.pick(&self.pairs);
                self.pairs.insert(place, again);
            }
            5 if !self.pairs.is_empty() => {
                let last = self.pairs.len() - 1;
                let (one, two) = (place.min(last), random.below(last + 1));
                let subscription = self.pairs[two].subscription;
                self.pairs[one].subscription = subscription;
            }
            6 | 7 => {
                let place = random.below(self.subscriptions.len());
                let room = self.subscriptions[place].room.unwrap_or(0);
                self.subscriptions[place].room = Some(room.saturating_sub(1));
            }
            8 if !self.messages.is_empty() => {
                let place = random.below(self.messages.len());
                let from = random.below(self.messages.len());
                self.messages[place].number = self.messages[from].number;
            }
            9 if self.subscriptions.len() > 1 => {
                self.subscriptions[0].number = self.subscriptions[1].number;
            }
            10 if !self.messages.is_empty() => {
                let place = random.below(self.messages.len());
                let text = random.pick(&[&b""[..], b"a.", b"a", b"b.a", b"*", b"#"]);
                self.messages[place].text = text.to_vec();
            }
            _ => {
                let place = random.below(self.subscriptions.len());
                let text = random.pick(&[&b""[..], b".a", b"a", b"*.b", b"*", b"#"]);
                self.subscriptions[place].text = text.to_vec();
            }
        }
    }
}

/// Words of a pattern that names of few words match.
fn few_words(random: &mut Random) -> Vec<Vec<u8>> {
    loop {
        let words = topic_calls::pattern(random);
        if words.len() <= 5 && words.concat().len() <= 100 {
            return words;
        }
    }
}

/// That many numbers, no two alike: from 0 on, or anywhere; ascending, or in any order.
fn numbers(random: &mut Random, count: usize) -> Vec<u32> {
    let first = random.pick(&[0, 1, 0x7fff_fff0, 0xffff_ff00]);
    let step = random.pick(&[1, 1, 3]);
    let mut numbers: Vec<u32> = (0..count as u32)
        .map(|index| first + step * index)
        .collect();
    if random.once_in(2) {
        shuffle(random, &mut numbers);
    }
    numbers
}

fn shuffle<T>(random: &mut Random, row: &mut [T]) {
    for last in (1..row.len()).rev() {
        row.swap(last, random.below(last + 1));
    }
}
