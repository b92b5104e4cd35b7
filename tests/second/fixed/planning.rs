//! The fixed calls that check a plan: each number at each kind of pair, two of them at one, lists cut at
//! every octet, numbers over 2^31, the limits, and long lists with a number twice.

use crate::plan::{Entry, Pair, MAX_PAIRS};
use crate::plan_calls::Call;

/// The octets of the calls.
pub fn calls() -> Vec<u8> {
    all().iter().flat_map(Call::octets).collect()
}

/// The calls, in groups.
pub fn all() -> Vec<Call> {
    [
        one_fault(),
        two_faults(),
        left_out(),
        rooms(),
        cut(),
        twice(),
        texts(),
        limits(),
        long_lists(),
    ]
    .concat()
}

fn message(number: u32, text: &str) -> Entry {
    Entry {
        number,
        text: text.as_bytes().to_vec(),
        room: None,
    }
}

fn subscription(number: u32, text: &str, room: u32) -> Entry {
    Entry {
        number,
        text: text.as_bytes().to_vec(),
        room: Some(room),
    }
}

fn pair(message: u32, subscription: u32) -> Pair {
    Pair {
        message,
        subscription,
    }
}

/// Four messages and three subscriptions, which share a number; 30 has room for one.
fn messages() -> Vec<Entry> {
    vec![
        message(10, "ice.a"),
        message(u32::MAX, "ice.b"),
        message(0, "ocean.a"),
        message(0x8000_0000, "ice.c"),
    ]
}

fn subscriptions() -> Vec<Entry> {
    vec![
        subscription(10, "ice.*", 4),
        subscription(0x8000_0001, "#", 4),
        subscription(30, "ocean.#", 1),
    ]
}

/// A plan that is accepted.
fn good() -> Vec<Pair> {
    vec![
        pair(0x8000_0000, 10),
        pair(0, 30),
        pair(10, 0x8000_0001),
        pair(u32::MAX, 10),
    ]
}

fn with(pairs: &[Pair]) -> Call {
    Call::of(&messages(), &subscriptions(), pairs)
}

/// What is wrong with a pair: 96, 97 (in a pair after the first), 98 in two ways, 99.
fn faults(place: usize) -> Vec<Pair> {
    let good = good();
    let own = good[place];
    let mut faults = vec![
        pair(11, own.subscription),
        pair(own.message, 31),
        pair(own.message, if own.message == 0 { 10 } else { 30 }),
        pair(11, 31),
    ];
    if place > 0 {
        faults.push(pair(good[0].message, own.subscription));
        faults.push(pair(good[0].message, 31));
        faults.push(pair(good[place - 1].message, good[place - 1].subscription));
    }
    faults
}

/// The good plan, and with one fault, at each pair.
fn one_fault() -> Vec<Call> {
    let mut calls = vec![with(&good())];
    for place in 0..good().len() {
        for fault in faults(place) {
            let mut pairs = good();
            pairs[place] = fault;
            calls.push(with(&pairs));
            pairs.truncate(place + 1);
            calls.push(with(&pairs));
            let mut pairs = good();
            pairs.insert(place, fault);
            calls.push(with(&pairs));
        }
    }
    calls
}

/// A fault at each of two pairs.
fn two_faults() -> Vec<Call> {
    let mut calls = Vec::new();
    for first in 0..good().len() {
        for second in first + 1..good().len() {
            for one in faults(first) {
                for two in faults(second) {
                    let mut pairs = good();
                    pairs[first] = one;
                    pairs[second] = two;
                    calls.push(with(&pairs));
                }
            }
        }
    }
    calls
}

/// Every part of the good plan, so that some messages are left out, and nothing to hand out.
fn left_out() -> Vec<Call> {
    let mut calls = Vec::new();
    for kept in 0..1 << good().len() {
        let pairs = good().into_iter().enumerate();
        let part = pairs.filter(|(place, _)| kept >> place & 1 == 1);
        calls.push(with(&part.map(|(_, pair)| pair).collect::<Vec<_>>()));
    }
    calls.push(Call::of(&[], &[], &[]));
    calls.push(Call::of(&[], &subscriptions(), &[]));
    calls.push(Call::of(&messages(), &[], &[]));
    calls.push(Call::of(&[], &[], &[pair(0, 0)]));
    calls
}

/// Rooms of none and more, for plans of as many pairs and more; a room that is as large as may be.
fn rooms() -> Vec<Call> {
    let messages: Vec<Entry> = (0..5).map(|number| message(number, "a")).collect();
    let mut calls = Vec::new();
    for room in [0, 1, 2, 3, 4, 5, 0x8000_0000, u32::MAX] {
        for first in 0..=5 {
            let live = [subscription(1, "a", room), subscription(2, "*", 2)];
            let to = |number: u32| if number < first { 1 } else { 2 };
            let pairs: Vec<Pair> = (0..5).map(|number| pair(number, to(number))).collect();
            calls.push(Call::of(&messages, &live, &pairs));
        }
    }
    calls
}

/// Each list cut at every octet, with the others whole; and with octets more.
fn cut() -> Vec<Call> {
    let whole = with(&good());
    let mut calls = Vec::new();
    for length in 0..whole.messages.len() {
        let mut call = whole.clone();
        call.messages.truncate(length);
        calls.push(call);
    }
    for length in 0..whole.subscriptions.len() {
        let mut call = whole.clone();
        call.subscriptions.truncate(length);
        calls.push(call);
    }
    for length in 0..whole.plan.len() {
        let mut call = whole.clone();
        call.plan.truncate(length);
        calls.push(call);
    }
    for more in 1..=8 {
        let mut call = whole.clone();
        call.messages.extend(vec![0; more]);
        calls.push(call);
        let mut call = whole.clone();
        call.subscriptions.extend(vec![0; more]);
        calls.push(call);
        let mut call = whole.clone();
        call.plan.extend(vec![0; more]);
        calls.push(call);
    }
    calls
}

/// Each message and subscription with the number of each other one.
fn twice() -> Vec<Call> {
    let mut calls = Vec::new();
    for to in 0..4 {
        for from in 0..4 {
            let mut messages = messages();
            messages[to].number = messages[from].number;
            calls.push(Call::of(&messages, &subscriptions(), &good()));
        }
    }
    for to in 0..3 {
        for from in 0..3 {
            let mut live = subscriptions();
            live[to].number = live[from].number;
            calls.push(Call::of(&messages(), &live, &good()));
        }
    }
    calls
}

/// Malformed texts, and as long as may be; a length that says more octets than there are.
fn texts() -> Vec<Call> {
    let words = |count: usize| vec!["a"; count].join(".");
    let letters = |count: usize| "a".repeat(count);
    let texts = [
        String::new(),
        ".".to_string(),
        "a.".to_string(),
        ".a".to_string(),
        "a..b".to_string(),
        "*".to_string(),
        "#".to_string(),
        words(32),
        words(33),
        letters(256),
        letters(257),
    ];
    let mut calls = Vec::new();
    for text in &texts {
        let one = [pair(1, 2)];
        calls.push(Call::of(
            &[message(1, text)],
            &[subscription(2, "#", 1)],
            &one,
        ));
        calls.push(Call::of(
            &[message(1, "a")],
            &[subscription(2, text, 1)],
            &one,
        ));
        calls.push(Call::of(
            &[message(1, text)],
            &[subscription(2, text, 1)],
            &one,
        ));
    }
    calls.push(Call::of(&[message(1, &letters(2_000))], &[], &[]));
    calls
}

/// As many pairs as may be, and one more; octets after them; more messages than pairs.
fn limits() -> Vec<Call> {
    let numbers = 0..MAX_PAIRS as u32 + 2;
    let messages: Vec<Entry> = numbers
        .clone()
        .map(|number| message(number, "a.b"))
        .collect();
    let pairs: Vec<Pair> = numbers.map(|number| pair(number, 5)).collect();
    let mut calls = Vec::new();
    for waiting in MAX_PAIRS - 1..=MAX_PAIRS + 2 {
        for planned in MAX_PAIRS - 1..=MAX_PAIRS + 2 {
            for room in [MAX_PAIRS as u32 - 1, MAX_PAIRS as u32, u32::MAX] {
                let live = [subscription(5, "a.#", room)];
                calls.push(Call::of(&messages[..waiting], &live, &pairs[..planned]));
            }
        }
    }
    for planned in [MAX_PAIRS, MAX_PAIRS + 1] {
        for more in 1..8 {
            let live = [subscription(5, "#", u32::MAX)];
            let mut call = Call::of(&messages, &live, &pairs[..planned]);
            call.plan.extend(vec![0; more]);
            calls.push(call.clone());
            call.messages.push(0);
            calls.push(call);
        }
    }
    calls
}

/// Long lists whose numbers are ascending, descending or in no order, with a number twice at places that
/// are close to each other or far apart, and with none.
fn long_lists() -> Vec<Call> {
    const COUNT: usize = 2_100;
    let ascending: Vec<u32> = (0..COUNT as u32).map(|index| 7 * index).collect();
    let descending: Vec<u32> = ascending.iter().rev().copied().collect();
    let mixed: Vec<u32> = ascending
        .iter()
        .map(|number| number.wrapping_mul(0x9e37_79b1))
        .collect();
    let mut calls = Vec::new();
    let mut add = |numbers: &[u32]| {
        let messages: Vec<Entry> = numbers.iter().map(|&number| message(number, "a")).collect();
        calls.push(Call::of(&messages, &[subscription(1, "a", 1)], &[]));
    };
    for numbers in [&ascending, &descending, &mixed] {
        add(numbers);
    }
    for (numbers, to, from) in [
        (&ascending, COUNT - 1, 0),
        (&ascending, COUNT - 1, COUNT - 2),
        (&descending, COUNT - 1, 0),
        (&mixed, 1, 0),
        (&mixed, 1_024, 0),
        (&mixed, 1_024, 1_023),
        (&mixed, 2_048, 1_024),
        (&mixed, COUNT - 1, 1_500),
    ] {
        let mut numbers = numbers.clone();
        numbers[to] = numbers[from];
        add(&numbers);
    }
    calls
}
