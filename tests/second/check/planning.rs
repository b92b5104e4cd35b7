//! Tests of the answer to a plan: every small plan is read pair by pair, and accepted ones are told from the
//! others by what document 02 says of them; the limits are counted off.

use crate::plan::{answer, of_records, Answer, Entry, Pair, MAX_PAIRS, PAIR};
use crate::plan_calls::Call;
use crate::topic;

fn entry(number: u32, text: &str, room: Option<u32>) -> Entry {
    Entry {
        number,
        text: text.as_bytes().to_vec(),
        room,
    }
}

fn matches(message: &Entry, live: &Entry) -> bool {
    topic::answer(&message.text, &live.text) == topic::Answer::Yes
}

/// What is wrong with a pair, with the pairs before it; none where nothing is.
fn wrong(messages: &[Entry], lives: &[Entry], earlier: &[Pair], pair: &Pair) -> Option<u64> {
    let Some(message) = messages
        .iter()
        .find(|message| message.number == pair.message)
    else {
        return Some(96);
    };
    if earlier.iter().any(|other| other.message == pair.message) {
        return Some(97);
    }
    let live = lives.iter().find(|live| live.number == pair.subscription);
    let Some(live) = live.filter(|live| matches(message, live)) else {
        return Some(98);
    };
    let own = |other: &&Pair| other.subscription == pair.subscription;
    let given = earlier.iter().filter(own).count() as u32;
    (live.room <= Some(given)).then_some(99)
}

/// The answer, pair by pair.
fn read(messages: &[Entry], lives: &[Entry], pairs: &[Pair]) -> Answer {
    for index in 0..pairs.len() {
        if let Some(number) = wrong(messages, lives, &pairs[..index], &pairs[index]) {
            return Answer::BadPair(number, index);
        }
    }
    for message in messages {
        if pairs.iter().all(|pair| pair.message != message.number) {
            return Answer::LeftOut(message.number);
        }
    }
    Answer::Accepted
}

/// "each waiting message and no other stands once, each subscription is live and matches the message's
/// destination by C-20, none gets more than its stated room"
fn is_acceptable(messages: &[Entry], lives: &[Entry], pairs: &[Pair]) -> bool {
    let mut handed: Vec<u32> = pairs.iter().map(|pair| pair.message).collect();
    let mut waiting: Vec<u32> = messages.iter().map(|message| message.number).collect();
    handed.sort_unstable();
    waiting.sort_unstable();
    let fits = |pair: &Pair| {
        let own = |message: &&Entry| message.number == pair.message;
        let mut of_pair = messages.iter().filter(own);
        let live = lives.iter().filter(|live| live.number == pair.subscription);
        let live: Vec<&Entry> = live.collect();
        of_pair.all(|message| live.iter().any(|live| matches(message, live)))
    };
    let roomy = |live: &Entry| {
        let own = |pair: &&Pair| pair.subscription == live.number;
        pairs.iter().filter(own).count() as u32 <= live.room.unwrap_or(0)
    };
    handed == waiting && pairs.iter().all(fits) && lives.iter().all(roomy)
}

/// All rows of at most that many pairs of these numbers.
fn plans(most: usize) -> Vec<Vec<Pair>> {
    let mut plans = vec![Vec::new()];
    let mut longest = plans.clone();
    for _ in 0..most {
        let mut longer = Vec::new();
        for plan in &longest {
            for message in 1..=4 {
                for subscription in 1..=4 {
                    let mut plan: Vec<Pair> = plan.clone();
                    plan.push(Pair {
                        message,
                        subscription,
                    });
                    longer.push(plan);
                }
            }
        }
        plans.extend(longer.clone());
        longest = longer;
    }
    plans
}

#[test]
fn every_small_plan_is_answered_pair_by_pair() {
    let messages = [
        entry(2, "a", None),
        entry(1, "b", None),
        entry(3, "a.b", None),
    ];
    let plans = plans(3);
    assert_eq!(plans.len(), 1 + 16 + 256 + 4_096);
    let mut accepted = 0;
    for waiting in 0..=messages.len() {
        let messages = &messages[..waiting];
        for rooms in 0..27 {
            let lives = [
                entry(1, "#", Some(rooms % 3)),
                entry(2, "*", Some(rooms / 3 % 3)),
                entry(3, "a.#", Some(rooms / 9)),
            ];
            for pairs in &plans {
                let given = of_records(messages, &lives, pairs);
                assert_eq!(given, read(messages, &lives, pairs));
                let acceptable = is_acceptable(messages, &lives, pairs);
                assert_eq!(given == Answer::Accepted, acceptable);
                let call = Call::of(messages, &lives, pairs);
                assert_eq!(
                    answer(&call.messages, &call.subscriptions, &call.plan),
                    given
                );
                accepted += usize::from(acceptable);
            }
        }
    }
    assert_eq!(accepted, 645);
}

/// "101 more than 64 whole pairs, then 102 a list not of whole records"
#[test]
fn whole_pairs_are_counted() {
    for length in 0..3 * MAX_PAIRS * PAIR {
        let given = answer(&[], &[], &vec![0; length]);
        let due = if length / PAIR > MAX_PAIRS {
            Answer::TooManyPairs
        } else if length % PAIR > 0 {
            Answer::Malformed
        } else if length > 0 {
            Answer::BadPair(96, 0)
        } else {
            Answer::Accepted
        };
        assert_eq!(given, due);
    }
}

#[test]
fn lists_are_cut_at_every_octet() {
    let messages = [entry(1, "a", None), entry(2, "bc", None)];
    let lives = [entry(1, "#", Some(2)), entry(2, "bc", Some(1))];
    let call = Call::of(&messages, &lives, &[]);
    let whole = [0, 7, 15];
    for length in 0..=call.messages.len() {
        let given = answer(&call.messages[..length], &call.subscriptions, &[]);
        assert_eq!(given != Answer::Malformed, whole.contains(&length));
    }
    let whole = [0, 11, 23];
    for length in 0..=call.subscriptions.len() {
        let given = answer(&[], &call.subscriptions[..length], &[]);
        assert_eq!(given != Answer::Malformed, whole.contains(&length));
    }
}

#[test]
fn no_number_is_twice() {
    for (one, two) in [
        (0, 0),
        (0, 1),
        (1, 1 << 31),
        (1 << 31, 1 << 31),
        (u32::MAX, 0),
    ] {
        let messages = [entry(one, "a", None), entry(two, "a", None)];
        let call = Call::of(&messages, &[entry(one, "a", Some(0))], &[]);
        let given = answer(&call.messages, &call.subscriptions, &call.plan);
        assert_eq!(given == Answer::Malformed, one == two);
        let lives = [entry(one, "a", Some(0)), entry(two, "a", Some(0))];
        let call = Call::of(&[], &lives, &[]);
        let given = answer(&call.messages, &call.subscriptions, &call.plan);
        assert_eq!(given == Answer::Malformed, one == two);
    }
}

#[test]
fn numbers_are_packed() {
    assert_eq!(Answer::Accepted.packed(), 0);
    assert_eq!(Answer::BadPair(96, 63).packed(), 412_316_860_416 + 63);
    assert_eq!(Answer::LeftOut(u32::MAX).packed(), 433_791_696_895);
    assert_eq!(Answer::TooManyPairs.packed(), 433_791_696_896);
    assert_eq!(Answer::Malformed.packed(), 438_086_664_192);
}
