//! Tests of the matcher: the names that a pattern matches are put together word by word, and every small
//! name is looked up among them; the limits are counted off.

use crate::topic::{answer, matches, Answer, MAX_OCTETS, MAX_WORDS};
use std::collections::HashSet;

/// The words that the small names and patterns are made of.
const WORDS: [&[u8]; 5] = [b"a", b"b", b"*", b"#", b"a*"];

/// The longest small pattern and name, in words.
const PATTERN: usize = 4;
const NAME: usize = 5;

type Words = Vec<&'static [u8]>;

/// All rows of that many words.
fn rows(count: usize) -> Vec<Words> {
    let mut rows = vec![Vec::new()];
    for _ in 0..count {
        rows = WORDS
            .iter()
            .flat_map(|&word| rows.iter().map(move |row| with(row, word)))
            .collect();
    }
    rows
}

fn with(row: &Words, word: &'static [u8]) -> Words {
    let mut row = row.clone();
    row.push(word);
    row
}

/// What a pattern's word stands for: "`*` stands for exactly one word, `#` for none or more"; in rows of
/// few words.
fn stands_for(word: &'static [u8], longest: &[Vec<Words>]) -> Vec<Words> {
    match word {
        b"*" => longest[1].clone(),
        b"#" => longest.concat(),
        _ => vec![vec![word]],
    }
}

/// The names of at most that many words whose words are those that the pattern's words stand for, one
/// after another.
fn names_of(pattern: &[&'static [u8]], all: &[Vec<Words>]) -> HashSet<Words> {
    let mut names = HashSet::from([Vec::new()]);
    for word in pattern {
        let parts = stands_for(word, all);
        let mut longer = HashSet::new();
        for name in &names {
            for part in &parts {
                if name.len() + part.len() <= NAME {
                    longer.insert([&name[..], part].concat());
                }
            }
        }
        names = longer;
    }
    names
}

#[test]
fn every_small_pattern_matches_the_names_it_stands_for() {
    let all: Vec<Vec<Words>> = (0..=NAME).map(rows).collect();
    let mut pairs = 0;
    for pattern in (1..=PATTERN).flat_map(rows) {
        let due = names_of(&pattern, &all);
        for name in all[1..].iter().flatten() {
            assert_eq!(
                matches(&pattern, name),
                due.contains(name),
                "{pattern:?} {name:?}"
            );
            pairs += 1;
        }
    }
    assert_eq!(pairs, (5 + 25 + 125 + 625) * (5 + 25 + 125 + 625 + 3_125));
}

/// The answer, or the refusal where the text is malformed.
fn due(formed: bool, answer: Answer, refusal: Answer) -> Answer {
    if formed {
        answer
    } else {
        refusal
    }
}

/// That many words of one letter.
fn words(count: usize) -> Vec<u8> {
    vec!["a"; count].join(".").into_bytes()
}

#[test]
fn words_are_counted() {
    for count in 1..=2 * MAX_WORDS {
        let formed = count <= MAX_WORDS;
        let name = due(formed, Answer::Yes, Answer::MalformedName);
        let pattern = due(formed, Answer::No, Answer::MalformedPattern);
        assert_eq!(answer(&words(count), b"#"), name);
        assert_eq!(answer(b"b", &words(count)), pattern);
    }
}

#[test]
fn octets_are_counted() {
    for count in 1..=2 * MAX_OCTETS {
        let formed = count <= MAX_OCTETS;
        let text = vec![b'a'; count];
        let name = due(formed, Answer::Yes, Answer::MalformedName);
        let pattern = due(formed, Answer::No, Answer::MalformedPattern);
        assert_eq!(answer(&text, b"*"), name);
        assert_eq!(answer(b"b", &text), pattern);
    }
}

#[test]
fn points_are_octets() {
    let mut text = vec!["abcdefg"; MAX_WORDS].join(".").into_bytes();
    assert_eq!(text.len(), MAX_OCTETS - 1);
    text.push(b'h');
    assert_eq!(answer(&text, b"#"), Answer::Yes);
    text.push(b'h');
    assert_eq!(answer(&text, b"#"), Answer::MalformedName);
}

/// Rows of up to four of these octets: malformed exactly where a point is first, last or after a point,
/// or there is nothing.
#[test]
fn no_word_is_empty() {
    let mut texts = vec![Vec::new()];
    for length in 0..=4 {
        for text in &texts {
            let malformed = text.is_empty()
                || text.first() == Some(&b'.')
                || text.last() == Some(&b'.')
                || text.windows(2).any(|pair| pair == b"..");
            let (name, pattern) = (answer(text, b"#"), answer(b"a", text));
            assert_eq!(name == Answer::MalformedName, malformed);
            assert_eq!(pattern == Answer::MalformedPattern, malformed);
            let both = answer(text, text);
            assert_eq!(both == Answer::MalformedName, malformed);
            assert_eq!(text.len(), length);
        }
        texts = b".a*#"
            .iter()
            .flat_map(|&octet| {
                texts.iter().map(move |text| {
                    let mut text: Vec<u8> = text.clone();
                    text.push(octet);
                    text
                })
            })
            .collect();
    }
}

#[test]
fn numbers_are_packed() {
    assert_eq!(answer(b"a", b"b").packed(), 0);
    assert_eq!(answer(b"a", b"a").packed(), 1);
    assert_eq!(answer(b"", b"").packed(), 5_242_880);
    assert_eq!(answer(b"a", b"").packed(), 5_308_416);
}
