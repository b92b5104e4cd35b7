//! Whether a pattern matches a name, by document 02 (C-20), with sets of positions: the name is read
//! word by word, and a position is how many words of the pattern are passed.

use std::collections::BTreeSet;

pub const MAX_WORDS: usize = 32;
pub const MAX_OCTETS: usize = 256;

/// What asking for a match answers.
#[derive(Clone, Copy, PartialEq, Eq, Debug)]
pub enum Answer {
    No,
    Yes,
    MalformedName,
    MalformedPattern,
}

impl Answer {
    /// The answer in one number: "0 no, 1 yes, 65,536 times 80 or 81".
    pub fn packed(self) -> usize {
        match self {
            Answer::No => 0,
            Answer::Yes => 1,
            Answer::MalformedName => 65_536 * 80,
            Answer::MalformedPattern => 65_536 * 81,
        }
    }
}

/// "80 malformed name, 81 malformed pattern, in that order"
pub fn answer(name: &[u8], pattern: &[u8]) -> Answer {
    let Some(name) = words(name) else {
        return Answer::MalformedName;
    };
    let Some(pattern) = words(pattern) else {
        return Answer::MalformedPattern;
    };
    if matches(&pattern, &name) {
        Answer::Yes
    } else {
        Answer::No
    }
}

/// "words joined by points [...] 1 to 32 words and at most 256 octets; no word is empty". None where the
/// text is malformed.
pub fn words(text: &[u8]) -> Option<Vec<&[u8]>> {
    let words: Vec<&[u8]> = text.split(|&octet| octet == b'.').collect();
    let formed = text.len() <= MAX_OCTETS
        && words.len() <= MAX_WORDS
        && !words.iter().any(|word| word.is_empty());
    formed.then_some(words)
}

/// Whether the whole pattern can be passed when the whole name is read.
pub fn matches(pattern: &[&[u8]], name: &[&[u8]]) -> bool {
    let mut positions = with_none(pattern, BTreeSet::from([0]));
    for word in name {
        let read = |&position: &usize| after(pattern, position, word);
        positions = with_none(pattern, positions.iter().filter_map(read).collect());
    }
    positions.contains(&pattern.len())
}

/// The position after a word of the name: a `#` can take more words, so it is not passed yet.
fn after(pattern: &[&[u8]], position: usize, word: &[u8]) -> Option<usize> {
    match *pattern.get(position)? {
        b"#" => Some(position),
        b"*" => Some(position + 1),
        own => (own == word).then_some(position + 1),
    }
}

/// The positions, and those after a `#` that takes no word, or no word more.
fn with_none(pattern: &[&[u8]], mut positions: BTreeSet<usize>) -> BTreeSet<usize> {
    for position in 0..pattern.len() {
        if pattern[position] == b"#" && positions.contains(&position) {
            positions.insert(position + 1);
        }
    }
    positions
}
