//! The fixed calls of the matcher: words, `*` and `#` at each place, both as ordinary octets, and the
//! limits.

use crate::topic::{MAX_OCTETS, MAX_WORDS};
use crate::topic_calls::Call;

/// The octets of the calls.
pub fn calls() -> Vec<u8> {
    all().iter().flat_map(Call::octets).collect()
}

/// The calls, in groups.
pub fn all() -> Vec<Call> {
    [small(), empty_words(), limits()].concat()
}

fn call(name: &[u8], pattern: &[u8]) -> Call {
    Call {
        name: name.to_vec(),
        pattern: pattern.to_vec(),
    }
}

/// Each of these names with each of these patterns.
fn small() -> Vec<Call> {
    let names = "a b ab a.b b.a a.a a.b.c a.c.b a.b.b.c * # a* a.* a.# *.a a#.b port.ocean.sst.1";
    let patterns = "a b ab a.b * # ** ## a* *a a# #a a.* *.a a.# #.a #.a.# *.* *.# #.* #.# a.*.c \
        a.#.c #.b.#.c *.#.* #.*.# #.a.*.# #.*.*.* port.# port.*.sst.# port.ice.#";
    let with = |name: &str| -> Vec<Call> {
        let pair = |pattern: &str| call(name.as_bytes(), pattern.as_bytes());
        patterns.split(' ').map(pair).collect()
    };
    names.split(' ').flat_map(with).collect()
}

/// An empty word at each place, in the name, in the pattern, and in both.
fn empty_words() -> Vec<Call> {
    let malformed: [&[u8]; 9] = [
        b"", b".", b"..", b".a", b"a.", b"a..b", b".a.b", b"a.b.", b"a.b..c",
    ];
    let with = |text: &&[u8]| [call(text, b"#"), call(b"a", text), call(text, text)];
    malformed.iter().flat_map(with).collect()
}

/// As many words and octets as may be, and one more; octets that are no letters.
fn limits() -> Vec<Call> {
    let words = |count: usize, word: &str| vec![word; count].join(".").into_bytes();
    let letters = |count: usize| vec![b'a'; count];
    let both = |count: usize| {
        let mut text = words(MAX_WORDS, "abcdefg");
        text.resize(count, b'g');
        text
    };
    vec![
        call(&words(MAX_WORDS, "a"), b"#"),
        call(&words(MAX_WORDS + 1, "a"), b"#"),
        call(b"a", &words(MAX_WORDS, "#")),
        call(b"a", &words(MAX_WORDS + 1, "#")),
        call(&words(MAX_WORDS, "a"), &words(MAX_WORDS, "*")),
        call(&words(MAX_WORDS, "a"), &words(MAX_WORDS - 1, "*")),
        call(&words(MAX_WORDS, "a"), &words(16, "#.a")),
        call(&words(MAX_WORDS, "a"), &words(16, "#.b")),
        call(&words(MAX_WORDS + 1, "a"), &words(MAX_WORDS + 1, "a")),
        call(&letters(MAX_OCTETS), b"*"),
        call(&letters(MAX_OCTETS + 1), b"*"),
        call(&letters(MAX_OCTETS), &letters(MAX_OCTETS)),
        call(&letters(MAX_OCTETS), &letters(MAX_OCTETS + 1)),
        call(&letters(MAX_OCTETS), &letters(MAX_OCTETS - 1)),
        call(&both(MAX_OCTETS), &both(MAX_OCTETS)),
        call(&both(MAX_OCTETS + 1), b"#"),
        call(b"a", &both(MAX_OCTETS + 1)),
        call(&letters(65_536), &letters(65_536)),
        call(b"\0.\xff.\n", b"\0.*.\n"),
        call(b"\0.\xff.\n", b"\0.\xfe.\n"),
    ]
}
