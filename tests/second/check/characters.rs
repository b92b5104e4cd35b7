//! Tests of document 02's C-17: UTF-8 as the grammar of RFC 3629's section 4 has it and as the standard library
//! reads it, the readings that are decided, every octet after every beginning of a character, each limit,
//! and what encoding refuses.

use crate::block::{self, Entry};
use crate::characters::{is_utf8, missing, octets_of, unfinished};
use crate::decode::decoded;
use crate::encode::{encode, line, Options, Refusal};
use crate::feed::record::{is_refused, CHARACTER, CODE, COMMAND, HELD, PHASE, REFUSED};
use crate::feed::StreamParser;
use crate::feed_calls::BUFFER;
use crate::item::{header_line, parse, Answer, Command};
use crate::listing;
use crate::random::Random;
use crate::session::opening::ONLY_1_2;
use crate::session::record::make;
use crate::streams::characters::{any_character, broken, character, of_either_kind};
use crate::topic;
use crate::version::Version::V1_2;
use crate::version::BOTH;
use std::collections::HashSet;
use std::ops::RangeInclusive;

/// A row of the grammar: what each octet of such a character is.
type Row = Vec<RangeInclusive<u8>>;

/// The grammar's UTF8-1 to UTF8-4.
fn grammar() -> Vec<Row> {
    let tail = 0x80..=0xbf;
    let t = || tail.clone();
    vec![
        vec![0..=0x7f],
        vec![0xc2..=0xdf, t()],
        vec![0xe0..=0xe0, 0xa0..=0xbf, t()],
        vec![0xe1..=0xec, t(), t()],
        vec![0xed..=0xed, 0x80..=0x9f, t()],
        vec![0xee..=0xef, t(), t()],
        vec![0xf0..=0xf0, 0x90..=0xbf, t(), t()],
        vec![0xf1..=0xf3, t(), t(), t()],
        vec![0xf4..=0xf4, 0x80..=0x8f, t(), t()],
    ]
}

/// How many octets the grammar's row has beyond these, if it begins with them.
fn left_of(row: &Row, octets: &[u8]) -> Option<usize> {
    let fits = octets
        .iter()
        .zip(row)
        .all(|(octet, range)| range.contains(octet));
    let left = row.len().checked_sub(octets.len())?;
    fits.then_some(left)
}

/// How many octets of a character are still to come after these, which begin it.
fn still_to_come(octets: &[u8]) -> Option<usize> {
    grammar().iter().find_map(|row| left_of(row, octets))
}

#[test]
fn numbers_have_the_octets_of_the_standard_library() {
    for number in 0..=0x11_0000 {
        let theirs = char::from_u32(number).map(|c| c.to_string().into_bytes());
        assert_eq!(octets_of(number), theirs, "{number:x}");
    }
}

/// The octets at both ends of each range of the grammar, and those beside them.
const EDGES: [u8; 28] = [
    0x00, 0x3a, 0x5c, 0x7f, 0x80, 0x8f, 0x90, 0x9f, 0xa0, 0xbf, 0xc0, 0xc1, 0xc2, 0xdf, 0xe0, 0xe1,
    0xec, 0xed, 0xee, 0xef, 0xf0, 0xf1, 0xf3, 0xf4, 0xf5, 0xf8, 0xfe, 0xff,
];

/// Every two octets, every two and an octet at an edge of a range, and rows of four and five such octets.
#[test]
fn text_is_what_the_standard_library_takes() {
    let agree = |text: &[u8]| {
        let theirs = std::str::from_utf8(text);
        assert_eq!(is_utf8(text), theirs.is_ok(), "{text:x?}");
        let unfinished = matches!(theirs, Err(error) if error.error_len().is_none());
        let to_come = missing(text).is_some_and(|missing| missing > 0);
        assert_eq!(to_come, unfinished, "{text:x?}");
    };
    agree(b"");
    for first in 0..=255 {
        agree(&[first]);
        for second in 0..=255 {
            agree(&[first, second]);
            for third in EDGES {
                agree(&[first, second, third]);
            }
        }
    }
    for first in EDGES {
        for second in EDGES {
            for third in EDGES {
                for fourth in EDGES {
                    agree(&[first, second, third, fourth]);
                    agree(&[b'a', first, second, third, fourth]);
                }
            }
        }
    }
    let mut random = Random::new(21);
    for _ in 0..50_000 {
        let mut text = Vec::new();
        for _ in 0..random.between(1, 6) {
            text.extend(of_either_kind(&mut random));
        }
        agree(&text);
    }
}

/// The beginnings of all characters are those that can go on, and lack as many octets as the grammar says.
#[test]
fn beginnings_lack_what_the_grammar_says() {
    let mut beginnings: HashSet<Vec<u8>> = HashSet::new();
    for octets in (0..=0x10_ffff).filter_map(octets_of) {
        beginnings.extend((1..octets.len()).map(|end| octets[..end].to_vec()));
    }
    let check = |octets: &[u8]| {
        let found = missing(octets).filter(|&missing| missing > 0);
        assert_eq!(found.is_some(), beginnings.contains(octets), "{octets:x?}");
        if found.is_some() {
            assert_eq!(found, still_to_come(octets));
            assert_eq!(unfinished(octets), octets);
        }
    };
    for first in 128..=255 {
        check(&[first]);
        for second in 0..=255 {
            check(&[first, second]);
            for third in (first >= 0xf0).then_some(0..=255).into_iter().flatten() {
                check(&[first, second, third]);
            }
        }
    }
}

/// Some beginning of each kind of character, of every length, and none.
fn beginnings() -> Vec<Vec<u8>> {
    let mut all = vec![Vec::new()];
    for row in grammar().into_iter().skip(1) {
        for end in 1..row.len() {
            let low = row[..end].iter().map(|range| *range.start()).collect();
            let high = row[..end].iter().map(|range| *range.end()).collect();
            all.extend([low, high]);
        }
    }
    all
}

/// Every octet after every kind of beginning, in a name and in a value, with escapes and without: 11 where no
/// character has it there, and then at that octet. With no beginning: every first octet, and with one of one
/// octet every first octet with every second.
#[test]
fn every_octet_after_every_beginning() {
    let heads: [&[u8]; 6] = [
        b"ACK\n",
        b"ACK\nid:",
        b"ACK\na\\c",
        b"CONNECT\na",
        b"CONNECT\na:b:",
        b"SEND\ncontent-length:0\ncontent-length:x",
    ];
    let firsts = (0xc2..=0xf4).map(|first| vec![first]);
    let beginnings: Vec<Vec<u8>> = beginnings().into_iter().chain(firsts).collect();
    for head in heads {
        for before in &beginnings {
            // By itself an octet below 128 is a character; what else is wrong with it is asked elsewhere.
            let least = if before.is_empty() { 128 } else { 0 };
            for octet in least..=255 {
                let with = [&before[..], &[octet]].concat();
                let expected = match still_to_come(&with) {
                    Some(_) => Answer::Incomplete,
                    None => Answer::Invalid {
                        code: 11,
                        offset: head.len() + before.len(),
                    },
                };
                let row = [head, &with].concat();
                for version in BOTH {
                    assert_eq!(parse(version, &row), expected, "{}", row.escape_ascii());
                }
            }
        }
    }
}

/// What is listed of ACK with this after its line.
fn listed(tail: &[u8]) -> String {
    first_line(&[b"ACK\n", tail].concat())
}

fn first_line(stream: &[u8]) -> String {
    let listed = listing::of(stream);
    listed.lines().next().unwrap_or_default().to_string()
}

/// The readings that are decided: of octets that several rows fit.
#[test]
fn decided_readings_of_numbers() {
    let cases: [(&[u8], &str); 34] = [
        (b"id:a\r\xff", "2 9"),
        (b"\r\xc3", "2 5"),
        (b"id:a\\\xff", "11 9"),
        (b"id:a\\\x80", "11 9"),
        (b"id:a\\\xc0", "11 9"),
        (b"id:a\\\xf5", "11 9"),
        (b"id:a\\\xc3", "10 9"),
        (b"id:a\\\xf4", "10 9"),
        (b"id\\\xff", "11 7"),
        (b"id\\\xe2", "10 7"),
        (b"n\xc3:", "11 6"),
        (b"n\xc3\n", "11 6"),
        (b"n\xc3\r", "11 6"),
        (b"n\xe2\x82\\", "11 7"),
        (b"\xf0:", "11 5"),
        (b"id:\xc3:", "11 8"),
        (b"id:\xe2\n", "11 8"),
        (b"id:\xe2\x82\r", "11 9"),
        (b"id:\xf0\x90\x8d\\", "11 10"),
        (b"content-length:\xff", "11 19"),
        (b"content-length:\x80", "11 19"),
        (b"content-length:0\xff", "11 20"),
        (b"content-length:\xc3", "6 19"),
        (b"content-length:0\xc3", "6 20"),
        (b"content-length:0\\", "6 20"),
        (b"\n\xff", "7 5"),
        (b"\n\xc3\xa9", "7 5"),
        (b"id:\xe0\x80", "11 8"),
        (b"id:\xe0\x9f\xbf", "11 8"),
        (b"id:\xed\xa0\x80", "11 8"),
        (b"id:\xed\xbf\xbf", "11 8"),
        (b"id:\xf0\x80\x80\x80", "11 8"),
        (b"id:\xf0\x8f\xbf\xbf", "11 8"),
        (b"id:\xf4\x90\x80\x80", "11 8"),
    ];
    for (tail, refused) in cases {
        assert_eq!(
            listed(tail),
            format!("0 refused {refused}"),
            "{}",
            tail.escape_ascii()
        );
    }
    assert_eq!(first_line(b"\xff"), "0 refused 1 0");
    assert_eq!(first_line(b"ACK\xc3\xa9"), "0 refused 1 3");
    assert_eq!(first_line(b"ACK\r\xff"), "0 refused 2 4");
    assert_eq!(first_line(b"SEND\n\n\xff\xc3\0"), "0 frame 12 9 0 6 2");
}

/// As a 33rd line, FF and a tail are 11, and what begins a character is 5.
#[test]
fn decided_readings_of_a_33rd_line() {
    let lines = b"a:\n".repeat(32);
    let after = |octet: u8| listed(&[&lines[..], &[octet]].concat());
    for octet in 128..=255 {
        let begins = (0xc2..=0xf4).contains(&octet);
        let code = if begins { 5 } else { 11 };
        assert_eq!(after(octet), format!("0 refused {code} 100"));
    }
}

/// The 512th octet of a line and those beside it: what begins a character owes its rest, in a name the colon
/// too; what begins none, or spoils one, is 11 wherever it stands.
#[test]
fn decided_readings_of_the_512th_octet() {
    let limit = 512;
    for (head, owes_colon) in [(&b"id:"[..], 0), (b"content-length:0\nid:", 0), (b"n", 1)] {
        let line = head
            .iter()
            .rposition(|&octet| octet == b'\n')
            .map_or(0, |end| end + 1);
        for place in 505..=513 {
            // So many octets of the line stand before the one that is tried.
            let before = [head, &vec![b'v'; line + place - 1 - head.len()]].concat();
            let tried = |octets: &[u8]| listed(&[&before[..], octets].concat());
            let offset = 4 + before.len();
            let viable = place - 1 + owes_colon <= limit;
            if !viable {
                continue;
            }
            for (octet, rest) in [(0xc3, 1), (0xe2, 2), (0xf0, 3), (0xf4, 3), (b'a', 0)] {
                let fits = place + rest + owes_colon <= limit;
                let expected = if fits { "0 more" } else { "0 refused 4" };
                let listed = tried(&[octet]);
                assert!(listed.starts_with(expected), "{} {}", place, listed);
                assert!(fits || listed == format!("0 refused 4 {offset}"));
            }
            for octet in [0x80, 0xbf, 0xc0, 0xf5, 0xff] {
                assert_eq!(tried(&[octet]), format!("0 refused 11 {offset}"));
            }
        }
    }
    // A first content-length owes the rest of a character too, and 4 comes before 6.
    let zeros = |count: usize| [b"content-length:", &vec![b'0'; count][..]].concat();
    let tried = |count: usize, octet: u8| listed(&[&zeros(count)[..], &[octet]].concat());
    assert_eq!(tried(496, 0xc3), "0 refused 4 515");
    assert_eq!(tried(495, 0xc3), "0 refused 6 514");
    assert_eq!(tried(495, 0xe2), "0 refused 4 514");
    assert_eq!(tried(497, 0xff), "0 refused 11 516");
    assert_eq!(tried(497, 0xc3), "0 refused 4 516");
}

/// Lines whose last character ends at the 512th octet, and one further: octet 0, U+FEFF and U+FFFE are
/// characters.
#[test]
fn characters_up_to_the_limit() {
    let whole: [&[u8]; 8] = [
        b"\0",
        b"\xc2\x80",
        b"\xdf\xbf",
        b"\xef\xbb\xbf",
        b"\xef\xbf\xbe",
        b"\xed\x9f\xbf",
        b"\xf0\x90\x80\x80",
        b"\xf4\x8f\xbf\xbf",
    ];
    for character in whole {
        let filler = 512 - 3 - character.len();
        let value = |filler: usize| [b"id:", &vec![b'v'; filler][..], character].concat();
        let name = |filler: usize| [b"nnn", &vec![b'v'; filler - 1][..], character, b":"].concat();
        for line in [value(filler), name(filler)] {
            assert_eq!(line.len(), 512);
            let frame = listed(&[&line[..], b"\n\n\0"].concat());
            assert_eq!(frame, "0 frame 2 519 1 518 0");
        }
        for line in [value(filler + 1), name(filler + 1)] {
            let refused = listed(&line);
            // The colon is owed before the character is, and a character from its first octet on.
            assert!(refused.starts_with("0 refused 4 51"), "{}", refused);
        }
    }
    assert_eq!(
        first_line(b"CONNECT\na\\\xc3\xa9:\\\xc3\xa9:\n\n\0"),
        "0 frame 5 20 1 19 0"
    );
}

/// The record after each octet of a frame: what it says of the unfinished character, and the phase.
#[test]
fn records_keep_the_unfinished_character() {
    let stream = b"ACK\n\xc3\xa9\\c\xe2\x82\xac:\xf0\x9f\x98\x80\\\\x\n\n\0";
    let expected = [
        (2, 0),
        (2, 0),
        (2, 0),
        (4, 0),
        (6, 0xc3),
        (5, 0),
        (6, 92),
        (5, 0),
        (6, 0xe2),
        (6, 1),
        (5, 0),
        (7, 0),
        (8, 0xf0),
        (8, 2),
        (8, 1),
        (7, 0),
        (8, 92),
        (7, 0),
        (7, 0),
        (4, 0),
        (12, 0),
        (0, 0),
    ];
    let mut parser = StreamParser::default();
    let mut buffer = vec![170; BUFFER];
    for (octet, (phase, character)) in stream.iter().zip(expected) {
        parser.feed(&mut buffer, &[*octet]);
        let record = parser.record();
        assert_eq!((record[PHASE], record[CHARACTER]), (phase, character));
        assert!(!is_refused(&record));
    }
    // In CONNECT a backslash is a character by itself.
    parser.feed(&mut buffer, b"CONNECT\na\\");
    assert_eq!((parser.record()[PHASE], parser.record()[CHARACTER]), (5, 0));
}

/// 71: which octets may stand for an unfinished character, in each phase and command; and 11 is a number.
#[test]
fn records_of_no_unfinished_character_are_refused() {
    for phase in (0..=13).chain([REFUSED]) {
        for command in 0..=16 {
            for character in 0..=255 {
                let mut record = [0; 16];
                record[PHASE] = phase;
                record[COMMAND] = command;
                record[CHARACTER] = character;
                record[CODE] = if phase == REFUSED { 11 } else { 0 };
                let inside = phase == 6 || phase == 8;
                let left = match character {
                    0 => !inside,
                    1 | 2 | 0xc2..=0xf4 => inside,
                    92 => inside && command != 5 && command != 6,
                    _ => false,
                };
                assert_eq!(is_refused(&record), !left, "{record:?}");
            }
        }
    }
    for (code, refused) in [(0, true), (1, false), (10, false), (11, false), (12, true)] {
        let mut record = [0; 16];
        record[PHASE] = REFUSED;
        record[CODE] = code;
        record[HELD + 1] = 3;
        assert_eq!(is_refused(&record), refused);
    }
}

/// 53 for a name or a value that is not UTF-8, each asked by itself; the body is not asked.
#[test]
fn entries_that_are_not_utf8_are_refused() {
    let mut random = Random::new(22);
    let answer = |command: u32, entries: &[Entry], body: &[u8]| {
        let options = Options::default();
        encode(options, command, &block::write(entries), body, 1_000)
    };
    let sound = Entry::new(b"na\xc3\xa9me", b"\xf0\x9f\x98\x80");
    let refused = |index| Err(Refusal { code: 53, index });
    for command in [5, 6, 12, 13] {
        let whole = answer(command, &[sound.clone()], b"");
        assert!(whole.is_ok());
        let divided = Entry::new(b"a\xc3", b"\xa9b");
        assert_eq!(answer(command, &[sound.clone(), divided], b""), refused(1));
        for _ in 0..2_000 {
            let text = [&b"a"[..], &of_either_kind(&mut random), b"b"].concat();
            let writable = !text.iter().any(|octet| b"\n\r:".contains(octet));
            let right =
                std::str::from_utf8(&text).is_ok() && (writable || ![5, 6].contains(&command));
            for entry in [Entry::new(&text, b"v"), Entry::new(b"n", &text)] {
                let colon = entry.name == b"n" && text.contains(&b':');
                let given = answer(command, &[sound.clone(), entry.clone(), entry], b"");
                if !colon {
                    assert_eq!(given.is_ok(), right, "{}", text.escape_ascii());
                    assert!(right || given == refused(1));
                }
            }
        }
    }
    for _ in 0..200 {
        let body = broken(&mut random);
        let with_body = answer(12, &[sound.clone()], &body);
        assert!(with_body.is_ok_and(|image| image.ends_with(&[&body[..], b"\0"].concat())));
    }
}

/// "Show that decoded text is UTF-8 exactly if the raw text is": of any raw text with whole escapes, and of
/// the raw text of any octets.
#[test]
fn decoded_text_is_utf8_exactly_if_the_raw_text_is() {
    let mut random = Random::new(23);
    let (mut right, mut wrong) = (0, 0);
    for round in 0..50_000 {
        let command = Command::named([&b"SEND"[..], b"CONNECT"][round % 2]).expect("a command");
        let mut text = Vec::new();
        for _ in 0..random.between(0, 5) {
            match random.below(4) {
                0 => text.extend(character(&mut random, 2 + round % 3)),
                1 => text.extend(broken(&mut random)),
                2 => text.push(random.pick(b"\\\n\r:")),
                _ => text.extend(any_character(&mut random, 4)),
            }
        }
        let version = random.pick(&BOTH);
        let raw = &line(version, command, &Entry::new(b"n", &text))[2..];
        assert_eq!(decoded(version, command, raw), text);
        assert_eq!(is_utf8(raw), is_utf8(&text), "{}", text.escape_ascii());
        let stands = header_line(version, command, &[b"n:", raw].concat()).is_some();
        let stops: &[u8] = if version == V1_2 { b"\n\r" } else { b"\n" };
        let unwritable = round % 2 == 1 && text.iter().any(|octet| stops.contains(octet));
        assert_eq!(stands, is_utf8(&text) && !unwritable);
        if is_utf8(&text) {
            right += 1;
        } else {
            wrong += 1;
        }
    }
    assert!(right > 10_000 && wrong > 10_000, "{} {}", right, wrong);
}

/// Ids, labels, names of ports and patterns are not asked: the calls that take them take any octets.
#[test]
fn ids_labels_and_patterns_are_not_asked() {
    let (_, mut record) = make(0, 0, ONLY_1_2);
    let mut frame = |command: u32, entries: &[(&[u8], &[u8])]| {
        let entries: Vec<Entry> = entries
            .iter()
            .map(|(name, value)| Entry::new(name, value))
            .collect();
        let block = block::write(&entries);
        assert!(record.frame(command, &block, 0).is_ok());
        record.clone()
    };
    frame(5, &[(b"accept-version", b"1.2"), (b"host", b"\xff")]);
    frame(3, &[(b"transaction", b"\xc3")]);
    let mut subscribed = frame(
        14,
        &[
            (b"id", b"\x80"),
            (b"destination", b"\xed\xa0\x80"),
            (b"ack", b"client"),
        ],
    );
    assert!(subscribed.deliver(b"\x80", b"\xe2\x82").is_ok());
    let block = block::write(&[Entry::new(b"id", b"\xe2\x82")]);
    assert!(subscribed.frame(2, &block, 0).is_ok());
    assert_eq!(topic::answer(b"a.\xff", b"*.\xff").packed(), 1);
    assert_eq!(topic::answer(b"\xc3.b", b"\xa9.b").packed(), 0);
}
