//! Tests of the rules against slower readings of the definitions: items are put together by the
//! grammar instead of taken apart, and "can still be finished" is looked up among their beginnings.

mod characters;
mod deliveries;
mod feeding;
mod histories;
mod laying;
mod matching;
mod opening;
mod planning;
mod records;
mod registering;
mod replays;
mod sessions;
mod versions;
mod writing;

use crate::decode::decode;
use crate::item::{can_be_finished, first_item, parse, Answer, Command};
use crate::listing;
use crate::random::Random;
use crate::streams;
use crate::version::Version::{self, V1_1, V1_2};
use crate::version::BOTH;
use std::collections::HashSet;

/// What the small rows are made of, and which of it is text where there are escapes in 1.2; the rest of it is a
/// backslash, a colon, line ends, and octets that are no characters by themselves. In 1.1 octet 13 is text too,
/// and `\r` is no escape.
struct Small {
    octets: &'static [u8],
    plain: &'static [u8],
    escapes: &'static [&'static [u8]],
    characters: &'static [&'static [u8]],
}

const SMALL: Small = Small {
    octets: b"ac\\:\n\r\0",
    plain: b"ac\0",
    escapes: &[b"\\c", b"\\\\"],
    characters: &[],
};

/// With an escape that only 1.2 has.
const RETURNS: Small = Small {
    octets: b"r\\:\n\r\0",
    plain: b"r\0",
    escapes: &[b"\\r", b"\\\\"],
    characters: &[],
};

/// Two characters are made of its octets, of two octets and of three.
const WIDE: Small = Small {
    octets: b"a\\:\n\xc2\xe2\x82",
    plain: b"a",
    escapes: &[b"\\\\"],
    characters: &[b"\xc2\x82", b"\xe2\x82\x82"],
};

impl Small {
    /// The octets that are text by themselves.
    fn plain_in(&self, version: Version) -> Vec<u8> {
        let mut plain = self.plain.to_vec();
        plain.extend((version == V1_1 && self.octets.contains(&13)).then_some(13));
        plain
    }

    fn escapes_in(&self, version: Version) -> Vec<&'static [u8]> {
        let mut escapes = self.escapes.to_vec();
        escapes.retain(|escape| version == V1_2 || *escape != b"\\r");
        escapes
    }

    /// The line ends that its octets make, with their lengths.
    fn line_ends_in(&self, version: Version) -> Vec<(&'static [u8], usize)> {
        let mut ends: Vec<(&[u8], usize)> = vec![(b"\n", 1)];
        ends.extend((version == V1_2).then_some((&b"\r\n"[..], 2)));
        ends.retain(|(end, _)| end.iter().all(|octet| self.octets.contains(octet)));
        ends
    }
}

fn one_by_one(octets: &[u8]) -> Vec<Vec<u8>> {
    octets.iter().map(|&octet| vec![octet]).collect()
}

/// All rows of so many octets.
fn rows(small: &Small, length: usize) -> Vec<Vec<u8>> {
    let mut rows = vec![Vec::new()];
    for _ in 0..length {
        rows = product(&rows, &one_by_one(small.octets));
    }
    rows
}

fn product(fronts: &[Vec<u8>], backs: &[Vec<u8>]) -> Vec<Vec<u8>> {
    let with = |front: &Vec<u8>| -> Vec<Vec<u8>> {
        backs
            .iter()
            .map(|back| [&front[..], back].concat())
            .collect()
    };
    fronts.iter().flat_map(with).collect()
}

/// CONNECT and CONNECTED, by their numbers.
fn is_connect(command: Command) -> bool {
    [5, 6].contains(&command.0)
}

/// All names of so many octets: sound octets, whole escapes and whole characters.
fn names(version: Version, small: &Small, command: Command, length: usize) -> Vec<Vec<u8>> {
    let plain = small.plain_in(version);
    if command.escapes() {
        texts(small, &plain, &small.escapes_in(version), length)
    } else {
        texts(small, &[&plain[..], b"\\"].concat(), &[], length)
    }
}

/// All values of so many octets: in CONNECT and CONNECTED a colon is an octet like any other.
fn values(version: Version, small: &Small, command: Command, length: usize) -> Vec<Vec<u8>> {
    if is_connect(command) {
        let plain = small.plain_in(version);
        texts(small, &[&plain[..], b"\\:"].concat(), &[], length)
    } else {
        names(version, small, command, length)
    }
}

/// All texts of so many octets, made of these octets, of these escapes and of the small row's characters.
fn texts(small: &Small, singles: &[u8], escapes: &[&[u8]], length: usize) -> Vec<Vec<u8>> {
    if length == 0 {
        return vec![Vec::new()];
    }
    let mut fronts = one_by_one(singles);
    fronts.extend(escapes.iter().map(|escape| escape.to_vec()));
    fronts.extend(small.characters.iter().map(|character| character.to_vec()));
    let mut all = Vec::new();
    for front in fronts.into_iter().filter(|front| front.len() <= length) {
        let rest = texts(small, singles, escapes, length - front.len());
        all.extend(product(&[front], &rest));
    }
    all
}

/// All header lines of so many octets, their line end counted.
fn lines(version: Version, small: &Small, command: Command, length: usize) -> Vec<Vec<u8>> {
    let mut all = Vec::new();
    for (end, width) in small.line_ends_in(version) {
        for name in 1..length.saturating_sub(width) {
            let value = length - width - 1 - name;
            let named = product(&names(version, small, command, name), &[b":".to_vec()]);
            let whole = product(&named, &values(version, small, command, value));
            all.extend(product(&whole, &[end.to_vec()]));
        }
    }
    all
}

/// All header blocks of so many octets, with the empty line.
fn blocks(version: Version, small: &Small, command: Command, length: usize) -> Vec<Vec<u8>> {
    let mut all: Vec<_> = small
        .line_ends_in(version)
        .into_iter()
        .filter(|(_, width)| *width == length)
        .map(|(end, _)| end.to_vec())
        .collect();
    for first in 1..length {
        all.extend(product(
            &lines(version, small, command, first),
            &blocks(version, small, command, length - first),
        ));
    }
    all
}

/// All that can follow the command's line in a frame, of so many octets, and octet 0.
fn tails(version: Version, small: &Small, command: Command, length: usize) -> Vec<Vec<u8>> {
    let mut all = Vec::new();
    for body in 0..length.saturating_sub(1) {
        if body > 0 && !command.has_body() {
            continue;
        }
        let bodies: Vec<_> = rows(small, body)
            .into_iter()
            .filter(|row| !row.contains(&0))
            .collect();
        let fronts = product(&blocks(version, small, command, length - body - 1), &bodies);
        all.extend(product(&fronts, &[vec![0]]));
    }
    all
}

fn small_commands() -> Vec<Command> {
    [&b"ACK"[..], b"SEND", b"CONNECT", b"STOMP"]
        .iter()
        .filter_map(|name| Command::named(name))
        .collect()
}

fn is_item(version: Version, row: &[u8]) -> bool {
    first_item(version, row).is_some_and(|item| item.length() == row.len())
}

#[test]
fn items_are_those_of_the_grammar() {
    items_are_made(V1_2, &SMALL, b"");
}

#[test]
fn items_of_1_1_are_those_of_the_grammar() {
    items_are_made(V1_1, &SMALL, b"");
}

/// The same with `\r`, in both versions.
#[test]
fn items_with_escaped_13_are_those_of_the_grammar() {
    for version in BOTH {
        items_are_made(version, &RETURNS, b"");
    }
}

/// The same with characters; octet 0, which ends a frame, stands behind each row.
#[test]
fn items_of_characters_are_those_of_the_grammar() {
    for version in BOTH {
        items_are_made(version, &WIDE, b"\0");
    }
}

/// Of all rows up to seven octets, with this end behind them, the items are those put together.
fn items_are_made(version: Version, small: &Small, end: &[u8]) {
    for command in small_commands() {
        let head = [command.name(), b"\n"].concat();
        for length in 0..=7 {
            let made = tails(version, small, command, length + end.len());
            let made: HashSet<Vec<u8>> = made.into_iter().collect();
            for tail in product(&rows(small, length), &[end.to_vec()]) {
                assert_eq!(
                    is_item(version, &[&head[..], &tail].concat()),
                    made.contains(&tail),
                    "{tail:?}"
                );
            }
        }
    }
}

#[test]
fn unfinished_are_the_beginnings_of_items() {
    for version in BOTH {
        are_beginnings(version, &SMALL, 4, 9);
        are_beginnings(version, &RETURNS, 4, 9);
    }
}

/// The same with characters.
#[test]
fn unfinished_characters_are_the_beginnings_of_items() {
    for version in BOTH {
        are_beginnings(version, &WIDE, 3, 9);
    }
}

/// Of all rows up to so many octets, those that can be finished are the beginnings of items up to so many.
fn are_beginnings(version: Version, small: &Small, most: usize, most_of_item: usize) {
    for command in small_commands() {
        let head = [command.name(), b"\n"].concat();
        let mut beginnings = HashSet::new();
        for tail in (0..=most_of_item).flat_map(|length| tails(version, small, command, length)) {
            for end in 0..tail.len().min(most + 1) {
                beginnings.insert(tail[..end].to_vec());
            }
        }
        for tail in (0..=most).flat_map(|length| rows(small, length)) {
            let found = can_be_finished(version, &[&head[..], &tail].concat());
            assert_eq!(found, beginnings.contains(&tail), "{head:?} {tail:?}");
        }
    }
}

/// Frames with up to two lines, whole or not: what content-length makes of the body.
#[test]
fn content_length_decides() {
    let names = ["content-length", "a", "content-lengt"];
    let values = [
        "", "0", "1", "00", "01", "2", "10", "0a", "-1", "+1", " 1", "32769",
    ];
    let mut blocks = vec![Vec::new()];
    let single: Vec<Vec<(&str, &str)>> = names
        .iter()
        .flat_map(|name| values.map(|value| vec![(*name, value)]))
        .collect();
    blocks.extend(single.iter().cloned());
    for first in &single {
        blocks.extend(single.iter().map(|second| [&first[..], second].concat()));
    }
    let bodies: Vec<Vec<u8>> = (0..=3)
        .flat_map(|length| rows(&SMALL, length))
        .filter(|row| row.iter().all(|octet| b"a\0\r".contains(octet)))
        .collect();
    for command in small_commands() {
        for block in &blocks {
            for body in &bodies {
                check_content_length(command, block, body);
            }
        }
    }
}

fn check_content_length(command: Command, block: &[(&str, &str)], body: &[u8]) {
    let mut frame = [command.name(), b"\n"].concat();
    for (name, value) in block {
        frame.extend_from_slice(format!("{name}:{value}\n").as_bytes());
    }
    frame.extend_from_slice(b"\n");
    frame.extend_from_slice(body);
    frame.push(0);
    let digits = |text: &str| text.bytes().all(|octet| (b'0'..=b'9').contains(&octet));
    let sound = match block.iter().find(|(name, _)| *name == "content-length") {
        Some((_, value)) => digits(value) && value.parse() == Ok(body.len()),
        None => !body.contains(&0),
    };
    let allowed = body.is_empty() || command.has_body();
    for version in BOTH {
        assert_eq!(
            is_item(version, &frame),
            sound && allowed,
            "{:?}",
            String::from_utf8_lossy(&frame)
        );
    }
}

/// The letters of escapes.
fn letters(version: Version) -> &'static [u8] {
    match version {
        V1_1 => b"nc\\",
        V1_2 => b"rnc\\",
    }
}

/// The octets that end a line, or begin its end.
fn stops(version: Version) -> &'static [u8] {
    match version {
        V1_1 => b"\n",
        V1_2 => b"\n\r",
    }
}

/// Whether a header line can go on, counted octet by octet with what it owes.
fn can_go_on(version: Version, command: Command, line: &[u8]) -> bool {
    let (mut colon, mut escape) = (false, false);
    for (index, &octet) in line.iter().enumerate() {
        let letter = escape && letters(version).contains(&octet);
        if (escape && !letter) || stops(version).contains(&octet) {
            return false;
        }
        if octet == b':' {
            let second = colon && !is_connect(command);
            if second || index == 0 {
                return false;
            }
            colon = true;
        }
        escape = !escape && octet == b'\\' && command.escapes();
        if index + 1 + usize::from(!colon) + usize::from(escape) > 512 {
            return false;
        }
    }
    true
}

#[test]
fn lines_owe_what_is_missing() {
    let mut random = Random::new(1);
    for round in 0..30_000 {
        let command = small_commands()[round % 4];
        let version = random.pick(&BOTH);
        let mut line = vec![b'v'; random.between(500, 514)];
        if random.once_in(2) {
            let colon = random.between(1, line.len() - 1);
            line[colon] = b':';
        }
        for _ in 0..random.between(0, 3) {
            let place = line.len() - 1 - random.below(6);
            line[place] = random.pick(b"\\\\cr:\n\ra");
        }
        let row = [command.name(), b"\n", &line].concat();
        let whole = line.contains(&b'\n') || (version == V1_2 && line.ends_with(b"\r"));
        if !whole {
            let goes_on = can_go_on(version, command, &line);
            assert_eq!(can_be_finished(version, &row), goes_on, "{line:?}");
        }
    }
}

/// Name, colon and value of every small line, decoded, have at most as many octets as raw (C-22).
#[test]
fn decoded_lines_are_no_longer() {
    let mut shorter = 0;
    for version in BOTH {
        let all =
            |small, command| (3..=7).flat_map(move |length| lines(version, small, command, length));
        for command in small_commands() {
            for line in all(&SMALL, command).chain(all(&WIDE, command)) {
                let row = [command.name(), b"\n", &line, b"\n\0"].concat();
                let entry = &decode(version, &row).expect("a frame").entries[0];
                let long_end = version == V1_2 && line.ends_with(b"\r\n");
                let raw = line.len() - if long_end { 2 } else { 1 };
                let decoded = entry.name.len() + 1 + entry.value.len();
                assert!(decoded <= raw, "{:?}", line);
                shorter += usize::from(decoded < raw);
            }
        }
    }
    assert!(shorter > 0);
}

/// The number of an octet that spoils a header line, read octet by octet: whether there was a colon, and
/// whether an escape is open.
fn spoils(version: Version, command: Command, line: &[u8], octet: u8) -> Option<usize> {
    let (mut colon, mut escape) = (false, false);
    for &before in line {
        colon |= before == b':';
        escape = !escape && before == b'\\' && command.escapes();
    }
    match octet {
        _ if escape => (!letters(version).contains(&octet)).then_some(10),
        b':' if line.is_empty() => Some(3),
        b':' if colon && !is_connect(command) => Some(8),
        _ if stops(version).contains(&octet) && !colon && !line.is_empty() => Some(9),
        _ => None,
    }
}

/// Every octet after every small beginning of a line: where it is refused, then with that number.
#[test]
fn spoiled_lines_have_their_number() {
    for version in BOTH {
        for small in [&SMALL, &RETURNS] {
            for command in small_commands() {
                lines_are_spoiled(version, small, command);
            }
        }
    }
}

fn lines_are_spoiled(version: Version, small: &Small, command: Command) {
    let head = [command.name(), b"\n"].concat();
    for line in (0..=4).flat_map(|length| rows(small, length)) {
        let before = [&head[..], &line].concat();
        let ended = line.iter().any(|octet| stops(version).contains(octet));
        if ended || !can_be_finished(version, &before) {
            continue;
        }
        for &octet in small.octets {
            let refused = match parse(version, &[&before[..], &[octet]].concat()) {
                Answer::Invalid { code, .. } => Some(code),
                _ => None,
            };
            let number = spoils(version, command, &line, octet);
            assert_eq!(refused, number, "{line:?} {octet}");
        }
    }
}

/// Document 02, C-11: "at one octet the order is 1, 2, 10, 3, 8, 9, 4 to 7".
#[test]
fn the_first_number_in_the_order_is_given() {
    let line = [b"a:", &[b'v'; 510][..]].concat();
    let lines = b"a:\n".repeat(32);
    let digits = [b"content-length:", &[b'0'; 497][..]].concat();
    let cases: [(Vec<u8>, &str); 13] = [
        (b"id\\:".to_vec(), "10 7"),
        (b"id:a\\:".to_vec(), "10 9"),
        (b"id\\\n".to_vec(), "10 7"),
        (b"id\\\r".to_vec(), "10 7"),
        (b"id:a\\\n".to_vec(), "10 9"),
        (b"id:a\\\r".to_vec(), "10 9"),
        ([&lines[..], b":"].concat(), "3 100"),
        ([&lines[..], b"a"].concat(), "5 100"),
        ([&line[..], b":"].concat(), "8 516"),
        ([&line[..], b"v"].concat(), "4 516"),
        (b"content-length:0:".to_vec(), "8 20"),
        ([&digits[..], b":"].concat(), "8 516"),
        (b"a\r".to_vec(), "9 5"),
    ];
    for (tail, refused) in cases {
        let listed = listing::of(&[b"ACK\n", &tail[..]].concat());
        assert_eq!(listed, format!("0 refused {refused}\n"));
    }
}

/// Document 02, C-12: "For CONNECT and CONNECTED the first colon now divides, and later ones belong to the
/// value. STOMP frames keep the old rule."
#[test]
fn later_colons_of_connect_belong_to_the_value() {
    let colons = |count| [b"CONNECT\na:", &vec![b':'; count][..], b"\n\n\0"].concat();
    let zeros = [b"CONNECT\ncontent-length:", &[b'0'; 497][..], b":"].concat();
    let cases: [(&[u8], &str); 11] = [
        (b"CONNECT\na:b:c\n\n\0", "0 frame 5 16 1 15 0"),
        (b"CONNECT\na::\n\n\0", "0 frame 5 14 1 13 0"),
        (b"CONNECT\na:\\:\n\n\0", "0 frame 5 15 1 14 0"),
        (b"CONNECTED\na::b\n\n\0", "0 frame 6 17 1 16 0"),
        (&colons(510), "0 frame 5 523 1 522 0"),
        (&colons(511), "0 refused 4 520"),
        (b"CONNECT\n:a:b", "0 refused 3 8"),
        (b"CONNECT\ncontent-length:0:", "0 refused 6 24"),
        (b"CONNECT\ncontent-length::", "0 refused 6 23"),
        (&zeros, "0 refused 4 520"),
        (b"STOMP\na:b:c\n\n\0", "0 refused 8 9"),
    ];
    for (stream, expected) in cases {
        let listed = listing::of(stream);
        assert_eq!(listed.lines().next(), Some(expected));
    }
}

/// The halving search finds what trying every beginning finds.
#[test]
fn the_offset_is_the_first_octet_that_no_item_has() {
    let mut random = Random::new(2);
    for _ in 0..4_000 {
        let version = random.pick(&BOTH);
        let stream = streams::stream(&mut random, version);
        let row = &stream[listing::read(version, &stream).reached..];
        if row.len() > 200 {
            continue;
        }
        if let Answer::Invalid { offset, .. } = parse(version, row) {
            let viable = |end: usize| can_be_finished(version, &row[..end]);
            assert!((0..=offset).all(viable));
            assert!((offset + 1..=row.len()).all(|end| !viable(end)));
        }
    }
}

/// The examples P1 to P13 and the listing that document 01 prints.
#[test]
fn examples() {
    let examples: [(&[u8], &str); 14] = [
        (b"", "0 end\n"),
        (b"\n", "0 beat 1\n1 end\n"),
        (b"\r\n", "0 beat 2\n2 end\n"),
        (b"\rS", "0 refused 2 1\n"),
        (b"SENT", "0 refused 1 3\n"),
        (
            b"SEND\ndestination:/p\n\nok\0",
            "0 frame 12 24 1 21 2\n24 end\n",
        ),
        (b"ACK\nid:a\\cb\n\n\0", "0 frame 2 14 1 13 0\n14 end\n"),
        (b"ACK\nid:a\\t", "0 refused 10 9\n"),
        (b"ACK\n\nx", "0 refused 7 5\n"),
        (
            b"SEND\ncontent-length:1\n\n\0\0",
            "0 frame 12 25 1 23 1\n25 end\n",
        ),
        (b"SEND\ncontent-length:32769", "0 refused 6 24\n"),
        (b"ACK\ncontent-length:1", "0 refused 6 19\n"),
        (
            b"MESSAGE\nrun:b\nrun:a\n\n\0",
            "0 frame 9 22 2 21 0\n22 end\n",
        ),
        (
            b"\nACK\nid:a\\cb\n\n\0SENT",
            "0 beat 1\n1 frame 2 14 1 13 0\n15 refused 1 3\n",
        ),
    ];
    for (stream, listed) in examples {
        assert_eq!(listing::of(stream), listed);
    }
    for version in BOTH {
        assert_eq!(parse(version, b""), Answer::Incomplete);
    }
}
