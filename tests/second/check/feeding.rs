//! Tests of the stream parser: however a stream is cut, the items, the refusal and the octets are those of
//! the whole stream taken apart; and what is written of a call is read back.

use crate::feed::record::is_refused;
use crate::feed::StreamParser;
use crate::feed_calls::sequence::sequence;
use crate::feed_calls::{dues, read, Due, Reply, Told, BUFFER};
use crate::fixed::feeding;
use crate::item::{Answer, Item};
use crate::listing::{self, End};
use crate::random::Random;
use crate::streams;
use crate::version::{Version, BOTH};

/// What a caller of the stream parser comes to: the items with their octets, and the refusal, if one came.
struct Read {
    items: Vec<(Item, Vec<u8>)>,
    refused: Option<(usize, usize)>,
    parser: StreamParser,
    buffer: Vec<u8>,
}

/// Hands in pieces of at most so many octets, each from where the one before it was taken up to.
fn read_in_pieces(random: &mut Random, version: Version, stream: &[u8], most: usize) -> Read {
    let mut read = Read {
        items: Vec::new(),
        refused: None,
        parser: StreamParser::told(version),
        buffer: vec![170; BUFFER],
    };
    let mut rest = stream;
    while !rest.is_empty() {
        let piece = &rest[..random.between(0, most.min(rest.len()))];
        let fed = read.parser.feed(&mut read.buffer, piece);
        assert!(!is_refused(&read.parser.record()));
        rest = &rest[fed.taken..];
        match fed.reply {
            Answer::Complete(item) => {
                let octets = read.buffer[..item.length()].to_vec();
                read.items.push((item, octets));
            }
            Answer::Incomplete => assert_eq!(fed.taken, piece.len()),
            Answer::Invalid { code, offset } => {
                read.refused = Some((code, offset));
                break;
            }
        }
    }
    read
}

#[test]
fn pieces_agree_with_the_whole() {
    let mut random = Random::new(11);
    for _ in 0..2_500 {
        let version = random.pick(&BOTH);
        let stream = streams::stream(&mut random, version);
        let listing = listing::read(version, &stream);
        let items: Vec<_> = listing
            .items
            .iter()
            .map(|(start, item)| (*item, stream[*start..start + item.length()].to_vec()))
            .collect();
        let (refused, held) = match listing.end {
            End::Refused { code, offset } => (Some((code, offset)), offset),
            End::More | End::Nothing => (None, stream.len() - listing.reached),
        };
        let held = &stream[listing.reached..listing.reached + held];
        let most = random.pick(&[1, 2, 30, 70_000]).max(stream.len() / 300);
        let read = read_in_pieces(&mut random, version, &stream, most);
        assert_eq!(read.items, items, "{}", stream.escape_ascii());
        assert_eq!(read.refused, refused, "{}", stream.escape_ascii());
        assert_eq!(read.parser.held, held);
        assert_eq!(&read.buffer[..held.len()], held);
    }
}

/// Behind a refusal nothing is taken, and nothing changes.
#[test]
fn refusals_are_repeated() {
    let mut parser = StreamParser::default();
    let mut buffer = vec![170; BUFFER];
    let first = parser.feed(&mut buffer, b"SENT\n");
    assert_eq!(
        (first.packed(), first.taken),
        (3 + 4 * (3 + ((1 + (3 << 8)) << 16)), 3)
    );
    let before = (parser.clone(), buffer.clone());
    for piece in [&b""[..], b"T", b"\n", b"SEND\n\n\0"] {
        let again = parser.feed(&mut buffer, piece);
        assert_eq!((again.reply, again.taken), (first.reply, 0));
    }
    assert_eq!((parser, buffer), before);
}

/// The answers of document 01's examples, as include/stomp.h packs them.
#[test]
fn answers_are_packed() {
    let mut buffer = vec![170; BUFFER];
    let mut answer = |octets: &[u8]| StreamParser::default().feed(&mut buffer, octets).packed();
    assert_eq!(answer(b""), 0);
    assert_eq!(answer(b"ACK"), 4 * 3);
    assert_eq!(answer(b"\r\nACK"), 1 + 4 * (2 + (2 << 16)));
    let frame = 12 + (1 << 4) + (21 << 10) + (2 << 26);
    assert_eq!(
        answer(b"SEND\ndestination:/p\n\nok\0\n"),
        2 + 4 * (24 + (frame << 16))
    );
    assert_eq!(
        answer(b"ACK\nid:a\\t"),
        3 + 4 * (9 + ((10 + (9 << 8)) << 16))
    );
}

#[test]
fn calls_and_replies_are_read_back() {
    let mut random = Random::new(12);
    let steps = sequence(&mut random, 60);
    let calls: Vec<_> = steps.iter().map(|step| step.call.clone()).collect();
    let octets: Vec<u8> = calls.iter().flat_map(|call| call.octets()).collect();
    assert_eq!(read(&octets), Some(calls));
    assert_eq!(read(&octets[..octets.len() - 1]), None);
    for step in steps {
        match step.due {
            Due::Exactly { reply, .. } => {
                let octets = [&reply.octets()[..], b"0"].concat();
                assert_eq!(Reply::read(&octets), Some((reply, octets.len() - 1)));
            }
            Due::Told(told) => {
                let octets = [&told.octets()[..], b"0"].concat();
                assert_eq!(Told::read(&octets), Some((told, octets.len() - 1)));
            }
            _ => {}
        }
    }
}

/// The fixed calls have one reply each, and every kind of answer.
#[test]
fn fixed_calls_are_settled() {
    let dues = dues(&feeding::all());
    let is_open = |due: &Due| matches!(due, Due::Any(_) | Due::AnyTold(_));
    assert!(!dues.iter().any(is_open));
    let kinds = |kind: u64| {
        let is_kind =
            |due: &&Due| matches!(due, Due::Exactly { reply, .. } if reply.answer & 3 == kind);
        dues.iter().filter(is_kind).count()
    };
    assert!((0..4).all(|kind| kinds(kind) > 3));
}
