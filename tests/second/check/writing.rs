//! Tests of decoding and encoding: what is written is read again, blocks and frames are put together
//! instead of taken apart, and each refusal is asked for in another way.

use super::{product, small_commands, tails, RETURNS, SMALL, WIDE};
use crate::block::{self, Entry};
use crate::calls::{self, MAX_SLICE};
use crate::decode::{decode, decoded as decoded_text, Content};
use crate::encode::{encode, image, line, written, Options, Refusal};
use crate::encode_calls::{Call, Reply};
use crate::item::{content_length, header_line, Command, CONTENT_LENGTH};
use crate::random::Random;
use crate::rewrite::{complaint, rewrite, Stop};
use crate::session::frame::Frame;
use crate::streams;
use crate::version::Version::{self, V1_1, V1_2};
use crate::version::BOTH;
use std::collections::{BTreeSet, HashSet};

const P6: &[u8] = b"SEND\ndestination:/p\n\nok\0";
const P7: &[u8] = b"ACK\nid:a\\cb\n\n\0";
const P13: &[u8] = b"MESSAGE\nrun:b\nrun:a\n\n\0";

fn decoded(frame: &[u8]) -> Content {
    decode(V1_2, frame).expect("a frame")
}

/// Options for 1.2.
fn marked(counted: bool) -> Options {
    let version = V1_2;
    Options { counted, version }
}

/// What is written of a content in 1.2, with as much room as it takes.
fn encoded(content: &Content, counted: bool) -> Result<Vec<u8>, Refusal> {
    encoded_with(content, marked(counted))
}

fn encoded_with(content: &Content, options: Options) -> Result<Vec<u8>, Refusal> {
    let block = block::write(&content.entries);
    let command = content.command.0 as u32;
    encode(options, command, &block, &content.body, MAX_SLICE)
}

/// The content that is read where this one was written.
fn with_length(content: &Content, counted: bool) -> Content {
    let mut content = content.clone();
    content.entries = written(&content, counted);
    content
}

#[test]
fn examples_are_decoded_and_encoded() {
    let block = block::write(&decoded(P6).entries);
    assert_eq!(block, b"\x48\x44\x00\x0b\x00\x02destination/p");
    assert_eq!(block.len(), 19);
    let counted = b"SEND\ndestination:/p\ncontent-length:2\n\nok\0";
    for (mark, length, expected) in [(true, 41, &counted[..]), (false, 24, P6)] {
        let options = marked(mark);
        let image = encode(options, 12, &block, b"ok", length).expect("P6 written again");
        assert_eq!(image, expected);
        assert_eq!(image.len(), length);
        let short = encode(options, 12, &block, b"ok", length - 1);
        assert_eq!(short, Err(Refusal { code: 56, index: 0 }));
    }

    assert_eq!(decoded(P7).entries, [Entry::new(b"id", b"a:b")]);
    let runs = [Entry::new(b"run", b"b"), Entry::new(b"run", b"a")];
    assert_eq!(decoded(P13).entries, runs);
    let looked_up = Frame {
        command: decoded(P13).command,
        entries: decoded(P13).entries,
    };
    assert_eq!(looked_up.first(b"run"), Some(&b"b"[..]));
    assert_eq!(looked_up.later(b"run"), 1);
    assert_eq!(looked_up.later(b"id"), 0);
    for frame in [P7, P13] {
        for counted in [false, true] {
            assert_eq!(encoded(&decoded(frame), counted), Ok(frame.to_vec()));
        }
    }
}

/// "decoding `\c` by repeated replacement, so that `\\c` becomes a colon"
#[test]
fn escapes_are_taken_once() {
    let raw = b"\\\\c\\c\\\\\\n\\r";
    let text = b"\\c:\\\n\r";
    let frame = |name: &[u8]| [name, b"\nx:", raw, b"\n\n\0"].concat();
    assert_eq!(decoded(&frame(b"STOMP")).entries[0].value, text);
    assert_eq!(decoded(&frame(b"CONNECT")).entries[0].value, raw);
}

/// Colons in values of CONNECT and CONNECTED are read and written as they are; a colon in a name would be
/// read as the one that divides.
#[test]
fn colons_are_written_and_read() {
    let frames: [&[u8]; 4] = [
        b"CONNECT\npasscode:a:b\n\n\0",
        b"CONNECT\na::\nb:::c::\n\n\0",
        b"CONNECTED\nsession::\\:\n\n\0",
        b"STOMP\npasscode:a\\cb\n\n\0",
    ];
    for frame in frames {
        assert_eq!(encoded(&decoded(frame), false), Ok(frame.to_vec()));
    }
    assert_eq!(decoded(frames[0]).entries[0].value, b"a:b");
    assert_eq!(decoded(frames[3]).entries[0].value, b"a:b");
    let refused = |command, name: &[u8], value: &[u8]| {
        let block = block::write(&[Entry::new(b"a", b""), Entry::new(name, value)]);
        encode(marked(false), command, &block, b"", MAX_SLICE).err()
    };
    let second = Some(Refusal { code: 53, index: 1 });
    for command in [5, 6] {
        assert_eq!(refused(command, b"n", b"a:b"), None);
        for (name, value) in [
            ("n:", "v"),
            (":", ""),
            ("n\n", "v"),
            ("n", "\r"),
            ("n", ":\n"),
        ] {
            let refusal = refused(command, name.as_bytes(), value.as_bytes());
            assert_eq!(refusal, second);
        }
    }
    assert_eq!(refused(13, b"n:", b":\r\n"), None);
}

#[test]
fn only_whole_frames_are_decoded() {
    let behind = [P6, b"\n"].concat();
    for row in [&b""[..], b"\n", &P6[1..], &P6[..P6.len() - 1], &behind] {
        for version in BOTH {
            assert_eq!(decode(version, row), None);
        }
    }
}

#[test]
fn examples_are_rewritten() {
    let stream = [b"\r\n", P6, b"\n", P7, b"SENT"].concat();
    let p6 = b"SEND\ndestination:/p\ncontent-length:2\n\nok\0";
    let rewrite = |stream: &[u8], counted| rewrite(stream, marked(counted));
    for (counted, p6) in [(false, P6), (true, &p6[..])] {
        let rewritten = rewrite(&stream, counted);
        assert_eq!(rewritten.octets, [b"\n", p6, b"\n", P7].concat());
        assert_eq!(complaint(&rewritten), "rewrite: 41 refused 1 3\n");
        let more = rewrite(b"\nACK\n", counted);
        assert_eq!(complaint(&more), "rewrite: 1 more\n");
        assert_eq!(complaint(&rewrite(b"", counted)), "");
    }
    let full = [b"SEND\n", &b"a:\n".repeat(32)[..], b"\nb\0\n"].concat();
    let stream = [b"\r\n", &full[..]].concat();
    let without = rewrite(&stream, false);
    assert_eq!(without.octets, [b"\n", &full[..]].concat());
    assert_eq!(complaint(&without), "");
    let with = rewrite(&stream, true);
    assert_eq!(with.octets, b"\n");
    assert_eq!(complaint(&with), "rewrite: 2 unwritten 52\n");
}

/// C-16's line, as document 02 and the issue of it have it: the answers of the fixed calls.
#[test]
fn a_line_is_added_where_it_is_needed_or_asked_for() {
    let answer = |options, command, entries, body: &[u8]| {
        let block = block::write(&vec![Entry::new(b"a", b"1"); entries]);
        let body = body.to_vec();
        let room = MAX_SLICE;
        let call = Call {
            options,
            command,
            block,
            body,
            room,
        };
        Reply::of(&call).answer
    };
    let refused = |code: usize| 65_536 * code;
    for (body, plain, counted) in [
        (&b""[..], 7, 7),
        (b"ok", 9, 26),
        (b"\0ok", 27, 27),
        (b"ok\0", 27, 27),
        (b"\0", 25, 25),
    ] {
        for version in [0, 2] {
            assert_eq!(answer(version, 12, 0, body), plain);
            assert_eq!(answer(version + 1, 12, 0, body), counted);
            assert_eq!(answer(u32::MAX - 3 + version, 12, 0, body), plain);
            assert_eq!(answer(u32::MAX - 2 + version, 12, 0, body), counted);
        }
    }
    assert_eq!(answer(0, 12, 32, b"x"), 8 + 4 * 32);
    assert_eq!(answer(1, 12, 32, b"x"), refused(52));
    assert_eq!(answer(0, 2, 32, b"x"), refused(54));
    assert_eq!(answer(1, 2, 32, b"x"), refused(52));
    for command in [2, 12] {
        for options in [0, 1] {
            assert_eq!(answer(options, command, 32, b"\0"), refused(52));
        }
    }
}

/// Small frames put together by the grammar: written again they are as they were, but for line ends
/// and the added line.
#[test]
fn small_frames_are_written_again() {
    for version in BOTH {
        for command in small_commands() {
            let tails =
                |small| (2..=7).flat_map(move |length| tails(version, small, command, length));
            let wide = super::tails(version, &WIDE, command, 8);
            for tail in tails(&SMALL)
                .chain(tails(&RETURNS))
                .chain(tails(&WIDE))
                .chain(wide)
            {
                let frame = [command.name(), b"\n", &tail].concat();
                is_written_again(version, &frame);
            }
        }
    }
}

fn is_written_again(version: Version, frame: &[u8]) {
    let content = decode(version, frame).expect("a frame");
    let with = |counted| Options { counted, version };
    let image = encoded_with(&content, with(true)).expect("an image");
    assert_eq!(decode(version, &image), Some(with_length(&content, true)));
    let plain = encoded_with(&content, with(false)).expect("an image");
    assert_eq!(decode(version, &plain), Some(content.clone()));
    if content.body.is_empty() {
        let mut line_ends = frame.to_vec();
        line_ends.retain(|&octet| version == V1_1 || octet != 13);
        assert_eq!(image, line_ends);
        assert_eq!(plain, line_ends);
    }
}

/// Of all rows of up to 8 octets, made of the tag's and of the lengths 0 and 1, the well-formed ones
/// are those put together from records; a second record would not fit in.
#[test]
fn blocks_are_rows_of_records() {
    let octets: Vec<Vec<u8>> = [0, 1, 68, 72].iter().map(|&octet| vec![octet]).collect();
    let mut rows = vec![vec![Vec::new()]];
    for length in 0..8 {
        let longer = product(&rows[length], &octets);
        rows.push(longer);
    }
    let mut made: HashSet<Vec<u8>> = HashSet::new();
    made.insert(Vec::new());
    for (name, value) in [(0, 0), (0, 1), (1, 0), (1, 1)] {
        for text in &rows[name + value] {
            let lengths = [72, 68, 0, name as u8, 0, value as u8];
            made.insert([&lengths[..], text].concat());
        }
    }
    for row in rows.iter().flatten() {
        let entries = block::read(row);
        assert_eq!(entries.is_some(), made.contains(row), "{row:?}");
        if let Some(entries) = entries {
            assert_eq!(&block::write(&entries), row);
        }
    }
}

/// A call with every reason to be refused, mended one reason after another.
#[test]
fn refusals_come_in_order() {
    let wrong = Entry::new(CONTENT_LENGTH, b"2");
    let mut entries = vec![Entry::new(b"a", b"v"); 32];
    entries[7] = Entry::new(b"", b"v");
    entries[8] = Entry::new(b"", b"v");
    entries.push(wrong);
    let trailing = |entries: &[Entry]| [&block::write(entries)[..], b"\0"].concat();
    let answer =
        |command, block: &[u8], body: &[u8], room| encode(marked(true), command, block, body, room);
    let code = |code, index| Err(Refusal { code, index });
    assert_eq!(answer(16, &trailing(&entries), b"b", 0), code(50, 0));
    assert_eq!(answer(2, &trailing(&entries), b"b", 0), code(51, 0));
    assert_eq!(answer(2, &block::write(&entries), b"b", 0), code(52, 0));
    entries.remove(0);
    assert_eq!(answer(2, &block::write(&entries), b"b", 0), code(53, 6));
    entries[6] = Entry::new(b"a", b"v");
    assert_eq!(answer(2, &block::write(&entries), b"b", 0), code(53, 7));
    entries[7] = Entry::new(b"a", b"v");
    assert_eq!(answer(2, &block::write(&entries), b"b", 0), code(54, 0));
    assert_eq!(answer(12, &block::write(&entries), b"b", 0), code(55, 0));
    entries[31] = Entry::new(CONTENT_LENGTH, b"001");
    let block = block::write(&entries);
    assert_eq!(answer(12, &block, b"b", 0), code(56, 0));
    let image = [
        b"SEND\n",
        &b"a:v\n".repeat(31)[..],
        b"content-length:001\n\nb\0",
    ]
    .concat();
    assert_eq!(answer(12, &block, b"b", image.len()), Ok(image));
}

/// Whether a refusal's own reason holds, asked by way of reading; those from 52 on are asked only where
/// there is a command and the block is well formed.
fn holds(call: &Call, code: usize) -> bool {
    if code < 52 {
        return match code {
            50 => !(1..=15).contains(&call.command),
            _ => block::read(&call.block).is_none(),
        };
    }
    let content = content(call);
    let command = content.command;
    let mut lengths = content.entries.iter();
    let length = lengths.find(|entry| entry.name == CONTENT_LENGTH);
    match code {
        52 => {
            with_length(&content, call.asked_for().counted)
                .entries
                .len()
                > 32
        }
        53 => first_unreadable(call.asked_for().version, &content).is_some(),
        54 => call.body.len() > 32_768 || (!command.has_body() && !call.body.is_empty()),
        55 => length
            .is_some_and(|entry| content_length(command, &entry.value) != Some(call.body.len())),
        _ => image(&content, call.asked_for()).len() > call.room,
    }
}

/// What encoding answers to a call, with that much room.
fn answer(call: &Call, room: usize) -> Result<Vec<u8>, Refusal> {
    let options = call.asked_for();
    encode(options, call.command, &call.block, &call.body, room)
}

fn content(call: &Call) -> Content {
    Content {
        command: Command::numbered(call.command).expect("a command"),
        entries: block::read(&call.block).expect("a well-formed block"),
        body: call.body.clone(),
    }
}

/// The index of the first entry whose raw line is no header line, or that of another entry.
fn first_unreadable(version: Version, content: &Content) -> Option<usize> {
    let command = content.command;
    let text = |raw: &[u8]| decoded_text(version, command, raw);
    let is_read = |entry: &Entry| {
        let line = line(version, command, entry);
        let read = header_line(version, command, &line);
        read.map(|(name, value)| (text(name), text(value)))
            == Some((entry.name.clone(), entry.value.clone()))
    };
    content.entries.iter().position(|entry| !is_read(entry))
}

/// The first reason that holds gives the answer, and all answers come up.
#[test]
fn calls_are_refused_for_the_first_reason() {
    let mut random = Random::new(3);
    let mut answers = BTreeSet::new();
    for _ in 0..8_000 {
        let call = calls::call(&mut random);
        let answer = answer(&call, call.room);
        let refusal = answer.err();
        let code = refusal.map(|refusal| refusal.code);
        assert_eq!(code, (50..=56).find(|&code| holds(&call, code)));
        let version = call.asked_for().version;
        if let Some(Refusal { code: 53, index }) = refusal {
            assert_eq!(Some(index), first_unreadable(version, &content(&call)));
        }
        answers.insert((version, code));
    }
    let codes = || (50..=56).map(Some).chain([None]);
    let all = BOTH.map(|version| codes().map(|code| (version, code)).collect::<Vec<_>>());
    assert_eq!(answers, all.concat().into_iter().collect());
}

/// What is written is read again with nothing but the added line; what is refused with 52 to 55 is in
/// no frame, so that its image would not be read so.
#[test]
fn images_are_read_again() {
    let mut random = Random::new(4);
    for _ in 0..5_000 {
        let call = calls::call(&mut random);
        let answer = answer(&call, MAX_SLICE);
        let refusal = answer.as_ref().map_or_else(|refusal| refusal.code, |_| 0);
        if refusal == 50 || refusal == 51 {
            continue;
        }
        let content = content(&call);
        let Options { counted, version } = call.asked_for();
        let image = image(&content, call.asked_for());
        let read = decode(version, &image) == Some(with_length(&content, counted));
        assert_eq!(read, refusal == 0);
        if read {
            assert_eq!(answer, Ok(image));
        }
    }
}

/// "A frame that was read and is written again is refused only with 52", and that only with the mark, where both
/// are done in one version; what was written is written again as it is.
#[test]
fn streams_are_rewritten_once() {
    let mut random = Random::new(5);
    for round in 0..3_000 {
        let stream = streams::stream_to_rewrite(&mut random, BOTH[round % 2]);
        for counted in [false, true] {
            for version in BOTH {
                is_rewritten_once(&stream, Options { counted, version });
            }
        }
    }
}

fn is_rewritten_once(stream: &[u8], options: Options) {
    let rewritten = rewrite(stream, options);
    if let Stop::Unwritten { code } = rewritten.stop {
        assert_eq!((code, options.counted), (52, true));
    }
    let again = rewrite(&rewritten.octets, options);
    assert_eq!(again.stop, Stop::End);
    assert_eq!(again.octets, rewritten.octets);
    assert_eq!(again.items.len(), rewritten.items.len());
}
