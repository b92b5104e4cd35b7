//! The fixed calls of the encoder: document 01's P6, one for each refusal and its edge, C-16's line without
//! the mark and with it, C-17's characters, and C-18's 13.

use crate::block::{self, Entry};
use crate::encode_calls::{Call, COUNTED};
use crate::item::CONTENT_LENGTH;
use crate::version::OPTION;

const ACK: u32 = 2;
const CONNECT: u32 = 5;
const CONNECTED: u32 = 6;
const SEND: u32 = 12;
const STOMP: u32 = 13;

/// The octets of the calls.
pub fn calls() -> Vec<u8> {
    all().iter().flat_map(Call::octets).collect()
}

/// The calls, in groups.
fn all() -> Vec<Call> {
    [
        again(),
        refused(),
        opening(),
        bodies(),
        lines(),
        other_options(),
        characters(),
        broken_characters(),
        carriage_returns(),
        longest_in_both(),
        marks_in_1_1(),
    ]
    .concat()
}

/// A call with the mark, as all were before C-16.
fn counted(command: u32, block: &[u8], body: &[u8], room: usize) -> Call {
    Call {
        options: COUNTED,
        command,
        block: block.to_vec(),
        body: body.to_vec(),
        room,
    }
}

/// The same without.
fn plain(command: u32, block: &[u8], body: &[u8], room: usize) -> Call {
    Call {
        options: 0,
        ..counted(command, block, body, room)
    }
}

/// Both.
fn both(command: u32, block: &[u8], body: &[u8], room: usize) -> [Call; 2] {
    [
        plain(command, block, body, room),
        counted(command, block, body, room),
    ]
}

fn destination() -> Entry {
    Entry::new(b"destination", b"/p")
}

/// The block of P6.
fn p6() -> Vec<u8> {
    block::write(&[destination()])
}

/// P6 written again: room for three octets more, for all and for all but one.
fn again() -> Vec<Call> {
    let with_mark = [44, 41, 40].map(|room| counted(SEND, &p6(), b"ok", room));
    let without = [27, 24, 23].map(|room| plain(SEND, &p6(), b"ok", room));
    [with_mark, without].concat()
}

/// Each refusal: 50 twice, 51, 52, 53, 54 and 55, and the length with a zero before it.
fn refused() -> Vec<Call> {
    let cut = &p6()[..18];
    let nameless = [destination(), Entry::new(b"", b"1")];
    let length = |value| block::write(&[destination(), Entry::new(CONTENT_LENGTH, value)]);
    vec![
        counted(0, &p6(), b"ok", 44),
        counted(16, &p6(), b"ok", 44),
        counted(SEND, cut, b"ok", 44),
        counted(SEND, &same(33), b"", 400),
        counted(SEND, &block::write(&nameless), b"ok", 64),
        counted(ACK, &block::write(&[Entry::new(b"id", b"12")]), b"ok", 32),
        counted(SEND, &length(b"3"), b"ok", 64),
        counted(SEND, &length(b"02"), b"ok", 46),
    ]
}

/// That many entries.
fn same(count: usize) -> Vec<u8> {
    block::write(&vec![Entry::new(b"a", b"1"); count])
}

/// A colon in a value and in a name of CONNECT, and in a value of STOMP.
fn opening() -> Vec<Call> {
    let with = |name: &[u8], value: &[u8]| {
        let version = Entry::new(b"accept-version", b"1.2");
        block::write(&[version, Entry::new(name, value)])
    };
    vec![
        counted(CONNECT, &with(b"host", b"a:b"), b"", 64),
        counted(CONNECT, &with(b"ho:st", b"ab"), b"", 64),
        counted(STOMP, &with(b"host", b"a:b"), b"", 44),
    ]
}

/// No body, and bodies without octet 0, with one first, last, in the middle and alone; and one with a
/// content-length.
fn bodies() -> Vec<Call> {
    let bodies: [&[u8]; 6] = [b"", b"ok", b"\0ok", b"ok\0", b"o\0k", b"\0"];
    let counts = block::write(&[destination(), Entry::new(CONTENT_LENGTH, b"1")]);
    let mut calls: Vec<Call> = bodies
        .iter()
        .flat_map(|body| both(SEND, &p6(), body, 44))
        .collect();
    calls.extend(both(SEND, &counts, b"\0", 44));
    calls
}

/// As many lines as may be: one more is too many only where it is added. With ACK the body, which it may
/// not have, is asked for after that.
fn lines() -> Vec<Call> {
    let counts = [
        vec![Entry::new(b"a", b"1"); 31],
        vec![Entry::new(CONTENT_LENGTH, b"1")],
    ];
    let counts = block::write(&counts.concat());
    let mut calls = Vec::new();
    for body in [&b""[..], b"ok", b"\0", b"a\0"] {
        calls.extend(both(SEND, &same(32), body, 140));
    }
    calls.extend(both(SEND, &counts, b"\0", 160));
    for body in [b"x", b"\0"] {
        calls.extend(both(ACK, &same(32), body, 140));
    }
    calls
}

/// Bits that are not looked at, without the mark and with it.
fn other_options() -> Vec<Call> {
    let options = [4, 5, u32::MAX - 3, u32::MAX - 2];
    options
        .map(|options| Call {
            options,
            ..plain(SEND, &p6(), b"ok", 44)
        })
        .to_vec()
}

/// Characters of two, three and four octets, beside octets that are escaped and where there are no escapes;
/// a line of 512 octets that ends in one; a body that is not UTF-8.
fn characters() -> Vec<Call> {
    let entry = Entry::new("n\u{e9}:".as_bytes(), "\u{20ac}\n\u{1f600}\\".as_bytes());
    let raw = Entry::new("n\u{e9}\\".as_bytes(), "\u{20ac}:\u{1f600}".as_bytes());
    let longest = Entry::new(b"n", &[&[b'v'; 508][..], b"\xc3\xa9"].concat());
    vec![
        plain(SEND, &block::write(&[entry]), b"\xff\xc3", 44),
        plain(CONNECT, &block::write(&[raw]), b"", 44),
        plain(ACK, &block::write(&[longest]), b"", 520),
    ]
}

/// What is not UTF-8: a cut character in a value, octet 255 in the second name, a character half in the name
/// and half in the value, one that is longer than it has to be, a surrogate; more than 32 lines come before
/// that, and a body that is not allowed after it.
fn broken_characters() -> Vec<Call> {
    let with = |name: &[u8], value: &[u8]| block::write(&[destination(), Entry::new(name, value)]);
    let many = [vec![Entry::new(b"a", b"\xc3"); 33]].concat();
    vec![
        plain(
            SEND,
            &block::write(&[Entry::new(b"run", b"\xe2\x82")]),
            b"",
            44,
        ),
        plain(SEND, &with(b"\xff", b"1"), b"", 44),
        plain(SEND, &with(b"a\xc3", b"\xa9b"), b"", 44),
        plain(CONNECT, &with(b"a", b"\xc0\xaf"), b"", 44),
        plain(SEND, &with(b"a", b"\xed\xa0\x80"), b"", 44),
        plain(SEND, &block::write(&many), b"", 44),
        plain(ACK, &with(b"a", b"\x80"), b"ok", 44),
    ]
}

/// The call in 1.2 and in 1.1.
fn in_both(call: Call) -> [Call; 2] {
    let options = call.options | OPTION;
    let in_1_1 = Call {
        options,
        ..call.clone()
    };
    [call, in_1_1]
}

/// 13 in a name, in a value and alone, beside what is escaped in both versions; where there are no escapes it can
/// be written in 1.1 alone, and 10 in neither.
fn carriage_returns() -> Vec<Call> {
    let with = |name: &[u8], value: &[u8]| block::write(&[destination(), Entry::new(name, value)]);
    let blocks = [
        with(b"\r", b""),
        with(b"a\rb", b"\r\n:\\\r"),
        with(b"\\r", b"\\\r"),
        with(b"n", b"\xc3\r"),
        with(b"", b"\r"),
    ];
    let plainer = [
        with(b"\ra\r", b":\r\\"),
        with(b"a", b"\n\r"),
        with(b"a\n", b"\r"),
        with(b"a\r:", b""),
    ];
    let escaped = blocks.iter().flat_map(|block| {
        let commands = [SEND, STOMP, ACK];
        commands.map(|command| plain(command, block, b"", 60))
    });
    let raw = plainer.iter().flat_map(|block| {
        let commands = [CONNECT, CONNECTED];
        commands.map(|command| plain(command, block, b"", 60))
    });
    escaped.chain(raw).flat_map(in_both).collect()
}

/// Lines that have 512 octets in one of the versions; a 13 counts once in 1.1. The target has room for one, and
/// for one octet less.
fn longest_in_both() -> Vec<Call> {
    let with = |returns: usize, others: usize| {
        let value = [vec![b'\r'; returns], vec![b'v'; others]].concat();
        block::write(&[Entry::new(b"n", &value)])
    };
    let calls = [
        plain(ACK, &with(255, 0), b"", 520),
        plain(ACK, &with(255, 1), b"", 520),
        plain(ACK, &with(510, 0), b"", 520),
        plain(ACK, &with(511, 0), b"", 520),
        plain(ACK, &with(509, 1), b"", 518),
        plain(ACK, &with(3, 504), b"", 518),
        plain(ACK, &with(3, 504), b"", 517),
        plain(ACK, &with(3, 504), b"", 515),
        plain(ACK, &with(3, 504), b"", 514),
    ];
    calls.iter().cloned().flat_map(in_both).collect()
}

/// Both marks: a body without octet 0 and with it; bits that are not looked at.
fn marks_in_1_1() -> Vec<Call> {
    let block = block::write(&[Entry::new(b"\r", b"\r")]);
    let mut calls = Vec::new();
    for body in [&b""[..], b"o\rk", b"\0"] {
        for call in both(SEND, &block, body, 44) {
            calls.extend(in_both(call));
        }
    }
    calls.extend(
        [OPTION + 4, OPTION + COUNTED + (1 << 31), u32::MAX].map(|options| Call {
            options,
            ..plain(SEND, &block, b"ok", 44)
        }),
    );
    calls
}
