//! The fixed streams: the examples of document 01, the limits and one octet past them, the decided
//! readings, each number at each kind of place, the specification's frames, and what document 02's
//! requests add, in their order.

use crate::item::{COMMANDS, MAX_BODY, MAX_LINE, MAX_LINES};
use crate::listing;
use crate::specification as spec;
use std::fs;
use std::io::{self, Write};
use std::path::Path;

/// A stream with its name.
type Vector = (&'static str, Vec<u8>);

/// Writes the streams as files, numbered in this order. What is new goes to the end, so that a stream
/// keeps its number.
pub fn make(folder: &Path) -> io::Result<()> {
    fs::create_dir_all(folder)?;
    for (index, (name, stream)) in all().iter().enumerate() {
        fs::write(folder.join(format!("{:02}-{name}", index + 1)), stream)?;
    }
    Ok(())
}

/// Writes the listing of each file of a folder under its name, in the order of the numbers that the
/// names begin with.
pub fn write_listings(folder: &Path) -> io::Result<()> {
    let mut names = Vec::new();
    for entry in fs::read_dir(folder)? {
        names.push(entry?.file_name().to_string_lossy().into_owned());
    }
    names.sort_by_key(|name| (number(name), name.clone()));
    let mut output = io::stdout().lock();
    for name in names {
        let stream = fs::read(folder.join(&name))?;
        write!(output, "# {name}\n{}", listing::of(&stream))?;
    }
    Ok(())
}

/// The number that a file's name begins with, if it does.
fn number(name: &str) -> Option<usize> {
    name.split('-').next()?.parse().ok()
}

fn all() -> Vec<Vector> {
    [
        examples(),
        lines(),
        bodies(),
        content_lengths(),
        line_end_readings(),
        owing_readings(),
        text_readings(),
        kinds(),
        refusals(),
        unfinished(),
        specification(),
        spoiled_lines(),
        connect_colons(),
        characters(),
        broken_characters(),
        characters_at_limits(),
    ]
    .concat()
}

fn join(parts: &[&[u8]]) -> Vec<u8> {
    parts.concat()
}

/// The same octet so many times.
fn run(octet: u8, times: usize) -> Vec<u8> {
    vec![octet; times]
}

/// ACK with one header line, then all that ends a frame.
fn ack(line: &[u8]) -> Vec<u8> {
    join(&[b"ACK\n", line, b"\n\n\0"])
}

/// Document 01, "Checked examples": P1 to P13, P6 written again, and the listing's own example.
fn examples() -> Vec<Vector> {
    let p6 = b"SEND\ndestination:/p\n\nok\0".to_vec();
    let p6_again = b"SEND\ndestination:/p\ncontent-length:2\n\nok\0".to_vec();
    let p7 = b"ACK\nid:a\\cb\n\n\0".to_vec();
    let listed = join(&[b"\n", &p7, b"SENT"]);
    vec![
        ("nothing", b"".to_vec()),
        ("beat", b"\n".to_vec()),
        ("beat-crlf", b"\r\n".to_vec()),
        ("13-then-s", b"\rS".to_vec()),
        ("sent", b"SENT".to_vec()),
        ("send", p6),
        ("send-written-again", p6_again),
        ("escape", p7),
        ("wrong-escape", b"ACK\nid:a\\t".to_vec()),
        ("body-of-ack", b"ACK\n\nx".to_vec()),
        ("length-and-nul", b"SEND\ncontent-length:1\n\n\0\0".to_vec()),
        ("length-32769", b"SEND\ncontent-length:32769".to_vec()),
        ("length-of-ack", b"ACK\ncontent-length:1".to_vec()),
        ("repeated", b"MESSAGE\nrun:b\nrun:a\n\n\0".to_vec()),
        ("listing-example", listed),
    ]
}

/// A header line of so many octets.
fn line_of(length: usize) -> Vec<u8> {
    join(&[b"name:", &run(b'v', length - 5)])
}

/// ACK and so many header lines, without the empty line.
fn ack_with_lines(count: usize) -> Vec<u8> {
    join(&[b"ACK\n", &b"a:\n".repeat(count)])
}

/// The limits of lines.
fn lines() -> Vec<Vector> {
    let all_lines = ack_with_lines(MAX_LINES);
    vec![
        ("line-512", ack(&line_of(MAX_LINE))),
        (
            "line-512-crlf",
            join(&[b"ACK\r\n", &line_of(MAX_LINE), b"\r\n\r\n\0"]),
        ),
        ("line-513", ack(&line_of(MAX_LINE + 1))),
        ("name-511", ack(&join(&[&run(b'n', MAX_LINE - 1), b":"]))),
        ("name-512", ack(&join(&[&run(b'n', MAX_LINE), b":"]))),
        ("lines-32", join(&[&all_lines, b"\n\0"])),
        ("lines-33", join(&[&all_lines, b"a:\n\n\0"])),
    ]
}

/// The longest frame: a command that may have a body, and line ends of two octets. Its lines differ.
fn longest() -> Vec<u8> {
    let mut frame = b"MESSAGE\r\n".to_vec();
    for index in 0..MAX_LINES {
        let line = format!("header-{index:02}:");
        frame.extend_from_slice(line.as_bytes());
        frame.extend(run(b'v', MAX_LINE - line.len()));
        frame.extend_from_slice(b"\r\n");
    }
    join(&[&frame, b"\r\n", &run(b'b', MAX_BODY), b"\0"])
}

/// The limits of bodies, and the longest frame with unfinished beginnings of it.
fn bodies() -> Vec<Vector> {
    let body = run(b'b', MAX_BODY);
    let declared = b"SEND\ncontent-length:32768\n\n";
    let nuls = run(0, MAX_BODY);
    let longest = longest();
    let body_start = longest.len() - MAX_BODY - 1;
    let all_but_last = &longest[..longest.len() - 1];
    vec![
        ("body-32768", join(&[b"SEND\n\n", &body, b"\0"])),
        ("body-32769", join(&[b"SEND\n\n", &body, b"b\0"])),
        ("length-body-32768", join(&[declared, &nuls, b"\0\n"])),
        ("length-body-32769", join(&[declared, &nuls, b"b\0"])),
        ("longest", longest.clone()),
        ("longest-but-one", all_but_last.to_vec()),
        ("longest-body-start", longest[..body_start].to_vec()),
        ("longest-in-line", longest[..body_start - 9].to_vec()),
        ("longest-without-nul", join(&[all_but_last, b"b"])),
    ]
}

/// A content-length line of SEND with so many digits.
fn digits(count: usize, last: &[u8]) -> Vec<u8> {
    join(&[
        b"SEND\ncontent-length:",
        &run(b'0', count - last.len()),
        last,
    ])
}

/// What content-length may say, and where it decides.
fn content_lengths() -> Vec<Vector> {
    let later: &[u8] = b"SEND\ncontent-length:2\ncontent-length:\ncontent-length:x\n\nok\0";
    let other: &[u8] = b"SEND\nContent-Length:x\ncontent-lengthy:x\n\nok\0";
    let frames: &[u8] = b"ACK\ncontent-length:000\n\n\0CONNECT\ncontent-length:0\n\n\0";
    vec![
        (
            "length-497-digits",
            join(&[&digits(497, b"2"), b"\n\nok\0"]),
        ),
        (
            "length-498-digits",
            join(&[&digits(498, b"2"), b"\n\nok\0"]),
        ),
        (
            "length-497-large",
            join(&[&digits(497, b"32769"), b"\n\nok\0"]),
        ),
        (
            "length-zeros",
            b"SEND\ncontent-length:0003\n\n\0\r\n\0".to_vec(),
        ),
        ("length-later", later.to_vec()),
        ("length-other-names", other.to_vec()),
        ("length-without-body", frames.to_vec()),
        (
            "length-of-connect",
            b"CONNECT\ncontent-length:01\n\n\0".to_vec(),
        ),
        (
            "length-no-digit",
            b"MESSAGE\ncontent-length:\n\n\0".to_vec(),
        ),
        ("length-0-body", b"SEND\ncontent-length:0\n\nb\0".to_vec()),
    ]
}

/// Decided readings about 13 and line ends, and about the 33rd line.
fn line_end_readings() -> Vec<Vector> {
    let all_lines = ack_with_lines(MAX_LINES);
    vec![
        (
            "13-in-body-then-x",
            b"SEND\ncontent-length:1\n\n\rx".to_vec(),
        ),
        (
            "13-in-body-then-10",
            b"SEND\ncontent-length:1\n\n\r\n".to_vec(),
        ),
        ("13-before-colon", b"ACK\nid\r\n".to_vec()),
        ("13-after-backslash", b"ACK\nid:a\\\r\n".to_vec()),
        ("13-no-digit", b"SEND\ncontent-length:\r\n".to_vec()),
        ("sen-10", b"SEN\n".to_vec()),
        ("sen-13", b"SEN\r\n".to_vec()),
        ("33rd-13-10", join(&[&all_lines, b"\r\n\0"])),
        ("33rd-13-x", join(&[&all_lines, b"\rx"])),
        ("33rd-colon", join(&[&all_lines, b":"])),
    ]
}

/// Decided readings about what a line owes, near its 512th octet.
fn owing_readings() -> Vec<Vector> {
    let name = run(b'n', MAX_LINE);
    let value = line_of(MAX_LINE);
    let connect = join(&[b"CONNECT", &digits(496, b"")[4..]]);
    vec![
        ("length-512-backslash", join(&[&digits(496, b""), b"\\"])),
        ("length-511-backslash", join(&[&digits(495, b""), b"\\"])),
        ("connect-512-backslash", join(&[&connect, b"\\"])),
        ("name-511-backslash", ack(&join(&[&name[..510], b"\\c:"]))),
        ("name-510-backslash", ack(&join(&[&name[..509], b"\\c:"]))),
        ("value-512-backslash", ack(&join(&[&value[..511], b"\\c"]))),
        ("value-511-backslash", ack(&join(&[&value[..510], b"\\c"]))),
        ("length-513-colon", join(&[&digits(497, b""), b":"])),
        ("name-512-10", ack(&name[..511])),
    ]
}

/// Decided readings about colons, backslashes and spaces.
fn text_readings() -> Vec<Vector> {
    vec![
        ("length-colon", b"SEND\ncontent-length:1:".to_vec()),
        ("backslash-colon", b"ACK\nid\\:a\n".to_vec()),
        ("backslash-10", b"ACK\nid:a\\\n".to_vec()),
        (
            "length-space",
            b"SEND\ncontent-length: 5\n\nhello\0".to_vec(),
        ),
        (
            "connect-length-space",
            b"CONNECT\ncontent-length: 0\n\n\0".to_vec(),
        ),
    ]
}

/// A frame of every command, in the order of the numbers.
fn commands() -> Vec<u8> {
    let frame = |name: &&[u8]| join(&[name, b"\nid:1\n\n\0"]);
    COMMANDS.iter().flat_map(frame).collect()
}

/// Every command, escapes where there are none, octet 0 in text, line ends and heart-beats.
fn kinds() -> Vec<Vector> {
    let raw: &[u8] = b"CONNECT\na\\:\\t\n\\:\\\n\n\0CONNECTED\nb\\c:\\\\\\\r\n\n\0";
    let stomp: &[u8] = b"STOMP\n\\c\\n\\r\\\\:\\\\c\n\n\0";
    let beats: &[u8] = b"\n\r\n\nACK\n\n\0\n\r\n\r\nSEND\n\nb\0RECEIPT\n\n\0\r\n\n";
    vec![
        ("every-command", commands()),
        ("connect-backslashes", raw.to_vec()),
        ("stomp-escapes", stomp.to_vec()),
        ("stomp-wrong-escape", b"STOMP\na\\t:b\n\n\0".to_vec()),
        (
            "nul-in-text",
            b"ACK\n\0:\0\na\0b:\0\0c\n\n\0SEND\n\0\0:\n\n\0".to_vec(),
        ),
        ("crlf", b"SEND\r\na:b\r\nc:d\r\n\r\nx\r\ny\0\r\n".to_vec()),
        (
            "line-ends-mixed",
            b"SEND\r\na:b\nc:d\r\n\n\r\n\0ACK\na:b\r\n\r\n\0".to_vec(),
        ),
        ("beats", beats.to_vec()),
        ("nothing-trimmed", b"ACK\n a : b \nempty:\n\n\0".to_vec()),
    ]
}

/// The numbers at kinds of place that are not above.
fn refusals() -> Vec<Vector> {
    vec![
        ("1-at-start", b"\nsend\n".to_vec()),
        ("1-after-command", b"ACK\n\n\0CONNECTx".to_vec()),
        ("2-after-command", b"SEND\rx".to_vec()),
        ("2-after-line", b"ACK\nid:a\r\r\n".to_vec()),
        ("2-in-empty-line", b"ACK\nid:a\n\r:".to_vec()),
        ("3-empty-name", b"ACK\n:a\n\n\0".to_vec()),
        ("9-no-colon", b"ACK\r\nid\n\n\0".to_vec()),
        ("8-second-colon", b"ACK\nid:a:b\n\n\0".to_vec()),
        ("7-after-crlf", b"RECEIPT\r\n\r\n\n".to_vec()),
    ]
}

/// Unfinished items: the last of each stream could still go on.
fn unfinished() -> Vec<Vector> {
    vec![
        ("more-13", b"\n\r".to_vec()),
        ("more-command", b"ACK\n\n\0UNSUB".to_vec()),
        ("more-escape", b"\nACK\nid\\".to_vec()),
        ("more-empty-line", b"ACK\nid:a\r\n\r".to_vec()),
        ("more-length", b"ACK\ncontent-length:".to_vec()),
        ("more-body", b"SEND\ncontent-length:3\n\n\0\0\0".to_vec()),
    ]
}

/// The frames of document 004: the whole ones, those that are not whole as they are printed, and
/// these mended.
fn specification() -> Vec<Vector> {
    vec![
        ("spec-frames", spec::octets(spec::FRAMES)),
        ("spec-picture", spec::octets(spec::PICTURE)),
        ("spec-heart-beats", spec::octets(spec::HEART_BEATS)),
        ("spec-disconnect", spec::octets(spec::DISCONNECT)),
        ("spec-receipt", spec::octets(spec::RECEIPT)),
        ("spec-error", spec::octets(spec::ERROR)),
        ("spec-mended", spec::mended()),
    ]
}

/// Document 02, C-11: which number is given where several fit one octet of a header line. The streams
/// above have the other cases of it.
fn spoiled_lines() -> Vec<Vector> {
    vec![
        ("value-backslash-colon", b"ACK\nid:a\\:b\n\n\0".to_vec()),
        ("name-backslash-10", b"ACK\nid\\\n\n\0".to_vec()),
        ("name-backslash-13", b"ACK\nid\\\r\n\n\0".to_vec()),
        ("value-513-colon", ack(&join(&[&line_of(MAX_LINE), b":"]))),
        ("name-13", b"ACK\na\r".to_vec()),
    ]
}

/// CONNECT with one header line, then all that ends a frame.
fn connect(line: &[u8]) -> Vec<u8> {
    join(&[b"CONNECT\n", line, b"\n\n\0"])
}

/// Document 02, C-12: later colons of a line belong to the value in CONNECT and CONNECTED, and only there.
fn connect_colons() -> Vec<Vector> {
    let colons = |count| connect(&join(&[b"a:", &run(b':', count)]));
    let later: &[u8] = b"content-length:0\ncontent-length:0:";
    vec![
        ("connect-colon", connect(b"passcode:a:b")),
        ("connect-two-colons", connect(b"passcode:a:b:c")),
        ("connect-only-colons", connect(b"passcode::::")),
        ("connect-510-colons", colons(MAX_LINE - 2)),
        ("connect-511-colons", colons(MAX_LINE - 1)),
        (
            "connect-513-colon",
            connect(&join(&[&line_of(MAX_LINE), b":"])),
        ),
        ("connect-backslash-colon", connect(b"passcode:\\:\\c")),
        ("connect-empty-name", connect(b"::a")),
        ("connect-length-colon", connect(b"content-length:0:")),
        ("connect-later-length-colon", connect(later)),
        ("connected-colon", b"CONNECTED\nsession:a:b\n\n\0".to_vec()),
        ("stomp-second-colon", b"STOMP\npasscode:a:b\n\n\0".to_vec()),
    ]
}

/// Document 02, C-17: characters of two, three and four octets, in names and values, also beside escapes; the
/// first and the last of each length; U+FEFF, U+FFFE and octet 0; a body that is not UTF-8; cut by the end.
fn characters() -> Vec<Vector> {
    let edges: &[u8] =
        b"\xc2\x80\xdf\xbf:\xe0\xa0\x80\xef\xbf\xbf\n\xf0\x90\x80\x80:\xf4\x8f\xbf\xbf";
    let escapes: &[u8] = b"\\c\xc3\xa9\\n:\xf0\x9f\x98\x80\\\\\xe2\x82\xac\\r";
    vec![
        ("character-2", ack("id:\u{e9}".as_bytes())),
        ("character-3", ack("\u{20ac}:1".as_bytes())),
        ("character-4", ack("id:a\u{1f600}b".as_bytes())),
        ("characters-first-last", ack(edges)),
        ("characters-escapes", ack(escapes)),
        (
            "characters-connect",
            connect(b"\\\xc3\xa9:\\\xc3\xa9:\xe2\x82\xac"),
        ),
        (
            "characters-beside-surrogates",
            ack(b"id:\xed\x9f\xbf\xee\x80\x80"),
        ),
        (
            "characters-feff-fffe-0",
            ack(b"\xef\xbb\xbf:\xef\xbf\xbe\0"),
        ),
        (
            "characters-in-body",
            b"SEND\n\n\xff\xc3\x80\0SEND\ncontent-length:2\n\n\xc3\0\0".to_vec(),
        ),
        ("more-character-2", b"ACK\nid:\xc3".to_vec()),
        ("more-character-3", b"ACK\n\xe2\x82".to_vec()),
        ("more-character-4", b"ACK\nid:\xf0\x9f\x98".to_vec()),
    ]
}

/// What is no character: 11, and where another number fits the octet too.
fn broken_characters() -> Vec<Vector> {
    let rows: [(&'static str, &[u8]); 24] = [
        ("11-ff", b"id:\xff"),
        ("11-tail", b"\x80:"),
        ("11-c1", b"id:\xc1\xbf"),
        ("11-f5", b"id:\xf5\x80\x80\x80"),
        ("11-overlong-3", b"id:\xe0\x9f\xbf"),
        ("11-overlong-4", b"id:\xf0\x8f\xbf\xbf"),
        ("11-surrogate", b"id:\xed\xa0\x80"),
        ("11-beyond", b"id:\xf4\x90\x80\x80"),
        ("11-second", b"id:\xe2a"),
        ("11-third", b"id:\xe2\x82\xff"),
        ("11-fourth", b"id:\xf0\x9f\x98\xc3"),
        ("11-colon-in-name", b"i\xc3:"),
        ("11-colon-in-value", b"id:\xc3:"),
        ("11-10-in-name", b"i\xc3"),
        ("11-10-in-value", b"id:\xe2\x82"),
        ("11-13-in-value", b"id:\xe2\x82\r"),
        ("11-backslash-in-value", b"id:\xc3\\n"),
        ("11-after-backslash", b"id:\\\xff"),
        ("10-character-after-backslash", b"id:\\\xc3\xa9"),
        ("2-ff-after-13", b"id:a\r\xff"),
        ("11-in-length", b"content-length:\xff"),
        ("6-character-in-length", b"content-length:\xc3\xa9"),
        ("7-ff-for-nul", b"\n\xff"),
        ("11-later-length", b"content-length:0\ncontent-length:\xff"),
    ];
    let mut all: Vec<Vector> = rows.iter().map(|&(name, line)| (name, ack(line))).collect();
    all.push(("1-ff-in-command", b"AC\xff".to_vec()));
    all
}

/// Characters at the 512th octet of a line, and as a 33rd line.
fn characters_at_limits() -> Vec<Vector> {
    let value = line_of(MAX_LINE);
    let name = run(b'n', MAX_LINE);
    let tail = |line: &[u8], count: usize, end: &[u8]| ack(&join(&[&line[..count], end]));
    let all_lines = ack_with_lines(MAX_LINES);
    vec![
        ("value-511-character", tail(&value, 510, b"\xc3\xa9")),
        ("value-512-character", tail(&value, 511, b"\xc3\xa9")),
        ("value-510-character-3", tail(&value, 509, b"\xe2\x82\xac")),
        ("value-511-character-3", tail(&value, 510, b"\xe2\x82\xac")),
        (
            "value-509-character-4",
            tail(&value, 508, b"\xf0\x9f\x98\x80"),
        ),
        (
            "value-510-character-4",
            tail(&value, 509, b"\xf0\x9f\x98\x80"),
        ),
        ("name-510-character", tail(&name, 509, b"\xc3\xa9:")),
        ("name-511-character", tail(&name, 510, b"\xc3\xa9:")),
        ("value-513-ff", tail(&value, 512, b"\xff")),
        ("value-513-tail", tail(&value, 512, b"\x80")),
        ("value-513-character", tail(&value, 512, b"\xc3\xa9")),
        ("name-512-ff", tail(&name, 511, b"\xff")),
        ("length-512-character", join(&[&digits(496, b""), b"\xc3"])),
        ("length-511-character", join(&[&digits(495, b""), b"\xc3"])),
        ("33rd-ff", join(&[&all_lines, b"\xff"])),
        ("33rd-character", join(&[&all_lines, b"\xc3\xa9:"])),
    ]
}
