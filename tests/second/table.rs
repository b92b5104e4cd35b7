//! The table of refusals, document 01, "The judge's three replies", with row 3 divided by document 02's
//! C-11, and row 11 of its C-17: one predicate for each row, asked about the octet at the place. "At one
//! octet the order is 1, 2, 10, 3, 8, 9, 4 to 7", and 11 is "between 2 and 10", so the first row in that
//! order that fits gives the number. The rows are the same in both versions, over what each has as line end
//! and escapes.

use crate::characters;
use crate::item::{
    command_line, content_length, first_line, header_block, is_letter, Command, BACKSLASH, COLON,
    COMMANDS, CONTENT_LENGTH, CR, LF, MAX_BODY, MAX_LINE, MAX_LINES, NUL,
};
use crate::version::Version;

/// Where in an item the octet at the place stands.
pub enum Part<'a> {
    /// In the command or its line end, or at the item's start.
    Command,
    /// In a header line or its line end, or at the line's start: the whole lines before it, and what
    /// there is of the line itself.
    Line {
        command: Command,
        earlier: Vec<&'a [u8]>,
        line: &'a [u8],
    },
    /// In the body, or where octet 0 ends it: what content-length says, and the octets read.
    Body {
        command: Command,
        declared: Option<usize>,
        read: usize,
    },
}

/// The octet at the place with what stands before it in its item.
struct Place<'a> {
    version: Version,
    before: &'a [u8],
    octet: u8,
    part: Part<'a>,
}

impl Place<'_> {
    /// Whether the octet begins a line end of the version.
    fn ends_line(&self) -> bool {
        self.version.ends_line(self.octet)
    }
}

/// A row: its number, and whether it fits.
type Row = (usize, fn(&Place) -> bool);

/// How many numbers there are; they are those from 1 on.
pub const NUMBERS: usize = ROWS.len();

/// "At one octet the order is 1, 2, 10, 3, 8, 9, 4 to 7", and 11 "between 2 and 10".
const ROWS: [Row; 11] = [
    (1, leaves_no_command),
    (2, follows_13),
    (11, breaks_character),
    (10, spoils_escape),
    (3, leaves_name_empty),
    (8, is_second_colon),
    (9, ends_line_before_colon),
    (4, makes_line_too_long),
    (5, begins_line_too_many),
    (6, spoils_content_length),
    (7, stands_in_place_of_0),
];

/// The number of the refusal at an octet, where `before` can still be finished and cannot with the
/// octet behind it.
pub fn code(version: Version, before: &[u8], octet: u8) -> usize {
    let place = Place {
        version,
        before,
        octet,
        part: part_after(version, before),
    };
    let row = ROWS.iter().find(|(_, fits)| fits(&place));
    let (number, _) = row.expect("a row of the table fits every refused octet");
    *number
}

/// Finds the part of the item that the octet after `before` stands in, by whole lines.
pub fn part_after(version: Version, before: &[u8]) -> Part<'_> {
    let Some((command, start)) = command_line(version, before) else {
        return Part::Command;
    };
    let mut rest = &before[start..];
    if let Some(block) = header_block(version, command, rest) {
        let read = rest.len() - block.length;
        return Part::Body {
            command,
            declared: block.content_length,
            read,
        };
    }
    let mut earlier = Vec::new();
    while let Some((line, length)) = first_line(version, rest) {
        earlier.push(line);
        rest = &rest[length..];
    }
    Part::Line {
        command,
        earlier,
        line: rest,
    }
}

/// Whether a 13 that begins a line end is just before the place. In command and header lines of 1.2
/// every 13 does, in 1.1 none; in a body a 13 is an octet like any other.
fn after_13(place: &Place) -> bool {
    let in_body = matches!(place.part, Part::Body { .. });
    let begins_line_end = place.version.ends_line(CR);
    begins_line_end && !in_body && place.before.last() == Some(&CR)
}

/// "1 | leaves no command, and is not the start of a beat; never after a 13"
fn leaves_no_command(place: &Place) -> bool {
    if !matches!(place.part, Part::Command) || after_13(place) {
        return false;
    }
    let with = [place.before, &[place.octet]].concat();
    let begins = |name: &&[u8]| name.starts_with(&with);
    let ends = place.ends_line() && Command::named(place.before).is_some();
    let is_beat = place.ends_line() && place.before.is_empty();
    !COMMANDS.iter().any(begins) && !ends && !is_beat
}

/// "2 | follows 13 and is not 10"; C-18: "2 is never given in 1.1"
fn follows_13(place: &Place) -> bool {
    after_13(place) && place.octet != LF
}

/// "11 in the judge for an octet that no character has there": with it no octets make the line's text
/// UTF-8. Colons, backslashes and line ends are characters themselves, so the line may be asked whole.
fn breaks_character(place: &Place) -> bool {
    let Part::Line { line, .. } = &place.part else {
        return false;
    };
    characters::missing(&[line, &[place.octet][..]].concat()).is_none()
}

/// "10 wrong or cut escape": any octet after a backslash but an escape's letter, a colon and a line end
/// among them.
fn spoils_escape(place: &Place) -> bool {
    let Part::Line { command, line, .. } = &place.part else {
        return false;
    };
    in_escape(*command, line) && !is_letter(place.version, place.octet)
}

/// "Keep 3 for a colon with an empty name": the line begins with it.
fn leaves_name_empty(place: &Place) -> bool {
    let Part::Line { line, .. } = &place.part else {
        return false;
    };
    line.is_empty() && place.octet == COLON
}

/// "8 second colon", and C-12: "8 is no longer given for" CONNECT and CONNECTED, where a later colon
/// belongs to the value.
fn is_second_colon(place: &Place) -> bool {
    let Part::Line { command, line, .. } = &place.part else {
        return false;
    };
    !command.has_colons() && line.contains(&COLON) && place.octet == COLON
}

/// "9 line end before the colon", and document 01: "A 13 in a header line can only begin a line end", which
/// is so in 1.2. In an empty line the line end is in place.
fn ends_line_before_colon(place: &Place) -> bool {
    let Part::Line { line, .. } = &place.part else {
        return false;
    };
    !line.is_empty() && !line.contains(&COLON) && place.ends_line()
}

/// "4 | makes the line, with what it still owes, longer than 512; a missing colon owes 1, an
/// unfinished escape 1", and C-17: "An unfinished character owes its missing octets toward the 512."
fn makes_line_too_long(place: &Place) -> bool {
    let Part::Line { command, line, .. } = &place.part else {
        return false;
    };
    if place.ends_line() {
        return false;
    }
    let with = [line, &[place.octet][..]].concat();
    let owed = usize::from(!with.contains(&COLON))
        + usize::from(in_escape(*command, &with))
        + characters::missing(&with).unwrap_or(0);
    with.len() + owed > MAX_LINE
}

/// "5 | begins a 33rd header line"
fn begins_line_too_many(place: &Place) -> bool {
    let Part::Line { earlier, line, .. } = &place.part else {
        return false;
    };
    earlier.len() == MAX_LINES && line.is_empty() && !place.ends_line()
}

/// "6 | spoils the first content-length: not a digit, line end with no digit, value too large"
fn spoils_content_length(place: &Place) -> bool {
    let Part::Line {
        command,
        earlier,
        line,
    } = &place.part
    else {
        return false;
    };
    let Some(digits) = content_length_value(line) else {
        return false;
    };
    if earlier
        .iter()
        .any(|line| content_length_value(line).is_some())
    {
        return false;
    }
    if place.ends_line() {
        return digits.is_empty();
    }
    // With the octet behind them the digits are no number, or one that is too large.
    content_length(*command, &[digits, &[place.octet]].concat()).is_none()
}

/// "7 | stands where only octet 0 can: empty body, 32,768 octets read, or content-length used up"
fn stands_in_place_of_0(place: &Place) -> bool {
    let Part::Body {
        command,
        declared,
        read,
    } = &place.part
    else {
        return false;
    };
    let empty_body = !command.has_body();
    let all_read = *read == MAX_BODY;
    let used_up = *declared == Some(*read);
    (empty_body || all_read || used_up) && place.octet != NUL
}

/// What there is of the value, where the line is named content-length.
fn content_length_value(line: &[u8]) -> Option<&[u8]> {
    line.strip_prefix(CONTENT_LENGTH)?.strip_prefix(&[COLON])
}

/// Whether the line stops inside an escape: an odd number of backslashes at its end, where the
/// command escapes. (What stands before is sound, so those backslashes pair up from the left.)
pub fn in_escape(command: Command, line: &[u8]) -> bool {
    let backslashes = line
        .iter()
        .rev()
        .take_while(|&&octet| octet == BACKSLASH)
        .count();
    command.escapes() && backslashes % 2 == 1
}
