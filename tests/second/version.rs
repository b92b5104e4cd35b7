//! The two versions of the protocol that octets are read and written in (document 02, C-18, where they are
//! editions): all in which the octets of one differ from those of the other.

use crate::item::{BACKSLASH, COLON, CR, LF};

/// A version. All up to the end of an opening frame is read in 1.2.
#[derive(Clone, Copy, PartialEq, Eq, PartialOrd, Ord, Default, Debug)]
pub enum Version {
    V1_1,
    #[default]
    V1_2,
}

use Version::{V1_1, V1_2};

/// Both, the later one first.
pub const BOTH: [Version; 2] = [V1_2, V1_1];

/// The bit of a call's options that asks for 1.1.
pub const OPTION: u32 = 2;

/// An escape's letter, and the octet that it is decoded to.
pub type Escape = (u8, u8);

/// The escapes that 1.2 has and 1.1 has not, and those of both.
const ESCAPES: [Escape; 4] = [(b'r', CR), (b'n', LF), (b'c', COLON), (b'\\', BACKSLASH)];

impl Version {
    /// The version that a call's options ask for.
    pub fn asked_for(options: u32) -> Version {
        if options & OPTION != 0 {
            V1_1
        } else {
            V1_2
        }
    }

    /// The option that asks for the version.
    pub fn option(self) -> u32 {
        match self {
            V1_1 => OPTION,
            V1_2 => 0,
        }
    }

    pub fn name(self) -> &'static str {
        match self {
            V1_1 => "1.1",
            V1_2 => "1.2",
        }
    }

    /// The version of a name.
    pub fn named(name: &str) -> Option<Version> {
        BOTH.iter().copied().find(|version| version.name() == name)
    }

    pub fn other(self) -> Version {
        match self {
            V1_1 => V1_2,
            V1_2 => V1_1,
        }
    }

    /// "A line end is octet 10, or 13 then 10", the longer ones first; "by the 1.1 specification the line end
    /// is octet 10 alone".
    pub fn line_ends(self) -> &'static [&'static [u8]] {
        match self {
            V1_1 => &[b"\n"],
            V1_2 => &[b"\r\n", b"\n"],
        }
    }

    /// Whether the octet begins a line end, and so can be nothing else in a header line; in 1.1 "13 is an ordinary
    /// header octet".
    pub fn ends_line(self, octet: u8) -> bool {
        let begins = |end: &&[u8]| end.starts_with(&[octet]);
        self.line_ends().iter().any(begins)
    }

    /// The escapes, where a command has any; by the 1.1 specification "`\r` is undefined".
    pub fn escapes(self) -> &'static [Escape] {
        match self {
            V1_1 => &ESCAPES[1..],
            V1_2 => &ESCAPES,
        }
    }
}
