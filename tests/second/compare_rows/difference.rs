//! Compares what was written of a row with what is due of each item, and says where it differs.

use crate::program::{self, Ran};
use crate::rows::Laid;
use std::io;
use std::path::Path;

/// Why a row is not compared to its end: a program cannot be run, or there is a difference.
pub enum Stop {
    Failed(io::Error),
    Differs(Box<Difference>),
}

impl From<io::Error> for Stop {
    fn from(error: io::Error) -> Stop {
        Stop::Failed(error)
    }
}

/// Who wrote something else than what is due, of what input, where, and both.
pub struct Difference {
    who: String,
    input: Vec<u8>,
    place: String,
    due: Vec<u8>,
    written: Vec<u8>,
}

impl Difference {
    /// Keeps the input in a file of that name, and says what differs.
    pub fn report(&self, name: &str) -> io::Result<()> {
        let path = program::keep(name, &self.input)?;
        println!(
            "second: a difference of {}, the input is in {}",
            self.who,
            path.display()
        );
        println!("{}", self.place);
        if self.due == self.written {
            return Ok(());
        }
        let both = self.due.iter().zip(&self.written);
        let alike = both.take_while(|(due, written)| due == written).count();
        for (what, row) in [("due", &self.due), ("written", &self.written)] {
            let shown = &row[alike..row.len().min(alike + 60)];
            println!("{what} from octet {alike} on: \"{}\"", shown.escape_ascii());
        }
        Ok(())
    }
}

/// What is compared: who wrote it, and of what input.
pub struct Compared<'a> {
    who: String,
    input: &'a [u8],
}

impl Compared<'_> {
    /// What the second program itself reads of images.
    pub fn here(input: &[u8]) -> Compared<'_> {
        let who = "the second program, of images of encode_calls".to_string();
        Compared { who, input }
    }

    /// It wrote something else at this place.
    pub fn differs(&self, place: &str, due: &[u8], written: &[u8]) -> Stop {
        Stop::Differs(Box::new(Difference {
            who: self.who.clone(),
            input: self.input.to_vec(),
            place: place.to_string(),
            due: due.to_vec(),
            written: written.to_vec(),
        }))
    }

    /// Compares what it wrote with what is due, one after another, and nothing behind that.
    pub fn compare(&self, row: &[&Laid], dues: &[Due], written: &[u8]) -> Result<(), Stop> {
        let mut rest = written;
        for due in dues {
            rest = match rest.strip_prefix(due.octets) {
                Some(behind) => behind,
                None => return Err(self.differs(&place(row, due.item), due.octets, rest)),
            };
        }
        if rest.is_empty() {
            return Ok(());
        }
        Err(self.differs("behind all that is due", b"", rest))
    }

    /// Compares what it wrote on standard error; and it came to its end.
    pub fn end(&self, ran: &Ran, errors: &str) -> Result<(), Stop> {
        if ran.errors != errors.as_bytes() {
            return Err(self.differs("standard error", errors.as_bytes(), &ran.errors));
        }
        match ran.status {
            Some(0) => Ok(()),
            Some(status) => Err(self.differs(&format!("the status is {status}"), b"", b"")),
            None => Err(self.differs("the program was ended by a signal", b"", b"")),
        }
    }
}

/// What has to be written of an item of a row, or behind the last one.
pub struct Due<'a> {
    pub item: usize,
    pub octets: &'a [u8],
}

/// A program of a folder, with arguments.
pub struct Program<'a> {
    folder: &'a Path,
    name: &'a str,
    arguments: Vec<String>,
}

impl Program<'_> {
    pub fn new<'a>(folder: &'a Path, name: &'a str) -> Program<'a> {
        Program::with(folder, name, Vec::new())
    }

    pub fn with<'a>(folder: &'a Path, name: &'a str, arguments: Vec<String>) -> Program<'a> {
        Program {
            folder,
            name,
            arguments,
        }
    }

    pub fn run(&self, input: &[u8]) -> io::Result<Ran> {
        let program = self.folder.join(self.name);
        program::run(&program.to_string_lossy(), &self.arguments, input)
    }

    pub fn compared<'a>(&self, input: &'a [u8]) -> Compared<'a> {
        let mut who = vec![self.name.to_string()];
        who.extend_from_slice(&self.arguments);
        Compared {
            who: who.join(" "),
            input,
        }
    }

    /// Runs it, and compares what it writes on standard output with what is due, and on standard error with this.
    pub fn compare(
        &self,
        input: &[u8],
        row: &[&Laid],
        dues: &[Due],
        errors: &str,
    ) -> Result<(), Stop> {
        let ran = self.run(input)?;
        let compared = self.compared(input);
        compared.compare(row, dues, &ran.output)?;
        compared.end(&ran, errors)
    }
}

/// Where a difference is: the item of that index.
fn place(row: &[&Laid], item: usize) -> String {
    match row.get(item) {
        Some(laid) => format!("at item {item}, {}", describe(laid)),
        None => "behind the last item".to_string(),
    }
}

/// An item in words, and its first octets.
pub fn describe(laid: &Laid) -> String {
    let version = laid.version.name();
    let what = match &laid.write {
        None => "a heart-beat",
        Some(write) if write.counted => "a write with the mark",
        Some(_) => "a write",
    };
    let length = laid.octets.len();
    let front = laid.octets[..length.min(200)].escape_ascii();
    format!("{what} in {version}, {length} octets: \"{front}\"")
}
