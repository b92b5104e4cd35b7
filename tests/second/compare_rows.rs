//! Lays random rows of accepted writes and heart-beats end to end, and compares what programs read of them with what
//! was asked for (document 02, C-23): the images that the encoder gave are listed, written again, and handed to the
//! stream parser in pieces, with the version told before each item.

mod difference;
mod tally;

use self::difference::{describe, Compared, Due, Program, Stop};
pub use self::tally::Tally;
use crate::compare_rewrite::arguments;
use crate::comparison;
use crate::decode::decode;
use crate::encode::Options;
use crate::encode_calls::{self, Reply};
use crate::listing::{self, End, Listing};
use crate::random::Random;
use crate::rows::pieces::{self, Step};
use crate::rows::{self, Image, Kind, Laid, TOO_MANY_LINES};
use crate::version::Version::{self, V1_1, V1_2};
use crate::version::BOTH;
use std::io;
use std::path::Path;

/// How many items each of the first rows has, and of which versions these are.
const MOST_ITEMS: usize = 5_000;
const VERSIONS: [&[Version]; 3] = [&[V1_2], &[V1_1], &BOTH];

impl comparison::Tally for Tally {
    const COMPARED: &'static str = "rows laid end to end and compared";

    fn of(programs: &str, count: usize, seed: u64) -> io::Result<Option<Tally>> {
        let mut random = Random::new(seed);
        let mut tally = Tally::default();
        for number in 0..count {
            let kind = kind(&mut random, number);
            match compare_row(Path::new(programs), &mut random, kind, &mut tally) {
                Ok(()) => {}
                Err(Stop::Failed(error)) => return Err(error),
                Err(Stop::Differs(difference)) => {
                    difference.report(&format!("second-difference-rows-{seed}-{number}"))?;
                    return Ok(None);
                }
            }
        }
        Ok(Some(tally))
    }

    fn octets(&self) -> usize {
        self.octets
    }

    fn print(&self) {
        self.print_all();
    }
}

/// The kind of the row of that number. The first ones are long, and such that all of it can be written again with the
/// mark.
fn kind(random: &mut Random, number: usize) -> Kind {
    let both: &[bool] = &[false, true];
    if let Some(versions) = VERSIONS.get(number) {
        return Kind {
            length: MOST_ITEMS,
            versions,
            marks: both,
            markable: true,
        };
    }
    let most = random.pick(&[2, 10, 40, 150]);
    Kind {
        length: random.between(0, most),
        versions: random.pick(&[VERSIONS[0], VERSIONS[1], &BOTH, &BOTH]),
        marks: random.pick(&[&[false], &[true], both, both]),
        markable: random.once_in(2),
    }
}

/// Makes a row of that kind, and compares what is read of it: here, in a listing, where it is written again, and in
/// pieces.
fn compare_row(
    programs: &Path,
    random: &mut Random,
    kind: Kind,
    tally: &mut Tally,
) -> Result<(), Stop> {
    let row = rows::make(random, kind, |calls| images(programs, calls))?;
    let all: Vec<&Laid> = row.iter().collect();
    hold_writes(&all)?;
    take_apart(&all)?;
    all.iter().try_for_each(|laid| decode_here(laid))?;
    for &version in kind.versions {
        let of_version = |laid: &&Laid| laid.version == version;
        let items: Vec<&Laid> = row.iter().filter(of_version).collect();
        if version == V1_2 {
            list(programs, &items)?;
        }
        for counted in [false, true] {
            write_again(programs, &items, Options { counted, version })?;
        }
    }
    let steps = pieces::steps(random, &row);
    feed(programs, &all, &steps)?;
    all.iter().for_each(|laid| tally.count(laid));
    steps.iter().for_each(|step| tally.count_call(&step.call));
    Ok(())
}

/// What the encoder gives for these calls.
fn images(programs: &Path, calls: &[encode_calls::Call]) -> Result<Vec<Image>, Stop> {
    let input: Vec<u8> = calls.iter().flat_map(|call| call.octets()).collect();
    let program = Program::new(programs, "encode_calls");
    let ran = program.run(&input)?;
    let compared = program.compared(&input);
    let mut rest = &ran.output[..];
    let mut images = Vec::new();
    for (index, call) in calls.iter().enumerate() {
        let reply = Reply::read(call, rest);
        let Some((Some(image), length)) = reply.map(|(reply, length)| (reply.image(), length))
        else {
            return Err(compared.differs(&format!("no reply to call {index}"), b"", rest));
        };
        images.push(image);
        rest = &rest[length..];
    }
    compared.compare(&[], &[], rest)?;
    compared.end(&ran, "")?;
    Ok(images)
}

/// That a long row is not of heart-beats for the most part, as it is where the encoder accepts too few writes.
fn hold_writes(row: &[&Laid]) -> Result<(), Stop> {
    let writes = row.iter().filter(|laid| laid.write.is_some()).count();
    if row.len() < MOST_ITEMS || writes > row.len() / 2 {
        return Ok(());
    }
    let place = format!("of {} items {writes} are writes", row.len());
    Err(Compared::here(&stream(row)).differs(&place, b"", b""))
}

/// The octets of a row, end to end.
fn stream(row: &[&Laid]) -> Vec<u8> {
    row.iter().flat_map(|laid| laid.octets.clone()).collect()
}

/// The listing of a row: a line for each item, and behind these one that says that nothing is left.
fn listing_of(row: &[&Laid]) -> String {
    let mut reached = 0;
    let mut items = Vec::new();
    for laid in row {
        items.push((reached, laid.item()));
        reached += laid.octets.len();
    }
    listing::write(&Listing {
        items,
        reached,
        end: End::Nothing,
    })
}

/// The lines of a listing, each for its item.
fn lines(listing: &str) -> Vec<Due<'_>> {
    let lines = listing.split_inclusive('\n').map(str::as_bytes);
    let due = |(item, octets)| Due { item, octets };
    lines.enumerate().map(due).collect()
}

/// Items of 1.2, listed.
fn list(programs: &Path, row: &[&Laid]) -> Result<(), Stop> {
    let listing = listing_of(row);
    Program::new(programs, "list").compare(&stream(row), row, &lines(&listing), "")
}

/// The row taken apart here, each item in its version.
fn take_apart(row: &[&Laid]) -> Result<(), Stop> {
    let stream = stream(row);
    let mut versions = row.iter().map(|laid| laid.version);
    let first = versions.next().unwrap_or_default();
    let listing = listing::read_told(first, &stream, |_, _| versions.next().unwrap_or_default());
    let compared = Compared::here(&stream);
    let written = listing::write(&listing);
    compared.compare(row, &lines(&listing_of(row)), written.as_bytes())
}

/// An item decoded here, in its version; and if it is a write that cannot have the mark, that is for a line too many.
fn decode_here(laid: &Laid) -> Result<(), Stop> {
    let compared = Compared::here(&laid.octets);
    let (content, due) = (decode(laid.version, &laid.octets), laid.content());
    if content != due {
        let place = format!("decoded, {}", describe(laid));
        let [due, content] = [due, content].map(|content| format!("{content:?}"));
        return Err(compared.differs(&place, due.as_bytes(), content.as_bytes()));
    }
    match laid.write.as_ref().map(|write| &write.with_mark) {
        Some(Err(code)) if *code != TOO_MANY_LINES => {
            let place = format!("refused {code} with the mark, {}", describe(laid));
            Err(compared.differs(&place, b"", b""))
        }
        _ => Ok(()),
    }
}

/// Items of one version written again: up to the first that is refused, with the mark.
fn write_again(programs: &Path, row: &[&Laid], options: Options) -> Result<(), Stop> {
    let mut dues = Vec::new();
    let mut errors = String::new();
    let mut reached = 0;
    for (item, laid) in row.iter().enumerate() {
        let Some(octets) = laid.again(options.counted) else {
            errors = format!("rewrite: {reached} unwritten {TOO_MANY_LINES}\n");
            break;
        };
        dues.push(Due { item, octets });
        reached += laid.octets.len();
    }
    let program = Program::with(programs, "rewrite", arguments(options));
    program.compare(&stream(row), row, &dues, &errors)
}

/// The pieces of a row, handed to the stream parser.
fn feed(programs: &Path, row: &[&Laid], steps: &[Step]) -> Result<(), Stop> {
    let input: Vec<u8> = steps.iter().flat_map(|step| step.call.octets()).collect();
    let mut dues = Vec::new();
    for Step { item, due, .. } in steps {
        let (item, octets) = (*item, &due[..]);
        dues.push(Due { item, octets });
    }
    Program::new(programs, "feed_calls").compare(&input, row, &dues, "")
}
