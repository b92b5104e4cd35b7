//! Rows of writes that were accepted, and of heart-beats, document 02, C-23: each with what was asked for and the
//! octets that an encoder gave for it, to be laid end to end. "The edition and the mark are known for each item."
//! What a row has to be read as is said from what was asked for and from how long the images are: no octets are
//! parsed for it.

pub mod pieces;

use crate::block::{self, Entry};
use crate::calls::{self, headers, MAX_SLICE};
use crate::decode::Content;
use crate::encode::written;
use crate::encode_calls::{Call, COUNTED};
use crate::item::{Command, Frame, Item, LF, MAX_BODY, MAX_LINE, MAX_LINES};
use crate::random::Random;
use crate::streams::{self, with_body};
use crate::version::Version;

/// An item of a row: its version, its octets, and what was written, which is nothing for a heart-beat.
pub struct Laid {
    pub version: Version,
    pub octets: Vec<u8>,
    pub write: Option<Write>,
}

/// A write that was accepted; besides, what the encoder gives for the same call with C-16's mark: 52 may refuse it.
pub struct Write {
    pub content: Content,
    pub counted: bool,
    pub with_mark: Image,
}

impl Write {
    /// "Entries read are those written plus the added length line where C-16 adds it."
    pub fn entries(&self) -> Vec<Entry> {
        written(&self.content, self.counted)
    }
}

impl Laid {
    /// What parsing has to answer. The body is before the last octet.
    pub fn item(&self) -> Item {
        let length = self.octets.len();
        let Some(write) = &self.write else {
            return Item::HeartBeat { length };
        };
        let body_length = write.content.body.len();
        Item::Frame(Frame {
            command: write.content.command,
            length,
            headers: write.entries().len(),
            body_start: length.saturating_sub(body_length + 1),
            body_length,
        })
    }

    /// What decoding has to give, of a frame.
    pub fn content(&self) -> Option<Content> {
        let write = self.write.as_ref()?;
        Some(Content {
            entries: write.entries(),
            ..write.content.clone()
        })
    }

    /// Whether it is a write that has no line left for the one that the mark adds.
    fn is_full(&self) -> bool {
        let write = self.write.as_ref();
        write.is_some_and(|write| write.with_mark == Err(TOO_MANY_LINES))
    }

    /// What `rewrite` has to write of the item, with the mark or without, if it is not refused: LF for a heart-beat;
    /// without the mark the same octets, since what a written frame needs is there; with it the image of the same
    /// call with the mark.
    pub fn again(&self, counted: bool) -> Option<&[u8]> {
        match &self.write {
            None => Some(&[LF]),
            Some(write) if counted => write.with_mark.as_deref().ok(),
            Some(_) => Some(&self.octets),
        }
    }
}

/// What a row is made of: how many items, of which versions, with which marks, and whether every write is such that
/// it could have the mark.
#[derive(Clone, Copy)]
pub struct Kind {
    pub length: usize,
    pub versions: &'static [Version],
    pub marks: &'static [bool],
    pub markable: bool,
}

/// The refusal of a line too many, the only one that the mark can bring.
pub const TOO_MANY_LINES: usize = 52;

/// What an encoder gives for a call: the image, or the number of the refusal.
pub type Image = Result<Vec<u8>, usize>;

/// How many drafts are tried at a time, at most.
const DRAFTS: usize = 250;

/// A row of that kind, of the writes that the encoder accepts.
pub fn make<E>(
    random: &mut Random,
    kind: Kind,
    mut encode: impl FnMut(&[Call]) -> Result<Vec<Image>, E>,
) -> Result<Vec<Laid>, E> {
    let mut row = Vec::new();
    while row.len() < kind.length {
        let count = DRAFTS.min(3 * (kind.length - row.len()));
        let drafts: Vec<Draft> = (0..count).map(|_| draft(random, kind)).collect();
        let calls: Vec<Call> = drafts.iter().flat_map(Draft::calls).collect();
        let mut images = encode(&calls)?.into_iter();
        let laid = drafts
            .into_iter()
            .filter_map(|draft| draft.lay(&mut images));
        row.extend(laid.filter(|laid| !(kind.markable && laid.is_full())));
    }
    row.truncate(kind.length);
    Ok(row)
}

/// What may become an item of a row.
enum Draft {
    HeartBeat(Version, Vec<u8>),
    Write(Call),
}

impl Draft {
    /// The calls of the encoder for it: the call itself, and the same with the mark.
    fn calls(&self) -> Vec<Call> {
        let Draft::Write(call) = self else {
            return Vec::new();
        };
        let mut with_mark = call.clone();
        with_mark.options |= COUNTED;
        vec![call.clone(), with_mark]
    }

    /// The item, if it is no write that was refused. The images of its calls are the next ones.
    fn lay(self, images: &mut impl Iterator<Item = Image>) -> Option<Laid> {
        let call = match self {
            Draft::Write(call) => call,
            Draft::HeartBeat(version, octets) => {
                let write = None;
                return Some(Laid {
                    version,
                    octets,
                    write,
                });
            }
        };
        let (image, with_mark) = (images.next()?, images.next()?);
        let asked_for = call.asked_for();
        let content = Content {
            command: Command::numbered(call.command)?,
            entries: block::read(&call.block)?,
            body: call.body,
        };
        Some(Laid {
            version: asked_for.version,
            octets: image.ok()?,
            write: Some(Write {
                content,
                counted: asked_for.counted,
                with_mark,
            }),
        })
    }
}

/// A heart-beat with any line end of its version, or a call of the encoder: any one, one whose body holds whole
/// items, which are none of the row's, or a longest one.
fn draft(random: &mut Random, kind: Kind) -> Draft {
    let version = random.pick(kind.versions);
    if random.once_in(10) {
        let octets = random.pick(version.line_ends()).to_vec();
        return Draft::HeartBeat(version, octets);
    }
    let mark = if random.pick(kind.marks) { COUNTED } else { 0 };
    let options = mark | version.option();
    let mut call = match random.below(400) {
        0 => longest(random, options),
        1..=50 => holding_items(random, options),
        _ => calls::asking(random, options),
    };
    call.room = room(&call);
    Draft::Write(call)
}

/// Room for the image, whatever it is: an octet of the block gives two of its octets at most, and the command's line,
/// the length line, the empty line and octet 0 have no more than the rest.
fn room(call: &Call) -> usize {
    let most = 2 * call.block.len() + call.body.len() + 64;
    most.min(MAX_SLICE)
}

fn holding_items(random: &mut Random, options: u32) -> Call {
    let version = Version::asked_for(options);
    Call {
        command: with_body(random).0 as u32,
        body: streams::items(random, version),
        ..calls::asking(random, options)
    }
}

/// As many lines as may be, or one less, each as long as may be, and the longest body.
fn longest(random: &mut Random, options: u32) -> Call {
    let version = Version::asked_for(options);
    let command = with_body(random);
    let count = random.pick(&[MAX_LINES - 1, MAX_LINES]);
    let line = |_| headers::long_line(random, version, command, MAX_LINE);
    let entries: Vec<Entry> = (0..count).map(line).collect();
    Call {
        options,
        command: command.0 as u32,
        block: block::write(&entries),
        body: calls::body(random, MAX_BODY),
        room: 0,
    }
}
