//! The header block, document 01, "The header sheet": entries as a row of records.

/// The two octets that stand before each record, the document's mark.
const TAG: [u8; 2] = [72, 68];

/// A header entry, decoded: neither its name nor its value has escapes.
#[derive(Clone, PartialEq, Eq, Debug)]
pub struct Entry {
    pub name: Vec<u8>,
    pub value: Vec<u8>,
}

impl Entry {
    pub fn new(name: &[u8], value: &[u8]) -> Entry {
        Entry {
            name: name.to_vec(),
            value: value.to_vec(),
        }
    }
}

/// The block that holds these entries.
pub fn write(entries: &[Entry]) -> Vec<u8> {
    entries.iter().flat_map(record).collect()
}

/// "Before each record stands the two-octet mark 72 68; then name length and value length, two octets
/// each, high first; then name and value."
fn record(entry: &Entry) -> Vec<u8> {
    let (name, value) = (&entry.name, &entry.value);
    [&TAG, &length(name), &length(value), &name[..], value].concat()
}

/// The length of a text that a record can hold, as two octets, high first.
fn length(text: &[u8]) -> [u8; 2] {
    [(text.len() / 256) as u8, (text.len() % 256) as u8]
}

/// The entries of a block, if it is well formed: "exactly if the whole slice is a row of whole
/// records, perhaps none".
pub fn read(block: &[u8]) -> Option<Vec<Entry>> {
    let mut entries = Vec::new();
    let mut rest = block;
    while !rest.is_empty() {
        let (entry, behind) = first_record(rest)?;
        entries.push(entry);
        rest = behind;
    }
    Some(entries)
}

/// The entry of the record that the row begins with, and the octets behind that record.
fn first_record(row: &[u8]) -> Option<(Entry, &[u8])> {
    let (lengths, text) = row.strip_prefix(&TAG)?.split_at_checked(4)?;
    let number = |octets: &[u8]| usize::from(octets[0]) * 256 + usize::from(octets[1]);
    let (name, text) = text.split_at_checked(number(&lengths[..2]))?;
    let (value, behind) = text.split_at_checked(number(&lengths[2..]))?;
    Some((Entry::new(name, value), behind))
}
