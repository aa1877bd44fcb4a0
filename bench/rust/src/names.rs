//! The lookup of a name in a name sheet.

use std::ops::RangeInclusive;

use crate::graph::Refusal;

const VERSION: u8 = 1;
/// The bytes of an entry after its size: the kind, the number and a name of 1 to 40.
const SIZES: RangeInclusive<usize> = 6..=45;
const LAST_KIND: u8 = 3;
const NAME_BYTES: RangeInclusive<u8> = 0x20..=0x7E;

/// Gives the part of the sheet that holds the name of a kind and number. All of the sheet is judged first.
pub fn look_up(sheet: &[u8], kind: u32, number: u32) -> Result<&[u8], Refusal> {
    let mut rest = entries(sheet).ok_or(Refusal::BrokenSheet)?;
    let mut last = None;
    let mut found = None;
    while !rest.is_empty() {
        let (entry, after) = Entry::split(rest).ok_or(Refusal::BrokenSheet)?;
        let key = Some((entry.kind, entry.number));
        if key <= last {
            return Err(Refusal::BrokenSheet);
        }
        if (u32::from(entry.kind), entry.number) == (kind, number) {
            found = Some(entry.name);
        }
        (last, rest) = (key, after);
    }
    found.ok_or(Refusal::NoEntry)
}

/// Where a part of a sheet starts in it.
pub fn start(sheet: &[u8], part: &[u8]) -> usize {
    part.as_ptr() as usize - sheet.as_ptr() as usize
}

/// The bytes after the version and the length, where these two are right.
fn entries(sheet: &[u8]) -> Option<&[u8]> {
    let (&version, rest) = sheet.split_first()?;
    let (length, entries) = rest.split_first_chunk()?;
    (version == VERSION && u32::from_be_bytes(*length) as usize == entries.len()).then_some(entries)
}

struct Entry<'a> {
    kind: u8,
    number: u32,
    name: &'a [u8],
}

impl<'a> Entry<'a> {
    /// The first entry and the bytes after it, or `None` where they break the layout.
    fn split(bytes: &'a [u8]) -> Option<(Entry<'a>, &'a [u8])> {
        let (size, rest) = bytes.split_first_chunk()?;
        let size = usize::from(u16::from_be_bytes(*size));
        if !SIZES.contains(&size) {
            return None;
        }
        let (fields, after) = rest.split_at_checked(size)?;
        let (&kind, fields) = fields.split_first()?;
        let (number, name) = fields.split_first_chunk()?;
        if kind > LAST_KIND || !name.iter().all(|byte| NAME_BYTES.contains(byte)) {
            return None;
        }
        Some((Entry { kind, number: u32::from_be_bytes(*number), name }, after))
    }
}
