//! The bytes of a segment's file. FILES.md, "A segment file".

use crate::batch::{Bodies, COUNTED_HEAD, FRAME_HEAD, SEAL};
use crate::words::{LARGEST, LONGEST_BODY};

/// The bytes of the header: magic, layout, start and epoch.
pub const HEADER: usize = 24;

/// The most entries of a frame, and the most edits of a segment. FORMATS.md, "Limits".
pub const MOST_EDITS: u64 = 16384;

const MAGIC_AND_LAYOUT: [u8; 8] = [0x51, 0x4a, 0x53, 0x47, 0, 0, 0, 1];

/// The first damage of a file: its place and its cause. FORMATS.md, "What an error means", has the causes.
#[derive(Clone, Copy, Debug, PartialEq, Eq)]
pub struct Damage {
    pub place: usize,
    pub cause: &'static str,
}

/// The header's bytes.
pub fn header(start: u64, epoch: u64) -> [u8; HEADER] {
    let mut bytes = [0; HEADER];
    bytes[..8].copy_from_slice(&MAGIC_AND_LAYOUT);
    bytes[8..16].copy_from_slice(&start.to_be_bytes());
    bytes[16..].copy_from_slice(&epoch.to_be_bytes());
    bytes
}

/// One frame that is good.
pub struct Frame<'a> {
    pub place: usize,
    pub first: u64,
    pub count: u64,
    pub entries: &'a [u8],
}

/// A segment's file, judged frame by frame from the front.
pub struct SegmentFile<'a> {
    bytes: &'a [u8],
    /// The place of the next seal.
    pub place: usize,
    pub start: u64,
    pub epoch: u64,
    /// The txid that the next frame has to begin with.
    pub next: u64,
}

impl<'a> SegmentFile<'a> {
    /// Reads the header: start and epoch are from 1 to 2^62.
    pub fn open(bytes: &'a [u8]) -> Result<SegmentFile<'a>, Damage> {
        let in_range = |number: &u64| (1..=LARGEST).contains(number);
        let start = big_endian(bytes, 8).filter(in_range);
        let epoch = big_endian(bytes, 16).filter(in_range);
        match (start, epoch) {
            (Some(start), Some(epoch)) if bytes.starts_with(&MAGIC_AND_LAYOUT) => {
                Ok(SegmentFile { bytes, place: HEADER, start, epoch, next: start })
            }
            _ => Err(Damage { place: 0, cause: "Header" }),
        }
    }

    /// The next frame; none where the tail begins, of which the first byte isn't a set seal.
    pub fn next_frame(&mut self) -> Result<Option<Frame<'a>>, Damage> {
        let rest = &self.bytes[self.place..];
        if rest.first() != Some(&SEAL) {
            return Ok(None);
        }
        let frame = self.judge(rest).map_err(|cause| Damage { place: self.place, cause })?;
        self.place += FRAME_HEAD + frame.entries.len();
        self.next = frame.first + frame.count;
        Ok(Some(frame))
    }

    /// Judges the frame at the beginning of these bytes: Short, Length, Count, Body, Order, in this order.
    fn judge(&self, rest: &'a [u8]) -> Result<Frame<'a>, &'static str> {
        let length = rest.get(1..5).ok_or("Short")?;
        let length = u32::from_be_bytes([length[0], length[1], length[2], length[3]]);
        let content = rest[5..].get(..length as usize).ok_or("Short")?;
        if length < COUNTED_HEAD {
            return Err("Length");
        }
        let first = big_endian(content, 0).ok_or("Length")?;
        let count = u64::from(u32::from_be_bytes([content[8], content[9], content[10], content[11]]));
        let entries = &content[COUNTED_HEAD as usize..];
        let sizes_are_good = judge_entries(entries, count).ok_or("Length")?;
        if !(1..=MOST_EDITS).contains(&count) {
            return Err("Count");
        }
        if !sizes_are_good {
            return Err("Body");
        }
        if first != self.next || first + (count - 1) > LARGEST {
            return Err("Order");
        }
        Ok(Frame { place: self.place, first, count, entries })
    }
}

/// Whether each entry has 1 to 4,096 bytes; none where so many entries don't end exactly where the frame does.
fn judge_entries(entries: &[u8], count: u64) -> Option<bool> {
    let mut bodies = Bodies { entries };
    let mut are_good = true;
    for _ in 0..count {
        let size = bodies.next()?.len();
        are_good &= size > 0 && size <= LONGEST_BODY;
    }
    bodies.entries.is_empty().then_some(are_good)
}

/// The u64 at a place.
fn big_endian(bytes: &[u8], place: usize) -> Option<u64> {
    Some(u64::from_be_bytes(*bytes.get(place..)?.first_chunk()?))
}
