//! What a node keeps in memory of its segments: a row each, with the places of some of its edits in its file.

use crate::batch::{Bodies, FRAME_HEAD};
use crate::disk::{Disk, DiskFault};
use crate::names::FileName;
use crate::reply::{Edits, SegmentState};
use crate::segment::HEADER;

/// One edit in so many has its place kept.
const STRIDE: u64 = 64;

/// How many bytes of a file are read at once.
const WINDOW: usize = 32 * 1024;

/// How a segment stands. MODEL.md, "A node": the marks final and accepted.
#[derive(Clone, Copy, PartialEq, Eq)]
pub enum Kind {
    Progress,
    Accepted,
    Final,
}

/// Where an entry stands in its file, and how many entries its frame has from it on.
#[derive(Clone, Copy)]
struct Mark {
    place: u64,
    left: u64,
}

/// A segment: its start, the epoch of its header, how many edits it has, how far its file counts.
pub struct Segment {
    pub start: u64,
    pub epoch: u64,
    pub kind: Kind,
    pub count: u64,
    pub whole: u64,
    marks: Vec<Mark>,
}

/// A segment's file isn't in its format any more, or the disk failed.
pub enum ReadFault {
    BadFile,
    Disk,
}

impl From<DiskFault> for ReadFault {
    fn from(_: DiskFault) -> ReadFault {
        ReadFault::Disk
    }
}

impl Segment {
    /// A segment of no edits.
    pub fn new(start: u64, epoch: u64, kind: Kind) -> Segment {
        Segment { start, epoch, kind, count: 0, whole: HEADER as u64, marks: Vec::new() }
    }

    /// The txid of its last edit; of a segment without one, the txid before its start.
    pub fn end(&self) -> u64 {
        self.start + self.count - 1
    }

    /// The txid that its next edit gets.
    pub fn next(&self) -> u64 {
        self.start + self.count
    }

    /// The name of its file.
    pub fn file(&self) -> FileName {
        match self.kind {
            Kind::Final => FileName::Final(self.start, self.end()),
            _ => FileName::InProgress(self.start),
        }
    }

    /// What is told of it, where it holds an edit.
    pub fn state(&self) -> Option<SegmentState> {
        (self.count > 0).then(|| SegmentState {
            start: self.start,
            end: self.end(),
            epoch: self.epoch,
            is_final: self.kind == Kind::Final,
            is_accepted: self.kind == Kind::Accepted,
        })
    }

    /// A frame of so many entries stands at the whole length.
    pub fn note_frame(&mut self, entries: &[u8], count: u64) {
        let mut place = self.whole + FRAME_HEAD as u64;
        self.whole = place + entries.len() as u64;
        let mut index = self.count;
        self.count += count;
        if index.next_multiple_of(STRIDE) >= self.count {
            return;
        }
        for body in (Bodies { entries }) {
            if index % STRIDE == 0 {
                self.marks.push(Mark { place, left: self.count - index });
            }
            index += 1;
            place += 2 + body.len() as u64;
        }
    }

    /// So many of its edits, from a txid on, read from its file.
    pub fn read(&self, disk: &impl Disk, first: u64, count: u64) -> Result<Edits, ReadFault> {
        let index = first - self.start;
        let Some(&mark) = self.marks.get((index / STRIDE) as usize) else {
            return Err(ReadFault::BadFile);
        };
        let mut walk = Walk { disk, name: self.file(), place: mark.place, left: mark.left, at: 0, bytes: Vec::new() };
        for _ in 0..index % STRIDE {
            walk.next_entry()?;
        }
        let mut entries = Vec::new();
        for _ in 0..count {
            entries.extend_from_slice(walk.next_entry()?);
        }
        Ok(Edits { first, count, entries })
    }
}

/// A walk over the entries of a file, by windows.
struct Walk<'a, D: Disk> {
    disk: &'a D,
    name: FileName,
    place: u64,
    left: u64,
    at: u64,
    bytes: Vec<u8>,
}

impl<D: Disk> Walk<'_, D> {
    /// The next entry with its size.
    fn next_entry(&mut self) -> Result<&[u8], ReadFault> {
        if self.left == 0 {
            let head = self.look(FRAME_HEAD)?;
            if head[0] != crate::batch::SEAL {
                return Err(ReadFault::BadFile);
            }
            self.left = u64::from(u32::from_be_bytes([head[13], head[14], head[15], head[16]]));
            self.place += FRAME_HEAD as u64;
        }
        let size = self.look(2)?;
        let length = 2 + usize::from(u16::from_be_bytes([size[0], size[1]]));
        self.left = self.left.checked_sub(1).ok_or(ReadFault::BadFile)?;
        self.look(length)?;
        let from = (self.place - self.at) as usize;
        self.place += length as u64;
        Ok(&self.bytes[from..from + length])
    }

    /// The next bytes, so many of them.
    fn look(&mut self, count: usize) -> Result<&[u8], ReadFault> {
        let holds = self.place >= self.at && self.place + count as u64 <= self.at + self.bytes.len() as u64;
        if !holds {
            self.disk.read(&self.name, self.place, WINDOW, &mut self.bytes)?;
            self.at = self.place;
        }
        let from = (self.place - self.at) as usize;
        self.bytes.get(from..from + count).ok_or(ReadFault::BadFile)
    }
}
