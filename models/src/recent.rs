//! The newest edits of one segment in memory, so that reads of them need no file. No document asks for it: it is speed alone.

use crate::batch::Bodies;
use crate::reply::Edits;

/// At this many bytes the older half is let go.
const ROOM: usize = 1 << 20;
/// One edit in so many has its place kept.
const STRIDE: usize = 16;

/// The last edits of the segment that is written, as entries of frames.
#[derive(Default)]
pub struct Recent {
    start: u64,
    /// The txid of the first edit that is kept, and of the one after the last.
    first: u64,
    next: u64,
    entries: Vec<u8>,
    places: Vec<usize>,
}

impl Recent {
    /// A segment begins: nothing is kept of another.
    pub fn begin(&mut self, start: u64) {
        (self.start, self.first, self.next) = (start, start, start);
        self.entries.clear();
        self.places.clear();
    }

    /// The segment of this start isn't what it was.
    pub fn forget(&mut self, start: u64) {
        if self.start == start {
            self.begin(0);
        }
    }

    /// Edits were appended to the segment of this start.
    pub fn push(&mut self, start: u64, bodies: Bodies) {
        if self.start != start {
            return;
        }
        for body in bodies {
            if (self.next - self.first) as usize % STRIDE == 0 {
                self.places.push(self.entries.len());
            }
            self.entries.extend_from_slice(&(body.len() as u16).to_be_bytes());
            self.entries.extend_from_slice(body);
            self.next += 1;
        }
        if self.entries.len() > ROOM {
            self.halve();
        }
    }

    /// Lets the older half go.
    fn halve(&mut self) {
        let half = self.places.len() / 2;
        let gone = self.places[half];
        self.entries.drain(..gone);
        self.places.drain(..half);
        for place in &mut self.places {
            *place -= gone;
        }
        self.first += (half * STRIDE) as u64;
    }

    /// So many edits from a txid on, where all of them are kept.
    pub fn read(&self, start: u64, from: u64, count: u64) -> Option<Edits> {
        if self.start != start || from < self.first || from + count > self.next {
            return None;
        }
        let index = (from - self.first) as usize;
        let mut rest = Bodies { entries: &self.entries[self.places[index / STRIDE]..] };
        for _ in 0..index % STRIDE {
            rest.next()?;
        }
        let begin = rest.entries;
        for _ in 0..count {
            rest.next()?;
        }
        let length = begin.len() - rest.entries.len();
        Some(Edits { first: from, count, entries: begin[..length].to_vec() })
    }
}
