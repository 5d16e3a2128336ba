//! Edits as they travel: a batch is kept as the frame that a segment's file has of it, so that it is made once for all nodes.
//! FILES.md, "A segment file".

use crate::words;

/// The set seal of a frame.
pub const SEAL: u8 = 0xa5;
/// The blank seal, at which a file ends.
pub const BLANK: u8 = 0;
/// The bytes of a frame before its entries: seal, length, first txid and count.
pub const FRAME_HEAD: usize = 17;
/// The bytes of a frame that its length counts beside the entries: first txid and count.
pub const COUNTED_HEAD: u32 = 12;

/// Bodies of edits at consecutive txids, as a frame and a blank seal behind it.
#[derive(Clone)]
pub struct Batch {
    frame: Vec<u8>,
    first: u64,
    count: u64,
    longest: usize,
}

impl Batch {
    /// A batch of no edits.
    pub fn new() -> Batch {
        Batch { frame: vec![0; FRAME_HEAD], first: 0, count: 0, longest: 0 }
    }

    /// Takes all edits out.
    pub fn clear(&mut self) {
        self.frame.truncate(FRAME_HEAD);
        (self.count, self.longest) = (0, 0);
    }

    /// Adds one body.
    pub fn push(&mut self, body: &[u8]) {
        self.frame.extend_from_slice(&(body.len() as u16).to_be_bytes());
        self.frame.extend_from_slice(body);
        self.note(body.len());
    }

    /// Adds a body that is written in hexadecimal; false where it isn't one.
    pub fn push_word(&mut self, word: &[u8]) -> bool {
        self.frame.extend_from_slice(&((word.len() / 2) as u16).to_be_bytes());
        self.note(word.len() / 2);
        words::read_body(word, &mut self.frame)
    }

    /// Adds bodies that are already entries of a frame.
    pub fn push_entries(&mut self, entries: &[u8], count: u64) {
        self.frame.extend_from_slice(entries);
        self.count += count;
    }

    fn note(&mut self, length: usize) {
        self.count += 1;
        self.longest = self.longest.max(length);
    }

    /// Ends the batch: it begins at this txid. The head of the frame and the blank seal behind it are put.
    pub fn close(&mut self, first: u64) {
        let length = COUNTED_HEAD + (self.frame.len() - FRAME_HEAD) as u32;
        self.frame[0] = SEAL;
        self.frame[1..5].copy_from_slice(&length.to_be_bytes());
        self.frame[5..13].copy_from_slice(&first.to_be_bytes());
        self.frame[13..FRAME_HEAD].copy_from_slice(&(self.count as u32).to_be_bytes());
        self.frame.push(BLANK);
        self.first = first;
    }

    /// How many edits it has.
    pub fn count(&self) -> u64 {
        self.count
    }

    /// The bytes of its longest body.
    pub fn longest(&self) -> usize {
        self.longest
    }

    /// The txid of its last edit; none where that passes 2^64 - 1.
    pub fn last(&self) -> Option<u64> {
        self.first.checked_add(self.count - 1)
    }

    /// The frame with its seal, and the blank seal behind it.
    pub fn frame(&self) -> &[u8] {
        &self.frame
    }

    /// The entries of the frame.
    pub fn entries(&self) -> &[u8] {
        &self.frame[FRAME_HEAD..self.frame.len() - 1]
    }

    /// The bodies in order.
    pub fn bodies(&self) -> Bodies<'_> {
        Bodies { entries: self.entries() }
    }
}

/// The bodies of entries in order.
#[derive(Clone)]
pub struct Bodies<'a> {
    /// The entries that are left.
    pub entries: &'a [u8],
}

impl<'a> Iterator for Bodies<'a> {
    type Item = &'a [u8];

    fn next(&mut self) -> Option<&'a [u8]> {
        let (size, rest) = self.entries.split_first_chunk::<2>()?;
        let (body, rest) = rest.split_at_checked(usize::from(u16::from_be_bytes(*size)))?;
        self.entries = rest;
        Some(body)
    }
}
