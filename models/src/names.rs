//! The names of a node's files and of images. FILES.md, "Files of a node" and "Files of images".

use crate::words::{push_number, push_padded, read_padded, read_small_number, PADDED_DIGITS};

/// The three files that hold one number.
#[derive(Clone, Copy, PartialEq, Eq, PartialOrd, Ord)]
pub enum NumberFile {
    Committed,
    Promised,
    Writer,
}

impl NumberFile {
    /// All of them, in byte order of their names.
    pub const ALL: [NumberFile; 3] = [NumberFile::Committed, NumberFile::Promised, NumberFile::Writer];

    fn name(self) -> &'static [u8] {
        match self {
            NumberFile::Committed => b"committed-txid",
            NumberFile::Promised => b"last-promised-epoch",
            NumberFile::Writer => b"last-writer-epoch",
        }
    }
}

/// The name of a file by what it holds.
#[derive(Clone, PartialEq, Eq, PartialOrd, Ord)]
pub enum FileName {
    Number(NumberFile),
    InProgress(u64),
    Final(u64, u64),
    Record(u64),
    /// The segment as it is accepted under an epoch, while that is under way: its start and the epoch.
    Accepting(u64, u64),
    /// The `.new` file of a segment.
    New(u64),
    /// The file with `.tmp` after its name, by which another one is put.
    PutNumber(NumberFile),
    PutRecord(u64),
    /// Any other name that ends in `.tmp`.
    Temporary(Vec<u8>),
    Image(u64),
    Digest(u64),
    /// `fsimage.ckpt_<txid>`, the image that is being saved.
    Saving(u64),
}

/// The subfolder of the records of acceptances.
pub const RECORDS: &[u8] = b"paxos/";

impl FileName {
    /// Reads a name; none where it is no node's and no image's.
    pub fn read(name: &[u8]) -> Option<FileName> {
        for number in NumberFile::ALL {
            match name.strip_prefix(number.name()) {
                Some(b"") => return Some(FileName::Number(number)),
                Some(b".tmp") => return Some(FileName::PutNumber(number)),
                _ => {}
            }
        }
        if let Some(start) = name.strip_prefix(RECORDS) {
            if let Some(start) = read_start(start) {
                return Some(FileName::Record(start));
            }
            if let Some(start) = start.strip_suffix(b".tmp").and_then(read_start) {
                return Some(FileName::PutRecord(start));
            }
        }
        if name.ends_with(b".tmp") {
            return Some(FileName::Temporary(name.to_vec()));
        }
        read_segment(name).or_else(|| read_image(name))
    }

    /// The name as bytes.
    pub fn text(&self) -> Vec<u8> {
        let mut text = Vec::with_capacity(64);
        match self {
            FileName::Number(number) => text.extend_from_slice(number.name()),
            FileName::PutNumber(number) => {
                text.extend_from_slice(number.name());
                text.extend_from_slice(b".tmp");
            }
            FileName::InProgress(start) => push_named(&mut text, b"edits_inprogress_", *start, b""),
            FileName::New(start) => push_named(&mut text, b"edits_inprogress_", *start, b".new"),
            FileName::Accepting(start, epoch) => {
                push_named(&mut text, b"edits_inprogress_", *start, b".epoch=");
                push_number(&mut text, *epoch);
            }
            FileName::Final(start, end) => {
                push_named(&mut text, b"edits_", *start, b"-");
                push_padded(&mut text, *end);
            }
            FileName::Record(start) => push_named(&mut text, RECORDS, *start, b""),
            FileName::PutRecord(start) => push_named(&mut text, RECORDS, *start, b".tmp"),
            FileName::Temporary(name) => text.extend_from_slice(name),
            FileName::Image(txid) => push_named(&mut text, b"fsimage_", *txid, b""),
            FileName::Digest(txid) => push_named(&mut text, b"fsimage_", *txid, b".md5"),
            FileName::Saving(txid) => push_named(&mut text, b"fsimage.ckpt_", *txid, b""),
        }
        text
    }

    /// Whether the file is one that opening removes unread: `.new` and `.tmp`.
    pub fn is_temporary(&self) -> bool {
        matches!(self, FileName::New(_) | FileName::PutNumber(_) | FileName::PutRecord(_) | FileName::Temporary(_))
    }
}

fn push_named(text: &mut Vec<u8>, before: &[u8], number: u64, after: &[u8]) {
    text.extend_from_slice(before);
    push_padded(text, number);
    text.extend_from_slice(after);
}

/// A txid from 1 on in 19 digits.
fn read_start(digits: &[u8]) -> Option<u64> {
    read_padded(digits).filter(|&start| start > 0)
}

/// The names of segments' files.
fn read_segment(name: &[u8]) -> Option<FileName> {
    if let Some(rest) = name.strip_prefix(b"edits_inprogress_") {
        let (digits, after) = rest.split_at_checked(PADDED_DIGITS)?;
        let start = read_start(digits)?;
        return match after {
            b"" => Some(FileName::InProgress(start)),
            b".new" => Some(FileName::New(start)),
            _ => {
                let epoch = read_small_number(after.strip_prefix(b".epoch=")?)?;
                (epoch > 0).then_some(FileName::Accepting(start, epoch))
            }
        };
    }
    let (first, last) = name.strip_prefix(b"edits_")?.split_at_checked(PADDED_DIGITS)?;
    let (first, last) = (read_start(first)?, read_start(last.strip_prefix(b"-")?)?);
    (first <= last).then_some(FileName::Final(first, last))
}

/// The names of images' files.
fn read_image(name: &[u8]) -> Option<FileName> {
    if let Some(txid) = name.strip_prefix(b"fsimage.ckpt_") {
        return read_padded(txid).map(FileName::Saving);
    }
    let (txid, after) = name.strip_prefix(b"fsimage_")?.split_at_checked(PADDED_DIGITS)?;
    let txid = read_padded(txid)?;
    match after {
        b"" => Some(FileName::Image(txid)),
        b".md5" => Some(FileName::Digest(txid)),
        _ => None,
    }
}
