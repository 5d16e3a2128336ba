//! The replies of a node and their texts. FORMATS.md, "Replies".

use crate::batch::{Batch, Bodies};
use crate::request::{push_bodies, Request};
use crate::words::{push_next_number, push_number, read_number, split_words, LARGEST};

/// What a refusal is for; its number is its place in the table of FORMATS.md, "Replies".
#[derive(Clone, Copy, PartialEq, Eq)]
pub enum Reason {
    Down = 1,
    Limit,
    EpochRefused,
    OldSerial,
    NotWriter,
    NoOpenSegment,
    WrongSegment,
    WrongTxid,
    SegmentFinal,
    SegmentHasEdits,
    NoSegment,
    OtherEpoch,
    LengthDiffers,
    Purged,
    NotHere,
    DiskFault,
    BadFile = 18,
}

/// A refusal: its reason and its field, where there is one.
#[derive(Clone, Copy, PartialEq, Eq)]
pub struct Refusal {
    pub reason: Reason,
    pub field: Option<u64>,
}

impl Refusal {
    /// A refusal without a field.
    pub fn bare(reason: Reason) -> Refusal {
        Refusal { reason, field: None }
    }

    /// A refusal with its field.
    pub fn with(reason: Reason, field: u64) -> Refusal {
        Refusal { reason, field: Some(field) }
    }

    /// Whether refusals for such a reason have a field.
    fn has_field(reason: Reason) -> bool {
        !matches!(reason, Reason::Down | Reason::NoOpenSegment | Reason::NoSegment | Reason::DiskFault | Reason::BadFile)
    }

    /// The name of its reason.
    pub fn name(&self) -> &'static str {
        match self.reason {
            Reason::Down => "Down",
            Reason::Limit => "Limit",
            Reason::EpochRefused => "EpochRefused",
            Reason::OldSerial => "OldSerial",
            Reason::NotWriter => "NotWriter",
            Reason::NoOpenSegment => "NoOpenSegment",
            Reason::WrongSegment => "WrongSegment",
            Reason::WrongTxid => "WrongTxid",
            Reason::SegmentFinal => "SegmentFinal",
            Reason::SegmentHasEdits => "SegmentHasEdits",
            Reason::NoSegment => "NoSegment",
            Reason::OtherEpoch => "OtherEpoch",
            Reason::LengthDiffers => "LengthDiffers",
            Reason::Purged => "Purged",
            Reason::NotHere => "NotHere",
            Reason::DiskFault => "DiskFault",
            Reason::BadFile => "BadFile",
        }
    }
}

/// What a node tells of one segment that holds an edit.
#[derive(Clone, Copy)]
pub struct SegmentState {
    pub start: u64,
    pub end: u64,
    pub epoch: u64,
    pub is_final: bool,
    pub is_accepted: bool,
}

/// Edits that a read or a fetch gives: entries of frames, from a txid on.
pub struct Edits {
    pub first: u64,
    pub count: u64,
    pub entries: Vec<u8>,
}

/// A reply. FORMATS.md, "Replies".
pub enum Reply {
    Ok,
    State(u64),
    NewEpoch(Option<u64>),
    Prepared { writer: u64, committed: u64, segment: Option<SegmentState> },
    Edits(Edits),
    Segments(Vec<SegmentState>),
    Refused(Refusal),
}

/// All reasons of which a text is read, in order of number. A node without memory tells no reply.
const REASONS: [Reason; 17] = [
    Reason::Down,
    Reason::Limit,
    Reason::EpochRefused,
    Reason::OldSerial,
    Reason::NotWriter,
    Reason::NoOpenSegment,
    Reason::WrongSegment,
    Reason::WrongTxid,
    Reason::SegmentFinal,
    Reason::SegmentHasEdits,
    Reason::NoSegment,
    Reason::OtherEpoch,
    Reason::LengthDiffers,
    Reason::Purged,
    Reason::NotHere,
    Reason::DiskFault,
    Reason::BadFile,
];

impl Reply {
    /// Reads a reply's text; none where it is none that answers the request. FORMATS.md, "Replies".
    pub fn read(text: &[u8], request: &Request) -> Option<Reply> {
        let mut words = split_words(text);
        let reply = match (words.next()?, request) {
            (b"refused", _) => Reply::Refused(read_refusal(&mut words)?),
            (b"state", Request::State) => Reply::State(read_number(words.next()?)?),
            (b"new", Request::NewEpoch(_)) => Reply::NewEpoch(match words.next()? {
                b"none" => None,
                start => Some(read_number(start)?),
            }),
            (b"prepared", Request::Prepare(..)) => {
                let (writer, committed) = (read_number(words.next()?)?, read_number(words.next()?)?);
                let segment = match words.next()? {
                    b"none" => None,
                    start => Some(read_segment(read_number(start)?, &mut words)?),
                };
                Reply::Prepared { writer, committed, segment }
            }
            (b"edits", &(Request::Fetch(_, _, from) | Request::Read(from))) => Reply::Edits(read_edits(from, &mut words)?),
            (b"ok", Request::Start(..) | Request::Journal(..) | Request::Finalize(..)) => Reply::Ok,
            (b"ok", Request::Accept(..) | Request::Purge(..)) => Reply::Ok,
            _ => return None,
        };
        words.next().is_none().then_some(reply)
    }

    /// Appends the reply's text.
    pub fn push_text(&self, text: &mut Vec<u8>) {
        match self {
            Reply::Ok => text.extend_from_slice(b"ok"),
            Reply::State(promise) => {
                text.extend_from_slice(b"state ");
                push_number(text, *promise);
            }
            Reply::NewEpoch(None) => text.extend_from_slice(b"new none"),
            Reply::NewEpoch(Some(start)) => {
                text.extend_from_slice(b"new ");
                push_number(text, *start);
            }
            Reply::Prepared { writer, committed, segment } => push_prepared(text, *writer, *committed, *segment),
            Reply::Edits(edits) => {
                text.extend_from_slice(b"edits ");
                push_number(text, edits.first);
                push_bodies(text, Bodies { entries: &edits.entries });
            }
            Reply::Segments(segments) => push_segments(text, segments),
            Reply::Refused(refusal) => push_refused(text, refusal),
        }
    }
}

/// ` KIND E A END` behind a segment's start.
fn read_segment<'a>(start: u64, words: &mut impl Iterator<Item = &'a [u8]>) -> Option<SegmentState> {
    let is_final = read_choice(words.next()?, b"final", b"inprogress")?;
    let epoch = read_number(words.next()?)?;
    let is_accepted = read_choice(words.next()?, b"yes", b"no")?;
    Some(SegmentState { start, end: read_number(words.next()?)?, epoch, is_final, is_accepted })
}

/// Whether a word is the first of two.
fn read_choice(word: &[u8], yes: &[u8], no: &[u8]) -> Option<bool> {
    (word == yes || word == no).then_some(word == yes)
}

/// `FROM BODY ..`, of the FROM that was asked; the edits end within the limit of txids.
fn read_edits<'a>(from: u64, words: &mut impl Iterator<Item = &'a [u8]>) -> Option<Edits> {
    let (first, mut batch) = (read_number(words.next()?)?, Batch::new());
    if first != from || !words.all(|word| batch.push_word(word)) || batch.count() == 0 {
        return None;
    }
    batch.close(first);
    batch.last().filter(|&last| last <= LARGEST)?;
    Some(Edits { first, count: batch.count(), entries: batch.entries().to_vec() })
}

/// `NUMBER NAME`, which stand for one another, and the field, where there is one.
fn read_refusal<'a>(words: &mut impl Iterator<Item = &'a [u8]>) -> Option<Refusal> {
    let number = read_number(words.next()?)?;
    let reason = *REASONS.iter().find(|reason| **reason as u64 == number)?;
    let name = words.next()?;
    let field = if Refusal::has_field(reason) { Some(read_number(words.next()?)?) } else { None };
    let refusal = Refusal { reason, field };
    (name == refusal.name().as_bytes()).then_some(refusal)
}

/// `prepared W C none`, or `prepared W C M KIND E A END`.
fn push_prepared(text: &mut Vec<u8>, writer: u64, committed: u64, segment: Option<SegmentState>) {
    text.extend_from_slice(b"prepared");
    push_next_number(text, writer);
    push_next_number(text, committed);
    let Some(segment) = segment else {
        return text.extend_from_slice(b" none");
    };
    push_next_number(text, segment.start);
    text.extend_from_slice(kind(&segment));
    push_next_number(text, segment.epoch);
    text.extend_from_slice(if segment.is_accepted { b" yes" } else { b" no" });
    push_next_number(text, segment.end);
}

/// `segments`, and for each one ` START END KIND E`.
fn push_segments(text: &mut Vec<u8>, segments: &[SegmentState]) {
    text.extend_from_slice(b"segments");
    for segment in segments {
        push_next_number(text, segment.start);
        push_next_number(text, segment.end);
        text.extend_from_slice(kind(segment));
        push_next_number(text, segment.epoch);
    }
}

fn kind(segment: &SegmentState) -> &'static [u8] {
    if segment.is_final {
        b" final"
    } else {
        b" inprogress"
    }
}

/// `refused NUMBER NAME` and the field, where there is one.
fn push_refused(text: &mut Vec<u8>, refusal: &Refusal) {
    text.extend_from_slice(b"refused ");
    push_number(text, refusal.reason as u64);
    text.push(b' ');
    text.extend_from_slice(refusal.name().as_bytes());
    if let Some(field) = refusal.field {
        push_next_number(text, field);
    }
}
