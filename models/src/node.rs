//! A node over a disk: what it answers to each request, and its durable effects. MODEL.md, "A node" and "A node over its disk";
//! FILES.md, "The disk calls of each effect".

use crate::batch::Batch;
use crate::disk::{Choice, Disk, DiskFault, MemoryDisk};
use crate::names::{FileName, NumberFile};
use crate::recent::Recent;
use crate::reply::{Reason, Refusal, Reply, SegmentState};
use crate::request::{Head, Request};
use crate::segment::{self, MOST_EDITS};
use crate::table::{Kind, ReadFault, Segment};
use crate::words::{push_padded, LARGEST, LONGEST_BODY};
use std::collections::BTreeMap;

/// The most edits of a journal batch, and of the answer to a read or a fetch. FORMATS.md, "Limits".
pub const MOST_BATCH: u64 = 256;

/// One step in the durable state. MODEL.md, "A node", the column of durable effects.
#[derive(Clone, Copy)]
pub enum Effect {
    Promise(u64),
    Writer(u64),
    Committed(u64),
    Begin(u64, u64),
    Append(u64),
    Accept { start: u64, epoch: u64, again: bool },
    Finish(u64),
    Remove(u64),
}

/// Why a request has no reply of its own kind.
enum Halt {
    Refused(Refusal),
    Disk,
}

impl From<Refusal> for Halt {
    fn from(refusal: Refusal) -> Halt {
        Halt::Refused(refusal)
    }
}

impl From<ReadFault> for Halt {
    fn from(fault: ReadFault) -> Halt {
        match fault {
            ReadFault::BadFile => Halt::Refused(Refusal::bare(Reason::BadFile)),
            ReadFault::Disk => Halt::Disk,
        }
    }
}

/// A node that is up.
pub struct Node<D: Disk> {
    pub disk: D,
    pub promised: u64,
    pub writer: u64,
    pub committed: u64,
    /// The greatest committed txid that it was told.
    pub known: u64,
    pub open: Option<u64>,
    pub serial: u64,
    pub segments: BTreeMap<u64, Segment>,
    /// The newest edits in memory, where the disk is slow.
    pub recent: Option<Recent>,
    effects: Vec<Effect>,
}

impl<D: Disk> Node<D> {
    /// A node of these numbers and segments, with no open segment and serial 0. MODEL.md, "A node", at the end.
    pub fn new(disk: D, [committed, promised, writer]: [u64; 3], segments: BTreeMap<u64, Segment>) -> Node<D> {
        let known = committed;
        Node { disk, promised, writer, committed, known, open: None, serial: 0, segments, recent: None, effects: Vec::new() }
    }

    /// Answers the request.
    pub fn answer(&mut self, request: &Request) -> Result<Reply, DiskFault> {
        let planned = self.plan(request);
        if matches!(planned, Err(Halt::Disk)) {
            return Err(DiskFault);
        }
        self.perform(request, usize::MAX)?;
        match planned {
            Ok(reply) => {
                self.finish(request);
                Ok(reply)
            }
            Err(Halt::Refused(refusal)) => Ok(Reply::Refused(refusal)),
            Err(Halt::Disk) => Err(DiskFault),
        }
    }

    /// The node is stopped inside the request after so many effects; how many stand. FORMATS.md, "Scripts", `stop`.
    pub fn stop(&mut self, request: &Request, most: u64) -> u64 {
        let _ = self.plan(request);
        let most = usize::try_from(most).unwrap_or(usize::MAX).min(self.effects.len());
        let _ = self.perform(request, most);
        most as u64
    }

    /// Makes the effects in order, at most so many.
    fn perform(&mut self, request: &Request, most: usize) -> Result<(), DiskFault> {
        let mut effects = std::mem::take(&mut self.effects);
        for &effect in effects.iter().take(most) {
            self.make(effect, request)?;
        }
        effects.clear();
        self.effects = effects;
        Ok(())
    }

    /// Its final segments that hold an edit.
    pub fn final_segments(&self) -> Vec<SegmentState> {
        self.segments.values().filter_map(Segment::state).filter(|segment| segment.is_final).collect()
    }

    /// Finds the reply, notes what is in memory alone, and lists the durable effects. MODEL.md, "A node", steps 1 to 3.
    fn plan(&mut self, request: &Request) -> Result<Reply, Halt> {
        self.effects.clear();
        judge_limits(request)?;
        if let Some(head) = request.head() {
            self.front(head)?;
        }
        if matches!(request, Request::Prepare(..) | Request::Fetch(..) | Request::Accept(..)) {
            self.open = None;
        }
        match *request {
            Request::State => Ok(Reply::State(self.promised)),
            Request::NewEpoch(epoch) => self.plan_new_epoch(epoch),
            Request::Start(head, start) => self.plan_start(head, start),
            Request::Journal(head, start, first, _) => self.plan_journal(head, start, first),
            Request::Finalize(head, start, end) => self.plan_finalize(head, start, end),
            Request::Prepare(_, start) => Ok(self.prepared(start)),
            Request::Fetch(_, start, from) => self.plan_fetch(start, from),
            Request::Accept(head, start, batch) => self.plan_accept(head, start, batch),
            Request::Purge(head, below) => Ok(self.plan_purge(head, below)),
            Request::Read(from) => self.plan_read(from),
            Request::Manifest => Ok(Reply::Segments(self.segments.values().filter_map(Segment::state).collect())),
        }
    }

    /// The front of a request with a head. MODEL.md, "A node", step 2.
    fn front(&mut self, head: Head) -> Result<(), Refusal> {
        if head.epoch < self.promised {
            return Err(Refusal::with(Reason::EpochRefused, self.promised));
        }
        if head.epoch > self.promised {
            self.effects.push(Effect::Promise(head.epoch));
            self.open = None;
        } else if head.serial <= self.serial {
            return Err(Refusal::with(Reason::OldSerial, self.serial));
        }
        self.serial = head.serial;
        self.known = self.known.max(head.committed);
        Ok(())
    }

    // ## The table, a function a row. MODEL.md, "A node", step 3.

    fn plan_new_epoch(&mut self, epoch: u64) -> Result<Reply, Halt> {
        if epoch <= self.promised {
            return Err(Refusal::with(Reason::EpochRefused, self.promised).into());
        }
        self.effects.push(Effect::Promise(epoch));
        Ok(Reply::NewEpoch(self.newest()))
    }

    fn plan_start(&mut self, head: Head, start: u64) -> Result<Reply, Halt> {
        if let Some(segment) = self.segments.get(&start) {
            if segment.kind == Kind::Final {
                return Err(Refusal::with(Reason::SegmentFinal, segment.end()).into());
            }
            if segment.count > 0 {
                return Err(Refusal::with(Reason::SegmentHasEdits, segment.end()).into());
            }
        }
        if self.writer != head.epoch {
            self.effects.push(Effect::Writer(head.epoch));
        }
        self.effects.push(Effect::Begin(start, head.epoch));
        Ok(Reply::Ok)
    }

    fn plan_journal(&mut self, head: Head, start: u64, first: u64) -> Result<Reply, Halt> {
        if head.epoch != self.writer {
            return Err(Refusal::with(Reason::NotWriter, self.writer).into());
        }
        let open = self.open.ok_or(Refusal::bare(Reason::NoOpenSegment))?;
        if open != start {
            return Err(Refusal::with(Reason::WrongSegment, open).into());
        }
        let next = self.segments.get(&open).map_or(start, Segment::next);
        if first != next {
            return Err(Refusal::with(Reason::WrongTxid, next).into());
        }
        self.effects.push(Effect::Append(start));
        Ok(Reply::Ok)
    }

    fn plan_finalize(&mut self, head: Head, start: u64, end: u64) -> Result<Reply, Halt> {
        let segment = self.with_edit(start)?;
        if segment.kind != Kind::Final && segment.epoch != head.epoch {
            return Err(Refusal::with(Reason::OtherEpoch, segment.epoch).into());
        }
        if segment.end() != end {
            return Err(Refusal::with(Reason::LengthDiffers, segment.end()).into());
        }
        if segment.kind != Kind::Final {
            self.effects.push(Effect::Finish(start));
        }
        if self.known > self.committed {
            self.effects.push(Effect::Committed(self.known));
        }
        Ok(Reply::Ok)
    }

    fn prepared(&self, start: u64) -> Reply {
        let segment = self.segments.get(&start).and_then(Segment::state);
        Reply::Prepared { writer: self.writer, committed: self.known, segment }
    }

    fn plan_fetch(&mut self, start: u64, from: u64) -> Result<Reply, Halt> {
        let segment = self.with_edit(start)?;
        if from < start || from > segment.end() {
            return Err(Refusal::with(Reason::NotHere, segment.end()).into());
        }
        let end = segment.end();
        self.edits(start, from, end)
    }

    fn plan_accept(&mut self, head: Head, start: u64, batch: &Batch) -> Result<Reply, Halt> {
        let mut again = false;
        if let Some(segment) = self.segments.get(&start) {
            if segment.kind == Kind::Final {
                let differs = Some(segment.end()) != batch.last();
                return if differs { Err(Refusal::with(Reason::LengthDiffers, segment.end()).into()) } else { Ok(Reply::Ok) };
            }
            again = segment.kind == Kind::Accepted && segment.epoch == head.epoch;
        }
        self.effects.push(Effect::Accept { start, epoch: head.epoch, again });
        Ok(Reply::Ok)
    }

    fn plan_purge(&mut self, head: Head, below: u64) -> Reply {
        let newest = self.newest();
        for segment in self.segments.values() {
            let end = if segment.count > 0 { segment.end() } else { segment.start };
            let is_kept = self.open == Some(segment.start) || newest == Some(segment.start);
            if !is_kept && end < below && end <= head.committed {
                self.effects.push(Effect::Remove(segment.start));
            }
        }
        Reply::Ok
    }

    /// FORMATS.md, "Replies": what a node serves, and Purged and NotHere.
    fn plan_read(&mut self, from: u64) -> Result<Reply, Halt> {
        let mut below = 0;
        let mut found = None;
        for segment in self.segments.range(..=from).rev().map(|row| row.1) {
            let end = self.served_end(segment);
            if end >= from {
                found = Some((segment.start, end));
                break;
            }
            if end >= segment.start {
                below = below.max(end);
            }
        }
        if let Some((start, end)) = found {
            return self.edits(start, from, end);
        }
        let least = self.segments.values().find(|segment| self.served_end(segment) >= segment.start);
        match least {
            Some(segment) if from < segment.start => Err(Refusal::with(Reason::Purged, segment.start).into()),
            _ => Err(Refusal::with(Reason::NotHere, below).into()),
        }
    }

    /// The last txid that is served of a segment; one below its start where none is.
    fn served_end(&self, segment: &Segment) -> u64 {
        match segment.kind {
            Kind::Final => segment.end(),
            _ if self.open == Some(segment.start) => segment.end().min(self.known),
            _ => 0,
        }
    }

    /// At most 256 edits of a segment, from a txid on up to its end.
    fn edits(&mut self, start: u64, from: u64, end: u64) -> Result<Reply, Halt> {
        let count = (end - from + 1).min(MOST_BATCH);
        if let Some(edits) = self.recent.as_ref().and_then(|recent| recent.read(start, from, count)) {
            return Ok(Reply::Edits(edits));
        }
        match self.segments.get(&start) {
            Some(segment) => Ok(Reply::Edits(segment.read(&self.disk, from, count)?)),
            None => Err(Refusal::bare(Reason::BadFile).into()),
        }
    }

    /// The segment of this start, where it holds an edit.
    fn with_edit(&self, start: u64) -> Result<&Segment, Refusal> {
        self.segments.get(&start).filter(|segment| segment.count > 0).ok_or(Refusal::bare(Reason::NoSegment))
    }

    /// The greatest start of a segment that holds an edit.
    fn newest(&self) -> Option<u64> {
        self.segments.values().rev().find(|segment| segment.count > 0).map(|segment| segment.start)
    }

    /// What follows the effects. MODEL.md, "A node", the column "then".
    fn finish(&mut self, request: &Request) {
        match *request {
            Request::NewEpoch(_) => (self.open, self.serial) = (None, 0),
            Request::Start(_, start) => self.open = Some(start),
            Request::Finalize(_, start, _) if self.open == Some(start) => self.open = None,
            _ => {}
        }
    }

    // ## The effects. FILES.md, "The disk calls of each effect".

    fn make(&mut self, effect: Effect, request: &Request) -> Result<(), DiskFault> {
        match (effect, request.batch()) {
            (Effect::Promise(epoch), _) => {
                self.put_number(NumberFile::Promised, epoch)?;
                self.promised = epoch;
            }
            (Effect::Writer(epoch), _) => {
                self.put_number(NumberFile::Writer, epoch)?;
                self.writer = epoch;
            }
            (Effect::Committed(txid), _) => {
                self.put_number(NumberFile::Committed, txid)?;
                self.committed = txid;
            }
            (Effect::Begin(start, epoch), _) => self.begin(start, epoch)?,
            (Effect::Append(start), Some(batch)) => self.append(start, batch)?,
            (Effect::Accept { start, epoch, again }, Some(batch)) => self.accept(start, epoch, again, batch)?,
            (Effect::Finish(start), _) => self.finish_segment(start)?,
            (Effect::Remove(start), _) => self.remove(start)?,
            (Effect::Append(_) | Effect::Accept { .. }, None) => {}
        }
        Ok(())
    }

    /// To put a file: it is written beside, synced and renamed.
    fn put(&mut self, bytes: &[u8], beside: FileName, name: FileName) -> Result<(), DiskFault> {
        self.disk.write(&beside, 0, bytes)?;
        self.disk.sync(&beside)?;
        self.disk.rename(&beside, &name)
    }

    fn put_number(&mut self, file: NumberFile, number: u64) -> Result<(), DiskFault> {
        let mut bytes = Vec::with_capacity(20);
        push_padded(&mut bytes, number);
        bytes.push(b'\n');
        self.put(&bytes, FileName::PutNumber(file), FileName::Number(file))
    }

    fn begin(&mut self, start: u64, epoch: u64) -> Result<(), DiskFault> {
        let mut bytes = segment::header(start, epoch).to_vec();
        bytes.push(crate::batch::BLANK);
        self.put(&bytes, FileName::New(start), FileName::InProgress(start))?;
        self.segments.insert(start, Segment::new(start, epoch, Kind::Progress));
        if let Some(recent) = &mut self.recent {
            recent.begin(start);
        }
        Ok(())
    }

    fn append(&mut self, start: u64, batch: &Batch) -> Result<(), DiskFault> {
        let Some(segment) = self.segments.get_mut(&start) else { return Ok(()) };
        self.disk.append(&FileName::InProgress(start), segment.whole, batch.frame())?;
        segment.note_frame(batch.entries(), batch.count());
        if let Some(recent) = &mut self.recent {
            recent.push(start, batch.bodies());
        }
        Ok(())
    }

    fn accept(&mut self, start: u64, epoch: u64, again: bool, batch: &Batch) -> Result<(), DiskFault> {
        let mut bytes = segment::header(start, epoch).to_vec();
        bytes.extend_from_slice(batch.frame());
        if again {
            self.put(&bytes, FileName::New(start), FileName::InProgress(start))?;
        } else {
            let accepting = FileName::Accepting(start, epoch);
            self.disk.write(&accepting, 0, &bytes)?;
            self.disk.sync(&accepting)?;
            let mut record = Vec::with_capacity(40);
            push_padded(&mut record, epoch);
            record.push(b' ');
            push_padded(&mut record, batch.last().unwrap_or(0));
            record.push(b'\n');
            self.put(&record, FileName::PutRecord(start), FileName::Record(start))?;
            self.disk.rename(&accepting, &FileName::InProgress(start))?;
        }
        let mut segment = Segment::new(start, epoch, Kind::Accepted);
        segment.note_frame(batch.entries(), batch.count());
        self.segments.insert(start, segment);
        self.forget(start);
        Ok(())
    }

    fn finish_segment(&mut self, start: u64) -> Result<(), DiskFault> {
        let Some(segment) = self.segments.get_mut(&start) else { return Ok(()) };
        self.disk.rename(&FileName::InProgress(start), &FileName::Final(start, segment.end()))?;
        let was_accepted = segment.kind == Kind::Accepted;
        segment.kind = Kind::Final;
        if was_accepted {
            self.disk.remove(&FileName::Record(start))?;
        }
        Ok(())
    }

    fn remove(&mut self, start: u64) -> Result<(), DiskFault> {
        let Some(segment) = self.segments.remove(&start) else { return Ok(()) };
        self.disk.remove(&segment.file())?;
        self.forget(start);
        if segment.kind == Kind::Accepted {
            self.disk.remove(&FileName::Record(start))?;
        }
        Ok(())
    }

    /// The newest edits in memory aren't those of this segment any more.
    fn forget(&mut self, start: u64) {
        if let Some(recent) = &mut self.recent {
            recent.forget(start);
        }
    }
}

impl Node<MemoryDisk> {
    /// The node is cut inside the request after so many disk calls, and the disk crashes; how many effects stand.
    /// FORMATS.md, "Scripts", `cut`; MODEL.md, "A node over its disk", has the deciding calls.
    pub fn cut(&mut self, request: &Request, calls: u64, choice: Choice) -> u64 {
        let _ = self.plan(request);
        let effects = std::mem::take(&mut self.effects);
        self.disk.set_crash(calls);
        let mut stand = 0;
        for &effect in &effects {
            let before = self.disk.calls_made();
            let was_made = self.make(effect, request).is_ok();
            if was_made || self.disk.calls_made() - before >= deciding_call(effect, choice) {
                stand += 1;
            }
            if !was_made {
                break;
            }
        }
        self.disk.crash(choice);
        stand
    }
}

/// The number of the call that decides an effect. FILES.md, "The disk calls of each effect".
fn deciding_call(effect: Effect, choice: Choice) -> u64 {
    match effect {
        Effect::Promise(_) | Effect::Writer(_) | Effect::Committed(_) | Effect::Begin(..) => 3,
        Effect::Append(_) if choice == Choice::Old => 4,
        Effect::Append(_) => 3,
        Effect::Accept { again: true, .. } => 3,
        Effect::Accept { again: false, .. } => 5,
        Effect::Finish(_) | Effect::Remove(_) => 1,
    }
}

/// Before all else: a number or size past its limit. FORMATS.md, "Replies", refusal 2, in its order.
fn judge_limits(request: &Request) -> Result<(), Refusal> {
    let limit = |number: u64| Err(Refusal::with(Reason::Limit, number));
    let head = request.head().map_or([0; 3], |head| [head.epoch, head.serial, head.committed]);
    if head.iter().chain(&request.numbers()).any(|&number| number > LARGEST) {
        return limit(LARGEST);
    }
    let Some(batch) = request.batch() else { return Ok(()) };
    let last = batch.last().filter(|&last| last <= LARGEST);
    let Some(last) = last else { return limit(LARGEST) };
    if batch.longest() > LONGEST_BODY {
        return limit(LONGEST_BODY as u64);
    }
    if matches!(request, Request::Journal(..)) && batch.count() > MOST_BATCH {
        return limit(MOST_BATCH);
    }
    let start = request.numbers()[0];
    if last >= start && last - start >= MOST_EDITS {
        return limit(MOST_EDITS);
    }
    Ok(())
}
