//! What opening a node's folder reads and repairs. FILES.md, "What opening reads and repairs".

use crate::disk::{Disk, DiskFault};
use crate::names::{FileName, NumberFile};
use crate::node::Node;
use crate::segment::SegmentFile;
use crate::table::{Kind, Segment};
use crate::words::read_padded;
use std::collections::BTreeMap;

/// Why a node isn't opened.
pub enum OpeningFault {
    BadFile(FileName),
    Disk,
}

impl From<DiskFault> for OpeningFault {
    fn from(_: DiskFault) -> OpeningFault {
        OpeningFault::Disk
    }
}

/// A node being opened: its disk, and the names that are left, each with its bytes, in byte order.
struct Opening<D: Disk> {
    disk: D,
    names: Vec<FileName>,
    records: BTreeMap<u64, u64>,
}

/// Opens the node whose files the disk has. Where it isn't opened the disk is given back with the reason.
pub fn open<D: Disk>(disk: D) -> Result<Node<D>, (D, OpeningFault)> {
    let mut opening = Opening { disk, names: Vec::new(), records: BTreeMap::new() };
    match opening.read_all() {
        Ok((numbers, segments)) => Ok(Node::new(opening.disk, numbers, segments)),
        Err(fault) => Err((opening.disk, fault)),
    }
}

impl<D: Disk> Opening<D> {
    fn read_all(&mut self) -> Result<([u64; 3], BTreeMap<u64, Segment>), OpeningFault> {
        self.names = self.disk.names()?;
        self.sync_all()?;
        let mut numbers = [0; 3];
        for (number, file) in numbers.iter_mut().zip(NumberFile::ALL) {
            *number = self.read_number(file)?;
        }
        for name in self.names.clone() {
            if let FileName::Record(start) = name {
                let epoch = self.read_record(&name)?;
                self.records.insert(start, epoch);
            }
        }
        self.settle()?;
        let segments = self.read_segments()?;
        self.drop_records(&segments)?;
        Ok((numbers, segments))
    }

    /// Opening first syncs every file of a node but the temporary ones, the number files last.
    fn sync_all(&mut self) -> Result<(), DiskFault> {
        let is_first = |name: &&FileName| {
            matches!(name, FileName::InProgress(_) | FileName::Final(..) | FileName::Record(_) | FileName::Accepting(..))
        };
        for name in self.names.iter().filter(is_first) {
            self.disk.sync(name)?;
        }
        for name in self.names.iter().filter(|name| matches!(name, FileName::Number(_))) {
            self.disk.sync(name)?;
        }
        Ok(())
    }

    fn read_whole(&self, name: &FileName) -> Result<Vec<u8>, DiskFault> {
        let mut bytes = Vec::new();
        self.disk.read(name, 0, usize::MAX, &mut bytes)?;
        Ok(bytes)
    }

    /// Step 1. An absent file stands for 0.
    fn read_number(&self, file: NumberFile) -> Result<u64, OpeningFault> {
        let name = FileName::Number(file);
        if !self.names.contains(&name) {
            return Ok(0);
        }
        parse_number(&self.read_whole(&name)?).ok_or(OpeningFault::BadFile(name))
    }

    /// Step 2: the epoch of an acceptance.
    fn read_record(&self, name: &FileName) -> Result<u64, OpeningFault> {
        let record = parse_record(&self.read_whole(name)?);
        record.map(|(epoch, _)| epoch).ok_or_else(|| OpeningFault::BadFile(name.clone()))
    }

    /// Step 3: `.epoch=` files that count take their place, and what counts for nothing goes.
    fn settle(&mut self) -> Result<(), DiskFault> {
        let mut kept = Vec::with_capacity(self.names.len());
        let mut was_renamed = false;
        let finals = self.final_starts();
        for name in std::mem::take(&mut self.names) {
            let goes = match name {
                FileName::Accepting(start, epoch) => {
                    let counts = self.records.get(&start) == Some(&epoch);
                    if counts && finals.binary_search(&start).is_err() {
                        let place = FileName::InProgress(start);
                        self.disk.rename(&name, &place)?;
                        kept.push(place);
                        was_renamed = true;
                        continue;
                    }
                    true
                }
                FileName::InProgress(start) => finals.binary_search(&start).is_ok(),
                _ => name.is_temporary(),
            };
            if goes {
                self.disk.remove(&name)?;
            } else {
                kept.push(name);
            }
        }
        if was_renamed {
            kept.sort_by_cached_key(FileName::text);
            kept.dedup();
        }
        self.names = kept;
        Ok(())
    }

    /// The starts of finalised files, in order.
    fn final_starts(&self) -> Vec<u64> {
        let starts = self.names.iter().filter_map(|name| match *name {
            FileName::Final(start, _) => Some(start),
            _ => None,
        });
        starts.collect()
    }

    /// Step 4. Each start has one segment.
    fn read_segments(&mut self) -> Result<BTreeMap<u64, Segment>, OpeningFault> {
        let mut segments: BTreeMap<u64, Segment> = BTreeMap::new();
        let mut bytes = Vec::new();
        for name in &self.names {
            let (start, kind) = match *name {
                FileName::Final(start, _) => (start, Kind::Final),
                FileName::InProgress(start) => (start, Kind::Progress),
                _ => continue,
            };
            self.disk.read(name, 0, usize::MAX, &mut bytes)?;
            let segment = read_segment(&bytes, start, kind, self.records.get(&start)).filter(|segment| match *name {
                FileName::Final(_, end) => segment.end() == end && !segments.contains_key(&start),
                _ => true,
            });
            segments.insert(start, segment.ok_or_else(|| OpeningFault::BadFile(name.clone()))?);
        }
        match segments.values().find(|segment| segment.kind == Kind::Accepted && segment.count == 0) {
            Some(segment) => Err(OpeningFault::BadFile(FileName::InProgress(segment.start))),
            None => Ok(segments),
        }
    }

    /// Step 5: a record goes whose segment isn't in progress with the record's epoch in its header.
    fn drop_records(&mut self, segments: &BTreeMap<u64, Segment>) -> Result<(), DiskFault> {
        for &start in self.records.keys() {
            if segments.get(&start).is_none_or(|segment| segment.kind != Kind::Accepted) {
                self.disk.remove(&FileName::Record(start))?;
            }
        }
        Ok(())
    }
}

/// The segment that a file's bytes tell, if they are in their grammar and of this start.
fn read_segment(bytes: &[u8], start: u64, kind: Kind, record: Option<&u64>) -> Option<Segment> {
    let mut file = SegmentFile::open(bytes).ok()?;
    if file.start != start {
        return None;
    }
    let is_accepted = kind == Kind::Progress && record == Some(&file.epoch);
    let mut segment = Segment::new(start, file.epoch, if is_accepted { Kind::Accepted } else { kind });
    while let Some(frame) = file.next_frame().ok()? {
        segment.note_frame(frame.entries, frame.count);
    }
    Some(segment)
}

/// A number file: 19 digits and a line feed. FILES.md, "Files of a node".
pub fn parse_number(bytes: &[u8]) -> Option<u64> {
    read_padded(bytes.strip_suffix(b"\n")?)
}

/// A record of an acceptance: its epoch and its last txid.
pub fn parse_record(bytes: &[u8]) -> Option<(u64, u64)> {
    let (epoch, end) = bytes.strip_suffix(b"\n")?.split_at_checked(19)?;
    Some((read_padded(epoch)?, read_padded(end.strip_prefix(b" ")?)?))
}
