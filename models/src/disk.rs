//! The disk under a node, by the calls that FILES.md names, and a disk in memory that can crash between two of them.
//! FILES.md, "What a disk does" and "The disk calls of each effect".

use crate::names::FileName;
use std::collections::BTreeMap;

/// A call of the disk failed.
#[derive(Debug)]
pub struct DiskFault;

/// The calls that a node makes.
pub trait Disk {
    /// Writes the bytes at a place of the file, which is made where it is absent.
    fn write(&mut self, name: &FileName, at: u64, bytes: &[u8]) -> Result<(), DiskFault>;
    fn sync(&mut self, name: &FileName) -> Result<(), DiskFault>;
    fn rename(&mut self, from: &FileName, to: &FileName) -> Result<(), DiskFault>;
    fn remove(&mut self, name: &FileName) -> Result<(), DiskFault>;
    /// Puts at most so many bytes of the file, from the place on, into the room. An absent file has none.
    fn read(&self, name: &FileName, at: u64, most: usize, room: &mut Vec<u8>) -> Result<(), DiskFault>;
    /// The names of a node's files: the starts of finalised ones rise, and those of a folder are in byte order.
    fn names(&self) -> Result<Vec<FileName>, DiskFault>;

    /// Appends a frame, which is given with its seal and the blank seal behind it, at the whole length: four calls, of which the
    /// last but one sets the seal. FILES.md, "The disk calls of each effect".
    fn append(&mut self, name: &FileName, whole: u64, frame: &[u8]) -> Result<(), DiskFault> {
        self.write(name, whole + 1, &frame[1..])?;
        self.sync(name)?;
        self.write(name, whole, &frame[..1])?;
        self.sync(name)
    }
}

/// What a crash leaves of the bytes that weren't synced. FORMATS.md, "Scripts": CHOICE.
#[derive(Clone, Copy, PartialEq, Eq)]
pub enum Choice {
    Old,
    New,
    A5,
}

/// Bytes that were written over and not synced yet: the file, the place, what stood there, how many were written, and the length that
/// the file had before.
#[derive(Clone)]
struct Unsynced {
    name: FileName,
    at: usize,
    before: Vec<u8>,
    count: usize,
    length: usize,
}

/// A crash that is set: how many calls are still made, how many were made, and what wasn't synced.
#[derive(Clone)]
struct Crash {
    left: u64,
    made: u64,
    unsynced: Vec<Unsynced>,
}

/// A disk in memory.
#[derive(Clone, Default)]
pub struct MemoryDisk {
    files: BTreeMap<FileName, Vec<u8>>,
    crash: Option<Crash>,
}

impl MemoryDisk {
    /// Each call after so many more fails.
    pub fn set_crash(&mut self, calls: u64) {
        self.crash = Some(Crash { left: calls, made: 0, unsynced: Vec::new() });
    }

    /// How many calls were made since a crash was set.
    pub fn calls_made(&self) -> u64 {
        self.crash.as_ref().map_or(0, |crash| crash.made)
    }

    /// The crash comes: the bytes that weren't synced become as the choice says.
    pub fn crash(&mut self, choice: Choice) {
        let Some(crash) = self.crash.take() else { return };
        for lost in crash.unsynced.into_iter().rev() {
            let Some(bytes) = self.files.get_mut(&lost.name) else { continue };
            match choice {
                Choice::New => {}
                Choice::A5 => bytes[lost.at..lost.at + lost.count].fill(0xa5),
                Choice::Old => {
                    bytes.truncate(lost.length);
                    bytes[lost.at.min(lost.length)..][..lost.before.len()].copy_from_slice(&lost.before);
                }
            }
        }
    }

    /// Whether one call more is made.
    fn permit(&mut self) -> Result<(), DiskFault> {
        let Some(crash) = &mut self.crash else { return Ok(()) };
        if crash.left == 0 {
            return Err(DiskFault);
        }
        crash.left -= 1;
        crash.made += 1;
        Ok(())
    }

    /// Notes what a write is about to change, where a crash is set.
    fn note(&mut self, name: &FileName, at: usize, count: usize) {
        let Some(crash) = &mut self.crash else { return };
        let bytes = self.files.get(name).map_or(&[][..], |bytes| bytes);
        let length = bytes.len();
        let before = bytes[at.min(length)..(at + count).min(length)].to_vec();
        crash.unsynced.push(Unsynced { name: name.clone(), at, before, count, length });
    }
}

impl Disk for MemoryDisk {
    fn write(&mut self, name: &FileName, at: u64, bytes: &[u8]) -> Result<(), DiskFault> {
        self.permit()?;
        let at = at as usize;
        self.note(name, at, bytes.len());
        let file = match self.files.get_mut(name) {
            Some(file) => file,
            None => self.files.entry(name.clone()).or_default(),
        };
        if file.len() < at + bytes.len() {
            file.resize(at + bytes.len(), 0);
        }
        file[at..at + bytes.len()].copy_from_slice(bytes);
        Ok(())
    }

    fn sync(&mut self, name: &FileName) -> Result<(), DiskFault> {
        self.permit()?;
        if let Some(crash) = &mut self.crash {
            crash.unsynced.retain(|lost| lost.name != *name);
        }
        Ok(())
    }

    fn rename(&mut self, from: &FileName, to: &FileName) -> Result<(), DiskFault> {
        self.permit()?;
        let bytes = self.files.remove(from).ok_or(DiskFault)?;
        self.files.insert(to.clone(), bytes);
        Ok(())
    }

    fn remove(&mut self, name: &FileName) -> Result<(), DiskFault> {
        self.permit()?;
        self.files.remove(name).map(|_| ()).ok_or(DiskFault)
    }

    fn read(&self, name: &FileName, at: u64, most: usize, room: &mut Vec<u8>) -> Result<(), DiskFault> {
        room.clear();
        if let Some(bytes) = self.files.get(name) {
            let at = (at as usize).min(bytes.len());
            let end = at.saturating_add(most).min(bytes.len());
            room.extend_from_slice(&bytes[at..end]);
        }
        Ok(())
    }

    fn names(&self) -> Result<Vec<FileName>, DiskFault> {
        Ok(self.files.keys().cloned().collect())
    }

    /// Where no crash is set the four calls come to this: the blank seal is written over by the frame.
    fn append(&mut self, name: &FileName, whole: u64, frame: &[u8]) -> Result<(), DiskFault> {
        if self.crash.is_none() {
            let file = self.files.get_mut(name).ok_or(DiskFault)?;
            file.truncate(whole as usize);
            file.extend_from_slice(frame);
            return Ok(());
        }
        self.write(name, whole + 1, &frame[1..])?;
        self.sync(name)?;
        self.write(name, whole, &frame[..1])?;
        self.sync(name)
    }
}
