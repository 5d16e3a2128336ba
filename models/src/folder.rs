//! The current folder as the disk of a node. FILES.md, "What a disk does", "A real folder".

use crate::disk::{Disk, DiskFault};
use crate::names::{FileName, RECORDS};
use std::ffi::OsStr;
use std::fs::{self, File, OpenOptions};
use std::io::{self, ErrorKind};
use std::os::unix::ffi::OsStrExt;
use std::os::unix::fs::FileExt;
use std::path::PathBuf;

impl From<io::Error> for DiskFault {
    fn from(_: io::Error) -> DiskFault {
        DiskFault
    }
}

/// The current folder. The file that was written last stays open until another one is written or a name changes.
pub struct Folder {
    last: Option<(FileName, File)>,
    top: File,
    records: Option<File>,
}

impl Folder {
    /// The current folder, which is held open.
    pub fn open() -> Result<Folder, DiskFault> {
        Ok(Folder { last: None, top: File::open(".")?, records: None })
    }

    /// The folder itself, on which the lock is taken.
    pub fn top(&self) -> &File {
        &self.top
    }

    /// The file, to be written.
    fn written(&mut self, name: &FileName) -> Result<&File, DiskFault> {
        let is_last = self.last.as_ref().is_some_and(|(last, _)| last == name);
        if !is_last {
            self.last = None;
            if matches!(name, FileName::Record(_) | FileName::PutRecord(_)) {
                self.make_records_folder()?;
            }
            let file = OpenOptions::new().write(true).create(true).open(path(name))?;
            self.last = Some((name.clone(), file));
        }
        self.last.as_ref().map(|(_, file)| file).ok_or(DiskFault)
    }

    /// The subfolder of records is made where it is wanted first.
    fn make_records_folder(&mut self) -> Result<(), DiskFault> {
        match fs::create_dir("paxos") {
            Err(error) if error.kind() != ErrorKind::AlreadyExists => Err(DiskFault),
            Err(_) => Ok(()),
            Ok(()) => Ok(self.top.sync_all()?),
        }
    }

    /// The folder that a file's name stands in is synced, so that no crash undoes a rename or a removal.
    fn sync_names(&mut self, name: &FileName) -> Result<(), DiskFault> {
        if !name.text().starts_with(RECORDS) {
            return Ok(self.top.sync_all()?);
        }
        if self.records.is_none() {
            self.records = Some(File::open("paxos")?);
        }
        match &self.records {
            Some(folder) => Ok(folder.sync_all()?),
            None => Ok(()),
        }
    }
}

/// The path of a file in the current folder.
fn path(name: &FileName) -> PathBuf {
    PathBuf::from(OsStr::from_bytes(&name.text()))
}

/// Whether a name is absent: there is no such file, a file stands where a folder is wanted, the name is too long for the system, or its
/// link leads round in a circle. FILES.md, "A real folder".
pub fn is_absence(error: &io::Error) -> bool {
    const LINKS_IN_A_CIRCLE: i32 = 40;
    matches!(error.kind(), ErrorKind::NotFound | ErrorKind::NotADirectory | ErrorKind::InvalidFilename)
        || error.raw_os_error() == Some(LINKS_IN_A_CIRCLE)
}

/// The names of the plain files in a folder, each after what stands before it. Folders and devices aren't listed, nor links that lead
/// nowhere or to one of them.
fn list(folder: &str, before: &[u8]) -> io::Result<Vec<Vec<u8>>> {
    let mut names = Vec::new();
    for entry in fs::read_dir(folder)? {
        let entry = entry?;
        let kind = entry.file_type()?;
        let is_file = if kind.is_symlink() {
            fs::metadata(entry.path()).map_or_else(|error| !is_absence(&error), |found| found.is_file())
        } else {
            kind.is_file()
        };
        if is_file && entry.file_name().to_str().is_some() {
            names.push([before, entry.file_name().as_bytes()].concat());
        }
    }
    Ok(names)
}

/// All names of the current folder and of its subfolder `paxos`.
pub fn list_all() -> io::Result<Vec<Vec<u8>>> {
    let mut names = list(".", b"")?;
    match fs::metadata("paxos") {
        Ok(found) if found.is_dir() => names.extend(list("paxos", RECORDS)?),
        Err(error) if !is_absence(&error) => return Err(error),
        _ => {}
    }
    names.sort();
    Ok(names)
}

impl Disk for Folder {
    fn write(&mut self, name: &FileName, at: u64, bytes: &[u8]) -> Result<(), DiskFault> {
        Ok(self.written(name)?.write_all_at(bytes, at)?)
    }

    fn sync(&mut self, name: &FileName) -> Result<(), DiskFault> {
        match &self.last {
            Some((last, file)) if last == name => Ok(file.sync_data()?),
            _ => Ok(File::open(path(name))?.sync_data()?),
        }
    }

    fn rename(&mut self, from: &FileName, to: &FileName) -> Result<(), DiskFault> {
        self.last = None;
        fs::rename(path(from), path(to))?;
        self.sync_names(to)
    }

    fn remove(&mut self, name: &FileName) -> Result<(), DiskFault> {
        self.last = None;
        fs::remove_file(path(name))?;
        self.sync_names(name)
    }

    fn read(&self, name: &FileName, at: u64, most: usize, room: &mut Vec<u8>) -> Result<(), DiskFault> {
        room.clear();
        let file = match File::open(path(name)) {
            Err(error) if is_absence(&error) => return Ok(()),
            file => file?,
        };
        let length = file.metadata()?.len().saturating_sub(at);
        room.resize(usize::try_from(length).unwrap_or(usize::MAX).min(most), 0);
        Ok(file.read_exact_at(room, at)?)
    }

    fn names(&self) -> Result<Vec<FileName>, DiskFault> {
        let is_nodes = |name: &FileName| !matches!(name, FileName::Image(_) | FileName::Digest(_) | FileName::Saving(_));
        Ok(list_all()?.iter().filter_map(|name| FileName::read(name)).filter(is_nodes).collect())
    }
}
