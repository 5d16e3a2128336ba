//! The standard input and output, and how the program ends. FORMATS.md, "The program".

use crate::report::Report;
use std::fs::File;
use std::io::{self, ErrorKind, Read, Write};
use std::mem::ManuallyDrop;
use std::os::fd::FromRawFd;
use std::process::ExitCode;
use std::thread::sleep;
use std::time::Duration;

/// How the program ends: the table of statuses.
pub enum Ending {
    Ok(Vec<u8>),
    Report(Report),
    Usage(usize),
    BadScript { line: u64, rule: u64 },
    BadReport { line: u64, rule: u64 },
    BadBytes { place: usize, cause: &'static str },
    BadFile(Vec<u8>),
    Limit(u64),
    Unsound(Vec<u8>),
    ReadFault,
    WriteFault,
    DiskFault,
    Locked,
}

impl Ending {
    /// Writes what is to be written, and gives the status.
    pub fn finish(self) -> ExitCode {
        let (status, line) = match self {
            Ending::Ok(text) => (0, text),
            Ending::Unsound(text) => (5, text),
            Ending::Report(report) => return write_report(&report),
            Ending::Usage(place) => (1, format!("error Usage {place}\n").into_bytes()),
            Ending::BadScript { line, rule } => (2, format!("error BadScript {line} {rule}\n").into_bytes()),
            Ending::BadReport { line, rule } => (2, format!("error BadReport {line} {rule}\n").into_bytes()),
            Ending::BadBytes { place, cause } => (3, format!("error BadBytes {place} {cause}\n").into_bytes()),
            Ending::BadFile(name) => (3, [b"error BadBytes 0 BadFile ", &name[..], b"\n"].concat()),
            Ending::Limit(limit) => (4, format!("error Limit {limit}\n").into_bytes()),
            Ending::ReadFault => (6, b"error ReadFault\n".to_vec()),
            Ending::WriteFault => return ExitCode::from(7),
            Ending::DiskFault => (8, b"error DiskFault\n".to_vec()),
            Ending::Locked => (75, b"error Locked\n".to_vec()),
        };
        // A fault line whose own writing fails leaves its status as it is.
        match write(&line) {
            Err(_) if matches!(status, 0 | 5) => ExitCode::from(7),
            _ => ExitCode::from(status),
        }
    }
}

fn write_report(report: &Report) -> ExitCode {
    ExitCode::from(if report.write(write).is_err() { 7 } else { 0 })
}

/// A standard end as a file, which stays open.
fn standard(descriptor: i32) -> ManuallyDrop<File> {
    // SAFETY: the descriptors 0 and 1 are the program's own, and the file that is made of one is closed at its end alone.
    ManuallyDrop::new(unsafe { File::from_raw_fd(descriptor) })
}

/// The standard input as a file of its own.
pub fn input() -> File {
    ManuallyDrop::into_inner(standard(0))
}

/// Whether a call is made again: after a signal at once, where the end isn't ready after 10 ms.
/// FORMATS.md, "The program", "The standard ends".
fn comes_again(error: &io::Error) -> bool {
    match error.kind() {
        ErrorKind::Interrupted => true,
        ErrorKind::WouldBlock => {
            sleep(Duration::from_millis(10));
            true
        }
        _ => false,
    }
}

/// Writes all bytes to the standard output.
pub fn write(mut bytes: &[u8]) -> io::Result<()> {
    let mut output = standard(1);
    while !bytes.is_empty() {
        match output.write(bytes) {
            Ok(0) => return Err(ErrorKind::WriteZero.into()),
            Ok(count) => bytes = &bytes[count..],
            Err(error) if comes_again(&error) => {}
            Err(error) => return Err(error),
        }
    }
    Ok(())
}

/// Reads some bytes of the standard input; none at its end.
pub fn read(room: &mut [u8]) -> io::Result<usize> {
    let mut input = standard(0);
    loop {
        match input.read(room) {
            Err(error) if comes_again(&error) => {}
            other => return other,
        }
    }
}

/// Reads all of the standard input, but one byte more than so many at most.
pub fn read_all(most: usize) -> io::Result<Vec<u8>> {
    let mut bytes = Vec::new();
    loop {
        let length = bytes.len();
        bytes.resize(length.saturating_mul(2).clamp(64 * 1024, most + 1).max(length), 0);
        let count = if bytes.len() > length { read(&mut bytes[length..])? } else { 0 };
        bytes.truncate(length + count);
        if count == 0 {
            return Ok(bytes);
        }
    }
}
