//! The check of a folder. FORMATS.md, "The check of a folder".

use crate::disk::DiskFault;
use crate::folder;
use crate::image;
use crate::md5;
use crate::names::{FileName, NumberFile};
use crate::opening::{parse_number, parse_record};
use crate::segment::{Damage, SegmentFile};
use std::collections::BTreeSet;
use std::ffi::OsStr;
use std::fs;
use std::os::unix::ffi::OsStrExt;

/// A rule that a file breaks, with two numbers.
struct Finding {
    rule: u64,
    values: [u64; 2],
}

impl Finding {
    fn new(rule: u64, values: [u64; 2]) -> Finding {
        Finding { rule, values }
    }

    /// A finding whose first value is a place.
    fn at(rule: u64, damage: Damage) -> Finding {
        Finding { rule, values: [damage.place as u64, 0] }
    }
}

/// The folder that is checked: its names in byte order, those that are a node's or an image's, and the promise.
struct Check {
    names: Vec<Vec<u8>>,
    known: BTreeSet<FileName>,
    /// The number of `last-promised-epoch`, 0 where it is absent; none where it holds no number.
    promised: Option<u64>,
}

/// Checks each file of the current folder: the lines, and how many findings there are.
pub fn check() -> Result<(Vec<u8>, u64), DiskFault> {
    let names = folder::list_all()?;
    let known = names.iter().filter_map(|name| FileName::read(name)).collect();
    let mut check = Check { names, known, promised: Some(0) };
    let promise = FileName::Number(NumberFile::Promised);
    if check.known.contains(&promise) {
        check.promised = parse_number(&read(&promise)?);
    }
    let mut text = Vec::new();
    let mut findings = 0;
    let mut final_before = None;
    for name in &check.names {
        let known = FileName::read(name);
        let finding = check.judge(known.as_ref(), final_before)?;
        if let Some(FileName::Final(_, last)) = known {
            final_before = Some(last);
        }
        findings += u64::from(finding.is_some());
        push_line(&mut text, name, finding);
    }
    text.extend_from_slice(format!("findings {findings}\n").as_bytes());
    Ok((text, findings))
}

fn push_line(text: &mut Vec<u8>, name: &[u8], finding: Option<Finding>) {
    text.extend_from_slice(if finding.is_some() { b"bad " } else { b"ok " });
    text.extend_from_slice(name);
    if let Some(Finding { rule, values: [one, other] }) = finding {
        text.extend_from_slice(format!(" {rule} {one} {other}").as_bytes());
    }
    text.push(b'\n');
}

fn read(name: &FileName) -> Result<Vec<u8>, DiskFault> {
    Ok(fs::read(OsStr::from_bytes(&name.text()))?)
}

impl Check {
    /// The first rule that a file breaks, in the order 1, 5, 8, 2, 9, 3, 4, 7, 6, 10.
    fn judge(&self, name: Option<&FileName>, final_before: Option<u64>) -> Result<Option<Finding>, DiskFault> {
        let Some(name) = name else { return Ok(Some(Finding::new(1, [0, 0]))) };
        match *name {
            FileName::Number(number) => Ok(self.judge_number(number, &read(name)?)),
            FileName::Record(_) => Ok(parse_record(&read(name)?).is_none().then(|| Finding::new(5, [0, 0]))),
            FileName::InProgress(start) => Ok(judge_segment(&read(name)?, start, None)),
            FileName::Final(start, end) => {
                let overlap = final_before.filter(|&before| start <= before);
                let finding = judge_segment(&read(name)?, start, Some(end));
                Ok(finding.or(overlap.map(|before| Finding::new(4, [start, before]))))
            }
            FileName::Image(txid) => self.judge_image(txid),
            FileName::Digest(txid) => Ok((!self.known.contains(&FileName::Image(txid))).then(|| Finding::new(7, [0, 0]))),
            _ => Ok(None),
        }
    }

    /// Rules 5 and 8.
    fn judge_number(&self, file: NumberFile, bytes: &[u8]) -> Option<Finding> {
        let Some(number) = parse_number(bytes) else { return Some(Finding::new(5, [0, 0])) };
        let promised = self.promised.filter(|&promised| file == NumberFile::Writer && number > promised)?;
        Some(Finding::new(8, [number, promised]))
    }

    /// Rules 7, 6 and 10.
    fn judge_image(&self, txid: u64) -> Result<Option<Finding>, DiskFault> {
        let (image, digest) = (FileName::Image(txid), FileName::Digest(txid));
        if !self.known.contains(&digest) {
            return Ok(Some(Finding::new(7, [0, 0])));
        }
        let bytes = read(&image)?;
        let Some(stored) = md5::read_file(&read(&digest)?, &image.text()) else {
            return Ok(Some(Finding::new(10, [0, 0])));
        };
        let computed = md5::digest(&bytes);
        if stored != computed {
            return Ok(Some(Finding::new(6, [front(stored), front(computed)])));
        }
        Ok(image::read(&bytes, |_| {}).err().map(|damage| Finding::at(10, damage)))
    }
}

/// Rules 2, 9 and 3.
fn judge_segment(bytes: &[u8], start: u64, end: Option<u64>) -> Option<Finding> {
    let mut file = match SegmentFile::open(bytes) {
        Ok(file) => file,
        Err(damage) => return Some(Finding::at(2, damage)),
    };
    loop {
        match file.next_frame() {
            Ok(Some(_)) => {}
            Ok(None) => break,
            Err(damage) => return Some(Finding::at(2, damage)),
        }
    }
    if file.start != start {
        return Some(Finding::new(9, [start, file.start]));
    }
    let last = file.next - 1;
    end.filter(|&end| end != last).map(|end| Finding::new(3, [end, last]))
}

/// The first eight bytes of a digest as a number.
fn front(digest: [u8; 16]) -> u64 {
    digest[..8].iter().fold(0, |number, &byte| (number << 8) | u64::from(byte))
}
