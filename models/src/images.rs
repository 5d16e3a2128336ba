//! The images of a name node in the current folder. FILES.md, "Files of images"; FORMATS.md, "The
//! program", `lead`.

use crate::disk::DiskFault;
use crate::ends::Ending;
use crate::folder::{is_absence, list_all};
use crate::image;
use crate::md5;
use crate::names::FileName;
use crate::standby::Image;
use std::collections::BTreeSet;
use std::ffi::OsStr;
use std::fs::{self, File};
use std::io::{self, Write};
use std::os::unix::ffi::OsStrExt;

/// How many images are kept.
const KEPT: usize = 2;

/// The two newest images that count, the older one first.
pub fn load_newest() -> Result<Vec<Image>, Ending> {
    let counting = counting().map_err(|_| Ending::DiskFault)?;
    counting.iter().skip(counting.len().saturating_sub(KEPT)).map(|&txid| load(txid)).collect()
}

/// The txids of the images that count, in order: the image and its digest are both there.
fn counting() -> io::Result<BTreeSet<u64>> {
    let names: BTreeSet<FileName> = list_all()?.iter().filter_map(|name| FileName::read(name)).collect();
    let counts = |name: &FileName| match *name {
        FileName::Image(txid) if names.contains(&FileName::Digest(txid)) => Some(txid),
        _ => None,
    };
    Ok(names.iter().filter_map(counts).collect())
}

/// The image of a txid; one that is damaged, or tells another txid, is a bad file.
fn load(txid: u64) -> Result<Image, Ending> {
    let name = FileName::Image(txid).text();
    let read = |name: &FileName| fs::read(path(&name.text())).map_err(|_| Ending::DiskFault);
    let (bytes, told) = (read(&FileName::Image(txid))?, read(&FileName::Digest(txid))?);
    let digest = md5::digest(&bytes);
    let is_sound = md5::read_file(&told, &name) == Some(digest) && image::load(&bytes).is_ok_and(|loaded| loaded.1 == txid);
    if is_sound {
        Ok(Image { txid, bytes, digest })
    } else {
        Err(Ending::BadFile(name))
    }
}

fn path(name: &[u8]) -> &OsStr {
    OsStr::from_bytes(name)
}

/// Saves an image, by the disk calls that FILES.md names ("A save"), and removes all but the
/// newest.
pub fn save(image: &Image) -> Result<(), DiskFault> {
    let name = FileName::Image(image.txid).text();
    let (saving, digest) = (FileName::Saving(image.txid).text(), FileName::Digest(image.txid).text());
    let putting = [&digest[..], b".tmp"].concat();
    remove(&saving)?;
    remove(&putting)?;
    write(&saving, &image.bytes)?;
    let line = digest_line(image, &name);
    if fs::read(path(&digest)).is_ok_and(|told| told == line) {
        File::open(path(&digest))?.sync_data()?;
    } else {
        remove(&name)?;
    }
    write(&putting, &line)?;
    rename(&putting, &digest)?;
    rename(&saving, &name)?;
    let counting = counting()?;
    for &txid in counting.iter().take(counting.len().saturating_sub(KEPT)) {
        remove(&FileName::Image(txid).text())?;
        remove(&FileName::Digest(txid).text())?;
    }
    Ok(())
}

/// The text of a digest's file: 32 digits, a space, a star, the image's name and a line feed.
fn digest_line(image: &Image, name: &[u8]) -> Vec<u8> {
    let mut line = Vec::new();
    crate::words::push_hex(&mut line, &image.digest);
    [&line[..], b" *", name, b"\n"].concat()
}

fn write(name: &[u8], bytes: &[u8]) -> io::Result<()> {
    let mut file = File::create(path(name))?;
    file.write_all(bytes)?;
    file.sync_all()
}

fn rename(from: &[u8], to: &[u8]) -> io::Result<()> {
    fs::rename(path(from), path(to))?;
    File::open(".")?.sync_all()
}

/// Removes a file, where it is there.
fn remove(name: &[u8]) -> io::Result<()> {
    match fs::remove_file(path(name)) {
        Err(error) if is_absence(&error) => Ok(()),
        Err(error) => Err(error),
        Ok(()) => File::open(".")?.sync_all(),
    }
}
