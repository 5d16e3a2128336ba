//! What a name node has beside its writer: a namespace at a position, and images. MODEL.md, "Standbys and active name nodes".

use crate::batch::Bodies;
use crate::caller::Cause;
use crate::edit::Record;
use crate::image;
use crate::md5;
use crate::reply::{Reason, Reply};
use crate::request::Request;
use crate::rows::{push_row, Columns};
use crate::space::Space;
use crate::tree::{Directory, Inode, Owners};
use crate::words::push_number;
use crate::writer::Net;

/// An image with its digest, at a txid.
pub struct Image {
    pub txid: u64,
    pub bytes: Vec<u8>,
    pub digest: [u8; 16],
}

/// How a tail ended. A tail up to a txid comes to it, or is purged or behind.
pub enum Tailed {
    CaughtUp,
    /// The nodes' logs begin at this txid, behind the next one.
    Purged(u64),
    Behind(Vec<Cause>),
    /// An entry that can't be applied: from then on nothing is done and nothing told.
    BadEntry,
}

/// A namespace at a position, and the images on the actor's disk, the oldest first.
pub struct Standby {
    pub space: Space,
    pub position: u64,
    /// Whether a bad entry was met.
    pub is_broken: bool,
    images: Vec<Image>,
}

impl Standby {
    /// An empty namespace at position 0.
    pub fn new() -> Standby {
        Standby { space: Space::new(), position: 0, is_broken: false, images: Vec::new() }
    }

    /// A standby that begins from the newest of these images, the oldest first, or empty at 0.
    pub fn with_images(images: Vec<Image>) -> Standby {
        let mut standby = Standby { images, ..Standby::new() };
        standby.reload();
        standby
    }

    /// An image of its namespace, at its position.
    pub fn snapshot(&self) -> Image {
        let bytes = image::write(&self.space, self.position);
        let digest = md5::digest(&bytes);
        Image { txid: self.position, bytes, digest }
    }

    /// Begins empty.
    pub fn clear(&mut self) {
        (self.space, self.position) = (Space::new(), 0);
    }

    /// Begins again from the newest image, or empty at 0.
    pub fn reload(&mut self) {
        let sound = self.images.last().filter(|image| md5::digest(&image.bytes) == image.digest);
        match sound.map(|image| image::load(&image.bytes)) {
            Some(Ok((space, txid))) => (self.space, self.position) = (space, txid),
            _ => self.clear(),
        }
    }

    /// Saves an image at the position, and keeps the two newest.
    pub fn checkpoint(&mut self) {
        self.images.retain(|image| image.txid != self.position);
        self.images.push(self.snapshot());
        self.images.sort_by_key(|image| image.txid);
        let count = self.images.len();
        self.images.drain(..count.saturating_sub(2));
    }

    /// The txid below which a trim lets segments go: one above the older of the two newest images, less so many edits, and at least 1.
    pub fn trim_below(&self, extra: u64) -> Option<u64> {
        self.images.first().map(|image| (image.txid + 1).saturating_sub(extra).max(1))
    }

    /// Begins again from the newest image, or empty at 0; the image's txid.
    pub fn reload_newest(&mut self) -> Option<u64> {
        self.reload();
        self.images.last().map(|image| image.txid)
    }

    /// Reads the log from the nodes and applies it, to its end or up to a txid.
    pub fn tail(&mut self, net: &mut Net, until: Option<u64>) -> Tailed {
        let majority = if until.is_none() { net.cluster.majority() } else { usize::MAX };
        self.read_log(net.cluster.count(), majority, until, |node, from| {
            let request = Request::Read(from);
            net.caller.prepare(net.cluster, &request);
            net.caller.ask(net.cluster, node, &request)
        })
    }

    /// Reads the log by this way to ask a node for the edits from a txid on, until so many nodes say that they have nothing later.
    pub fn read_log(
        &mut self,
        nodes: usize,
        majority: usize,
        until: Option<u64>,
        mut read: impl FnMut(usize, u64) -> Option<Reply>,
    ) -> Tailed {
        let mut causes = Vec::new();
        while !self.is_broken && until != Some(self.position) && causes.len() < nodes {
            match read(causes.len(), self.position + 1) {
                Some(Reply::Edits(edits)) => {
                    self.apply(&edits.entries);
                    causes.clear();
                }
                Some(Reply::Refused(refusal)) => causes.push(Cause::Refused(refusal)),
                _ => causes.push(Cause::Silent),
            }
        }
        match until {
            _ if self.is_broken => Tailed::BadEntry,
            Some(end) if end == self.position => Tailed::CaughtUp,
            _ => judge_tail(causes, majority),
        }
    }

    /// Applies edits that were read, which follow the position, up to the first that can't be applied.
    fn apply(&mut self, entries: &[u8]) {
        for body in (Bodies { entries }) {
            let applied = Record::decode(body).is_ok_and(|record| self.space.apply(&record, self.position + 1).is_ok());
            if !applied {
                self.is_broken = true;
                return;
            }
            self.position += 1;
        }
    }

    /// The position and a row for each inode, as text. FORMATS.md, "The report".
    pub fn rows(&self) -> Vec<u8> {
        let mut text = b"position ".to_vec();
        push_number(&mut text, self.position);
        text.push(b'\n');
        self.push_rows(text)
    }

    /// A row for each inode alone.
    pub fn row_lines(&self) -> Vec<u8> {
        self.push_rows(Vec::new())
    }

    fn push_rows(&self, text: Vec<u8>) -> Vec<u8> {
        let mut walk = RowWalk { owners: &self.space.owners, text, path: Vec::new() };
        walk.push_directory(&self.space.root);
        walk.text
    }
}

/// The pass in which no node gave an edit. MODEL.md, "Standbys and active name nodes": caught up where so many say that they have
/// nothing later, purged where some node's log begins later, else behind, in this order.
fn judge_tail(causes: Vec<Cause>, majority: usize) -> Tailed {
    let refusals = |reason: Reason| {
        causes.iter().filter_map(move |cause| match cause {
            Cause::Refused(refusal) if refusal.reason == reason => refusal.field,
            _ => None,
        })
    };
    if refusals(Reason::NotHere).count() >= majority {
        return Tailed::CaughtUp;
    }
    match refusals(Reason::Purged).min() {
        Some(first) => Tailed::Purged(first),
        None => Tailed::Behind(causes),
    }
}

/// A walk that appends a row for each inode.
struct RowWalk<'a> {
    owners: &'a Owners,
    text: Vec<u8>,
    path: Vec<u8>,
}

impl RowWalk<'_> {
    fn push(&mut self, columns: &Columns) {
        self.text.extend_from_slice(b". ");
        push_row(&mut self.text, columns);
        self.text.push(b'\n');
    }

    fn push_directory(&mut self, directory: &Directory) {
        let path = std::mem::take(&mut self.path);
        self.push(&Columns {
            path: if path.is_empty() { b"/" } else { &path },
            is_directory: true,
            numbers: [0, directory.common.mtime, 0, 0, 0, 0],
            quotas: [directory.names_quota, directory.space_quota],
            permission: directory.common.permission,
            user: self.owners.name(directory.common.user),
            group: self.owners.name(directory.common.group),
        });
        self.path = path;
        for (name, inode) in &directory.entries {
            let length = self.path.len();
            self.path.push(b'/');
            self.path.extend_from_slice(name);
            match inode {
                Inode::Directory(directory) => self.push_directory(directory),
                Inode::File(file) => {
                    let path = std::mem::take(&mut self.path);
                    self.push(&file_columns(&path, file, self.owners));
                    self.path = path;
                }
            }
            self.path.truncate(length);
        }
    }
}

/// The columns of a file.
fn file_columns<'a>(path: &'a [u8], file: &crate::tree::File, owners: &'a Owners) -> Columns<'a> {
    let bytes = file.blocks.iter().sum();
    Columns {
        path,
        is_directory: false,
        numbers: [u64::from(file.replication), file.common.mtime, file.atime, file.block_size, file.blocks.len() as u64, bytes],
        quotas: [0, 0],
        permission: file.common.permission,
        user: owners.name(file.common.user),
        group: owners.name(file.common.group),
    }
}
