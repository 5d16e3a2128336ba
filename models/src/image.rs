//! The bytes of an image: a namespace at a txid. EDITS.md, "Images".

use crate::edit::Call;
use crate::segment::Damage;
use crate::space::{Space, LARGEST_BLOCK, LARGEST_PERMISSION, LARGEST_REPLICATION, MOST_CALLS};
use crate::tree::{components, is_owner, is_path, Common, Directory, File, Inode, Owners};
use crate::words::LARGEST;
use std::collections::HashSet;

const MAGIC: [u8; 4] = [0x51, 0x4a, 0x49, 0x4d];
const LONGEST_PATH: usize = 1000;
const LONGEST_NAME: usize = 32;

/// What only a directory or only a file has.
pub enum Rest<'a> {
    Directory {
        names_quota: u64,
        space_quota: u64,
    },
    /// The lengths of the blocks are eight bytes each.
    File {
        replication: u16,
        atime: u64,
        block_size: u64,
        is_open: bool,
        blocks: &'a [u8],
    },
}

/// An inode of an image, as slices of its bytes.
pub struct Row<'a> {
    pub path: &'a [u8],
    pub mtime: u64,
    pub permission: u16,
    pub user: &'a [u8],
    pub group: &'a [u8],
    pub rest: Rest<'a>,
}

/// The lengths that the bytes of blocks tell.
pub fn block_lengths(blocks: &[u8]) -> impl Iterator<Item = u64> + '_ {
    blocks.chunks_exact(8).map(|bytes| bytes.iter().fold(0, |number, &byte| (number << 8) | u64::from(byte)))
}

// ## Writing

/// Appends a namespace at a txid, in layout 2.
pub fn write(space: &Space, txid: u64) -> Vec<u8> {
    let mut bytes = MAGIC.to_vec();
    bytes.extend_from_slice(&2_u32.to_be_bytes());
    bytes.extend_from_slice(&txid.to_be_bytes());
    bytes.extend_from_slice(&[0; 4]);
    let mut writer = Writer { bytes, owners: &space.owners, path: Vec::new(), count: 0 };
    writer.push_directory(&space.root);
    let Writer { mut bytes, count, .. } = writer;
    bytes[16..20].copy_from_slice(&count.to_be_bytes());
    bytes.extend_from_slice(&(space.calls().len() as u32).to_be_bytes());
    for (call, txid) in space.calls() {
        bytes.extend_from_slice(&call.client);
        bytes.extend_from_slice(&call.number.to_be_bytes());
        bytes.extend_from_slice(&txid.to_be_bytes());
    }
    bytes
}

/// A walk that writes inodes, a directory right before what is under it.
struct Writer<'a> {
    bytes: Vec<u8>,
    owners: &'a Owners,
    path: Vec<u8>,
    count: u32,
}

impl Writer<'_> {
    fn push_text(&mut self, text: &[u8]) {
        self.bytes.extend_from_slice(&(text.len() as u16).to_be_bytes());
        self.bytes.extend_from_slice(text);
    }

    fn push_common(&mut self, kind: u8, common: &Common) {
        let path = std::mem::take(&mut self.path);
        self.push_text(if path.is_empty() { b"/" } else { &path });
        self.path = path;
        self.bytes.push(kind);
        self.bytes.extend_from_slice(&common.mtime.to_be_bytes());
        self.bytes.extend_from_slice(&common.permission.to_be_bytes());
        let owners = self.owners;
        self.push_text(owners.name(common.user));
        self.push_text(owners.name(common.group));
        self.count += 1;
    }

    fn push_directory(&mut self, directory: &Directory) {
        self.push_common(0, &directory.common);
        self.bytes.extend_from_slice(&directory.names_quota.to_be_bytes());
        self.bytes.extend_from_slice(&directory.space_quota.to_be_bytes());
        for (name, inode) in &directory.entries {
            let length = self.path.len();
            self.path.push(b'/');
            self.path.extend_from_slice(name);
            match inode {
                Inode::File(file) => self.push_file(file),
                Inode::Directory(directory) => self.push_directory(directory),
            }
            self.path.truncate(length);
        }
    }

    fn push_file(&mut self, file: &File) {
        self.push_common(1, &file.common);
        self.bytes.extend_from_slice(&file.replication.to_be_bytes());
        self.bytes.extend_from_slice(&file.atime.to_be_bytes());
        self.bytes.extend_from_slice(&file.block_size.to_be_bytes());
        self.bytes.push(u8::from(file.is_open));
        self.bytes.extend_from_slice(&(file.blocks.len() as u16).to_be_bytes());
        for length in &file.blocks {
            self.bytes.extend_from_slice(&length.to_be_bytes());
        }
    }
}

// ## Reading

/// The bytes of an image, read field by field from the left.
struct Reader<'a> {
    bytes: &'a [u8],
    place: usize,
}

impl<'a> Reader<'a> {
    fn fault<T>(&self, place: usize, cause: &'static str) -> Result<T, Damage> {
        let _ = self;
        Err(Damage { place, cause })
    }

    /// Where the bytes end inside a field: Short, at the field's first byte.
    fn take(&mut self, count: usize) -> Result<&'a [u8], Damage> {
        match self.bytes[self.place..].get(..count) {
            Some(taken) => {
                self.place += count;
                Ok(taken)
            }
            None => self.fault(self.place, "Short"),
        }
    }

    /// A number of so many bytes that is from the least to the most; else Field.
    fn number(&mut self, count: usize, least: u64, most: u64) -> Result<u64, Damage> {
        let place = self.place;
        let number = self.take(count)?.iter().fold(0, |number, &byte| (number << 8) | u64::from(byte));
        if (least..=most).contains(&number) {
            Ok(number)
        } else {
            self.fault(place, "Field")
        }
    }

    fn long(&mut self) -> Result<u64, Damage> {
        self.number(8, 0, LARGEST)
    }

    /// A text is one field with its length.
    fn text(&mut self, longest: usize, is_good: impl Fn(&[u8]) -> bool) -> Result<&'a [u8], Damage> {
        let place = self.place;
        let rest = &self.bytes[place..];
        let length = match rest.first_chunk::<2>() {
            Some(length) => usize::from(u16::from_be_bytes(*length)),
            None => return self.fault(place, "Short"),
        };
        let Some(text) = rest.get(2..2 + length) else { return self.fault(place, "Short") };
        self.place += 2 + length;
        if length <= longest && is_good(text) {
            Ok(text)
        } else {
            self.fault(place, "Field")
        }
    }

    /// The path of an inode: Field, then Order, then NoParent.
    fn path(&mut self, above: &mut Above<'a>) -> Result<&'a [u8], Damage> {
        let place = self.place;
        let path = self.text(LONGEST_PATH, is_path)?;
        if !above.is_after(path) {
            return self.fault(place, "Order");
        }
        if !above.has_parent(path) {
            return self.fault(place, "NoParent");
        }
        Ok(path)
    }

    /// One inode, which stands behind the ones before it.
    fn row(&mut self, above: &mut Above<'a>) -> Result<Row<'a>, Damage> {
        let path = self.path(above)?;
        let kind = self.number(1, 0, u64::from(path != b"/"))?;
        let mtime = self.long()?;
        let permission = self.number(2, 0, u64::from(LARGEST_PERMISSION))? as u16;
        let user = self.text(LONGEST_NAME, is_owner)?;
        let group = self.text(LONGEST_NAME, is_owner)?;
        let rest = if kind == 0 { Rest::Directory { names_quota: self.long()?, space_quota: self.long()? } } else { self.file()? };
        above.note(path, kind == 0);
        Ok(Row { path, mtime, permission, user, group, rest })
    }

    fn file(&mut self) -> Result<Rest<'a>, Damage> {
        let replication = self.number(2, 1, u64::from(LARGEST_REPLICATION))? as u16;
        let atime = self.long()?;
        let block_size = self.number(8, 1, LARGEST_BLOCK)?;
        let is_open = self.number(1, 0, 1)? == 1;
        let count = self.number(2, 0, u64::MAX)? as usize;
        let begin = self.place;
        for _ in 0..count {
            self.number(8, 1, LARGEST_BLOCK)?;
        }
        Ok(Rest::File { replication, atime, block_size, is_open, blocks: &self.bytes[begin..self.place] })
    }

    /// The calls that the namespace remembers, the oldest first.
    fn calls(&mut self, txid: u64) -> Result<Vec<(Call, u64)>, Damage> {
        let count = self.number(4, 0, MOST_CALLS as u64)?;
        let mut calls = Vec::with_capacity(count as usize);
        let mut seen = HashSet::new();
        let mut before = 0;
        for _ in 0..count {
            let place = self.place;
            let mut client = [0; 16];
            client.copy_from_slice(self.take(16)?);
            let call = Call { client, number: self.number(4, 0, u64::MAX)? as u32 };
            if !seen.insert(call) {
                return self.fault(place, "Field");
            }
            before = self.number(8, before + 1, txid)?;
            calls.push((call, before));
        }
        Ok(calls)
    }
}

/// The directories that the last inode stands in, itself too where it is one, and its path.
struct Above<'a> {
    last: Option<&'a [u8]>,
    directories: Vec<&'a [u8]>,
}

impl<'a> Above<'a> {
    /// Whether the path stands after the one before it in the order of a walk; the first is the root's.
    fn is_after(&self, path: &[u8]) -> bool {
        match self.last {
            None => path == b"/",
            Some(last) => walk_order(last, path),
        }
    }

    /// Whether a directory before the path is the one that it stands in.
    fn has_parent(&mut self, path: &[u8]) -> bool {
        if self.last.is_none() {
            return true;
        }
        let slash = path.iter().rposition(|&byte| byte == b'/').unwrap_or(0);
        let parent = &path[..slash.max(1)];
        while self.directories.last().is_some_and(|directory| *directory != parent && directory.len() >= parent.len()) {
            self.directories.pop();
        }
        self.directories.last() == Some(&parent)
    }

    fn note(&mut self, path: &'a [u8], is_directory: bool) {
        self.last = Some(path);
        if is_directory {
            self.directories.push(path);
        }
    }
}

/// Whether one path stands before another by their lists of components: `/` is below each other byte.
fn walk_order(one: &[u8], other: &[u8]) -> bool {
    let differ = one.iter().zip(other).position(|(one, other)| one != other);
    match differ {
        None => one.len() < other.len(),
        Some(place) => one[place] == b'/' || (other[place] != b'/' && one[place] < other[place]),
    }
}

/// What an image tells beside its inodes.
pub struct Tail {
    pub txid: u64,
    pub calls: Vec<(Call, u64)>,
}

/// Reads an image, and hands each of its inodes over; else its first fault from the left.
pub fn read<'a>(bytes: &'a [u8], mut take: impl FnMut(Row<'a>)) -> Result<Tail, Damage> {
    let mut reader = Reader { bytes, place: 0 };
    if reader.take(4)? != MAGIC {
        return reader.fault(0, "Magic");
    }
    let layout = reader.number(4, 0, u64::MAX)?;
    if layout != 1 && layout != 2 {
        return reader.fault(4, "Layout");
    }
    let txid = reader.long()?;
    let count = reader.number(4, 1, u64::MAX)?;
    let mut above = Above { last: None, directories: Vec::new() };
    for _ in 0..count {
        take(reader.row(&mut above)?);
    }
    let calls = if layout == 2 { reader.calls(txid)? } else { Vec::new() };
    if reader.place < bytes.len() {
        return reader.fault(reader.place, "Trailing");
    }
    Ok(Tail { txid, calls })
}

/// The namespace that an image tells, and its txid.
pub fn load(bytes: &[u8]) -> Result<(Space, u64), Damage> {
    let mut space = Space::new();
    let tail = read(bytes, |row| put(&mut space, &row))?;
    for (call, txid) in tail.calls {
        space.note_call(call, txid);
    }
    Ok((space, tail.txid))
}

/// Puts an inode into the tree; its directory is there.
fn put(space: &mut Space, row: &Row) {
    let (user, group) = (space.owners.number(row.user), space.owners.number(row.group));
    let common = Common { mtime: row.mtime, permission: row.permission, user, group };
    let inode = match row.rest {
        Rest::Directory { names_quota, space_quota } => {
            Inode::Directory(Box::new(Directory { names_quota, space_quota, ..Directory::new(common) }))
        }
        Rest::File { replication, atime, block_size, is_open, blocks } => {
            let blocks = block_lengths(blocks).collect();
            Inode::File(Box::new(File { common, replication, atime, block_size, is_open, blocks }))
        }
    };
    let slash = row.path.iter().rposition(|&byte| byte == b'/').unwrap_or(0);
    let name = &row.path[slash + 1..];
    match (name, inode) {
        (b"", Inode::Directory(root)) => space.root = *root,
        (name, inode) => {
            if let Ok(crate::tree::Found::Directory(directory)) = space.root.find(components(&row.path[..slash.max(1)])) {
                directory.entries.insert(name.into(), inode);
            }
        }
    }
}
