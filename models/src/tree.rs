//! A namespace as a tree of directories, each an ordered map of its entries. MODEL.md, "A namespace and its replay"; EDITS.md,
//! "A namespace".

use std::collections::{BTreeMap, HashMap};

/// What a namespace refuses an edit for. EDITS.md, "A namespace".
#[derive(Clone, Copy, Debug, PartialEq, Eq)]
pub enum Cause {
    NoParent = 1,
    Exists,
    Missing,
    NotDirectory,
    NotFile,
    NotEmpty,
    UnderConstruction,
    Root,
    IntoItself,
    BadName,
    BadNumber,
}

/// A user or a group, by its number among all that were named.
pub type Owner = u32;

/// Each user and group once.
#[derive(Default)]
pub struct Owners {
    names: Vec<Box<[u8]>>,
    numbers: HashMap<Box<[u8]>, Owner>,
}

impl Owners {
    /// The number of a name. The first ones are looked through, since most names are among them.
    pub fn number(&mut self, name: &[u8]) -> Owner {
        if let Some(place) = self.names.iter().take(8).position(|known| **known == *name) {
            return place as Owner;
        }
        if let Some(&number) = self.numbers.get(name) {
            return number;
        }
        let number = self.names.len() as Owner;
        self.names.push(name.into());
        self.numbers.insert(name.into(), number);
        number
    }

    /// The name with this number.
    pub fn name(&self, number: Owner) -> &[u8] {
        &self.names[number as usize]
    }
}

/// What a directory and a file both have.
#[derive(Clone, Copy)]
pub struct Common {
    pub mtime: u64,
    pub permission: u16,
    pub user: Owner,
    pub group: Owner,
}

/// A file.
pub struct File {
    pub common: Common,
    pub replication: u16,
    pub atime: u64,
    pub block_size: u64,
    pub is_open: bool,
    pub blocks: Vec<u64>,
}

/// A directory, with its entries in the order of their names' bytes.
pub struct Directory {
    pub common: Common,
    pub names_quota: u64,
    pub space_quota: u64,
    pub entries: BTreeMap<Box<[u8]>, Inode>,
}

/// An entry of a directory.
pub enum Inode {
    File(Box<File>),
    Directory(Box<Directory>),
}

impl Directory {
    /// An empty directory without quotas.
    pub fn new(common: Common) -> Directory {
        Directory { common, names_quota: 0, space_quota: 0, entries: BTreeMap::new() }
    }

    /// The mtime is raised to the time, where that is greater.
    pub fn raise(&mut self, time: u64) {
        self.common.mtime = self.common.mtime.max(time);
    }

    /// The inode below this one that the components lead to. EDITS.md, "A namespace": *find p*.
    pub fn find<'a>(&mut self, mut components: impl Iterator<Item = &'a [u8]>) -> Result<Found<'_>, Cause> {
        let Some(first) = components.next() else { return Ok(Found::Directory(self)) };
        let mut directory = self;
        let mut name = first;
        loop {
            let inode = directory.entries.get_mut(name).ok_or(Cause::Missing)?;
            let next = components.next();
            match (inode, next) {
                (Inode::File(file), None) => return Ok(Found::File(file)),
                (Inode::File(_), Some(_)) => return Err(Cause::NotDirectory),
                (Inode::Directory(below), None) => return Ok(Found::Directory(below)),
                (Inode::Directory(below), Some(next)) => (directory, name) = (below, next),
            }
        }
    }

    /// The longest path below this directory, its own not counted.
    pub fn depth(&self) -> usize {
        let below = |(name, inode): (&Box<[u8]>, &Inode)| match inode {
            Inode::File(_) => 1 + name.len(),
            Inode::Directory(directory) => 1 + name.len() + directory.depth(),
        };
        self.entries.iter().map(below).max().unwrap_or(0)
    }
}

/// An inode that was found.
pub enum Found<'a> {
    File(&'a mut File),
    Directory(&'a mut Directory),
}

impl<'a> Found<'a> {
    /// What a directory and a file both have.
    pub fn common(self) -> &'a mut Common {
        match self {
            Found::File(file) => &mut file.common,
            Found::Directory(directory) => &mut directory.common,
        }
    }

    /// The file; NotFile for a directory.
    pub fn file(self) -> Result<&'a mut File, Cause> {
        match self {
            Found::File(file) => Ok(file),
            Found::Directory(_) => Err(Cause::NotFile),
        }
    }
}

/// The components of a path that is in its grammar.
pub fn components(path: &[u8]) -> impl Iterator<Item = &[u8]> {
    path[1..].split(|&byte| byte == b'/').filter(|component| !component.is_empty())
}

/// Whether a path is in its grammar. EDITS.md, "A namespace".
pub fn is_path(path: &[u8]) -> bool {
    let is_component = |component: &[u8]| {
        (1..=255).contains(&component.len())
            && component.iter().all(|byte| (0x21..=0x7e).contains(byte) && *byte != b';')
            && component != b"."
            && component != b".."
    };
    path == b"/" || (path.first() == Some(&b'/') && path[1..].split(|&byte| byte == b'/').all(is_component))
}

/// Whether a user or a group is in its grammar. EDITS.md, "A namespace".
pub fn is_owner(name: &[u8]) -> bool {
    let begins = |byte: &u8| byte.is_ascii_alphabetic() || *byte == b'_';
    let goes_on = |byte: &u8| byte.is_ascii_alphanumeric() || b"_.-".contains(byte);
    name.first().is_some_and(begins) && name.iter().all(goes_on)
}
