//! A namespace: which edits it admits, and what they do to it. EDITS.md, "A namespace".

use crate::edit::{Call, Edit, Record};
use crate::tree::{components, is_owner, is_path, Cause, Common, Directory, File, Found, Inode, Owner, Owners};
use std::collections::{HashMap, VecDeque};

/// How many calls of clients are remembered. EDITS.md, "A namespace".
pub const MOST_CALLS: usize = 1024;
/// The greatest permission, 1777 octal.
pub const LARGEST_PERMISSION: u16 = 0o1777;
/// The greatest block size, and the greatest length of a block.
pub const LARGEST_BLOCK: u64 = 1 << 40;
/// The greatest replication.
pub const LARGEST_REPLICATION: u16 = 512;
const MOST_BLOCKS: usize = 65535;
const LONGEST_PATH: usize = 1000;

/// Why an edit isn't applied: its call is that of the edit at a txid, or a cause of the table.
pub enum Refused {
    Repeated(u64),
    For(Cause),
}

impl From<Cause> for Refused {
    fn from(cause: Cause) -> Refused {
        Refused::For(cause)
    }
}

/// Whether an edit is applied, or only judged.
#[derive(Clone, Copy, PartialEq, Eq)]
enum Way {
    Judge,
    Apply,
}

/// A namespace: its tree, and its retry list.
pub struct Space {
    pub root: Directory,
    pub owners: Owners,
    calls: VecDeque<(Call, u64)>,
    txids: HashMap<Call, u64>,
}

impl Space {
    /// The root alone. EDITS.md, "Images", the image of the empty namespace.
    pub fn new() -> Space {
        let mut owners = Owners::default();
        let common = Common { mtime: 0, permission: 0o755, user: owners.number(b"hdfs"), group: owners.number(b"supergroup") };
        Space { root: Directory::new(common), owners, calls: VecDeque::new(), txids: HashMap::new() }
    }

    /// The calls that are remembered, the oldest first, each with its edit's txid.
    pub fn calls(&self) -> impl ExactSizeIterator<Item = &(Call, u64)> {
        self.calls.iter()
    }

    /// The retry list takes a call.
    pub fn note_call(&mut self, call: Call, txid: u64) {
        if self.calls.len() == MOST_CALLS {
            if let Some((oldest, _)) = self.calls.pop_front() {
                self.txids.remove(&oldest);
            }
        }
        self.calls.push_back((call, txid));
        self.txids.insert(call, txid);
    }

    /// Applies the edit at this txid, where the namespace admits it; else nothing changes.
    pub fn apply(&mut self, record: &Record, txid: u64) -> Result<(), Refused> {
        self.judge_call(record)?;
        self.take(&record.edit, Way::Apply)?;
        if let Some(call) = record.call {
            self.note_call(call, txid);
        }
        Ok(())
    }

    /// Whether the namespace admits the edit. Nothing changes.
    pub fn judge(&mut self, record: &Record) -> Result<(), Refused> {
        self.judge_call(record)?;
        Ok(self.take(&record.edit, Way::Judge)?)
    }

    /// Before all else: a call that is in the retry list.
    fn judge_call(&self, record: &Record) -> Result<(), Refused> {
        match record.call.as_ref().and_then(|call| self.txids.get(call)) {
            Some(&earlier) => Err(Refused::Repeated(earlier)),
            None => Ok(()),
        }
    }

    /// A row of the table: each function judges first, and then changes something where it is to.
    fn take(&mut self, edit: &Edit, way: Way) -> Result<(), Cause> {
        judge_names(edit)?;
        judge_numbers(edit)?;
        match *edit {
            Edit::Add { path, .. } | Edit::Mkdir { path, .. } => self.create(path, edit, way),
            Edit::Close { path, mtime, atime, ref lengths } => self.close(path, [mtime, atime], lengths, way),
            Edit::Delete { path, time } => self.delete(path, time, way),
            Edit::RenameOld { source, destination, time } => self.rename_old(source, destination, time, way),
            Edit::Rename { source, destination, time, overwrite } => {
                self.judge_rename(source, destination, overwrite)?;
                self.move_inode(source, destination, time, way)
            }
            Edit::Concat { target, time, ref sources } => {
                self.judge_concat(target, sources)?;
                if way == Way::Judge {
                    Ok(())
                } else {
                    self.concat(target, time, sources)
                }
            }
            Edit::EndSegment | Edit::StartSegment => Ok(()),
            _ => self.set(edit, way),
        }
    }

    // ## The words of the table

    /// *find p*.
    fn find(&mut self, path: &[u8]) -> Result<Found<'_>, Cause> {
        self.root.find(components(path))
    }

    /// *parent p*: the directory that the path stands in, and its last component.
    fn parent<'a>(&mut self, path: &'a [u8]) -> Result<(&mut Directory, &'a [u8]), Cause> {
        let (above, name) = split_path(path).ok_or(Cause::Root)?;
        match self.root.find(components(above)) {
            Ok(Found::Directory(directory)) => Ok((directory, name)),
            Ok(Found::File(_)) | Err(Cause::NotDirectory) => Err(Cause::NotDirectory),
            Err(_) => Err(Cause::NoParent),
        }
    }

    /// Takes a path that is there out of its directory, which is raised.
    fn take_out(&mut self, path: &[u8], time: u64) -> Result<Inode, Cause> {
        let (directory, name) = self.parent(path)?;
        let inode = directory.entries.remove(name).ok_or(Cause::Missing)?;
        directory.raise(time);
        Ok(inode)
    }

    // ## The kinds, a function a row

    fn create(&mut self, path: &[u8], edit: &Edit, way: Way) -> Result<(), Cause> {
        let (time, permission, user, group) = match *edit {
            Edit::Add { mtime, permission, user, group, .. } => (mtime, permission, user, group),
            Edit::Mkdir { time, permission, user, group, .. } => (time, permission, user, group),
            _ => return Ok(()),
        };
        let (user, group) = (self.owners.number(user), self.owners.number(group));
        let common = Common { mtime: time, permission, user, group };
        let (directory, name) = self.parent(path)?;
        if directory.entries.contains_key(name) {
            return Err(Cause::Exists);
        }
        if way == Way::Judge {
            return Ok(());
        }
        let inode = match *edit {
            Edit::Add { replication, atime, block_size, .. } => {
                Inode::File(Box::new(File { common, replication, atime, block_size, is_open: true, blocks: Vec::new() }))
            }
            _ => Inode::Directory(Box::new(Directory::new(common))),
        };
        directory.entries.insert(name.into(), inode);
        directory.raise(time);
        Ok(())
    }

    fn close(&mut self, path: &[u8], [mtime, atime]: [u64; 2], lengths: &[u64], way: Way) -> Result<(), Cause> {
        let file = self.find(path)?.file()?;
        if lengths.iter().any(|length| !(1..=file.block_size).contains(length)) {
            return Err(Cause::BadNumber);
        }
        if way == Way::Apply {
            file.blocks = lengths.to_vec();
            file.common.mtime = mtime;
            file.atime = atime;
            file.is_open = false;
        }
        Ok(())
    }

    fn delete(&mut self, path: &[u8], time: u64, way: Way) -> Result<(), Cause> {
        if path == b"/" {
            return Err(Cause::Root);
        }
        self.find(path)?;
        if way == Way::Apply {
            self.take_out(path, time)?;
        }
        Ok(())
    }

    fn rename_old(&mut self, source: &[u8], destination: &[u8], time: u64, way: Way) -> Result<(), Cause> {
        let (_, name) = split_path(source).ok_or(Cause::Root)?;
        self.find(source)?;
        judge_into_itself(source, destination)?;
        let mut target = destination.to_vec();
        if matches!(self.find(destination), Ok(Found::Directory(_))) {
            if destination != b"/" {
                target.push(b'/');
            }
            target.extend_from_slice(name);
        }
        let (directory, name) = self.parent(&target)?;
        if directory.entries.contains_key(name) {
            return Err(Cause::Exists);
        }
        self.judge_moved(source, &target)?;
        self.move_inode(source, &target, time, way)
    }

    fn judge_rename(&mut self, source: &[u8], destination: &[u8], overwrite: bool) -> Result<(), Cause> {
        if source == b"/" || destination == b"/" {
            return Err(Cause::Root);
        }
        let is_file = matches!(self.find(source)?, Found::File(_));
        judge_into_itself(source, destination)?;
        let (directory, name) = self.parent(destination)?;
        match directory.entries.get(name) {
            None => {}
            Some(_) if !overwrite => return Err(Cause::Exists),
            Some(Inode::File(_)) if !is_file => return Err(Cause::NotDirectory),
            Some(Inode::Directory(_)) if is_file => return Err(Cause::NotFile),
            Some(Inode::Directory(there)) if !there.entries.is_empty() => return Err(Cause::NotEmpty),
            Some(_) => {}
        }
        self.judge_moved(source, destination)
    }

    /// BadName where a moved path would have over 1,000 bytes.
    fn judge_moved(&mut self, source: &[u8], target: &[u8]) -> Result<(), Cause> {
        if target.len() <= source.len() {
            return Ok(());
        }
        let below = match self.find(source)? {
            Found::File(_) => 0,
            Found::Directory(directory) => directory.depth(),
        };
        if target.len() + below > LONGEST_PATH {
            return Err(Cause::BadName);
        }
        Ok(())
    }

    /// What is at the target goes, the source moves there; the target's directory is raised, then the source's.
    fn move_inode(&mut self, source: &[u8], target: &[u8], time: u64, way: Way) -> Result<(), Cause> {
        if way == Way::Apply {
            let inode = self.take_out(source, time)?;
            let (directory, name) = self.parent(target)?;
            directory.entries.insert(name.into(), inode);
            directory.raise(time);
        }
        Ok(())
    }

    /// The kinds that set something of an inode: replication, permission, owner, times, quotas.
    fn set(&mut self, edit: &Edit, way: Way) -> Result<(), Cause> {
        match *edit {
            Edit::SetReplication { path, replication } => {
                let file = self.find(path)?.file()?;
                file.replication = if way == Way::Apply { replication } else { file.replication };
            }
            Edit::SetPermissions { path, permission } => {
                let common = self.find(path)?.common();
                common.permission = if way == Way::Apply { permission } else { common.permission };
            }
            Edit::SetOwner { path, user, group } => self.set_owner(path, user, group, way)?,
            Edit::Times { path, mtime, atime } => match self.find(path)? {
                _ if way == Way::Judge => {}
                Found::Directory(directory) => directory.common.mtime = mtime,
                Found::File(file) => (file.common.mtime, file.atime) = (mtime, atime),
            },
            Edit::SetQuota { path, names, space } => match self.find(path)? {
                Found::File(_) => return Err(Cause::NotDirectory),
                Found::Directory(_) if way == Way::Judge => {}
                Found::Directory(directory) => (directory.names_quota, directory.space_quota) = (names, space),
            },
            _ => {}
        }
        Ok(())
    }

    fn set_owner(&mut self, path: &[u8], user: &[u8], group: &[u8], way: Way) -> Result<(), Cause> {
        let user: Option<Owner> = (!user.is_empty()).then(|| self.owners.number(user));
        let group: Option<Owner> = (!group.is_empty()).then(|| self.owners.number(group));
        let common = self.find(path)?.common();
        if way == Way::Apply {
            common.user = user.unwrap_or(common.user);
            common.group = group.unwrap_or(common.group);
        }
        Ok(())
    }

    fn judge_concat(&mut self, target: &[u8], sources: &[&[u8]]) -> Result<(), Cause> {
        if sources.is_empty() {
            return Err(Cause::BadNumber);
        }
        let mut count = self.closed_file(target)?.blocks.len();
        for (place, source) in sources.iter().enumerate() {
            if *source == target || sources[..place].contains(source) {
                return Err(Cause::IntoItself);
            }
            count += self.closed_file(source)?.blocks.len();
        }
        if count > MOST_BLOCKS {
            return Err(Cause::BadNumber);
        }
        Ok(())
    }

    /// The sources' blocks come after the target's, in order; each source goes, and its parent is raised.
    fn concat(&mut self, target: &[u8], time: u64, sources: &[&[u8]]) -> Result<(), Cause> {
        for source in sources {
            if let Inode::File(file) = self.take_out(source, time)? {
                self.closed_file(target)?.blocks.extend_from_slice(&file.blocks);
            }
        }
        self.closed_file(target)?.common.mtime = time;
        self.parent(target)?.0.raise(time);
        Ok(())
    }

    /// *find p*, then NotFile, then UnderConstruction.
    fn closed_file(&mut self, path: &[u8]) -> Result<&mut File, Cause> {
        let file = self.find(path)?.file()?;
        if file.is_open {
            return Err(Cause::UnderConstruction);
        }
        Ok(file)
    }
}

/// The path above, and the last component; none of `/`.
fn split_path(path: &[u8]) -> Option<(&[u8], &[u8])> {
    let slash = path.iter().rposition(|&byte| byte == b'/')?;
    let name = &path[slash + 1..];
    (!name.is_empty()).then(|| (if slash == 0 { &b"/"[..] } else { &path[..slash] }, name))
}

/// IntoItself where the destination is the source or under it.
fn judge_into_itself(source: &[u8], destination: &[u8]) -> Result<(), Cause> {
    match destination.strip_prefix(source) {
        Some([]) | Some([b'/', ..]) => Err(Cause::IntoItself),
        _ => Ok(()),
    }
}

/// *name*: BadName where a path, a user or a group isn't in its grammar.
fn judge_names(edit: &Edit) -> Result<(), Cause> {
    let is_new_owner = |name: &[u8]| name.is_empty() || is_owner(name);
    let are_good = match edit {
        Edit::Add { path, user, group, .. } | Edit::Mkdir { path, user, group, .. } => is_path(path) && is_owner(user) && is_owner(group),
        Edit::SetOwner { path, user, group } => is_path(path) && is_new_owner(user) && is_new_owner(group),
        Edit::RenameOld { source, destination, .. } | Edit::Rename { source, destination, .. } => is_path(source) && is_path(destination),
        Edit::Concat { target, sources, .. } => is_path(target) && sources.iter().all(|source| is_path(source)),
        Edit::Delete { path, .. }
        | Edit::SetReplication { path, .. }
        | Edit::SetPermissions { path, .. }
        | Edit::Close { path, .. }
        | Edit::Times { path, .. }
        | Edit::SetQuota { path, .. } => is_path(path),
        Edit::EndSegment | Edit::StartSegment => true,
    };
    are_good.then_some(()).ok_or(Cause::BadName)
}

/// *number*: BadNumber where a permission, a replication or a block size isn't in its range.
fn judge_numbers(edit: &Edit) -> Result<(), Cause> {
    let are_good = match *edit {
        Edit::Add { replication, block_size, permission, .. } => {
            permission <= LARGEST_PERMISSION
                && (1..=LARGEST_REPLICATION).contains(&replication)
                && (1..=LARGEST_BLOCK).contains(&block_size)
        }
        Edit::Mkdir { permission, .. } | Edit::SetPermissions { permission, .. } => permission <= LARGEST_PERMISSION,
        Edit::SetReplication { replication, .. } => (1..=LARGEST_REPLICATION).contains(&replication),
        _ => true,
    };
    are_good.then_some(()).ok_or(Cause::BadNumber)
}
