//! The listings of an image. EDITS.md, "Listings of an image".

use crate::image::{self, block_lengths, Rest, Row};
use crate::json::Object;
use crate::rows::{push_permission, push_quota, push_row, Columns};
use crate::segment::Damage;

const COLUMN_NAMES: &[u8] = b"Path\tReplication\tModificationTime\tAccessTime\tPreferredBlockSize\tBlocksCount\tFileSize\t\
    NSQUOTA\tDSQUOTA\tPermission\tUserName\tGroupName\n";

/// The sizes up to which files are counted together.
const SIZES: [u64; 5] = [0, 1 << 10, 1 << 20, 1 << 30, 1 << 40];

/// The columns of an inode. A directory has 0 where only a file has a number.
fn columns<'a>(row: &Row<'a>) -> Columns<'a> {
    let (is_directory, numbers, quotas) = match row.rest {
        Rest::Directory { names_quota, space_quota } => (true, [0, row.mtime, 0, 0, 0, 0], [names_quota, space_quota]),
        Rest::File { replication, atime, block_size, blocks, .. } => {
            let count = blocks.len() as u64 / 8;
            let bytes = block_lengths(blocks).sum();
            (false, [u64::from(replication), row.mtime, atime, block_size, count, bytes], [0, 0])
        }
    };
    Columns { path: row.path, is_directory, numbers, quotas, permission: row.permission, user: row.user, group: row.group }
}

/// `oiv delimited`: the columns' names, then a line for each inode.
pub fn delimited(bytes: &[u8]) -> Result<Vec<u8>, Damage> {
    let mut text = COLUMN_NAMES.to_vec();
    image::read(bytes, |row| {
        push_row(&mut text, &columns(&row));
        text.push(b'\n');
    })?;
    Ok(text)
}

/// `oiv sizes`: how many files there are of each size, and the sums.
pub fn sizes(bytes: &[u8]) -> Result<Vec<u8>, Damage> {
    let mut counts = [0_u64; SIZES.len() + 1];
    let [mut files, mut directories, mut blocks, mut total] = [0_u64; 4];
    image::read(bytes, |row| {
        let columns = columns(&row);
        if columns.is_directory {
            directories += 1;
            return;
        }
        let [_, _, _, _, count, size] = columns.numbers;
        files += 1;
        blocks += count;
        total += size;
        counts[SIZES.iter().position(|&most| size <= most).unwrap_or(SIZES.len())] += 1;
    })?;
    let mut text = String::new();
    for (size, count) in SIZES.iter().zip(counts) {
        text.push_str(&format!("{size} {count}\n"));
    }
    text.push_str(&format!("more {}\n", counts[SIZES.len()]));
    text.push_str(&format!("files {files}\ndirectories {directories}\nblocks {blocks}\nbytes {total}\n"));
    Ok(text.into_bytes())
}

/// `oiv json`: one array of objects.
pub fn json(bytes: &[u8]) -> Result<Vec<u8>, Damage> {
    let mut text = b"[".to_vec();
    image::read(bytes, |row| {
        if text.len() > 1 {
            text.push(b',');
        }
        push_object(&mut text, &columns(&row));
    })?;
    text.extend_from_slice(b"]\n");
    Ok(text)
}

/// `oiv ls`: the entries of a directory, or a file.
pub fn ls(bytes: &[u8], path: &[u8]) -> Result<Vec<u8>, Damage> {
    let mut entries = Vec::new();
    let mut own = None;
    image::read(bytes, |row| {
        let columns = columns(&row);
        if row.path == path {
            own = Some((columns.is_directory, line(&columns)));
        } else if parent(row.path) == path {
            entries.push(line(&columns));
        }
    })?;
    let count = entries.len();
    match own {
        None => Err(Damage { place: 0, cause: "NoPath" }),
        Some((false, line)) => Ok(line),
        Some((true, _)) if count == 0 => Ok(Vec::new()),
        Some((true, _)) => Ok([format!("Found {count} items\n").into_bytes(), entries.concat()].concat()),
    }
}

/// The directory that a path other than the root's stands in.
fn parent(path: &[u8]) -> &[u8] {
    match path.iter().rposition(|&byte| byte == b'/') {
        None | Some(0) => b"/",
        Some(end) => &path[..end],
    }
}

/// The line of an entry.
fn line(row: &Columns) -> Vec<u8> {
    let [replication, mtime, _, _, _, bytes] = row.numbers;
    let copies = if row.is_directory { "-".to_string() } else { replication.to_string() };
    let mut text = Vec::new();
    push_permission(&mut text, row.is_directory, row.permission);
    for column in [copies.as_bytes(), row.user, row.group, bytes.to_string().as_bytes(), mtime.to_string().as_bytes(), row.path] {
        text.push(b' ');
        text.extend_from_slice(column);
    }
    text.push(b'\n');
    text
}

/// An inode's object; the keys stand in the order of their bytes.
fn push_object(text: &mut Vec<u8>, row: &Columns) {
    let [replication, mtime, atime, block_size, blocks, bytes] = row.numbers;
    let is_directory = row.is_directory;
    let mut object = Object::begin(text);
    object.number("AccessTime", atime);
    object.number("BlocksCount", blocks);
    object.value("DSQUOTA", |text| push_quota(text, is_directory, row.quotas[1]));
    object.number("FileSize", bytes);
    object.text("GroupName", row.group);
    object.number("ModificationTime", mtime);
    object.value("NSQUOTA", |text| push_quota(text, is_directory, row.quotas[0]));
    object.text("Path", row.path);
    object.value("Permission", |text| {
        text.push(b'"');
        push_permission(text, is_directory, row.permission);
        text.push(b'"');
    });
    object.number("PreferredBlockSize", block_size);
    object.number("Replication", replication);
    object.text("UserName", row.user);
    object.end();
}
