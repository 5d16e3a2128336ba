//! The row of an inode in `oiv delimited` and in reports. EDITS.md, "Listings of an image".

use crate::words::{push_number, read_number};

/// The most blocks that a row which is read tells. FORMATS.md, "Reading a report".
const MOST_BLOCKS: u64 = 16384;

/// The columns of an inode.
pub struct Columns<'a> {
    pub path: &'a [u8],
    pub is_directory: bool,
    /// Replication, mtime, atime, block size, how many blocks, bytes.
    pub numbers: [u64; 6],
    /// Quotas of names and of space; 0 is none.
    pub quotas: [u64; 2],
    pub permission: u16,
    pub user: &'a [u8],
    pub group: &'a [u8],
}

/// Appends the columns between tabs, without a line feed.
pub fn push_row(text: &mut Vec<u8>, row: &Columns) {
    text.extend_from_slice(row.path);
    for number in row.numbers {
        text.push(b'\t');
        push_number(text, number);
    }
    for quota in row.quotas {
        text.push(b'\t');
        push_quota(text, row.is_directory, quota);
    }
    text.push(b'\t');
    push_permission(text, row.is_directory, row.permission);
    for name in [row.user, row.group] {
        text.push(b'\t');
        text.extend_from_slice(name);
    }
}

/// The row that a text tells, as a report spells it; none where it hasn't 12 columns, each of its
/// kind. FORMATS.md, "Reading a report".
pub fn respell(text: &[u8]) -> Option<Vec<u8>> {
    let columns: Vec<&[u8]> = text.split(|&byte| byte == b'\t').collect();
    let [path, replication, mtime, atime, block_size, blocks, size, names, space, letters, user, group] = columns[..] else { return None };
    let replication = read_number(replication).filter(|&number| number <= u64::from(u16::MAX))?;
    let (mtime, atime, block_size) = (read_number(mtime)?, read_number(atime)?, read_number(block_size)?);
    let blocks = read_number(blocks).filter(|&count| count <= MOST_BLOCKS)?;
    let size = read_size(size)?.min(u128::from(blocks) * u128::from(u64::MAX));
    let quotas = [read_quota(names)?, read_quota(space)?];
    let is_directory = letters.first() == Some(&b'd');
    let numbers = if is_directory { [0, mtime, 0, 0, 0] } else { [replication, mtime, atime, block_size, blocks] };
    let mut row = path.to_vec();
    for number in numbers.map(u128::from).into_iter().chain([if is_directory { 0 } else { size }]) {
        row.extend_from_slice(format!("\t{number}").as_bytes());
    }
    for quota in quotas {
        row.push(b'\t');
        push_quota(&mut row, is_directory, if is_directory { quota } else { 0 });
    }
    row.push(b'\t');
    push_permission(&mut row, is_directory, permission_of(letters));
    for name in [user, group] {
        row.push(b'\t');
        row.extend_from_slice(name);
    }
    Some(row)
}

/// Digits of a size, which has up to 128 bits.
fn read_size(digits: &[u8]) -> Option<u128> {
    digits.iter().try_fold(0_u128, |size, digit| {
        let has_room = digit.is_ascii_digit() && size < 1 << 96;
        has_room.then(|| size * 10 + u128::from(digit - b'0'))
    })
}

fn read_quota(word: &[u8]) -> Option<u64> {
    if word == b"-1" {
        Some(0)
    } else {
        read_number(word)
    }
}

/// A permission by its letters, of which the first tells none.
fn permission_of(letters: &[u8]) -> u16 {
    let bits = letters.iter().skip(1).fold(0, |bits, letter| bits % 256 * 2 + u16::from(!matches!(letter, b'-' | b'T')));
    match letters.last() {
        Some(b't' | b'T') => bits % 512 | 0o1000,
        _ => bits,
    }
}

/// A directory has -1 for no quota; a file has 0.
pub fn push_quota(text: &mut Vec<u8>, is_directory: bool, quota: u64) {
    if is_directory && quota == 0 {
        text.extend_from_slice(b"-1");
    } else {
        push_number(text, quota);
    }
}

/// The ten letters of a permission. With the sticky bit the last one is `t` for `x` and `T` for
/// `-`.
pub fn push_permission(text: &mut Vec<u8>, is_directory: bool, permission: u16) {
    text.push(if is_directory { b'd' } else { b'-' });
    for bit in (0..9).rev() {
        let is_set = permission & (1 << bit) != 0;
        text.push(if is_set { b"xwr"[bit % 3] } else { b'-' });
    }
    if permission & 0o1000 != 0 {
        let last = text.len() - 1;
        text[last] = if text[last] == b'x' { b't' } else { b'T' };
    }
}
