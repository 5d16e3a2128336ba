//! Edits: their records as bytes, and their texts. EDITS.md, "Edit records".

use crate::words::{read_number, read_octal, read_small_number, LARGEST};

/// A client's call that asked for an edit.
#[derive(Clone, Copy, PartialEq, Eq, Hash)]
pub struct Call {
    pub client: [u8; 16],
    pub number: u32,
}

/// An edit; its texts are those of the bytes that it was read from. EDITS.md, "Edit records", the table.
pub enum Edit<'a> {
    Add { path: &'a [u8], replication: u16, mtime: u64, atime: u64, block_size: u64, permission: u16, user: &'a [u8], group: &'a [u8] },
    RenameOld { source: &'a [u8], destination: &'a [u8], time: u64 },
    Delete { path: &'a [u8], time: u64 },
    Mkdir { path: &'a [u8], time: u64, permission: u16, user: &'a [u8], group: &'a [u8] },
    SetReplication { path: &'a [u8], replication: u16 },
    SetPermissions { path: &'a [u8], permission: u16 },
    SetOwner { path: &'a [u8], user: &'a [u8], group: &'a [u8] },
    Close { path: &'a [u8], mtime: u64, atime: u64, lengths: Vec<u64> },
    Times { path: &'a [u8], mtime: u64, atime: u64 },
    SetQuota { path: &'a [u8], names: u64, space: u64 },
    Rename { source: &'a [u8], destination: &'a [u8], time: u64, overwrite: bool },
    Concat { target: &'a [u8], time: u64, sources: Vec<&'a [u8]> },
    EndSegment,
    StartSegment,
}

/// The record that ends a segment, and the one that begins it. FORMATS.md, "Requests", at the end.
pub const END_SEGMENT: u8 = 23;
pub const START_SEGMENT: u8 = 24;

/// How much higher the code is where a client's call asked for the edit.
pub const WITH_CALL: u8 = 64;

/// The most bytes of a path, and of a user or a group.
pub const LONGEST_PATH: usize = 1000;
pub const LONGEST_NAME: usize = 32;

impl Edit<'_> {
    /// The kind's code.
    pub fn code(&self) -> u8 {
        match self {
            Edit::Add { .. } => 0,
            Edit::RenameOld { .. } => 1,
            Edit::Delete { .. } => 2,
            Edit::Mkdir { .. } => 3,
            Edit::SetReplication { .. } => 4,
            Edit::SetPermissions { .. } => 7,
            Edit::SetOwner { .. } => 8,
            Edit::Close { .. } => 9,
            Edit::Times { .. } => 13,
            Edit::SetQuota { .. } => 14,
            Edit::Rename { .. } => 15,
            Edit::Concat { .. } => 16,
            Edit::EndSegment => END_SEGMENT,
            Edit::StartSegment => START_SEGMENT,
        }
    }
}

/// The name of the kind with this code, if it is one.
pub fn kind_name(code: u8) -> Option<&'static str> {
    Some(match code {
        0 => "ADD",
        1 => "RENAME_OLD",
        2 => "DELETE",
        3 => "MKDIR",
        4 => "SET_REPLICATION",
        7 => "SET_PERMISSIONS",
        8 => "SET_OWNER",
        9 => "CLOSE",
        13 => "TIMES",
        14 => "SET_QUOTA",
        15 => "RENAME",
        16 => "CONCAT_DELETE",
        END_SEGMENT => "END_LOG_SEGMENT",
        START_SEGMENT => "START_LOG_SEGMENT",
        _ => return None,
    })
}

/// Whether a record may have this text: at most so many bytes, each from 0x21 to 0x7E.
pub fn is_text(text: &[u8], longest: usize) -> bool {
    text.len() <= longest && text.iter().all(|byte| (0x21..=0x7e).contains(byte))
}

/// A client's id, if these are its 32 lower-case hexadecimal digits.
pub fn read_client(digits: &[u8]) -> Option<[u8; 16]> {
    let mut client = Vec::with_capacity(16);
    let is_good = digits.len() == 32 && crate::words::read_hex(digits, &mut client);
    if is_good {
        client.try_into().ok()
    } else {
        None
    }
}

/// An edit with the call that asked for it, where there is one.
pub struct Record<'a> {
    pub call: Option<Call>,
    pub edit: Edit<'a>,
}

impl<'a> Record<'a> {
    // ## As bytes

    /// Appends the record's bytes.
    pub fn push_bytes(&self, bytes: &mut Vec<u8>) {
        let code = self.edit.code();
        match self.call {
            None => bytes.push(code),
            Some(call) => {
                bytes.push(code + WITH_CALL);
                bytes.extend_from_slice(&call.client);
                bytes.extend_from_slice(&call.number.to_be_bytes());
            }
        }
        push_fields(bytes, &self.edit);
    }

    /// Reads a body; else the cause of its first fault: Opcode, Short, Field or Trailing.
    pub fn decode(body: &'a [u8]) -> Result<Record<'a>, &'static str> {
        let (&code, rest) = body.split_first().ok_or("Short")?;
        let with_call = code >= WITH_CALL;
        let kind = if with_call { code - WITH_CALL } else { code };
        if kind_name(kind).is_none() || (with_call && kind >= END_SEGMENT) {
            return Err("Opcode");
        }
        let mut fields = Fields { rest };
        let call = if with_call { Some(fields.call()?) } else { None };
        let edit = fields.edit(kind)?;
        if fields.rest.is_empty() {
            Ok(Record { call, edit })
        } else {
            Err("Trailing")
        }
    }

    // ## As a text

    /// Reads the text of an edit, if it is one.
    pub fn parse(text: &'a [u8]) -> Option<Record<'a>> {
        let mut words = Words { words: text.split(|&byte| byte == b' ') };
        let mut kind = words.next()?;
        let mut call = None;
        if kind == b"call" {
            call = Some(words.call()?);
            kind = words.next()?;
        }
        let edit = words.edit(kind)?;
        words.next().is_none().then_some(Record { call, edit })
    }
}

fn push_text(bytes: &mut Vec<u8>, text: &[u8]) {
    bytes.extend_from_slice(&(text.len() as u16).to_be_bytes());
    bytes.extend_from_slice(text);
}

fn push_short(bytes: &mut Vec<u8>, number: u16) {
    bytes.extend_from_slice(&number.to_be_bytes());
}

fn push_longs(bytes: &mut Vec<u8>, numbers: &[u64]) {
    for number in numbers {
        bytes.extend_from_slice(&number.to_be_bytes());
    }
}

fn push_texts(bytes: &mut Vec<u8>, texts: &[&[u8]]) {
    for text in texts {
        push_text(bytes, text);
    }
}

/// Appends the fields of the kind. EDITS.md, "Edit records", the column of fields.
fn push_fields(bytes: &mut Vec<u8>, edit: &Edit) {
    match edit {
        Edit::Add { path, replication, mtime, atime, block_size, permission, user, group } => {
            push_text(bytes, path);
            push_short(bytes, *replication);
            push_longs(bytes, &[*mtime, *atime, *block_size]);
            push_short(bytes, *permission);
            push_texts(bytes, &[user, group]);
        }
        Edit::Mkdir { path, time, permission, user, group } => {
            push_text(bytes, path);
            push_longs(bytes, &[*time]);
            push_short(bytes, *permission);
            push_texts(bytes, &[user, group]);
        }
        Edit::SetOwner { path, user, group } => push_texts(bytes, &[path, user, group]),
        Edit::Close { path, mtime, atime, lengths } => {
            push_text(bytes, path);
            push_longs(bytes, &[*mtime, *atime]);
            push_short(bytes, lengths.len() as u16);
            push_longs(bytes, lengths);
        }
        Edit::Concat { target, time, sources } => {
            push_text(bytes, target);
            push_longs(bytes, &[*time]);
            push_short(bytes, sources.len() as u16);
            push_texts(bytes, sources);
        }
        _ => push_few_fields(bytes, edit),
    }
}

/// Appends the fields of a kind that has only texts before numbers.
fn push_few_fields(bytes: &mut Vec<u8>, edit: &Edit) {
    match edit {
        Edit::RenameOld { source, destination, time } => {
            push_texts(bytes, &[source, destination]);
            push_longs(bytes, &[*time]);
        }
        Edit::Rename { source, destination, time, overwrite } => {
            push_texts(bytes, &[source, destination]);
            push_longs(bytes, &[*time]);
            bytes.push(u8::from(*overwrite));
        }
        Edit::Delete { path, time } => {
            push_text(bytes, path);
            push_longs(bytes, &[*time]);
        }
        Edit::SetReplication { path, replication: number } | Edit::SetPermissions { path, permission: number } => {
            push_text(bytes, path);
            push_short(bytes, *number);
        }
        Edit::Times { path, mtime: one, atime: other } | Edit::SetQuota { path, names: one, space: other } => {
            push_text(bytes, path);
            push_longs(bytes, &[*one, *other]);
        }
        _ => {}
    }
}

/// The bytes of a record from some field on. EDITS.md, "Edit records": field by field, Short before Field.
struct Fields<'a> {
    rest: &'a [u8],
}

impl<'a> Fields<'a> {
    fn take(&mut self, count: usize) -> Result<&'a [u8], &'static str> {
        let (taken, rest) = self.rest.split_at_checked(count).ok_or("Short")?;
        self.rest = rest;
        Ok(taken)
    }

    fn short(&mut self) -> Result<u16, &'static str> {
        let bytes = self.take(2)?;
        Ok(u16::from_be_bytes([bytes[0], bytes[1]]))
    }

    fn long(&mut self) -> Result<u64, &'static str> {
        let (bytes, rest) = self.rest.split_first_chunk().ok_or("Short")?;
        self.rest = rest;
        Some(u64::from_be_bytes(*bytes)).filter(|&number| number <= LARGEST).ok_or("Field")
    }

    fn text(&mut self, longest: usize) -> Result<&'a [u8], &'static str> {
        let length = usize::from(self.short()?);
        let text = self.take(length)?;
        Some(text).filter(|text| is_text(text, longest)).ok_or("Field")
    }

    fn path(&mut self) -> Result<&'a [u8], &'static str> {
        self.text(LONGEST_PATH)
    }

    fn name(&mut self) -> Result<&'a [u8], &'static str> {
        self.text(LONGEST_NAME)
    }

    fn flag(&mut self) -> Result<bool, &'static str> {
        match self.take(1)? {
            [0] => Ok(false),
            [1] => Ok(true),
            _ => Err("Field"),
        }
    }

    fn call(&mut self) -> Result<Call, &'static str> {
        let mut client = [0; 16];
        client.copy_from_slice(self.take(16)?);
        let number = self.take(4)?;
        Ok(Call { client, number: u32::from_be_bytes([number[0], number[1], number[2], number[3]]) })
    }

    fn many<T>(&mut self, mut field: impl FnMut(&mut Fields<'a>) -> Result<T, &'static str>) -> Result<Vec<T>, &'static str> {
        let count = self.short()?;
        (0..count).map(|_| field(self)).collect()
    }

    fn edit(&mut self, kind: u8) -> Result<Edit<'a>, &'static str> {
        match kind {
            END_SEGMENT => return Ok(Edit::EndSegment),
            START_SEGMENT => return Ok(Edit::StartSegment),
            _ => {}
        }
        let path = self.path()?;
        Ok(match kind {
            0 => Edit::Add {
                path,
                replication: self.short()?,
                mtime: self.long()?,
                atime: self.long()?,
                block_size: self.long()?,
                permission: self.short()?,
                user: self.name()?,
                group: self.name()?,
            },
            1 => Edit::RenameOld { source: path, destination: self.path()?, time: self.long()? },
            2 => Edit::Delete { path, time: self.long()? },
            3 => Edit::Mkdir { path, time: self.long()?, permission: self.short()?, user: self.name()?, group: self.name()? },
            4 => Edit::SetReplication { path, replication: self.short()? },
            7 => Edit::SetPermissions { path, permission: self.short()? },
            8 => Edit::SetOwner { path, user: self.name()?, group: self.name()? },
            9 => Edit::Close { path, mtime: self.long()?, atime: self.long()?, lengths: self.many(Fields::long)? },
            13 => Edit::Times { path, mtime: self.long()?, atime: self.long()? },
            14 => Edit::SetQuota { path, names: self.long()?, space: self.long()? },
            15 => Edit::Rename { source: path, destination: self.path()?, time: self.long()?, overwrite: self.flag()? },
            _ => Edit::Concat { target: path, time: self.long()?, sources: self.many(Fields::path)? },
        })
    }
}

/// The words of an edit's text from some word on. EDITS.md, "Edit records", the column of texts.
struct Words<'a, I: Iterator<Item = &'a [u8]>> {
    words: I,
}

impl<'a, I: Iterator<Item = &'a [u8]>> Words<'a, I> {
    fn next(&mut self) -> Option<&'a [u8]> {
        self.words.next()
    }

    fn text(&mut self, longest: usize) -> Option<&'a [u8]> {
        self.next().filter(|word| !word.is_empty() && is_text(word, longest))
    }

    fn path(&mut self) -> Option<&'a [u8]> {
        self.text(LONGEST_PATH)
    }

    fn name(&mut self) -> Option<&'a [u8]> {
        self.text(LONGEST_NAME)
    }

    /// A user or a group of `setowner`: `-` is an empty one.
    fn new_name(&mut self) -> Option<&'a [u8]> {
        self.name().map(|word| if word == b"-" { b"" } else { word })
    }

    fn long(&mut self) -> Option<u64> {
        read_small_number(self.next()?)
    }

    fn short(&mut self) -> Option<u16> {
        u16::try_from(read_number(self.next()?)?).ok()
    }

    fn permission(&mut self) -> Option<u16> {
        read_octal(self.next()?)
    }

    fn call(&mut self) -> Option<Call> {
        let client = read_client(self.next()?)?;
        let number = u32::try_from(read_number(self.next()?)?).ok()?;
        Some(Call { client, number })
    }

    fn flag(&mut self) -> Option<bool> {
        match self.next()? {
            b"yes" => Some(true),
            b"no" => Some(false),
            _ => None,
        }
    }

    /// The rest of the words, each one a field.
    fn rest<T>(&mut self, field: impl Fn(&'a [u8]) -> Option<T>) -> Option<Vec<T>> {
        self.words.by_ref().map(field).collect()
    }

    fn edit(&mut self, kind: &[u8]) -> Option<Edit<'a>> {
        let path = self.path()?;
        Some(match kind {
            b"add" => Edit::Add {
                path,
                replication: self.short()?,
                mtime: self.long()?,
                atime: self.long()?,
                block_size: self.long()?,
                permission: self.permission()?,
                user: self.name()?,
                group: self.name()?,
            },
            b"mv" => Edit::RenameOld { source: path, destination: self.path()?, time: self.long()? },
            b"delete" => Edit::Delete { path, time: self.long()? },
            b"mkdir" => Edit::Mkdir { path, time: self.long()?, permission: self.permission()?, user: self.name()?, group: self.name()? },
            b"setrep" => Edit::SetReplication { path, replication: self.short()? },
            b"chmod" => Edit::SetPermissions { path, permission: self.permission()? },
            b"setowner" => Edit::SetOwner { path, user: self.new_name()?, group: self.new_name()? },
            b"close" => Edit::Close { path, mtime: self.long()?, atime: self.long()?, lengths: self.rest(read_small_number)? },
            b"times" => Edit::Times { path, mtime: self.long()?, atime: self.long()? },
            b"quota" => Edit::SetQuota { path, names: self.long()?, space: self.long()? },
            b"rename" => Edit::Rename { source: path, destination: self.path()?, time: self.long()?, overwrite: self.flag()? },
            b"concat" => {
                let time = self.long()?;
                let source = |word: &'a [u8]| Words { words: std::iter::once(word) }.path();
                Edit::Concat { target: path, time, sources: self.rest(source)? }
            }
            _ => return None,
        })
    }
}
