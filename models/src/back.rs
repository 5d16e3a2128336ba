//! From a listing as JSON back to a segment's file. EDITS.md, "From a listing back to a segment's file".

use crate::batch::Batch;
use crate::edit::{is_text, read_client, Call, Edit, Record, LONGEST_NAME, LONGEST_PATH};
use crate::segment::{header, MOST_EDITS};
use crate::value::{self, Value};
use crate::words::{LARGEST, LONGEST_BODY};
use std::collections::BTreeMap;

/// How many entries a frame has, but the last one.
const OF_A_FRAME: usize = 256;

/// Why a text becomes no segment, in the order in which it is judged.
pub enum Refusal {
    /// It isn't JSON, or isn't an array.
    NotJson,
    /// The array has more members than a segment has edits.
    TooLong,
    /// The member at this place, from 0, is the first that isn't the object of an edit at its txid.
    BadEntry(usize),
}

/// The segment's file of the edits in a listing.
pub fn back(text: &[u8], start: u64, epoch: u64) -> Result<Vec<u8>, Refusal> {
    let Some(Value::Array(members)) = value::read(text) else { return Err(Refusal::NotJson) };
    if members.len() as u64 > MOST_EDITS {
        return Err(Refusal::TooLong);
    }
    let mut bytes = header(start, epoch).to_vec();
    let (mut batch, mut body) = (Batch::new(), Vec::new());
    for (number, members) in members.chunks(OF_A_FRAME).enumerate() {
        let before = number * OF_A_FRAME;
        batch.clear();
        for (index, member) in (before..).zip(members) {
            body.clear();
            push_body(&mut body, member, start + index as u64).ok_or(Refusal::BadEntry(index))?;
            batch.push(&body);
        }
        batch.close(start + before as u64);
        // No tail: the blank seal behind the frame is left out.
        let frame = batch.frame();
        bytes.extend_from_slice(&frame[..frame.len() - 1]);
    }
    Ok(bytes)
}

/// Appends the record of the edit at a txid that has this object; none where no edit has it.
fn push_body(body: &mut Vec<u8>, member: &Value, txid: u64) -> Option<()> {
    let Value::Object(members) = member else { return None };
    let mut object = Object { members, read: 0 };
    if txid > LARGEST || object.number("txid", LARGEST)? != txid {
        return None;
    }
    let call = if members.contains_key("callid") { Some(object.call()?) } else { None };
    let record = Record { call, edit: object.edit()? };
    let takes_call = !matches!(record.edit, Edit::StartSegment | Edit::EndSegment);
    // Each key is read once, so where so many were read there are no others.
    if object.read != members.len() || (record.call.is_some() && !takes_call) {
        return None;
    }
    record.push_bytes(body);
    (body.len() <= LONGEST_BODY).then_some(())
}

/// An object of which keys are read. EDITS.md, "Listings of a segment's file", has the keys, "Edit records" the limits of the values.
struct Object<'a> {
    members: &'a BTreeMap<String, Value>,
    /// How many keys were read.
    read: usize,
}

impl<'a> Object<'a> {
    fn get(&mut self, key: &str) -> Option<&'a Value> {
        let value = self.members.get(key)?;
        self.read += 1;
        Some(value)
    }

    fn number(&mut self, key: &str, most: u64) -> Option<u64> {
        number_of(self.get(key)?, most)
    }

    fn long(&mut self, key: &str) -> Option<u64> {
        self.number(key, LARGEST)
    }

    fn short(&mut self, key: &str) -> Option<u16> {
        Some(self.number(key, u64::from(u16::MAX))? as u16)
    }

    fn path(&mut self, key: &str) -> Option<&'a [u8]> {
        text_of(self.get(key)?, LONGEST_PATH)
    }

    fn name(&mut self, key: &str) -> Option<&'a [u8]> {
        text_of(self.get(key)?, LONGEST_NAME)
    }

    fn truth(&mut self, key: &str) -> Option<bool> {
        match self.get(key)? {
            Value::Truth(truth) => Some(*truth),
            _ => None,
        }
    }

    /// The values of an array, each one as this reads it. More of them than a count can tell make a record that is too long.
    fn many<T>(&mut self, key: &str, read: impl Fn(&'a Value) -> Option<T>) -> Option<Vec<T>> {
        match self.get(key)? {
            Value::Array(values) => values.iter().map(read).collect(),
            _ => None,
        }
    }

    fn call(&mut self) -> Option<Call> {
        let number = self.number("callid", u64::from(u32::MAX))? as u32;
        match self.get("clientid")? {
            Value::Text(digits) => Some(Call { client: read_client(digits.as_bytes())?, number }),
            _ => None,
        }
    }

    fn edit(&mut self) -> Option<Edit<'a>> {
        let Value::Text(kind) = self.get("op")? else { return None };
        Some(match kind.strip_prefix("OP_")? {
            "ADD" => Edit::Add {
                path: self.path("path")?,
                replication: self.short("replication")?,
                mtime: self.long("mtime")?,
                atime: self.long("atime")?,
                block_size: self.long("blocksize")?,
                permission: self.short("permission")?,
                user: self.name("user")?,
                group: self.name("group")?,
            },
            "RENAME_OLD" => Edit::RenameOld { source: self.path("src")?, destination: self.path("dst")?, time: self.long("time")? },
            "DELETE" => Edit::Delete { path: self.path("path")?, time: self.long("time")? },
            "MKDIR" => Edit::Mkdir {
                path: self.path("path")?,
                time: self.long("time")?,
                permission: self.short("permission")?,
                user: self.name("user")?,
                group: self.name("group")?,
            },
            "SET_REPLICATION" => Edit::SetReplication { path: self.path("path")?, replication: self.short("replication")? },
            "SET_PERMISSIONS" => Edit::SetPermissions { path: self.path("path")?, permission: self.short("permission")? },
            "SET_OWNER" => Edit::SetOwner { path: self.path("path")?, user: self.name("user")?, group: self.name("group")? },
            "TIMES" => Edit::Times { path: self.path("path")?, mtime: self.long("mtime")?, atime: self.long("atime")? },
            "SET_QUOTA" => Edit::SetQuota { path: self.path("path")?, names: self.long("nsquota")?, space: self.long("dsquota")? },
            "END_LOG_SEGMENT" => Edit::EndSegment,
            "START_LOG_SEGMENT" => Edit::StartSegment,
            kind => return self.longer_edit(kind),
        })
    }

    /// The edits that have a list or a flag.
    fn longer_edit(&mut self, kind: &str) -> Option<Edit<'a>> {
        Some(match kind {
            "CLOSE" => Edit::Close {
                path: self.path("path")?,
                mtime: self.long("mtime")?,
                atime: self.long("atime")?,
                lengths: self.many("lengths", |value| number_of(value, LARGEST))?,
            },
            "RENAME" => Edit::Rename {
                source: self.path("src")?,
                destination: self.path("dst")?,
                time: self.long("time")?,
                overwrite: self.truth("overwrite")?,
            },
            "CONCAT_DELETE" => Edit::Concat {
                target: self.path("target")?,
                time: self.long("time")?,
                sources: self.many("sources", |value| text_of(value, LONGEST_PATH))?,
            },
            _ => return None,
        })
    }
}

/// A number of digits alone, of at most so much.
fn number_of(value: &Value, most: u64) -> Option<u64> {
    match value {
        Value::Number(number) if *number <= most => Some(*number),
        _ => None,
    }
}

/// A text that a record may have, of at most so many bytes.
fn text_of(value: &Value, longest: usize) -> Option<&[u8]> {
    match value {
        Value::Text(text) => Some(text.as_bytes()).filter(|text| is_text(text, longest)),
        _ => None,
    }
}
